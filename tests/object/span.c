#include "span.h"

#include <stdlib.h>
#include <string.h>

#define WORDS (RUNS / 8)

static bool bit_of(const series *v, unsigned bit)
{
    return v->word[bit / 64] >> bit % 64 & 1;
}

static void add(series *to, const series *v)
{
    for (int i = 0; i < WORDS; i++)
        to->word[i] ^= v->word[i];
}

static void add_names(name_set *to, const name_set *from)
{
    for (int i = 0; i < MAX_NAMES / 64; i++)
        to->bits[i] ^= from->bits[i];
}

static bool is_zero(const series *v)
{
    uint64_t any = 0;
    for (int i = 0; i < WORDS; i++)
        any |= v->word[i];
    return any == 0;
}

static bool odd_in_common(const series *a, const series *b)
{
    uint64_t sum = 0;
    for (int i = 0; i < WORDS; i++)
        sum ^= a->word[i] & b->word[i];
    return __builtin_parityll(sum);
}

static series reduced(const span *s, series v, name_set *names)
{
    for (size_t k = 0; k < s->rank; k++)
        if (bit_of(&v, s->pivot[k])) {
            add(&v, &s->row[k]);
            add_names(names, &s->names[k]);
        }
    return v;
}

bool span_add(span *s, const series *v, size_t name)
{
    name_set names = {{0}};
    names.bits[name / 64] = (uint64_t)1 << name % 64;
    series rest = reduced(s, *v, &names);
    if (is_zero(&rest))
        return false;
    unsigned pivot = 0;
    while (!bit_of(&rest, pivot))
        pivot++;
    for (size_t k = 0; k < s->rank; k++)
        if (bit_of(&s->row[k], pivot)) {
            add(&s->row[k], &rest);
            add_names(&s->names[k], &names);
        }
    s->row[s->rank] = rest;
    s->names[s->rank] = names;
    s->pivot[s->rank++] = pivot;
    return true;
}

void span_close(span *s)
{
    for (int t = 0; t < TESTS; t++) {
        series *v = &s->test[t];
        for (int i = 0; i < RUNS; i++)
            v->run[i] = (uint8_t)(rand() >> 8);
        for (size_t k = 0; k < s->rank; k++)
            if (odd_in_common(v, &s->row[k]))
                v->word[s->pivot[k] / 64] ^= (uint64_t)1 << s->pivot[k] % 64;
    }
}

bool span_find(const span *s, const series *v, name_set *names)
{
    for (int t = 0; t < TESTS; t++)
        if (odd_in_common(&s->test[t], v))
            return false;
    memset(names, 0, sizeof *names);
    series rest = reduced(s, *v, names);
    return is_zero(&rest);
}
