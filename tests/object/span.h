/* Sums of named values. Something that stands somewhere in each of RUNS runs is a
 * series of bytes, one to a run; a span finds the names whose sum it is. */
#ifndef SPAN_H
#define SPAN_H

#include <stdbool.h>
#include <stddef.h>
#include <stdint.h>
#include <string.h>

#define RUNS 192
#define MAX_NAMES 192

typedef union {
    uint8_t run[RUNS];
    uint64_t word[RUNS / 8];
} series;

typedef struct {
    uint64_t bits[MAX_NAMES / 64];
} name_set;

#define TESTS 32

typedef struct {
    size_t rank;
    series row[MAX_NAMES];     /* sums of names: bit `pivot` is 1 in no other row */
    unsigned pivot[MAX_NAMES];
    name_set names[MAX_NAMES]; /* of which names */
    series test[TESTS];        /* an even number of bits in common with each row */
} span;

/* False where the series is the sum of some before it: it is left out then. */
bool span_add(span *s, const series *v, size_t name);

/* To be called after the last name. */
void span_close(span *s);

/* Whether v is a sum of names, and of which. */
bool span_find(const span *s, const series *v, name_set *names);

static inline bool has_name(const name_set *s, size_t name)
{
    return s->bits[name / 64] >> name % 64 & 1;
}

static inline bool same_names(const name_set *a, const name_set *b)
{
    return memcmp(a, b, sizeof *a) == 0;
}

#endif
