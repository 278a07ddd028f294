#include "rules.h"

#include "hostozaro.h"
#include "model.h"

#include <string.h>

/* A step on its way: the rules so far and the next draws. */
typedef struct {
    const sizes *s;
    const uint8_t *table, *mask;
    rule *out;
    size_t count;
} list;

static const uint8_t *entry(const list *l, uint64_t row, uint64_t column)
{
    return l->table + ((row - 1) * (l->s->columns + 1) + column - 1) * l->s->n;
}

static rule *add_rule(list *l, rule_kind kind, const uint8_t *a)
{
    rule *r = &l->out[l->count++];
    *r = (rule){.kind = kind, .number = 1};
    for (const rule *q = l->out; q < r; q++)
        r->number += q->kind == kind;
    memcpy(r->a, a, l->s->n);
    return r;
}

static void draws(list *l, rule *r)
{
    size_t n = l->s->n, count = r->kind == REFRESH ? n - 1 : n * (n - 1) / 2;
    for (size_t i = 0; i < count; i++)
        r->z[i] = (uint8_t)(*l->mask++ % l->s->field);
}

/* shares becomes what Refresh makes of it. */
static rule *add_refresh(list *l, uint8_t shares[4])
{
    rule *r = add_rule(l, REFRESH, shares);
    draws(l, r);
    for (size_t i = 1; i < l->s->n; i++) {
        shares[i] ^= r->z[i - 1];
        shares[0] ^= r->z[i - 1];
    }
    return r;
}

/* The same after each share is multiplied. */
static rule *add_scaled(list *l, uint8_t shares[4], uint8_t factor)
{
    uint8_t before[4];
    memcpy(before, shares, l->s->n);
    for (size_t i = 0; i < l->s->n; i++)
        shares[i] = model_times(l->s->field, before[i], factor);
    rule *r = add_refresh(l, shares);
    memcpy(r->b, before, l->s->n);
    return r;
}

/* "refresh its shifted copy as Opening does: for every pair in order, one draw
 * added to both". */
static void add_pair_refresh(list *l, uint8_t shares[4], unsigned bits)
{
    rule *r = add_rule(l, PAIR_REFRESH, shares);
    size_t pair = 0;
    r->bits = bits;
    draws(l, r);
    for (size_t i = 0; i < l->s->n; i++)
        for (size_t j = i + 1; j < l->s->n; j++, pair++) {
            shares[i] ^= r->z[pair];
            shares[j] ^= r->z[pair];
        }
}

/* Returns the value. */
static uint8_t add_opening(list *l, const uint8_t *shares, unsigned bits)
{
    rule *r = add_rule(l, OPENING, shares);
    uint8_t value = 0;
    r->bits = bits;
    draws(l, r);
    for (size_t i = 0; i < l->s->n; i++)
        value ^= shares[i];
    return value;
}

/* flag becomes And(flag, t). */
static rule *add_and(list *l, uint8_t flag[4], const uint8_t t[4])
{
    rule *r = add_rule(l, AND, flag);
    size_t n = l->s->n, pair = 0;
    memcpy(r->b, t, n);
    draws(l, r);
    for (size_t i = 0; i < n; i++)
        flag[i] = r->a[i] & r->b[i];
    for (size_t i = 0; i < n; i++)
        for (size_t j = i + 1; j < n; j++, pair++) {
            flag[i] ^= r->z[pair];
            flag[j] ^= (uint8_t)((r->a[i] & r->b[j]) ^ r->z[pair] ^ (r->a[j] & r->b[i]));
        }
    return r;
}

/* Only the low h bits of a fold count: the flag does not depend on the others. */
static void add_flag(list *l, const place *at, bool opened, uint8_t flag[4])
{
    memcpy(flag, entry(l, at->row, at->j), l->s->n);
    flag[0] ^= (uint8_t)(l->s->field - 1);
    for (unsigned h = l->s->field == 16 ? 2 : 4; h >= 1; h /= 2) {
        uint8_t t[4];
        for (size_t i = 0; i < l->s->n; i++)
            t[i] = flag[i] >> h;
        add_pair_refresh(l, t, h);
        rule *r = add_and(l, flag, t);
        r->bits = h;
        r->opened = opened && h == 1 ? 'a' : 0;
    }
    for (size_t i = 0; i < l->s->n; i++)
        flag[i] &= 1;
}

/* Row `to` += Product(a, row `from`), from column j on. */
static void add_products(list *l, const uint8_t *a, uint64_t to, uint64_t from, uint64_t j)
{
    for (uint64_t c = j; c <= l->s->columns + 1; c++) {
        rule *r = add_rule(l, PRODUCT, a);
        memcpy(r->b, entry(l, from, c), l->s->n);
        memcpy(r->target, entry(l, to, c), l->s->n);
        draws(l, r);
    }
}

static uint8_t inverse(uint64_t field, uint8_t a)
{
    uint8_t v = 1;
    while (model_times(field, a, v) != 1)
        v++;
    return v;
}

static void add_scale(list *l, const place *at, const uint8_t *nonzero)
{
    size_t n = l->s->n;
    uint64_t j = at->j, last = l->s->columns + 1;
    uint8_t factors[4], shares[4], row[145][4];
    memcpy(shares, entry(l, at->row, j), n);
    for (size_t i = 0; i + 1 < n; i++) {
        factors[i] = (uint8_t)(nonzero[i] % l->s->field);
        add_scaled(l, shares, factors[i])->opened = i + 2 == n ? 'a' : 0;
    }
    factors[n - 1] = inverse(l->s->field, add_opening(l, shares, 0));
    for (uint64_t c = j; c <= last; c++)
        memcpy(row[c - 1], entry(l, at->row, c), n);
    for (size_t i = 0; i < n; i++)
        for (uint64_t c = j; c <= last; c++) {
            rule *r = add_scaled(l, row[c - 1], factors[i]);
            if (c == j) /* the pivot with all nonzero draws has been opened */
                r->opened = i + 2 == n ? 'a' : i + 1 == n ? 'b' : 0;
            if (c == last && at->row == l->s->rows && i + 1 == n) /* the next step opens it */
                r->opened = 'a';
        }
}

/* x comes from the solution. So the shares that it was opened of stay as they are,
 * and a sum of some of them is no more allowed here than in the Opening. */
static void add_lift(list *l, const place *at, uint8_t x)
{
    uint64_t last = l->s->columns + 1;
    uint8_t times_x[4];
    add_rule(l, OPENED, entry(l, at->row, last))->opened = 'a';
    for (uint64_t k = 1; k < at->row; k++) {
        for (size_t i = 0; i < l->s->n; i++)
            times_x[i] = model_times(l->s->field, x, entry(l, k, at->j)[i]);
        rule *r = add_rule(l, LIFT, times_x);
        memcpy(r->b, entry(l, k, at->j), l->s->n);
        memcpy(r->target, entry(l, k, last), l->s->n);
        r->opened = k == at->row - 1 ? 'a' : 0; /* by the next step */
    }
}

size_t rules_of(const sizes *s, const place *at, const uint8_t *table, const uint8_t *solution, const uint8_t *mask,
                const uint8_t *nonzero, rule *out)
{
    list l = {s, table, mask, out, 0};
    uint8_t flag[4];
    switch (at->step) {
    case HZ_MIX:
        add_flag(&l, at, false, flag);
        add_products(&l, flag, at->row, at->k, at->j);
        break;
    case HZ_CHECK:
        add_flag(&l, at, true, flag);
        add_opening(&l, flag, 1);
        break;
    case HZ_SCALE: add_scale(&l, at, nonzero); break;
    case HZ_CLEAR: add_products(&l, entry(&l, at->k, at->j), at->k, at->row, at->j); break;
    case HZ_OPEN: add_opening(&l, entry(&l, at->row, s->columns + 1), 0); break;
    default: add_lift(&l, at, solution[at->j - 1]); break;
    }
    return l.count;
}
