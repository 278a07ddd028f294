/* The small rules of 01 that a step follows, with the values that they work on. */
#ifndef RULES_H
#define RULES_H

#include <stdbool.h>
#include <stddef.h>
#include <stdint.h>

typedef struct {
    uint64_t field, n, rows, columns; /* b is column columns+1 */
} sizes;

/* A place in the step list. The row stands for column j: it is row j in a square system. */
typedef struct {
    uint64_t step, row, j, k;
} place;

typedef enum {
    PRODUCT,      /* target += Product(a, b) */
    AND,          /* And(a, b) */
    REFRESH,      /* of a, which is b times a factor */
    PAIR_REFRESH, /* of a, a fold's shifted copy */
    OPENING,      /* of a */
    OPENED,       /* a, that the step before has opened: nothing is done with its shares any more */
    LIFT,         /* target += a, and a is b times the unknown */
} rule_kind;

typedef struct {
    rule_kind kind;
    unsigned number; /* among those of its kind in the step, from 1 */
    unsigned bits;   /* elements are looked at whole if 0, else that many low bits of them, one by one */
    char opened;     /* 'a': what is made here of a is opened, 'b': the value of b is, 0: neither */
    uint8_t a[4], b[4], target[4];
    uint8_t z[6]; /* the draws: one to each pair of shares, in Refresh to the pairs of the first share */
} rule;

/* Those of the step at a place, before it is done; the solution is what it is lent.
 * Returns how many; at most MAX_RULES. */
#define MAX_RULES 600
size_t rules_of(const sizes *s, const place *at, const uint8_t *table, const uint8_t *solution, const uint8_t *mask,
                const uint8_t *nonzero, rule *out);

#endif
