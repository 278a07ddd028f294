/* Watches one rule over all runs: finds the sums of its values that must not stand
 * anywhere, and those that must. */
#ifndef WATCH_H
#define WATCH_H

#include "rules.h"
#include "span.h"

/* A name: share i of a, of b or of the target ('t'), the draw of shares i and j ('z'),
 * part `part` of a_i·b_j ('p'), or a bit that is always 1 ('1'). Shares are numbered
 * from 0. Part t of a_i·b_j is what bit t of b_j adds to it. */
typedef struct {
    char kind;
    uint8_t i, j, part;
} name;

#define MAX_WANTED 12

typedef struct {
    rule in[RUNS];
    place at;     /* of the step that it belongs to */
    unsigned bit; /* which one, where bits are looked at */
    uint64_t field, n;
    unsigned parts; /* of a product */
    name name[MAX_NAMES];
    size_t names;
    bool independent; /* else a sum of names is another sum too, and nothing can be told */
    span span;
    name_set wanted[MAX_WANTED]; /* sums that the rule makes on its way */
    bool stood[MAX_WANTED];
    size_t wanted_count;
} watch;

/* After in, at and bit are there. */
void watch_open(const sizes *s, watch *w);

/* Something that stands somewhere, as an element or as a bit: what is wrong with it, or
 * NULL. */
const char *watch_see(watch *w, const series *v);

/* A sum that had to stand somewhere and never did, or NULL. */
const char *watch_missed(const watch *w);

#endif
