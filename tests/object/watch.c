#include "watch.h"

#include "model.h"

#include <stdio.h>

/* ---- Names ---- */

static uint8_t value_of(const watch *w, const rule *r, name x, unsigned draw)
{
    uint8_t v;
    switch (x.kind) {
    case 'a': v = r->a[x.i]; break;
    case 'b': v = r->b[x.i]; break;
    case 't': v = r->target[x.i]; break;
    case 'z': v = r->z[draw]; break;
    case 'p':
        if (r->kind == AND)
            v = r->a[x.i] & r->b[x.j];
        else
            v = (r->b[x.j] >> x.part & 1) ? model_times(w->field, r->a[x.i], (uint8_t)(1u << x.part)) : 0;
        break;
    default: v = 0xff; break;
    }
    return r->bits != 0 ? v >> w->bit & 1 : v;
}

/* False where it is a sum of earlier names: those count. */
static bool add_name(watch *w, name x, unsigned draw)
{
    series v;
    for (int r = 0; r < RUNS; r++)
        v.run[r] = value_of(w, &w->in[r], x, draw);
    w->name[w->names] = x;
    return span_add(&w->span, &v, w->names++);
}

static void must_add(watch *w, name x, unsigned draw)
{
    w->independent = add_name(w, x, draw) && w->independent;
}

/* The first target of Clear is the factor itself, whose names then count. Another target
 * that is a sum of names, as where Clear brings 0 about in a column that is passed over
 * later, leaves nothing that can be told. */
static void add_target(watch *w, uint8_t i)
{
    bool is_factor = true;
    for (int r = 0; r < RUNS; r++)
        is_factor = is_factor && w->in[r].target[i] == w->in[r].a[i];
    if (!is_factor)
        must_add(w, (name){'t', i, 0, 0}, 0);
}

static void add_draws(watch *w)
{
    unsigned draw = 0;
    for (uint8_t i = 0; i < (w->in[0].kind == REFRESH ? 1 : w->n); i++)
        for (uint8_t j = i + 1; j < w->n; j++, draw++)
            must_add(w, (name){'z', i, j, 0}, draw);
}

static void add_products(watch *w)
{
    for (uint8_t i = 0; i < w->n; i++)
        must_add(w, (name){'b', i, 0, 0}, 0);
    for (uint8_t i = 0; i < w->n; i++)
        for (uint8_t j = 0; j < w->n; j++)
            for (uint8_t part = 0; part < w->parts; part++)
                must_add(w, (name){'p', i, j, part}, 0);
}

/* ---- Sums that must stand ---- */

static void want(watch *w, bool (*is_in)(name x, uint8_t i, uint8_t j), uint8_t i, uint8_t j)
{
    name_set *s = &w->wanted[w->wanted_count++];
    for (size_t x = 0; x < w->names; x++)
        if (is_in(w->name[x], i, j))
            s->bits[x / 64] |= (uint64_t)1 << x % 64;
}

/* (a_i·b_j + z) */
static bool in_first(name x, uint8_t i, uint8_t j)
{
    return (x.kind == 'p' || x.kind == 'z') && x.i == i && x.j == j;
}

/* (a_i·b_j + z) + a_j·b_i */
static bool in_both(name x, uint8_t i, uint8_t j)
{
    return in_first(x, i, j) || (x.kind == 'p' && x.i == j && x.j == i);
}

/* share i with all its draws, and the target */
static bool in_share(name x, uint8_t i, uint8_t j)
{
    (void)j;
    return ((x.kind == 'a' || x.kind == 't') && x.i == i) || (x.kind == 'z' && (x.i == i || x.j == i));
}

/* Where a Refresh is opened its draws may be added together with those of the Opening,
 * which wants each share with all of them. With what was opened before nothing is done. */
static void want_all(watch *w)
{
    if (w->in[0].kind == OPENED || (w->in[0].kind == REFRESH && w->in[0].opened == 'a'))
        return;
    for (uint8_t i = 0; i < w->n; i++)
        if (w->in[0].kind == PRODUCT || w->in[0].kind == AND)
            for (uint8_t j = i + 1; j < w->n; j++) {
                want(w, in_first, i, j);
                want(w, in_both, i, j);
            }
        else
            want(w, in_share, i, 0);
}

void watch_open(const sizes *s, watch *w)
{
    rule_kind kind = w->in[0].kind;
    bool bits = w->in[0].bits != 0;
    w->field = s->field;
    w->n = s->n;
    w->parts = bits ? 1 : s->field == 16 ? 4 : 8;
    w->independent = true;
    for (uint8_t i = 0; i < w->n; i++)
        must_add(w, (name){'a', i, 0, 0}, 0);
    if (kind != LIFT && kind != OPENED)
        add_draws(w);
    if (kind == PRODUCT || kind == AND)
        add_products(w);
    for (uint8_t i = 0; i < w->n; i++) {
        if (kind == LIFT || kind == PRODUCT)
            add_target(w, i);
        if (kind == LIFT || kind == REFRESH)
            add_name(w, (name){'b', i, 0, 0}, 0);
    }
    if (bits) /* the flag begins with a complement */
        must_add(w, (name){'1', 0, 0, 0}, 0);
    span_close(&w->span);
    want_all(w);
}

/* ---- What a sum holds ---- */

typedef struct {
    unsigned parts[4][4]; /* of a_i·b_j */
    bool draw[4][4], share[3][4], own[4];
    unsigned owners; /* shares, by number, that it has something of besides cross terms */
    size_t terms;
} sum;

static sum sum_of(const watch *w, const name_set *names)
{
    sum s = {0};
    for (size_t x = 0; x < w->names; x++) {
        name y = w->name[x];
        if (!has_name(names, x) || y.kind == '1')
            continue;
        s.terms++;
        if (y.kind == 'z')
            s.draw[y.i][y.j] = s.draw[y.j][y.i] = true;
        else if (y.kind == 'p')
            s.parts[y.i][y.j]++;
        else
            s.share[y.kind == 'a' ? 0 : y.kind == 'b' ? 1 : 2][y.i] = true;
        if (y.kind != 'z' && (y.kind != 'p' || y.i == y.j))
            s.own[y.i] = true;
    }
    for (unsigned i = 0; i < w->n; i++)
        s.owners += s.own[i];
    return s;
}

/* Whether it is a value that is opened: that of all shares, without draws. */
static bool is_opened(const watch *w, const sum *s)
{
    rule_kind kind = w->in[0].kind;
    char opened = w->in[0].opened;
    bool a = opened == 'a' && kind != AND, b = opened == 'b', target = opened == 'a' && kind == LIFT;
    for (unsigned i = 0; i < w->n; i++)
        for (unsigned j = 0; j < w->n; j++)
            if (s->draw[i][j] || s->share[0][i] != a || s->share[1][i] != b || s->share[2][i] != target
                || s->parts[i][j] != (kind == AND))
                return false;
    return opened != 0;
}

static const char *product_fault(const watch *w, const sum *s)
{
    for (unsigned i = 0; i < w->n; i++)
        for (unsigned j = 0; j < w->n; j++)
            if (i != j && s->parts[i][j] != 0 && !s->draw[i][j] && s->terms > s->parts[i][j])
                return "a cross term met another term before its draw";
    for (unsigned i = 0; i < w->n; i++)
        for (unsigned j = i + 1; j < w->n; j++)
            if (s->draw[i][j] && s->parts[j][i] != 0 && s->parts[i][j] < w->parts)
                return "the second cross term met the draw before the first";
    return s->owners >= 2 ? "shares met" : NULL;
}

/* In an Opening shares meet with all their draws; those that two of them have in common
 * go out. */
static const char *opening_fault(const watch *w, const sum *s)
{
    for (unsigned i = 0; i < w->n && s->owners >= 2; i++)
        for (unsigned j = i + 1; j < w->n; j++)
            if (s->draw[i][j] != (s->own[i] != s->own[j]))
                return "shares met without all draws of the Opening";
    return NULL;
}

static const char *fault_of(const watch *w, const sum *s)
{
    if (is_opened(w, s))
        return NULL;
    switch (w->in[0].kind) {
    case PRODUCT:
    case AND: return product_fault(w, s);
    case OPENING: return opening_fault(w, s);
    default: return s->owners >= 2 ? "shares met" : NULL; /* also of a pair refresh, which has no sum as Opening has */
    }
}

/* ---- What is told ---- */

static const char *told(const watch *w, const char *what, const name_set *names)
{
    static const char *const kinds[] = {"Product", "And", "Refresh", "pair refresh", "Opening", "opened entry", "row"};
    static char text[1024];
    size_t len = (size_t)snprintf(text, sizeof text, "%s", what);
    const char *between = ": ";
    sum s = sum_of(w, names);
    for (size_t x = 0; x < w->names && len < sizeof text - 64; x++) {
        name y = w->name[x];
        bool whole = y.kind == 'p' && s.parts[y.i][y.j] == w->parts;
        if (!has_name(names, x) || y.kind == '1' || (whole && y.part > 0))
            continue;
        len += (size_t)snprintf(text + len, sizeof text - len, "%s", between);
        between = " + ";
        if (y.kind == 'z')
            len += (size_t)snprintf(text + len, sizeof text - len, "z%d%d", y.i + 1, y.j + 1);
        else if (y.kind != 'p')
            len += (size_t)snprintf(text + len, sizeof text - len, "%c%d", y.kind, y.i + 1);
        else
            len += (size_t)snprintf(text + len, sizeof text - len, "a%d·b%d", y.i + 1, y.j + 1);
        if (y.kind == 'p' && !whole)
            len += (size_t)snprintf(text + len, sizeof text - len, "(bit %d)", y.part);
    }
    len += (size_t)snprintf(text + len, sizeof text - len, ", in %s %u", kinds[w->in[0].kind], w->in[0].number);
    if (w->in[0].bits != 0)
        snprintf(text + len, sizeof text - len, ", bit %u,", w->bit);
    return text;
}

const char *watch_see(watch *w, const series *v)
{
    name_set names;
    if (!w->independent || !span_find(&w->span, v, &names))
        return NULL;
    for (size_t i = 0; i < w->wanted_count; i++)
        w->stood[i] = w->stood[i] || same_names(&names, &w->wanted[i]);
    sum s = sum_of(w, &names);
    const char *fault = fault_of(w, &s);
    return fault == NULL ? NULL : told(w, fault, &names);
}

const char *watch_missed(const watch *w)
{
    for (size_t i = 0; i < w->wanted_count && w->independent; i++)
        if (!w->stood[i])
            return told(w, "never stood anywhere", &w->wanted[i]);
    return NULL;
}
