#include "model.h"

#include "hostozaro.h"

#include <string.h>

/* ---- The two fields ---- */

/* Polynomial product, by Horner's rule on the bits of b: the sum so far times x,
 * less the modulus where it reaches x^w, plus a for a bit that is 1. The two
 * choices are made by multiplying, so that no step waits on a branch. */
uint8_t model_times(uint64_t field, uint8_t a, uint8_t b)
{
    unsigned w = field == 16 ? 4 : 8;
    unsigned modulus = field == 16 ? 0x13 : 0x11b; /* x^4+x+1, x^8+x^4+x^3+x+1 */
    unsigned sum = 0;
    for (unsigned bit = w; bit-- > 0;) {
        sum <<= 1;
        sum ^= (sum >> w) * modulus;
        sum ^= (b >> bit & 1u) * a;
    }
    return (uint8_t)sum;
}

/* The element whose product with a is 1; a is not 0. */
static uint8_t inverse(uint64_t field, uint8_t a)
{
    unsigned r = 1;
    while (model_times(field, a, (uint8_t)r) != 1)
        r++;
    return (uint8_t)r;
}

/* ---- A system, its tapes, and sharings ---- */

/* A tape with the number of draws taken from it. */
typedef struct {
    const uint8_t *bytes;
    uint64_t taken;
} tape;

typedef struct {
    uint64_t field, n, rows, columns; /* columns of A; a square system has as many as rows */
    uint8_t *table;
    tape mask, nonzero;
} task;

typedef struct {
    uint8_t share[4]; /* n in use */
} sharing;

static uint8_t draw(const task *t, tape *from)
{
    return (uint8_t)(from->bytes[from->taken++] % t->field);
}

static uint8_t *entry_at(const task *t, uint64_t row, uint64_t column)
{
    return t->table + ((row - 1) * (t->columns + 1) + (column - 1)) * t->n;
}

static sharing get(const task *t, uint64_t row, uint64_t column)
{
    sharing a = {{0}};
    memcpy(a.share, entry_at(t, row, column), t->n);
    return a;
}

static void put(const task *t, uint64_t row, uint64_t column, sharing a)
{
    memcpy(entry_at(t, row, column), a.share, t->n);
}

static sharing plus(const task *t, sharing a, sharing b)
{
    for (uint64_t s = 0; s < t->n; s++)
        a.share[s] ^= b.share[s];
    return a;
}

/* Every share times one plain factor. */
static sharing scaled(const task *t, sharing a, uint8_t factor)
{
    for (uint64_t s = 0; s < t->n; s++)
        a.share[s] = model_times(t->field, a.share[s], factor);
    return a;
}

/* ---- Small rules on sharings (shares are numbered from 0 here) ---- */

static sharing refresh(task *t, sharing a)
{
    for (uint64_t s = 1; s < t->n; s++) {
        uint8_t r = draw(t, &t->mask);
        a.share[s] ^= r;
        a.share[0] ^= r;
    }
    return a;
}

static sharing product(task *t, sharing a, sharing b)
{
    sharing out = {{0}};
    for (uint64_t i = 0; i < t->n; i++)
        out.share[i] = model_times(t->field, a.share[i], b.share[i]);
    for (uint64_t i = 0; i < t->n; i++)
        for (uint64_t j = i + 1; j < t->n; j++) {
            uint8_t z = draw(t, &t->mask);
            uint8_t z2 = (uint8_t)((model_times(t->field, a.share[i], b.share[j]) ^ z)
                                   ^ model_times(t->field, a.share[j], b.share[i]));
            out.share[i] ^= z;
            out.share[j] ^= z2;
        }
    return out;
}

/* Product, with bitwise and in place of the field's product. */
static sharing bit_and(task *t, sharing a, sharing b)
{
    sharing out = {{0}};
    for (uint64_t i = 0; i < t->n; i++)
        out.share[i] = a.share[i] & b.share[i];
    for (uint64_t i = 0; i < t->n; i++)
        for (uint64_t j = i + 1; j < t->n; j++) {
            uint8_t z = draw(t, &t->mask);
            uint8_t z2 = (uint8_t)(((a.share[i] & b.share[j]) ^ z) ^ (a.share[j] & b.share[i]));
            out.share[i] ^= z;
            out.share[j] ^= z2;
        }
    return out;
}

/* Opening's first half; R-6 has it in each fold of the zero flag too. */
static sharing pair_refresh(task *t, sharing a)
{
    for (uint64_t i = 0; i < t->n; i++)
        for (uint64_t j = i + 1; j < t->n; j++) {
            uint8_t r = draw(t, &t->mask);
            a.share[i] ^= r;
            a.share[j] ^= r;
        }
    return a;
}

static uint8_t opening(task *t, sharing a)
{
    a = pair_refresh(t, a);
    uint8_t sum = 0;
    for (uint64_t s = 0; s < t->n; s++)
        sum ^= a.share[s];
    return sum;
}

/* A sharing of 1 where a's value is 0, else of 0. */
static sharing zero_flag(task *t, sharing a)
{
    a.share[0] ^= (uint8_t)(t->field - 1);
    for (unsigned h = t->field == 16 ? 2 : 4; h >= 1; h /= 2) {
        sharing folded = a;
        for (uint64_t s = 0; s < t->n; s++)
            folded.share[s] >>= h;
        folded = pair_refresh(t, folded);
        a = bit_and(t, a, folded);
    }
    for (uint64_t s = 0; s < t->n; s++)
        a.share[s] &= 1;
    return a;
}

/* Inversion's first half: a times z_1..z_(n-1), which become the first factors. */
static sharing blinded(task *t, sharing a, uint8_t factors[4])
{
    for (uint64_t s = 0; s + 1 < t->n; s++) {
        factors[s] = draw(t, &t->nonzero);
        a = refresh(t, scaled(t, a, factors[s]));
    }
    return a;
}

/* The n factors whose product is the inverse of a's value; false where that is 0. */
static bool inversion(task *t, sharing a, uint8_t factors[4])
{
    uint8_t u = opening(t, blinded(t, a, factors));
    if (u == 0)
        return false;
    factors[t->n - 1] = inverse(t->field, u);
    return true;
}

/* ---- The steps ----
 *
 * Each works on column j and on the row that stands for it: row j itself in a square
 * system, and in a wide one the row of its pivot. */

static void mix(task *t, uint64_t row, uint64_t j, uint64_t k)
{
    sharing flag = zero_flag(t, get(t, row, j));
    for (uint64_t c = j; c <= t->columns + 1; c++)
        put(t, row, c, plus(t, get(t, row, c), product(t, flag, get(t, k, c))));
}

/* What Check opens: whether the entry is 0. */
static bool check(task *t, uint64_t row, uint64_t j)
{
    return opening(t, zero_flag(t, get(t, row, j))) == 1;
}

/* False, and nothing changed, where the pivot is 0. */
static bool scale(task *t, uint64_t row, uint64_t j)
{
    uint8_t factors[4];
    if (!inversion(t, get(t, row, j), factors))
        return false;
    for (uint64_t i = 0; i < t->n; i++)
        for (uint64_t c = j; c <= t->columns + 1; c++)
            put(t, row, c, refresh(t, scaled(t, get(t, row, c), factors[i])));
    return true;
}

static void clear(task *t, uint64_t row, uint64_t j, uint64_t k)
{
    sharing copy = get(t, k, j); /* column j is the first to change it */
    for (uint64_t c = j; c <= t->columns + 1; c++)
        put(t, k, c, plus(t, get(t, k, c), product(t, copy, get(t, row, c))));
}

/* it only opens the row's unknown, and the table stays as it is. */
static uint8_t open_unknown(task *t, uint64_t row)
{
    return opening(t, get(t, row, t->columns + 1));
}

/* carries x_j, as it stands in the solution, into the rows above. */
static void lift(task *t, uint64_t row, uint64_t j, const uint8_t *solution)
{
    uint8_t x = solution[j - 1];
    uint64_t b = t->columns + 1;
    for (uint64_t k = 1; k < row; k++)
        put(t, k, b, plus(t, get(t, k, b), scaled(t, get(t, k, j), x)));
}

/* ---- The plain answer, by a basis of columns ----
 *
 * R-1's call eliminates on rows and exchanges them, and R-8's mixes them; here no row is
 * ever changed. The columns of A are taken one by one, and what is kept of each is what is
 * left of it once the kept ones before it are taken off. Where nothing is left of a column,
 * the columns before it combine to it, and it is not kept; otherwise it is a pivot. Each
 * kept one is, by its mix, a combination of the pivots, and where there are as many as
 * rows, so is b. */

typedef struct {
    uint64_t field, rows, columns;
} shape;

typedef struct {
    uint8_t entry[96]; /* one for each row */
    uint8_t mix[144];  /* one for each column: the entries are those of A·mix (for b: plus b) */
    uint64_t lead;     /* a row where the entry is 1, and 0 in all kept after it */
} vector;

/* Adds factor times what is kept. Sum and difference are the same. */
static void add_times(const shape *of, vector *to, uint8_t factor, const vector *kept)
{
    for (uint64_t i = 0; i < of->rows; i++)
        to->entry[i] ^= model_times(of->field, factor, kept->entry[i]);
    for (uint64_t i = 0; i < of->columns; i++)
        to->mix[i] ^= model_times(of->field, factor, kept->mix[i]);
}

/* What is left once the first `count` kept ones are taken off. One taken off later
 * is 0 at the leads before it, so what was cleared there stays so. */
static void take_off(const shape *of, vector *from, const vector *kept, uint64_t count)
{
    for (uint64_t i = 0; i < count; i++)
        add_times(of, from, from->entry[kept[i].lead], &kept[i]);
}

/* The last row where something is left, or the number of rows. */
static uint64_t last_left(const shape *of, const vector *v)
{
    for (uint64_t row = of->rows; row > 0; row--)
        if (v->entry[row - 1] != 0)
            return row - 1;
    return of->rows;
}

/* Column c, from 0, of the values; the one after A's is b. */
static vector column_of(const shape *of, const uint8_t *values, uint64_t c)
{
    vector v = {{0}, {0}, 0};
    for (uint64_t row = 0; row < of->rows; row++)
        v.entry[row] = values[row * (of->columns + 1) + c];
    return v;
}

/* The pivots, from 1 and ascending, and how many there are; where each row has one, also
 * x, which is 0 outside them. */
static uint64_t by_columns(const shape *of, const uint8_t *values, uint64_t *pivots, uint8_t *x)
{
    vector kept[96];
    uint64_t found = 0;
    for (uint64_t c = 0; c < of->columns; c++) {
        vector left = column_of(of, values, c);
        left.mix[c] = 1;
        take_off(of, &left, kept, found);
        left.lead = last_left(of, &left);
        if (left.lead == of->rows)
            continue;
        kept[found] = (vector){{0}, {0}, left.lead};
        add_times(of, &kept[found], inverse(of->field, left.entry[left.lead]), &left);
        pivots[found++] = c + 1;
    }
    if (found < of->rows)
        return found;
    vector b = column_of(of, values, of->columns);
    take_off(of, &b, kept, found); /* as many independent columns as rows: nothing is left, b + A·mix is 0 */
    memcpy(x, b.mix, of->columns);
    return found;
}

uint64_t model_wide_plain(uint64_t rows, uint64_t columns, const uint8_t *values, uint64_t *pivots, uint8_t *x)
{
    return by_columns(&(shape){16, rows, columns}, values, pivots, x);
}

/* ---- Counts ---- */

uint64_t model_mask_draws(uint64_t field, uint64_t n, uint64_t columns, uint64_t step, uint64_t j)
{
    uint64_t f = field == 16 ? 2 : 3, pairs = n * (n - 1) / 2, length = columns + 2 - j; /* 01's L */
    uint64_t flag = f * 2 * pairs; /* */
    switch (step) {
    case HZ_MIX:
        return flag + length * pairs;
    case HZ_CHECK:
        return flag + pairs;
    case HZ_SCALE:
        return (n - 1) * (n - 1) + pairs + n * (n - 1) * length;
    case HZ_CLEAR:
        return length * pairs;
    case HZ_LIFT:
        return 0; /* */
    default:
        return pairs; /* Open */
    }
}

uint64_t model_nonzero_draws(uint64_t n, uint64_t step)
{
    return step == HZ_SCALE ? n - 1 : 0;
}

uint64_t model_full_mask_draws(uint64_t field, uint64_t n, uint64_t m)
{
    uint64_t sum = 0;
    for (uint64_t j = 1; j <= m; j++) {
        for (uint64_t k = j + 1; k <= m; k++)
            sum += model_mask_draws(field, n, m, HZ_MIX, j) + model_mask_draws(field, n, m, HZ_CLEAR, j);
        sum += model_mask_draws(field, n, m, HZ_CHECK, j) + model_mask_draws(field, n, m, HZ_SCALE, j)
               + model_mask_draws(field, n, m, HZ_OPEN, j); /* Lift has none */
    }
    return sum;
}

/* as if row 1 took the pivot of every column, and each row were opened. */
uint64_t model_wide_mask_draws(uint64_t n, uint64_t rows, uint64_t columns)
{
    uint64_t sum = 0;
    for (uint64_t j = 1; j <= columns; j++) {
        for (uint64_t k = 2; k <= rows; k++)
            sum += model_mask_draws(16, n, columns, HZ_MIX, j) + model_mask_draws(16, n, columns, HZ_CLEAR, j);
        sum += model_mask_draws(16, n, columns, HZ_CHECK, j) + model_mask_draws(16, n, columns, HZ_SCALE, j);
    }
    for (uint64_t row = 1; row <= rows; row++)
        sum += model_mask_draws(16, n, columns, HZ_OPEN, row);
    return sum;
}

/* ---- How far along (R-5) ---- */

/* A way along the step list up to a place, and the draws of the steps passed. */
typedef struct {
    uint64_t field, n, rows, columns;
    uint64_t step, j, k; /* the place */
    uint64_t mask, nonzero;
    uint64_t found, met; /* pivots that the place has, and that the way came by; a square one keeps none */
} way;

/* Whether this is the place that the way leads to. */
static bool is_end(const way *w, uint64_t step, uint64_t j, uint64_t k)
{
    return w->step == step && w->j == j && w->k == k && w->found == w->met;
}

/* Comes to this step of the list: ends there, with true, or passes it. */
static bool ends_at(way *w, uint64_t step, uint64_t j, uint64_t k)
{
    if (is_end(w, step, j, k))
        return true;
    w->mask += model_mask_draws(w->field, w->n, w->columns, step, j);
    w->nonzero += model_nonzero_draws(w->n, step);
    return false;
}

/* Goes along the list as 01 and R-7 have it; false where the place is not met. A stop at
 * column j stands right behind Check(j), and done behind the last step. */
static bool go_along(way *w)
{
    for (uint64_t j = 1; j <= w->rows; j++) {
        for (uint64_t k = j + 1; k <= w->rows; k++)
            if (ends_at(w, HZ_MIX, j, k))
                return true;
        if (ends_at(w, HZ_CHECK, j, 0) || is_end(w, HZ_AT_STOPPED, j, 0) || ends_at(w, HZ_SCALE, j, 0))
            return true;
        for (uint64_t k = j + 1; k <= w->rows; k++)
            if (ends_at(w, HZ_CLEAR, j, k))
                return true;
    }
    for (uint64_t j = w->rows; j >= 1; j--)
        if (ends_at(w, HZ_OPEN, j, 0) || (j > 1 && ends_at(w, HZ_LIFT, j, 0)))
            return true;
    return is_end(w, HZ_AT_DONE, 0, 0);
}

bool model_taken(uint64_t field, uint64_t n, uint64_t m, uint64_t step, uint64_t j, uint64_t k, uint64_t *mask,
                 uint64_t *nonzero)
{
    way w = {field, n, m, m, step, j, k, 0, 0, 0, 0};
    bool met = go_along(&w);
    *mask = w.mask;
    *nonzero = w.nonzero;
    return met;
}

/* The same along R-8's list, with these pivots. A column that is none of them is passed
 * over. So pivots that are not ascending, too many or outside are never all met. */
static bool go_along_wide(way *w, const uint64_t *pivots)
{
    for (uint64_t j = 1; j <= w->columns && w->met < w->rows; j++) {
        uint64_t row = w->met + 1;
        for (uint64_t k = row + 1; k <= w->rows; k++)
            if (ends_at(w, HZ_MIX, j, k))
                return true;
        if (ends_at(w, HZ_CHECK, j, 0))
            return true;
        if (w->met == w->found || pivots[w->met] != j)
            continue;
        w->met++;
        if (ends_at(w, HZ_SCALE, j, 0))
            return true;
        for (uint64_t k = row + 1; k <= w->rows; k++)
            if (ends_at(w, HZ_CLEAR, j, k))
                return true;
    }
    if (w->met < w->rows)
        return is_end(w, HZ_AT_SHORT, 0, 0);
    for (uint64_t row = w->rows; row >= 1; row--)
        if (ends_at(w, HZ_OPEN, pivots[row - 1], 0) || (row > 1 && ends_at(w, HZ_LIFT, pivots[row - 1], 0)))
            return true;
    return is_end(w, HZ_AT_DONE, 0, 0);
}

bool model_wide_taken(const uint64_t *record, uint64_t *mask, uint64_t *nonzero)
{
    const uint64_t *pivots = record + HZ_WIDE_PIVOTS;
    way w = {
        record[HZ_WIDE_FIELD], record[HZ_WIDE_SHARES], record[HZ_WIDE_ROWS], record[HZ_WIDE_COLUMNS],
        record[HZ_WIDE_STEP],  record[HZ_WIDE_J],      record[HZ_WIDE_K],    0,
        0,                     record[HZ_WIDE_FOUND],  0,
    };
    bool met = go_along_wide(&w, pivots);
    for (uint64_t slot = w.found; slot < 96; slot++)
        met = met && pivots[slot] == 0;
    *mask = w.mask;
    *nonzero = w.nonzero;
    return met;
}

/* ---- Answers and refusals ---- */

static uint64_t say(uint64_t code, uint64_t *answer, uint64_t a, uint64_t b, uint64_t c, uint64_t d)
{
    answer[0] = a;
    answer[1] = b;
    answer[2] = c;
    answer[3] = d;
    return code;
}

static uint64_t refuse(uint64_t *answer, uint64_t number, uint64_t detail)
{
    return say(HZ_REFUSED, answer, number, detail, 0, 0);
}

/* The cell that a refusal speaks of, all from 1. Share 0 is no single share: a
 * value has none, and a pivot's value is the sum of all. */
typedef struct {
    uint64_t row, column, share; /* row 0: no cell at all */
} cell;

static uint64_t refuse_cell(uint64_t *answer, uint64_t number, cell at)
{
    return say(HZ_REFUSED, answer, number, at.row, at.column, at.share);
}

/* 1, 2, 3, or 0 for none; *detail is the number complained of. */
static uint64_t bad_number(uint64_t field, uint64_t n, uint64_t m, uint64_t *detail)
{
    if (field != 16 && field != 256) {
        *detail = field;
        return 1;
    }
    if (n < 2 || n > 4) {
        *detail = n;
        return 2;
    }
    if (m < 1 || m > 96) {
        *detail = m;
        return 3;
    }
    return 0;
}

/* 1, 2, 3, 21, or 0: R-8 has F16 alone, and looks at the columns last. */
static uint64_t bad_wide_number(uint64_t field, uint64_t n, uint64_t rows, uint64_t columns, uint64_t *detail)
{
    if (field != 16) {
        *detail = field;
        return 1;
    }
    uint64_t bad = bad_number(field, n, rows, detail);
    if (bad)
        return bad;
    if (columns < rows || columns > 144) {
        *detail = columns;
        return 21;
    }
    return 0;
}

/* The cell of the first byte of 16 or more where the field is F16. The walk goes as
 * the bytes lie (01): row after row, in a row column after column, and in an entry
 * share after share, of which there are `depth`; so it knows its cell, and no place
 * has to be divided. */
static cell first_large(uint64_t field, uint64_t rows, uint64_t columns, uint64_t depth, const uint8_t *bytes)
{
    for (uint64_t row = 1; row <= rows; row++)
        for (uint64_t column = 1; column <= columns + 1; column++)
            for (uint64_t share = 1; share <= depth; share++)
                if (*bytes++ >= 16 && field == 16)
                    return (cell){row, column, share};
    return (cell){0, 0, 0};
}

/* The same in plain values, a byte to an entry. */
static cell first_large_value(uint64_t field, uint64_t m, const uint8_t *values)
{
    cell at = first_large(field, m, m, 1, values);
    at.share = 0;
    return at;
}

/* The number by which a step refuses this length of a tape, or 0. R-2 has two for
 * each tape, where 01 had one. */
static uint64_t bad_tape(size_t len, uint64_t wanted, uint64_t too_short, uint64_t too_long)
{
    return len < wanted ? too_short : len > wanted ? too_long : 0;
}

/* The first of the first len bytes that is a zero draw, else len. */
static size_t first_zero_draw(uint64_t field, const uint8_t *bytes, size_t len)
{
    size_t at = 0;
    while (at < len && bytes[at] % field != 0)
        at++;
    return at;
}

/* ---- The place of a record ---- */

/* 10, 19, 11, or 0 for none: of a record whose numbers are right. */
static uint64_t bad_record(const uint64_t *record)
{
    uint64_t step = record[HZ_STEP], mask, nonzero;
    if (!model_taken(record[HZ_FIELD], record[HZ_SHARES], record[HZ_SIZE], step, record[HZ_J], record[HZ_K], &mask,
                     &nonzero))
        return 10;
    if (record[HZ_MASK_TAKEN] != mask || record[HZ_NONZERO_TAKEN] != nonzero)
        return 19;
    return step == HZ_AT_STOPPED || step == HZ_AT_DONE ? 11 : 0;
}

static void set_place(uint64_t *record, uint64_t step, uint64_t j, uint64_t k)
{
    record[HZ_STEP] = step;
    record[HZ_J] = j;
    record[HZ_K] = k;
}

/* The place at which column j's work begins, for j in 1..m. */
static void enter_column(uint64_t *record, uint64_t j)
{
    if (j < record[HZ_SIZE])
        set_place(record, HZ_MIX, j, j + 1);
    else
        set_place(record, HZ_CHECK, j, 0);
}

static void leave_column(uint64_t *record, uint64_t j)
{
    if (j < record[HZ_SIZE])
        enter_column(record, j + 1);
    else
        set_place(record, HZ_OPEN, record[HZ_SIZE], 0);
}

/* Moves on to the next place of the list, or to done. */
static void move_on(uint64_t *record)
{
    uint64_t m = record[HZ_SIZE], j = record[HZ_J], k = record[HZ_K];
    switch (record[HZ_STEP]) {
    case HZ_MIX:
        if (k < m)
            set_place(record, HZ_MIX, j, k + 1);
        else
            set_place(record, HZ_CHECK, j, 0);
        break;
    case HZ_CHECK:
        set_place(record, HZ_SCALE, j, 0);
        break;
    case HZ_SCALE:
        if (j < m)
            set_place(record, HZ_CLEAR, j, j + 1);
        else
            leave_column(record, j);
        break;
    case HZ_CLEAR:
        if (k < m)
            set_place(record, HZ_CLEAR, j, k + 1);
        else
            leave_column(record, j);
        break;
    case HZ_OPEN:
        if (j > 1)
            set_place(record, HZ_LIFT, j, 0);
        else
            set_place(record, HZ_AT_DONE, 0, 0);
        break;
    case HZ_LIFT:
        set_place(record, HZ_OPEN, j - 1, 0);
        break;
    }
}

/* ---- The place of a wide record (R-8) ---- */

/* 10, 19, 11, or 0 for none: of a record whose numbers are right. */
static uint64_t bad_wide_record(const uint64_t *record)
{
    uint64_t mask, nonzero;
    if (!model_wide_taken(record, &mask, &nonzero))
        return 10;
    if (record[HZ_WIDE_MASK_TAKEN] != mask || record[HZ_WIDE_NONZERO_TAKEN] != nonzero)
        return 19;
    return record[HZ_WIDE_STEP] == HZ_AT_SHORT || record[HZ_WIDE_STEP] == HZ_AT_DONE ? 11 : 0;
}

/* The row that stands for column j at the record's place: the next one without a pivot
 * while the column is sought, and then its pivot's own. */
static uint64_t row_of_place(const uint64_t *record)
{
    uint64_t row = 1;
    if (record[HZ_WIDE_STEP] == HZ_MIX || record[HZ_WIDE_STEP] == HZ_CHECK)
        return record[HZ_WIDE_FOUND] + 1;
    while (record[HZ_WIDE_PIVOTS + row - 1] != record[HZ_WIDE_J])
        row++;
    return row;
}

static void set_wide_place(uint64_t *record, uint64_t step, uint64_t j, uint64_t k)
{
    record[HZ_WIDE_STEP] = step;
    record[HZ_WIDE_J] = j;
    record[HZ_WIDE_K] = k;
}

/* Column j is to be sought. */
static void enter_wide_column(uint64_t *record, uint64_t j)
{
    uint64_t row = record[HZ_WIDE_FOUND] + 1;
    if (row < record[HZ_WIDE_ROWS])
        set_wide_place(record, HZ_MIX, j, row + 1);
    else
        set_wide_place(record, HZ_CHECK, j, 0);
}

/* Column j is passed over, or its pivot's row cleared from those below. */
static void leave_wide_column(uint64_t *record, uint64_t j)
{
    uint64_t found = record[HZ_WIDE_FOUND];
    if (found == record[HZ_WIDE_ROWS])
        set_wide_place(record, HZ_OPEN, record[HZ_WIDE_PIVOTS + found - 1], 0);
    else if (j < record[HZ_WIDE_COLUMNS])
        enter_wide_column(record, j + 1);
    else
        set_wide_place(record, HZ_AT_SHORT, 0, 0);
}

/* Moves on to the next place of the list. Of a Check it is told what was opened. */
static void move_wide_on(uint64_t *record, bool passed_over)
{
    uint64_t rows = record[HZ_WIDE_ROWS], row = row_of_place(record), j = record[HZ_WIDE_J], k = record[HZ_WIDE_K];
    switch (record[HZ_WIDE_STEP]) {
    case HZ_MIX:
        if (k < rows)
            set_wide_place(record, HZ_MIX, j, k + 1);
        else
            set_wide_place(record, HZ_CHECK, j, 0);
        break;
    case HZ_CHECK:
        if (passed_over) {
            leave_wide_column(record, j);
            break;
        }
        record[HZ_WIDE_PIVOTS + record[HZ_WIDE_FOUND]++] = j;
        set_wide_place(record, HZ_SCALE, j, 0);
        break;
    case HZ_SCALE:
        if (row < rows)
            set_wide_place(record, HZ_CLEAR, j, row + 1);
        else
            leave_wide_column(record, j);
        break;
    case HZ_CLEAR:
        if (k < rows)
            set_wide_place(record, HZ_CLEAR, j, k + 1);
        else
            leave_wide_column(record, j);
        break;
    case HZ_OPEN:
        if (row > 1)
            set_wide_place(record, HZ_LIFT, j, 0);
        else
            set_wide_place(record, HZ_AT_DONE, 0, 0);
        break;
    case HZ_LIFT:
        set_wide_place(record, HZ_OPEN, record[HZ_WIDE_PIVOTS + row - 2], 0);
        break;
    }
}

/* ---- The exchange record (R-3) ----
 *
 * R-3's tagged fields are called parts here, since a field is F16 or F256. A part is its
 * tag, the length of its body in two bytes, and its body; numbers have their high byte
 * first. */

enum { FIELD, SHARES, SIZE, TABLE, END, PARTS };

/* The parts in their order, and how short and how long a body suits the tag. Any length
 * suits tag 4, as far as two bytes can tell it. */
static const struct {
    uint8_t tag;
    uint64_t shortest, longest;
} parts[PARTS] = {
    [FIELD] = {1, 2, 2}, [SHARES] = {2, 1, 1}, [SIZE] = {3, 1, 1}, [TABLE] = {4, 0, 65535}, [END] = {255, 0, 0},
};

/* The bytes of a record in all. */
static uint64_t record_length(uint64_t table_len)
{
    uint64_t sum = table_len;
    for (int i = 0; i < PARTS; i++)
        sum += 3 + parts[i].shortest; /* for the table's body that is 0 */
    return sum;
}

/* The writers of a piece of a record tell where the next one goes. */

static uint8_t *put_number(uint8_t *to, uint64_t bytes, uint64_t number)
{
    for (uint64_t i = bytes; i > 0; i--, number /= 256)
        to[i - 1] = (uint8_t)(number % 256);
    return to + bytes;
}

static uint8_t *put_header(uint8_t *to, int part, uint64_t body_len)
{
    return put_number(put_number(to, 1, parts[part].tag), 2, body_len);
}

/* A part whose body is a number, of the one length that suits it. */
static uint8_t *put_number_part(uint8_t *to, int part, uint64_t number)
{
    return put_number(put_header(to, part, parts[part].longest), parts[part].longest, number);
}

/* An input, of which so many bytes are read. */
typedef struct {
    const uint8_t *bytes;
    uint64_t len, taken;
} cursor;

typedef struct {
    const uint8_t *bytes;
    uint64_t len;
} body;

/* The next bytes, or NULL where so many are not left. */
static const uint8_t *take(cursor *from, uint64_t bytes)
{
    if (from->len - from->taken < bytes)
        return NULL;
    from->taken += bytes;
    return from->bytes + (from->taken - bytes);
}

static uint64_t number_of(body b)
{
    uint64_t number = 0;
    for (uint64_t i = 0; i < b.len; i++)
        number = number * 256 + b.bytes[i];
    return number;
}

/* Reads what must be this part. 16, 17, or 0 for none. */
static uint64_t take_part(cursor *from, int part, body *found)
{
    const uint8_t *tag = take(from, 1);
    if (tag == NULL)
        return 17;
    if (*tag != parts[part].tag)
        return 16;
    body length = {take(from, 2), 2};
    if (length.bytes == NULL)
        return 17;
    found->len = number_of(length);
    if (found->len < parts[part].shortest || found->len > parts[part].longest)
        return 17;
    found->bytes = take(from, found->len);
    return found->bytes == NULL ? 17 : 0;
}

/* ---- The calls ---- */

uint64_t model_start(uint64_t field, uint64_t n, uint64_t m,
                     uint64_t *record, size_t record_len,
                     uint64_t *answer, size_t answer_len)
{
    if (record_len != HZ_RECORD_WORDS || answer_len != HZ_ANSWER_WORDS)
        return HZ_BAD_WORDS;
    uint64_t detail, bad = bad_number(field, n, m, &detail);
    if (bad)
        return refuse(answer, bad, detail);
    record[HZ_FIELD] = field;
    record[HZ_SHARES] = n;
    record[HZ_SIZE] = m;
    record[HZ_MASK_TAKEN] = 0;
    record[HZ_NONZERO_TAKEN] = 0;
    enter_column(record, 1);
    return say(HZ_FRESH, answer, 0, 0, 0, 0);
}

uint64_t model_wanted(const uint64_t *record, size_t record_len,
                      uint64_t *answer, size_t answer_len)
{
    if (record_len != HZ_RECORD_WORDS || answer_len != HZ_ANSWER_WORDS)
        return HZ_BAD_WORDS;
    uint64_t field = record[HZ_FIELD], n = record[HZ_SHARES], m = record[HZ_SIZE];
    uint64_t step = record[HZ_STEP], j = record[HZ_J];
    uint64_t detail, bad = bad_number(field, n, m, &detail);
    if (bad)
        return refuse(answer, bad, detail);
    bad = bad_record(record);
    if (bad)
        return refuse(answer, bad, 0);
    return say(HZ_WANTED, answer, model_mask_draws(field, n, m, step, j), model_nonzero_draws(n, step), 0, 0);
}

uint64_t model_step(uint64_t *record, size_t record_len,
                    uint8_t *table, size_t table_len,
                    uint8_t *solution, size_t solution_len,
                    const uint8_t *mask, size_t mask_len,
                    const uint8_t *nonzero, size_t nonzero_len,
                    uint64_t *answer, size_t answer_len)
{
    if (record_len != HZ_RECORD_WORDS || answer_len != HZ_ANSWER_WORDS)
        return HZ_BAD_WORDS;
    uint64_t field = record[HZ_FIELD], n = record[HZ_SHARES], m = record[HZ_SIZE];
    uint64_t step = record[HZ_STEP], j = record[HZ_J], k = record[HZ_K];
    uint64_t detail, bad = bad_number(field, n, m, &detail);
    if (bad)
        return refuse(answer, bad, detail);
    if (table_len != m * (m + 1) * n)
        return refuse(answer, 4, m * (m + 1) * n);
    if (solution_len != m)
        return refuse(answer, 5, m);
    bad = bad_record(record);
    if (bad)
        return refuse(answer, bad, 0);
    cell large = first_large(field, m, m, n, table);
    if (large.row)
        return refuse_cell(answer, 6, large);
    uint64_t mask_wanted = model_mask_draws(field, n, m, step, j), nonzero_wanted = model_nonzero_draws(n, step);
    bad = bad_tape(mask_len, mask_wanted, 7, 14);
    if (bad)
        return refuse(answer, bad, mask_wanted);
    bad = bad_tape(nonzero_len, nonzero_wanted, 8, 15);
    if (bad)
        return refuse(answer, bad, nonzero_wanted);
    size_t zero = first_zero_draw(field, nonzero, nonzero_len);
    if (zero < nonzero_len)
        return refuse(answer, 9, zero);
    if (step == HZ_LIFT && field == 16 && solution[j - 1] >= 16)
        return refuse(answer, 20, j);

    task t = {field, n, m, m, table, {mask, 0}, {nonzero, 0}};
    bool stops = false;
    switch (step) {
    case HZ_MIX:
        mix(&t, j, j, k);
        break;
    case HZ_CHECK:
        stops = check(&t, j, j);
        break;
    case HZ_SCALE:
        if (!scale(&t, j, j))
            return refuse_cell(answer, 12, (cell){j, j, 0});
        break;
    case HZ_CLEAR:
        clear(&t, j, j, k);
        break;
    case HZ_OPEN:
        solution[j - 1] = open_unknown(&t, j);
        break;
    case HZ_LIFT:
        lift(&t, j, j, solution);
        break;
    }
    record[HZ_MASK_TAKEN] += t.mask.taken;
    record[HZ_NONZERO_TAKEN] += t.nonzero.taken;
    if (stops) {
        set_place(record, HZ_AT_STOPPED, j, 0);
        return say(HZ_STOPPED, answer, j, 0, 0, 0);
    }
    move_on(record);
    if (step != HZ_OPEN)
        return say(HZ_MOVED, answer, 0, 0, 0, 0);
    if (j == 1)
        return say(HZ_DONE, answer, solution[0], 0, 0, 0);
    return say(HZ_OPENED, answer, j, solution[j - 1], 0, 0);
}

/* Runs the list on a task without its refusals. Returns the column at which it
 * stopped, or 0 for solved; *steps is the number of steps taken. */
static uint64_t run_list(task *t, uint8_t *solution, uint64_t *steps)
{
    *steps = 0;
    for (uint64_t j = 1; j <= t->rows; j++) {
        for (uint64_t k = j + 1; k <= t->rows; k++, ++*steps)
            mix(t, j, j, k);
        ++*steps;
        if (check(t, j, j))
            return j;
        ++*steps;
        scale(t, j, j); /* its pivot was just seen not to be 0 */
        for (uint64_t k = j + 1; k <= t->rows; k++, ++*steps)
            clear(t, j, j, k);
    }
    for (uint64_t j = t->rows; j >= 1; j--) {
        ++*steps;
        solution[j - 1] = open_unknown(t, j);
        if (j == 1)
            break; /* there is no Lift(1) */
        ++*steps;
        lift(t, j, j, solution);
    }
    return 0;
}

uint64_t model_solve(uint64_t field, uint64_t n, uint64_t m,
                     uint8_t *table, size_t table_len,
                     uint8_t *solution, size_t solution_len,
                     const uint8_t *mask, size_t mask_len,
                     const uint8_t *nonzero, size_t nonzero_len,
                     uint64_t *answer, size_t answer_len)
{
    if (answer_len != HZ_ANSWER_WORDS)
        return HZ_BAD_WORDS;
    uint64_t detail, bad = bad_number(field, n, m, &detail);
    if (bad)
        return refuse(answer, bad, detail);
    if (table_len != m * (m + 1) * n)
        return refuse(answer, 4, m * (m + 1) * n);
    if (solution_len != m)
        return refuse(answer, 5, m);
    cell large = first_large(field, m, m, n, table);
    if (large.row)
        return refuse_cell(answer, 6, large);
    if (mask_len < model_full_mask_draws(field, n, m))
        return refuse(answer, 7, model_full_mask_draws(field, n, m));
    if (nonzero_len < m * (n - 1))
        return refuse(answer, 8, m * (n - 1));
    size_t zero = first_zero_draw(field, nonzero, m * (n - 1));
    if (zero < m * (n - 1))
        return refuse(answer, 9, zero);

    task t = {field, n, m, m, table, {mask, 0}, {nonzero, 0}};
    uint64_t steps;
    uint64_t column = run_list(&t, solution, &steps);
    if (column == 0)
        return say(HZ_SOLVED, answer, steps, t.mask.taken, t.nonzero.taken, 0);
    memset(solution, 0, m);
    return say(HZ_STOPPED, answer, column, steps, t.mask.taken, t.nonzero.taken);
}

uint64_t model_plain(uint64_t field, uint64_t m,
                     const uint8_t *values, size_t values_len,
                     uint8_t *solution, size_t solution_len,
                     uint64_t *answer, size_t answer_len)
{
    if (answer_len != HZ_ANSWER_WORDS)
        return HZ_BAD_WORDS;
    uint64_t detail, bad = bad_number(field, 2, m, &detail); /* there are no shares to refuse */
    if (bad)
        return refuse(answer, bad, detail);
    if (values_len != m * (m + 1))
        return refuse(answer, 4, m * (m + 1));
    if (solution_len != m)
        return refuse(answer, 5, m);
    cell large = first_large_value(field, m, values);
    if (large.row)
        return refuse_cell(answer, 6, large);

    uint64_t pivots[96], found = by_columns(&(shape){field, m, m}, values, pivots, solution), column = 1;
    if (found == m)
        return say(HZ_SOLVED, answer, 0, 0, 0, 0);
    while (column <= found && pivots[column - 1] == column)
        column++; /* to the first that is no pivot */
    memset(solution, 0, m);
    return say(HZ_STOPPED, answer, column, 0, 0, 0);
}

uint64_t model_deal(uint64_t field, uint64_t n, uint64_t m,
                    const uint8_t *values, size_t values_len,
                    uint8_t *table, size_t table_len,
                    const uint8_t *mask, size_t mask_len,
                    uint64_t *answer, size_t answer_len)
{
    if (answer_len != HZ_ANSWER_WORDS)
        return HZ_BAD_WORDS;
    uint64_t detail, bad = bad_number(field, n, m, &detail);
    if (bad)
        return refuse(answer, bad, detail);
    uint64_t entries = m * (m + 1);
    if (values_len != entries)
        return refuse(answer, 4, entries);
    if (table_len != entries * n)
        return refuse(answer, 5, entries * n);
    cell large = first_large_value(field, m, values);
    if (large.row)
        return refuse_cell(answer, 6, large);
    if (mask_len < entries * (n - 1))
        return refuse(answer, 7, entries * (n - 1));

    task t = {field, n, m, m, table, {mask, 0}, {mask, 0}};
    for (uint64_t row = 1; row <= m; row++)
        for (uint64_t column = 1; column <= m + 1; column++) {
            sharing a = {{values[(row - 1) * (m + 1) + (column - 1)]}};
            put(&t, row, column, refresh(&t, a)); /* shares 2..n were 0: they become the draws */
        }
    return say(HZ_FILLED, answer, 0, 0, 0, 0);
}

uint64_t model_gather(uint64_t field, uint64_t n, uint64_t m,
                      const uint8_t *table, size_t table_len,
                      uint8_t *values, size_t values_len,
                      uint64_t *answer, size_t answer_len)
{
    if (answer_len != HZ_ANSWER_WORDS)
        return HZ_BAD_WORDS;
    uint64_t detail, bad = bad_number(field, n, m, &detail);
    if (bad)
        return refuse(answer, bad, detail);
    uint64_t entries = m * (m + 1);
    if (table_len != entries * n)
        return refuse(answer, 4, entries * n);
    if (values_len != entries)
        return refuse(answer, 5, entries);
    cell large = first_large(field, m, m, n, table);
    if (large.row)
        return refuse_cell(answer, 6, large);

    for (uint64_t e = 0; e < entries; e++) {
        values[e] = 0;
        for (uint64_t s = 0; s < n; s++)
            values[e] ^= table[e * n + s];
    }
    return say(HZ_FILLED, answer, 0, 0, 0, 0);
}

uint64_t model_counts(uint64_t field, uint64_t n, uint64_t m, uint64_t *answer, size_t answer_len)
{
    if (answer_len != HZ_ANSWER_WORDS)
        return HZ_BAD_WORDS;
    uint64_t detail, bad = bad_number(field, n, m, &detail);
    if (bad)
        return refuse(answer, bad, detail);
    return say(HZ_COUNTS, answer, m * m + 3 * m - 1, model_full_mask_draws(field, n, m), m * (n - 1), 0);
}

uint64_t model_write(uint64_t field, uint64_t n, uint64_t m,
                     const uint8_t *table, size_t table_len,
                     uint8_t *target, size_t target_len,
                     uint64_t *answer, size_t answer_len)
{
    if (answer_len != HZ_ANSWER_WORDS)
        return HZ_BAD_WORDS;
    uint64_t detail, bad = bad_number(field, n, m, &detail);
    if (bad)
        return refuse(answer, bad, detail);
    if (table_len != m * (m + 1) * n)
        return refuse(answer, 4, m * (m + 1) * n);
    if (target_len != record_length(table_len))
        return refuse(answer, 5, record_length(table_len));
    cell large = first_large(field, m, m, n, table);
    if (large.row)
        return refuse_cell(answer, 6, large);

    uint8_t *to = put_number_part(target, FIELD, field);
    to = put_number_part(to, SHARES, n);
    to = put_number_part(to, SIZE, m);
    to = put_header(to, TABLE, table_len);
    memcpy(to, table, table_len);
    put_header(to + table_len, END, 0);
    return say(HZ_FILLED, answer, 0, 0, 0, 0);
}

uint64_t model_read(const uint8_t *input, size_t input_len,
                    uint64_t *answer, size_t answer_len)
{
    if (answer_len != HZ_ANSWER_WORDS)
        return HZ_BAD_WORDS;
    cursor from = {input, input_len, 0};
    body found[PARTS];
    for (int part = 0; part < PARTS; part++) {
        uint64_t first = from.taken, bad = take_part(&from, part, &found[part]);
        if (bad)
            return refuse(answer, bad, first);
    }
    if (from.taken < input_len)
        return refuse(answer, 18, from.taken);

    uint64_t field = number_of(found[FIELD]), n = number_of(found[SHARES]), m = number_of(found[SIZE]);
    uint64_t detail, bad = bad_number(field, n, m, &detail);
    if (bad)
        return refuse(answer, bad, detail);
    if (found[TABLE].len != m * (m + 1) * n)
        return refuse(answer, 4, m * (m + 1) * n);
    cell large = first_large(field, m, m, n, found[TABLE].bytes);
    if (large.row)
        return refuse_cell(answer, 6, large);
    return say(HZ_SYSTEM, answer, field, n, m, found[TABLE].len);
}

/* ---- The calls for wide systems (R-8) ---- */

uint64_t model_wide_start(uint64_t field, uint64_t n, uint64_t rows, uint64_t columns,
                          uint64_t *record, size_t record_len,
                          uint64_t *answer, size_t answer_len)
{
    if (record_len != HZ_WIDE_RECORD_WORDS || answer_len != HZ_ANSWER_WORDS)
        return HZ_BAD_WORDS;
    uint64_t detail, bad = bad_wide_number(field, n, rows, columns, &detail);
    if (bad)
        return refuse(answer, bad, detail);
    for (size_t word = 0; word < HZ_WIDE_RECORD_WORDS; word++)
        record[word] = 0;
    record[HZ_WIDE_FIELD] = field;
    record[HZ_WIDE_SHARES] = n;
    record[HZ_WIDE_ROWS] = rows;
    record[HZ_WIDE_COLUMNS] = columns;
    enter_wide_column(record, 1);
    return say(HZ_FRESH, answer, 0, 0, 0, 0);
}

uint64_t model_wide_counts(uint64_t field, uint64_t n, uint64_t rows, uint64_t columns,
                           uint64_t *answer, size_t answer_len)
{
    if (answer_len != HZ_ANSWER_WORDS)
        return HZ_BAD_WORDS;
    uint64_t detail, bad = bad_wide_number(field, n, rows, columns, &detail);
    if (bad)
        return refuse(answer, bad, detail);
    return say(HZ_WANTED, answer, model_wide_mask_draws(n, rows, columns), rows * (n - 1), 0, 0);
}

uint64_t model_wide_wanted(const uint64_t *record, size_t record_len,
                           uint64_t *answer, size_t answer_len)
{
    if (record_len != HZ_WIDE_RECORD_WORDS || answer_len != HZ_ANSWER_WORDS)
        return HZ_BAD_WORDS;
    uint64_t field = record[HZ_WIDE_FIELD], n = record[HZ_WIDE_SHARES], columns = record[HZ_WIDE_COLUMNS];
    uint64_t step = record[HZ_WIDE_STEP], j = record[HZ_WIDE_J];
    uint64_t detail, bad = bad_wide_number(field, n, record[HZ_WIDE_ROWS], columns, &detail);
    if (bad)
        return refuse(answer, bad, detail);
    bad = bad_wide_record(record);
    if (bad)
        return refuse(answer, bad, 0);
    return say(HZ_WANTED, answer, model_mask_draws(field, n, columns, step, j), model_nonzero_draws(n, step), 0, 0);
}

uint64_t model_wide_step(uint64_t *record, size_t record_len,
                         uint8_t *table, size_t table_len,
                         uint8_t *solution, size_t solution_len,
                         const uint8_t *mask, size_t mask_len,
                         const uint8_t *nonzero, size_t nonzero_len,
                         uint64_t *answer, size_t answer_len)
{
    if (record_len != HZ_WIDE_RECORD_WORDS || answer_len != HZ_ANSWER_WORDS)
        return HZ_BAD_WORDS;
    uint64_t field = record[HZ_WIDE_FIELD], n = record[HZ_WIDE_SHARES];
    uint64_t rows = record[HZ_WIDE_ROWS], columns = record[HZ_WIDE_COLUMNS];
    uint64_t step = record[HZ_WIDE_STEP], j = record[HZ_WIDE_J], k = record[HZ_WIDE_K];
    uint64_t detail, bad = bad_wide_number(field, n, rows, columns, &detail);
    if (bad)
        return refuse(answer, bad, detail);
    if (table_len != rows * (columns + 1) * n)
        return refuse(answer, 4, rows * (columns + 1) * n);
    if (solution_len != columns)
        return refuse(answer, 5, columns);
    bad = bad_wide_record(record);
    if (bad)
        return refuse(answer, bad, 0);
    cell large = first_large(field, rows, columns, n, table);
    if (large.row)
        return refuse_cell(answer, 6, large);
    uint64_t mask_wanted = model_mask_draws(field, n, columns, step, j), nonzero_wanted = model_nonzero_draws(n, step);
    bad = bad_tape(mask_len, mask_wanted, 7, 14);
    if (bad)
        return refuse(answer, bad, mask_wanted);
    bad = bad_tape(nonzero_len, nonzero_wanted, 8, 15);
    if (bad)
        return refuse(answer, bad, nonzero_wanted);
    size_t zero = first_zero_draw(field, nonzero, nonzero_len);
    if (zero < nonzero_len)
        return refuse(answer, 9, zero);
    if (step == HZ_LIFT && solution[j - 1] >= 16)
        return refuse(answer, 20, j);

    task t = {field, n, rows, columns, table, {mask, 0}, {nonzero, 0}};
    uint64_t row = row_of_place(record);
    bool passed_over = false;
    switch (step) {
    case HZ_MIX:
        mix(&t, row, j, k);
        break;
    case HZ_CHECK:
        passed_over = check(&t, row, j);
        break;
    case HZ_SCALE:
        if (!scale(&t, row, j))
            return refuse_cell(answer, 12, (cell){row, j, 0});
        break;
    case HZ_CLEAR:
        clear(&t, row, j, k);
        break;
    case HZ_OPEN:
        solution[j - 1] = open_unknown(&t, row);
        break;
    case HZ_LIFT:
        lift(&t, row, j, solution);
        break;
    }
    record[HZ_WIDE_MASK_TAKEN] += t.mask.taken;
    record[HZ_WIDE_NONZERO_TAKEN] += t.nonzero.taken;
    move_wide_on(record, passed_over);
    if (step == HZ_OPEN)
        return say(row == 1 ? HZ_DONE : HZ_OPENED, answer, j, solution[j - 1], 0, 0);
    return say(record[HZ_WIDE_STEP] == HZ_AT_SHORT ? HZ_SHORT : HZ_MOVED, answer, 0, 0, 0, 0);
}

/* Runs a wide list on a task without its refusals, and leaves the solution. True where
 * each row has a pivot; *steps is the number of steps taken. */
static bool run_wide_list(task *t, uint8_t *solution, uint64_t *steps)
{
    uint64_t pivots[96], row = 1;
    *steps = 0;
    memset(solution, 0, t->columns);
    for (uint64_t j = 1; j <= t->columns && row <= t->rows; j++) {
        for (uint64_t k = row + 1; k <= t->rows; k++, ++*steps)
            mix(t, row, j, k);
        ++*steps;
        if (check(t, row, j))
            continue;
        ++*steps;
        scale(t, row, j); /* its pivot was just seen not to be 0 */
        for (uint64_t k = row + 1; k <= t->rows; k++, ++*steps)
            clear(t, row, j, k);
        pivots[row - 1] = j;
        row++;
    }
    if (row <= t->rows)
        return false;
    for (row = t->rows; row >= 1; row--) {
        uint64_t j = pivots[row - 1];
        ++*steps;
        solution[j - 1] = open_unknown(t, row);
        if (row == 1)
            break; /* the first pivot has no Lift */
        ++*steps;
        lift(t, row, j, solution);
    }
    return true;
}

uint64_t model_wide_solve(uint64_t field, uint64_t n, uint64_t rows, uint64_t columns,
                          uint8_t *table, size_t table_len,
                          uint8_t *solution, size_t solution_len,
                          const uint8_t *mask, size_t mask_len,
                          const uint8_t *nonzero, size_t nonzero_len,
                          uint64_t *answer, size_t answer_len)
{
    if (answer_len != HZ_ANSWER_WORDS)
        return HZ_BAD_WORDS;
    uint64_t detail, bad = bad_wide_number(field, n, rows, columns, &detail);
    if (bad)
        return refuse(answer, bad, detail);
    if (table_len != rows * (columns + 1) * n)
        return refuse(answer, 4, rows * (columns + 1) * n);
    if (solution_len != columns)
        return refuse(answer, 5, columns);
    cell large = first_large(field, rows, columns, n, table);
    if (large.row)
        return refuse_cell(answer, 6, large);
    if (mask_len < model_wide_mask_draws(n, rows, columns))
        return refuse(answer, 7, model_wide_mask_draws(n, rows, columns));
    if (nonzero_len < rows * (n - 1))
        return refuse(answer, 8, rows * (n - 1));
    size_t zero = first_zero_draw(field, nonzero, rows * (n - 1));
    if (zero < rows * (n - 1))
        return refuse(answer, 9, zero);

    task t = {field, n, rows, columns, table, {mask, 0}, {nonzero, 0}};
    uint64_t steps;
    bool solved = run_wide_list(&t, solution, &steps);
    return say(solved ? HZ_SOLVED : HZ_SHORT, answer, steps, t.mask.taken, t.nonzero.taken, 0);
}
