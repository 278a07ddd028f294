/* The masked solve of square and of wide systems, a row at a time, for best.c and
 * ordered.c. Before it is included, HOLD(v) for vectors and HOLD_BYTE(v) say what
 * keeps the compiler from merging the value v with what is added to it later.
 *
 * Shares are kept in planes: share s of a row's entries stand side by side. Rows,
 * columns and shares are numbered from 0 here. Row r stands for column j: it is
 * row j in a square system. */
#include "solves.h"
#include "vec.h"

#include "hostozaro.h"

#include <stdbool.h>

typedef uint8_t planes[4][STRIDE];

typedef struct {
    size_t rows, columns; /* b comes after the columns */
    planes *row;
    const uint8_t *mask, *nonzero; /* the next draws */
} work;

/* ---- Draws ---- */

INLINE uint8_t draw(unsigned w, const uint8_t **tape)
{
    return *(*tape)++ & (uint8_t)((1u << w) - 1);
}

/* split: the draws of LANES columns, `each` to a column, into a vector for each draw of a
 * column. */
#if LANES == 4

INLINE void split(unsigned w, unsigned each, const uint8_t *tape, vec z[6])
{
    for (unsigned i = 0; i < each; i++, tape++)
        z[i] = (tape[0] | (vec)tape[each] << 8 | (vec)tape[2 * each] << 16 | (vec)tape[3 * each] << 24)
               & all((1u << w) - 1);
}

#else

INLINE vec low_with_low(vec a, vec b)
{
    return __builtin_shuffle(a, b, (vec){0, 16, 1, 17, 2, 18, 3, 19, 4, 20, 5, 21, 6, 22, 7, 23});
}

INLINE vec high_half(vec a)
{
    return __builtin_shuffle(a, (vec){8, 9, 10, 11, 12, 13, 14, 15, 8, 9, 10, 11, 12, 13, 14, 15});
}

/* 32 bytes dealt out in twos. */
INLINE void split_2(vec a, vec b, vec *even, vec *odd)
{
    *even = __builtin_shuffle(a, b, (vec){0, 2, 4, 6, 8, 10, 12, 14, 16, 18, 20, 22, 24, 26, 28, 30});
    *odd = __builtin_shuffle(a, b, (vec){1, 3, 5, 7, 9, 11, 13, 15, 17, 19, 21, 23, 25, 27, 29, 31});
}

/* 48 bytes dealt out in threes. */
INLINE void split_3(vec *a, vec *b, vec *c)
{
    for (int round = 0; round < 4; round++) {
        vec x = low_with_low(*a, high_half(*b));
        vec y = low_with_low(high_half(*a), *c);
        vec z = low_with_low(*b, high_half(*c));
        *a = x;
        *b = y;
        *c = z;
    }
}

INLINE void split(unsigned w, unsigned each, const uint8_t *tape, vec z[6])
{
    vec v[6];
    for (unsigned i = 0; i < each; i++)
        v[i] = load(tape + LANES * i) & all((1u << w) - 1);
    if (each % 2 == 0) {
        vec even[3], odd[3];
        for (unsigned i = 0; i < each / 2; i++)
            split_2(v[2 * i], v[2 * i + 1], &even[i], &odd[i]);
        if (each == 6) {
            split_3(&even[0], &even[1], &even[2]);
            split_3(&odd[0], &odd[1], &odd[2]);
        }
        for (unsigned i = 0; i < each / 2; i++) {
            z[2 * i] = even[i];
            z[2 * i + 1] = odd[i];
        }
    } else {
        if (each == 3)
            split_3(&v[0], &v[1], &v[2]);
        for (unsigned i = 0; i < each; i++)
            z[i] = v[i];
    }
}

#endif

/* Where fewer than LANES columns are left no byte after their draws is read. */
INLINE void draw_columns(unsigned w, unsigned each, const uint8_t *tape, size_t columns, vec z[6])
{
    uint8_t rest[6 * LANES];
    if (columns < LANES) {
        memcpy(rest, tape, columns * each);
        memset(rest + columns * each, 0, (LANES - columns) * each);
        tape = rest;
    }
    split(w, each, tape, z);
}

/* ---- One entry ---- */

INLINE void get(const work *t, unsigned n, size_t r, size_t c, uint8_t a[4])
{
    for (unsigned s = 0; s < n; s++)
        a[s] = t->row[r][s][c];
}

INLINE void refresh(work *t, unsigned w, unsigned n, uint8_t a[4])
{
    for (unsigned s = 1; s < n; s++) {
        uint8_t r = draw(w, &t->mask);
        a[s] ^= r;
        a[0] ^= r;
    }
}

/* Opening's first half, and what R-6 has a fold do with its shifted copy. */
INLINE void pair_refresh(const uint8_t **mask, unsigned w, unsigned n, uint8_t a[4])
{
    for (unsigned i = 0; i < n; i++)
        for (unsigned j = i + 1; j < n; j++) {
            uint8_t r = draw(w, mask);
            a[i] ^= r;
            a[j] ^= r;
        }
}

INLINE uint8_t opening(work *t, unsigned w, unsigned n, uint8_t a[4])
{
    uint8_t sum = 0;
    pair_refresh(&t->mask, w, n, a);
    for (unsigned s = 0; s < n; s++) {
        HOLD_BYTE(a[s]);
        sum ^= a[s];
    }
    return sum;
}

/* a becomes the sharing of 1 where its value is 0, else of 0. */
INLINE void zero_flag(work *t, unsigned w, unsigned n, uint8_t a[4])
{
    const uint8_t *mask = t->mask; /* a copy, as in add_product */
    a[0] ^= (uint8_t)((1u << w) - 1);
    for (unsigned h = w / 2; h >= 1; h /= 2) {
        uint8_t b[4], out[4];
        for (unsigned s = 0; s < n; s++)
            b[s] = a[s] >> h;
        pair_refresh(&mask, w, n, b);
        for (unsigned s = 0; s < n; s++)
            out[s] = a[s] & b[s];
        for (unsigned i = 0; i < n; i++)
            for (unsigned j = i + 1; j < n; j++) {
                uint8_t z = draw(w, &mask), z2 = (a[i] & b[j]) ^ z;
                HOLD_BYTE(z2);
                z2 ^= a[j] & b[i];
                HOLD_BYTE(z2);
                out[i] ^= z;
                out[j] ^= z2;
            }
        memcpy(a, out, n);
    }
    for (unsigned s = 0; s < n; s++)
        a[s] &= 1;
    t->mask = mask;
}

/* ---- Rows ---- */

/* Row `to` += Product(a, row `from`), from column `first` on. A product is made of the
 * bits of row `from`, so each bit is looked at once for all shares of a. The
 * shares of the row are taken from the last: then a_i·b_j with i < j is there
 * before a_j·b_i. */
INLINE void add_product(work *t, unsigned w, unsigned n, size_t to, const uint8_t a[4], size_t from, size_t first)
{
    unsigned pairs = n * (n - 1) / 2;
    const size_t end = t->columns + 1; /* copies: a store of bytes could change *t, for all that gcc knows */
    const uint8_t *mask = t->mask;
    uint8_t(*const target)[STRIDE] = t->row[to];
    uint8_t(*const source)[STRIDE] = t->row[from];
    vec of_a[4][8];
    for (unsigned i = 0; i < n; i++)
        multiples(w, a[i], of_a[i]);
    for (size_t c = first; c < end; c += LANES) {
        size_t left = end - c < LANES ? end - c : LANES;
        vec z[6], cross[4][4], out[4];
        draw_columns(w, pairs, mask, left, z);
        mask += pairs * left;
        for (unsigned s = n; s-- > 0;) {
            vec b = load(source[s] + c), by[4] = {0};
            for (unsigned bit = 0; bit < w; bit++) {
                vec chosen = where_bit(b, bit);
                for (unsigned i = 0; i < n; i++)
                    by[i] ^= chosen & of_a[i][bit];
            }
            for (unsigned i = 0; i < s; i++) {
                cross[i][s] = by[i] ^ z[i * (2 * n - i - 1) / 2 + s - i - 1];
                HOLD(cross[i][s]);
            }
            out[s] = by[s];
            for (unsigned i = s + 1; i < n; i++) {
                cross[s][i] ^= by[i];
                HOLD(cross[s][i]);
            }
        }
        for (unsigned i = 0, p = 0; i < n; i++)
            for (unsigned j = i + 1; j < n; j++, p++) {
                out[i] ^= z[p];
                out[j] ^= cross[i][j];
            }
        for (unsigned s = 0; s < n; s++) {
            vec sum = out[s];
            HOLD(sum);
            store(target[s] + c, load(target[s] + c) ^ sum);
        }
    }
    t->mask = mask;
}

INLINE void mix(work *t, unsigned w, unsigned n, size_t r, size_t j, size_t k)
{
    uint8_t flag[4];
    get(t, n, r, j, flag);
    zero_flag(t, w, n, flag);
    add_product(t, w, n, r, flag, k, j);
}

/* Whether the pivot is 0. */
INLINE bool check(work *t, unsigned w, unsigned n, size_t r, size_t j)
{
    uint8_t flag[4];
    get(t, n, r, j, flag);
    zero_flag(t, w, n, flag);
    return opening(t, w, n, flag) == 1;
}

INLINE void scale(work *t, unsigned w, unsigned n, size_t r, size_t j)
{
    uint8_t a[4], factors[4];
    get(t, n, r, j, a);
    for (unsigned i = 0; i + 1 < n; i++) {
        factors[i] = draw(w, &t->nonzero);
        for (unsigned s = 0; s < n; s++)
            a[s] = times(w, a[s], factors[i]);
        refresh(t, w, n, a);
    }
    factors[n - 1] = inverse(w, opening(t, w, n, a));
    for (unsigned i = 0; i < n; i++) {
        vec of_factor[8];
        multiples(w, factors[i], of_factor);
        for (size_t c = j; c <= t->columns; c += LANES) {
            size_t left = t->columns + 1 - c < LANES ? t->columns + 1 - c : LANES;
            vec z[6], first = times_vec(w, of_factor, load(t->row[r][0] + c));
            draw_columns(w, n - 1, t->mask, left, z);
            t->mask += (n - 1) * left;
            for (unsigned s = 1; s < n; s++) {
                first ^= z[s - 1];
                store(t->row[r][s] + c, times_vec(w, of_factor, load(t->row[r][s] + c)) ^ z[s - 1]);
            }
            store(t->row[r][0] + c, first);
        }
    }
}

INLINE void clear(work *t, unsigned w, unsigned n, size_t r, size_t j, size_t k)
{
    uint8_t copy[4];
    get(t, n, k, j, copy);
    add_product(t, w, n, k, copy, r, j);
}

INLINE uint8_t open_unknown(work *t, unsigned w, unsigned n, size_t r)
{
    uint8_t a[4];
    get(t, n, r, t->columns, a);
    return opening(t, w, n, a);
}

/* x is the unknown that was opened, which is public: one product to each share. */
INLINE void lift(work *t, unsigned w, unsigned n, size_t r, size_t j, uint8_t x)
{
    for (size_t k = 0; k < r; k++)
        for (unsigned s = 0; s < n; s++)
            t->row[k][s][t->columns] ^= times(w, x, t->row[k][s][j]);
}

/* ---- The whole solve ---- */

/* What came of the step list. */
typedef struct {
    size_t found, steps; /* rows that have a pivot, steps taken */
} outcome;

/* A column whose Check opens 1 ends the list of a square system, and is passed over in a
 * wide one. */
INLINE outcome run_list(work *t, unsigned w, unsigned n, bool wide, uint8_t *solution)
{
    size_t pivots[96], r = 0, steps = 0;
    for (size_t j = 0; j < t->columns && r < t->rows; j++) {
        for (size_t k = r + 1; k < t->rows; k++)
            mix(t, w, n, r, j, k);
        steps += t->rows - r;
        if (check(t, w, n, r, j)) {
            if (wide)
                continue;
            break;
        }
        scale(t, w, n, r, j);
        for (size_t k = r + 1; k < t->rows; k++)
            clear(t, w, n, r, j, k);
        steps += t->rows - r;
        pivots[r++] = j;
    }
    if (r < t->rows)
        return (outcome){r, steps};
    while (r-- > 0) {
        solution[pivots[r]] = open_unknown(t, w, n, r);
        if (r > 0)
            lift(t, w, n, r, pivots[r], solution[pivots[r]]);
    }
    return (outcome){t->rows, steps + 2 * t->rows - 1};
}

/* One copy of the code for each field and number of shares. */
static outcome run_16_2(work *t, bool wide, uint8_t *solution) { return run_list(t, 4, 2, wide, solution); }
static outcome run_16_3(work *t, bool wide, uint8_t *solution) { return run_list(t, 4, 3, wide, solution); }
static outcome run_16_4(work *t, bool wide, uint8_t *solution) { return run_list(t, 4, 4, wide, solution); }
static outcome run_256_2(work *t, bool wide, uint8_t *solution) { return run_list(t, 8, 2, wide, solution); }
static outcome run_256_3(work *t, bool wide, uint8_t *solution) { return run_list(t, 8, 3, wide, solution); }
static outcome run_256_4(work *t, bool wide, uint8_t *solution) { return run_list(t, 8, 4, wide, solution); }

/* Copies here too: *t could change with the bytes. */
static void take_table(const work *t, size_t n, const uint8_t *table)
{
    const size_t rows = t->rows, width = t->columns + 1;
    planes *const to = t->row;
    for (size_t r = 0; r < rows; r++)
        for (size_t s = 0; s < n; s++) {
            for (size_t c = 0; c < width; c++)
                to[r][s][c] = table[(r * width + c) * n + s];
            memset(to[r][s] + width, 0, BEYOND);
        }
}

static void give_table(const work *t, size_t n, uint8_t *table)
{
    const size_t rows = t->rows, width = t->columns + 1;
    planes *const from = t->row;
    for (size_t r = 0; r < rows; r++)
        for (size_t c = 0; c < width; c++)
            for (size_t s = 0; s < n; s++)
                table[(r * width + c) * n + s] = from[r][s][c];
}

/* As hz_wide_solve answers where it is wide, and else as hz_solve. */
static uint64_t solve_rows(uint64_t field, uint64_t n, uint64_t row_count, uint64_t columns, bool wide, uint8_t *table,
                           uint8_t *solution, const uint8_t *mask, const uint8_t *nonzero, uint64_t answer[4])
{
    static outcome (*const runs[2][3])(work *, bool, uint8_t *) = {{run_16_2, run_16_3, run_16_4},
                                                                   {run_256_2, run_256_3, run_256_4}};
    planes rows[96];
    work t = {row_count, columns, rows, mask, nonzero};
    take_table(&t, n, table);
    memset(solution, 0, columns);
    outcome came = runs[field == 256][n - 2](&t, wide, solution);
    give_table(&t, n, table);

    uint64_t counts[4] = {came.steps, (uint64_t)(t.mask - mask), (uint64_t)(t.nonzero - nonzero), 0};
    bool stopped = !wide && came.found < row_count;
    if (stopped)
        *answer++ = came.found + 1;
    memcpy(answer, counts, (stopped ? 3 : 4) * sizeof *answer);
    return stopped ? HZ_STOPPED : came.found < row_count ? HZ_SHORT : HZ_SOLVED;
}
