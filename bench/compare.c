/* Compares the C solves with the model on random systems, also on some that stop or are
 * short, and on wide ones with columns that are passed over. */
#include "model.h"
#include "solves.h"

#include "hostozaro.h"

#include <inttypes.h>
#include <stdbool.h>
#include <stdio.h>
#include <stdlib.h>
#include <string.h>

#define MAX_ENTRIES (96 * 145)
#define MAX_MASK 12528144 /* wide, n = 4, 96 rows, 144 columns */

typedef struct {
    uint64_t field, n, rows, columns;
    bool wide;
} sizes;

static sizes size;
static size_t entries, table_len, mask_len, nonzero_len;
static uint8_t values[MAX_ENTRIES], table[MAX_ENTRIES * 4], mask[MAX_MASK], nonzero[96 * 3];

static uint8_t any(void)
{
    return (uint8_t)(rand() >> 8);
}

static void make_system(sizes s, bool sparse)
{
    size = s;
    entries = s.rows * (s.columns + 1);
    table_len = entries * s.n;
    mask_len = s.wide ? model_wide_mask_draws(s.n, s.rows, s.columns) : model_full_mask_draws(s.field, s.n, s.rows);
    nonzero_len = s.rows * (s.n - 1);
    for (size_t i = 0; i < mask_len; i++)
        mask[i] = any();
    for (size_t i = 0; i < nonzero_len; i++)
        do
            nonzero[i] = any();
        while (nonzero[i] % s.field == 0);
    for (size_t e = 0; e < entries; e++) {
        values[e] = any() % s.field;
        if (sparse && rand() % 3 != 0)
            values[e] = 0;
        table[e * s.n] = values[e];
        for (uint64_t i = 1; i < s.n; i++) {
            table[e * s.n + i] = any() % s.field;
            table[e * s.n] ^= table[e * s.n + i];
        }
    }
}

/* What a solve leaves. */
typedef struct {
    uint64_t code, answer[4];
    uint8_t table[MAX_ENTRIES * 4], x[144];
} result;

static result wanted, got;

static void must_be_same(const char *name, bool same)
{
    if (same)
        return;
    printf("%s differs: field %" PRIu64 " shares %" PRIu64 " rows %" PRIu64 " columns %" PRIu64 "\n", name, size.field,
           size.n, size.rows, size.columns);
    exit(1);
}

static void by_model(result *r)
{
    memcpy(r->table, table, table_len);
    if (size.wide)
        r->code = model_wide_solve(size.field, size.n, size.rows, size.columns, r->table, table_len, r->x,
                                   size.columns, mask, mask_len, nonzero, nonzero_len, r->answer, 4);
    else
        r->code = model_solve(size.field, size.n, size.rows, r->table, table_len, r->x, size.rows, mask, mask_len,
                              nonzero, nonzero_len, r->answer, 4);
}

static void compare(const char *name, shared_solve *square, wide_solve *wide)
{
    memcpy(got.table, table, table_len);
    if (size.wide)
        got.code = wide(size.field, size.n, size.rows, size.columns, got.table, got.x, mask, nonzero, got.answer);
    else
        got.code = square(size.field, size.n, size.rows, got.table, got.x, mask, nonzero, got.answer);
    must_be_same(name, got.code == wanted.code && memcmp(got.table, wanted.table, table_len) == 0
                           && memcmp(got.x, wanted.x, size.columns) == 0
                           && memcmp(got.answer, wanted.answer, sizeof got.answer) == 0);
}

static void compare_plain(void)
{
    uint64_t stop = plain_solve(size.field, size.rows, values, got.x);
    must_be_same("plain", stop == (wanted.code == HZ_SOLVED ? 0 : wanted.answer[0])
                              && (stop != 0 || memcmp(got.x, wanted.x, size.rows) == 0));
}

int main(void)
{
    static const uint64_t largest[3][2] = {{64, 72}, {96, 110}, {96, 144}};
    for (unsigned i = 0; i < 4000; i++) {
        sizes s = {.n = 2 + i / 4 % 3, .wide = i % 2 == 1};
        s.field = !s.wide && i / 2 % 2 == 1 ? 256 : 16;
        s.rows = s.columns = i < 192 ? 1 + i / 2 : 1 + (uint64_t)rand() % 16;
        if (s.wide)
            s.columns = s.rows + (uint64_t)rand() % 9;
        if (s.wide && i < 18)
            s.rows = largest[i / 6][0], s.columns = largest[i / 6][1];
        make_system(s, i / 2 % 5 == 0);
        by_model(&wanted);
        compare("best", best_solve, best_wide_solve);
        compare("ordered", ordered_solve, ordered_wide_solve);
        if (!s.wide)
            compare_plain();
    }
    printf("the C solves give the same results as the model\n");
    return 0;
}
