/* hz_step, hz_solve, hz_wide_step and hz_wide_solve made of bench/rows.h, as
 * bench/ordered.c is: what the library's object code is to be like. For right inputs
 * only, and of wide systems only for places after which the system is not short; the
 * steps leave the record as it is. The mutants are this with another rows.h. */
#define HOLD(v) __asm__("" : IN_PLACE(v))
#define HOLD_BYTE(v) __asm__("" : "+r"(v))
#include "rows.h"

uint64_t hz_solve(uint64_t field, uint64_t shares, uint64_t size, uint8_t *table, size_t table_len, uint8_t *solution,
                  size_t solution_len, const uint8_t *mask, size_t mask_len, const uint8_t *nonzero, size_t nonzero_len,
                  uint64_t *answer, size_t answer_len)
{
    (void)table_len, (void)solution_len, (void)mask_len, (void)nonzero_len, (void)answer_len;
    return solve_rows(field, shares, size, size, false, table, solution, mask, nonzero, answer);
}

uint64_t hz_wide_solve(uint64_t field, uint64_t shares, uint64_t rows, uint64_t columns, uint8_t *table,
                       size_t table_len, uint8_t *solution, size_t solution_len, const uint8_t *mask, size_t mask_len,
                       const uint8_t *nonzero, size_t nonzero_len, uint64_t *answer, size_t answer_len)
{
    (void)table_len, (void)solution_len, (void)mask_len, (void)nonzero_len, (void)answer_len;
    return solve_rows(field, shares, rows, columns, true, table, solution, mask, nonzero, answer);
}

/* The place of a record; r stands for column j. */
typedef struct {
    uint64_t step;
    size_t r, j, k;
    bool wide;
} place;

INLINE uint64_t step(work *t, unsigned w, unsigned n, place at, uint8_t *solution)
{
    switch (at.step) {
    case HZ_MIX: mix(t, w, n, at.r, at.j, at.k); return HZ_MOVED;
    case HZ_CHECK: return check(t, w, n, at.r, at.j) && !at.wide ? HZ_STOPPED : HZ_MOVED;
    case HZ_SCALE: scale(t, w, n, at.r, at.j); return HZ_MOVED;
    case HZ_CLEAR: clear(t, w, n, at.r, at.j, at.k); return HZ_MOVED;
    case HZ_OPEN: solution[at.j] = open_unknown(t, w, n, at.r); return at.r == 0 ? HZ_DONE : HZ_OPENED;
    default: lift(t, w, n, at.r, at.j, solution[at.j]); return HZ_MOVED;
    }
}

static uint64_t step_of(uint64_t field, size_t n, size_t row_count, size_t columns, place at, uint8_t *table,
                        uint8_t *solution, const uint8_t *mask, const uint8_t *nonzero)
{
    planes rows[96];
    work t = {row_count, columns, rows, mask, nonzero};
    uint64_t code = 0;
    take_table(&t, n, table);
    switch (field + n) {
    case 16 + 2: code = step(&t, 4, 2, at, solution); break;
    case 16 + 3: code = step(&t, 4, 3, at, solution); break;
    case 16 + 4: code = step(&t, 4, 4, at, solution); break;
    case 256 + 2: code = step(&t, 8, 2, at, solution); break;
    case 256 + 3: code = step(&t, 8, 3, at, solution); break;
    case 256 + 4: code = step(&t, 8, 4, at, solution); break;
    }
    give_table(&t, n, table);
    return code;
}

uint64_t hz_step(uint64_t *record, size_t record_len, uint8_t *table, size_t table_len, uint8_t *solution,
                 size_t solution_len, const uint8_t *mask, size_t mask_len, const uint8_t *nonzero, size_t nonzero_len,
                 uint64_t *answer, size_t answer_len)
{
    (void)record_len, (void)table_len, (void)solution_len, (void)mask_len, (void)nonzero_len;
    (void)answer, (void)answer_len;
    place at = {record[HZ_STEP], record[HZ_J] - 1, record[HZ_J] - 1, record[HZ_K] - 1, false};
    return step_of(record[HZ_FIELD], record[HZ_SHARES], record[HZ_SIZE], record[HZ_SIZE], at, table, solution, mask,
                   nonzero);
}

uint64_t hz_wide_step(uint64_t *record, size_t record_len, uint8_t *table, size_t table_len, uint8_t *solution,
                      size_t solution_len, const uint8_t *mask, size_t mask_len, const uint8_t *nonzero,
                      size_t nonzero_len, uint64_t *answer, size_t answer_len)
{
    (void)record_len, (void)table_len, (void)solution_len, (void)mask_len, (void)nonzero_len;
    (void)answer, (void)answer_len;
    place at = {record[HZ_WIDE_STEP], record[HZ_WIDE_FOUND], record[HZ_WIDE_J] - 1, record[HZ_WIDE_K] - 1, true};
    if (at.step != HZ_MIX && at.step != HZ_CHECK)
        for (at.r = 0; record[HZ_WIDE_PIVOTS + at.r] != record[HZ_WIDE_J];)
            at.r++;
    return step_of(record[HZ_WIDE_FIELD], record[HZ_WIDE_SHARES], record[HZ_WIDE_ROWS], record[HZ_WIDE_COLUMNS], at,
                   table, solution, mask, nonzero);
}
