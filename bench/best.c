/* The masked solve with additions in whatever order the compiler likes. */
#define HOLD(v) ((void)0)
#define HOLD_BYTE(v) ((void)0)
#include "rows.h"

uint64_t best_solve(uint64_t field, uint64_t shares, uint64_t size, uint8_t *table, uint8_t *solution,
                    const uint8_t *mask, const uint8_t *nonzero, uint64_t answer[4])
{
    return solve_rows(field, shares, size, size, false, table, solution, mask, nonzero, answer);
}

uint64_t best_wide_solve(uint64_t field, uint64_t shares, uint64_t rows, uint64_t columns, uint8_t *table,
                         uint8_t *solution, const uint8_t *mask, const uint8_t *nonzero, uint64_t answer[4])
{
    return solve_rows(field, shares, rows, columns, true, table, solution, mask, nonzero, answer);
}
