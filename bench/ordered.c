/* The masked solve with additions in the paper's order. HOLD keeps it: after it
 * the compiler knows nothing of how v came about, so it can't move a term from
 * before to after it. */
#define HOLD(v) __asm__("" : IN_PLACE(v))
#define HOLD_BYTE(v) __asm__("" : "+r"(v))
#include "rows.h"

uint64_t ordered_solve(uint64_t field, uint64_t shares, uint64_t size, uint8_t *table, uint8_t *solution,
                       const uint8_t *mask, const uint8_t *nonzero, uint64_t answer[4])
{
    return solve_rows(field, shares, size, size, false, table, solution, mask, nonzero, answer);
}

uint64_t ordered_wide_solve(uint64_t field, uint64_t shares, uint64_t rows, uint64_t columns, uint8_t *table,
                            uint8_t *solution, const uint8_t *mask, const uint8_t *nonzero, uint64_t answer[4])
{
    return solve_rows(field, shares, rows, columns, true, table, solution, mask, nonzero, answer);
}
