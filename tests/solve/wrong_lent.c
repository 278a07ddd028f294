/* Spoils what ./solve lends on its way to the library, for tests/solve/run: ./solve
 * must say in words what the library refuses. WRONG in the environment says what:
 *
 *     value               the last value is 16, as hz_deal and hz_plain read it
 *     share               the last byte of the table is 16, for hz_solve and the steps
 *     table, solution     a step's table or solution lacks a byte
 *     short, long         a step's mask tape lacks a byte, or has one too many
 *     none, nonzero       the same of its nonzero tape
 *     draw                a step's first nonzero draw is 0
 *     step, ended         the record is at step 9, or done, with pivots 1 and 2 if it is a wide one
 *     pivot               the first step is Scale(1) instead, of two equations in two unknowns
 *     masks, nonzeros     the record counts a mask draw too many, or a nonzero draw
 *     unknown, other      the unknown that a Lift reads in the solution is 16, or another than Open wrote
 *
 * Linked with --wrap for the five calls. */
#include "hostozaro.h"

#include <stdbool.h>
#include <stdlib.h>
#include <string.h>

static bool wrong(const char *which)
{
    const char *named = getenv("WRONG");
    return named != NULL && strcmp(named, which) == 0;
}

uint64_t __real_hz_deal(uint64_t, uint64_t, uint64_t, const uint8_t *, size_t, uint8_t *, size_t, const uint8_t *,
                        size_t, uint64_t *, size_t);
uint64_t __wrap_hz_deal(uint64_t field, uint64_t shares, uint64_t size, const uint8_t *values, size_t values_len,
                        uint8_t *table, size_t table_len, const uint8_t *mask, size_t mask_len, uint64_t *answer,
                        size_t answer_len)
{
    if (wrong("value"))
        ((uint8_t *)values)[values_len - 1] = 16;
    return __real_hz_deal(field, shares, size, values, values_len, table, table_len, mask, mask_len, answer, answer_len);
}

uint64_t __real_hz_plain(uint64_t, uint64_t, const uint8_t *, size_t, uint8_t *, size_t, uint64_t *, size_t);
uint64_t __wrap_hz_plain(uint64_t field, uint64_t size, const uint8_t *values, size_t values_len, uint8_t *solution,
                         size_t solution_len, uint64_t *answer, size_t answer_len)
{
    if (wrong("value"))
        ((uint8_t *)values)[values_len - 1] = 16;
    return __real_hz_plain(field, size, values, values_len, solution, solution_len, answer, answer_len);
}

uint64_t __real_hz_solve(uint64_t, uint64_t, uint64_t, uint8_t *, size_t, uint8_t *, size_t, const uint8_t *, size_t,
                         const uint8_t *, size_t, uint64_t *, size_t);
uint64_t __wrap_hz_solve(uint64_t field, uint64_t shares, uint64_t size, uint8_t *table, size_t table_len,
                         uint8_t *solution, size_t solution_len, const uint8_t *mask, size_t mask_len,
                         const uint8_t *nonzero, size_t nonzero_len, uint64_t *answer, size_t answer_len)
{
    if (wrong("share"))
        table[table_len - 1] = 16;
    return __real_hz_solve(field, shares, size, table, table_len, solution, solution_len, mask, mask_len, nonzero,
                           nonzero_len, answer, answer_len);
}

/* Both kinds of step are lent the same. Only the words of their records stand elsewhere. */
typedef uint64_t step_call(uint64_t *, size_t, uint8_t *, size_t, uint8_t *, size_t, const uint8_t *, size_t,
                           const uint8_t *, size_t, uint64_t *, size_t);

typedef struct {
    step_call *real;
    size_t step, j, k, mask_taken, nonzero_taken;
    size_t found; /* 0 where there are no pivots */
} kind;

static void name_pivots(kind of, uint64_t *record, uint64_t found)
{
    for (uint64_t i = 1; of.found != 0 && i <= found; i++) {
        record[of.found] = i;
        record[HZ_WIDE_PIVOTS + i - 1] = i;
    }
}

static uint64_t spoilt_step(kind of, uint64_t *record, size_t record_len, uint8_t *table, size_t table_len,
                            uint8_t *solution, size_t solution_len, const uint8_t *mask, size_t mask_len,
                            const uint8_t *nonzero, size_t nonzero_len, uint64_t *answer, size_t answer_len)
{
    static const uint8_t draws[8] = {1, 2, 3, 4, 5, 6, 7, 8}; /* as many as a Scale(1) of two equations in two shares */
    if (wrong("share"))
        table[table_len - 1] = 16;
    if (wrong("pivot")) {
        record[of.step] = HZ_SCALE;
        record[of.k] = 0;
        record[of.mask_taken] = 12; /* 7 of Mix(1,2) and 5 of Check(1), or 19 would come before 12 */
        name_pivots(of, record, 1);
        return of.real(record, record_len, table, table_len, solution, solution_len, draws, 8, draws, 1, answer,
                       answer_len);
    }
    if (wrong("step") || wrong("ended")) {
        record[of.step] = wrong("step") ? 9 : HZ_AT_DONE;
        record[of.j] = record[of.k] = 0;
        name_pivots(of, record, 2);
        hz_counts(16, 2, 2, answer, answer_len);
        record[of.mask_taken] = answer[1]; /* a full solve's, or 19 would come before 11 */
        record[of.nonzero_taken] = answer[2];
    }
    if (wrong("unknown") && record[of.step] == HZ_LIFT)
        solution[record[of.j] - 1] = 16;
    if (wrong("other") && record[of.step] == HZ_LIFT)
        solution[record[of.j] - 1] ^= 1;
    record[of.mask_taken] += wrong("masks");
    record[of.nonzero_taken] += wrong("nonzeros");
    if (wrong("draw") && nonzero_len > 0)
        ((uint8_t *)nonzero)[0] = 0;
    mask_len = wrong("short") ? mask_len - 1 : wrong("long") ? mask_len + 1 : mask_len;
    nonzero_len = wrong("none") ? 0 : wrong("nonzero") ? nonzero_len + 1 : nonzero_len;
    return of.real(record, record_len, table, table_len - wrong("table"), solution, solution_len - wrong("solution"),
                   mask, mask_len, nonzero, nonzero_len, answer, answer_len);
}

step_call __real_hz_step, __real_hz_wide_step;

uint64_t __wrap_hz_step(uint64_t *record, size_t record_len, uint8_t *table, size_t table_len, uint8_t *solution,
                        size_t solution_len, const uint8_t *mask, size_t mask_len, const uint8_t *nonzero,
                        size_t nonzero_len, uint64_t *answer, size_t answer_len)
{
    kind square = {__real_hz_step, HZ_STEP, HZ_J, HZ_K, HZ_MASK_TAKEN, HZ_NONZERO_TAKEN, 0};
    return spoilt_step(square, record, record_len, table, table_len, solution, solution_len, mask, mask_len, nonzero,
                       nonzero_len, answer, answer_len);
}

uint64_t __wrap_hz_wide_step(uint64_t *record, size_t record_len, uint8_t *table, size_t table_len, uint8_t *solution,
                             size_t solution_len, const uint8_t *mask, size_t mask_len, const uint8_t *nonzero,
                             size_t nonzero_len, uint64_t *answer, size_t answer_len)
{
    kind wide = {__real_hz_wide_step, HZ_WIDE_STEP,          HZ_WIDE_J,    HZ_WIDE_K,
                 HZ_WIDE_MASK_TAKEN,  HZ_WIDE_NONZERO_TAKEN, HZ_WIDE_FOUND};
    return spoilt_step(wide, record, record_len, table, table_len, solution, solution_len, mask, mask_len, nonzero,
                       nonzero_len, answer, answer_len);
}
