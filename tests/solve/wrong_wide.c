/* A library whose hz_wide_step ends with another answer than it should, for
 * tests/solve/run: ./solve must not print it. WRONG in the environment says which:
 *
 *     elsewhere           x_1 is 1, which is for a system whose column 1 is zeros: x solves it all the same
 *     pivot               the record names the column before its last pivot instead
 *     found               the record has its last pivot no more
 *     short               short where there is x
 *     solves              x where the system is short
 *     stops               stopped, which no wide step answers
 *
 * Linked with --wrap=hz_wide_step. */
#include "hostozaro.h"

#include <stdbool.h>
#include <stdlib.h>
#include <string.h>

static bool wrong(const char *which)
{
    const char *named = getenv("WRONG");
    return named != NULL && strcmp(named, which) == 0;
}

uint64_t __real_hz_wide_step(uint64_t *, size_t, uint8_t *, size_t, uint8_t *, size_t, const uint8_t *, size_t,
                             const uint8_t *, size_t, uint64_t *, size_t);
uint64_t __wrap_hz_wide_step(uint64_t *record, size_t record_len, uint8_t *table, size_t table_len, uint8_t *solution,
                             size_t solution_len, const uint8_t *mask, size_t mask_len, const uint8_t *nonzero,
                             size_t nonzero_len, uint64_t *answer, size_t answer_len)
{
    uint64_t code = __real_hz_wide_step(record, record_len, table, table_len, solution, solution_len, mask, mask_len,
                                        nonzero, nonzero_len, answer, answer_len);
    if (code == HZ_MOVED || code == HZ_OPENED || code == HZ_REFUSED)
        return code;
    uint64_t *last = record + HZ_WIDE_PIVOTS + record[HZ_WIDE_FOUND] - 1;
    if (wrong("elsewhere"))
        solution[0] = 1;
    *last -= wrong("pivot");
    if (wrong("found")) {
        *last = 0;
        record[HZ_WIDE_FOUND]--;
    }
    return wrong("short") ? HZ_SHORT : wrong("solves") ? HZ_DONE : wrong("stops") ? HZ_STOPPED : code;
}
