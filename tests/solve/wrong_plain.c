/* A library whose hz_plain has another answer than its hz_solve, for tests/solve/run:
 * ./solve must print neither. WRONG in the environment says which:
 *
 *     x                   another x_1
 *     stops               stops at column 1 where there is x
 *     solves              finds x where it must stop
 *     column              stops at the column after the right one
 *
 * Linked with --wrap=hz_plain. */
#include "hostozaro.h"

#include <stdbool.h>
#include <stdlib.h>
#include <string.h>

static bool wrong(const char *which)
{
    const char *named = getenv("WRONG");
    return named != NULL && strcmp(named, which) == 0;
}

uint64_t __real_hz_plain(uint64_t, uint64_t, const uint8_t *, size_t, uint8_t *, size_t, uint64_t *, size_t);
uint64_t __wrap_hz_plain(uint64_t field, uint64_t size, const uint8_t *values, size_t values_len, uint8_t *solution,
                         size_t solution_len, uint64_t *answer, size_t answer_len)
{
    uint64_t code = __real_hz_plain(field, size, values, values_len, solution, solution_len, answer, answer_len);
    if (code == HZ_SOLVED && wrong("x"))
        solution[0] ^= 1;
    if (code == HZ_SOLVED && wrong("stops")) {
        answer[0] = 1;
        return HZ_STOPPED;
    }
    if (code == HZ_STOPPED && wrong("solves"))
        return HZ_SOLVED;
    if (code == HZ_STOPPED && wrong("column"))
        answer[0]++;
    return code;
}
