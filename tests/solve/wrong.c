/* A library whose x_1 is wrong, for tests/solve/run: ./solve must not print it.
 * Linked with --wrap for the three calls. */
#include "hostozaro.h"

uint64_t __real_hz_solve(uint64_t, uint64_t, uint64_t, uint8_t *, size_t, uint8_t *, size_t, const uint8_t *, size_t,
                         const uint8_t *, size_t, uint64_t *, size_t);
uint64_t __wrap_hz_solve(uint64_t field, uint64_t shares, uint64_t size, uint8_t *table, size_t table_len,
                         uint8_t *solution, size_t solution_len, const uint8_t *mask, size_t mask_len,
                         const uint8_t *nonzero, size_t nonzero_len, uint64_t *answer, size_t answer_len)
{
    uint64_t code = __real_hz_solve(field, shares, size, table, table_len, solution, solution_len, mask, mask_len,
                                    nonzero, nonzero_len, answer, answer_len);
    solution[0] ^= 1;
    return code;
}

uint64_t __real_hz_step(uint64_t *, size_t, uint8_t *, size_t, uint8_t *, size_t, const uint8_t *, size_t,
                        const uint8_t *, size_t, uint64_t *, size_t);
uint64_t __wrap_hz_step(uint64_t *record, size_t record_len, uint8_t *table, size_t table_len, uint8_t *solution,
                        size_t solution_len, const uint8_t *mask, size_t mask_len, const uint8_t *nonzero,
                        size_t nonzero_len, uint64_t *answer, size_t answer_len)
{
    uint64_t code = __real_hz_step(record, record_len, table, table_len, solution, solution_len, mask, mask_len,
                                   nonzero, nonzero_len, answer, answer_len);
    if (code == HZ_DONE)
        solution[0] ^= 1;
    return code;
}

uint64_t __real_hz_wide_step(uint64_t *, size_t, uint8_t *, size_t, uint8_t *, size_t, const uint8_t *, size_t,
                             const uint8_t *, size_t, uint64_t *, size_t);
uint64_t __wrap_hz_wide_step(uint64_t *record, size_t record_len, uint8_t *table, size_t table_len, uint8_t *solution,
                             size_t solution_len, const uint8_t *mask, size_t mask_len, const uint8_t *nonzero,
                             size_t nonzero_len, uint64_t *answer, size_t answer_len)
{
    uint64_t code = __real_hz_wide_step(record, record_len, table, table_len, solution, solution_len, mask, mask_len,
                                        nonzero, nonzero_len, answer, answer_len);
    if (code == HZ_DONE)
        solution[0] ^= 1;
    return code;
}
