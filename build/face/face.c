/* The calls of hostozaro.h for a machine whose size_t has 32 bits. In the library each length has 64, and there its calls have _64 behind their
 * names. So the header is read twice: as the library has it, and as a program on the machine does. */
#include <stddef.h>
#include <stdint.h>

/* No call has an enumeration, a wchar_t or a number of floating point in it: so the archive suits programs of every such setting. */
__asm__(".eabi_attribute 18, 0\n.eabi_attribute 26, 0\n.eabi_attribute 28, 3");

#define hz_start hz_start_64
#define hz_wanted hz_wanted_64
#define hz_step hz_step_64
#define hz_solve hz_solve_64
#define hz_plain hz_plain_64
#define hz_deal hz_deal_64
#define hz_gather hz_gather_64
#define hz_counts hz_counts_64
#define hz_wide_start hz_wide_start_64
#define hz_wide_counts hz_wide_counts_64
#define hz_wide_wanted hz_wide_wanted_64
#define hz_wide_step hz_wide_step_64
#define hz_wide_solve hz_wide_solve_64
#define hz_write hz_write_64
#define hz_read hz_read_64
#define size_t uint64_t
#include "hostozaro.h"

#undef HOSTOZARO_H
#undef size_t
#undef hz_start
#undef hz_wanted
#undef hz_step
#undef hz_solve
#undef hz_plain
#undef hz_deal
#undef hz_gather
#undef hz_counts
#undef hz_wide_start
#undef hz_wide_counts
#undef hz_wide_wanted
#undef hz_wide_step
#undef hz_wide_solve
#undef hz_write
#undef hz_read
#include "hostozaro.h"

uint64_t hz_start(uint64_t field, uint64_t shares, uint64_t size, uint64_t *record, size_t record_len, uint64_t *answer,
                  size_t answer_len)
{
    return hz_start_64(field, shares, size, record, record_len, answer, answer_len);
}

uint64_t hz_wanted(const uint64_t *record, size_t record_len, uint64_t *answer, size_t answer_len)
{
    return hz_wanted_64(record, record_len, answer, answer_len);
}

uint64_t hz_step(uint64_t *record, size_t record_len, uint8_t *table, size_t table_len, uint8_t *solution,
                 size_t solution_len, const uint8_t *mask, size_t mask_len, const uint8_t *nonzero, size_t nonzero_len,
                 uint64_t *answer, size_t answer_len)
{
    return hz_step_64(record, record_len, table, table_len, solution, solution_len, mask, mask_len, nonzero,
                      nonzero_len, answer, answer_len);
}

uint64_t hz_solve(uint64_t field, uint64_t shares, uint64_t size, uint8_t *table, size_t table_len, uint8_t *solution,
                  size_t solution_len, const uint8_t *mask, size_t mask_len, const uint8_t *nonzero, size_t nonzero_len,
                  uint64_t *answer, size_t answer_len)
{
    return hz_solve_64(field, shares, size, table, table_len, solution, solution_len, mask, mask_len, nonzero,
                       nonzero_len, answer, answer_len);
}

uint64_t hz_plain(uint64_t field, uint64_t size, const uint8_t *values, size_t values_len, uint8_t *solution,
                  size_t solution_len, uint64_t *answer, size_t answer_len)
{
    return hz_plain_64(field, size, values, values_len, solution, solution_len, answer, answer_len);
}

uint64_t hz_deal(uint64_t field, uint64_t shares, uint64_t size, const uint8_t *values, size_t values_len,
                 uint8_t *table, size_t table_len, const uint8_t *mask, size_t mask_len, uint64_t *answer,
                 size_t answer_len)
{
    return hz_deal_64(field, shares, size, values, values_len, table, table_len, mask, mask_len, answer, answer_len);
}

uint64_t hz_gather(uint64_t field, uint64_t shares, uint64_t size, const uint8_t *table, size_t table_len,
                   uint8_t *values, size_t values_len, uint64_t *answer, size_t answer_len)
{
    return hz_gather_64(field, shares, size, table, table_len, values, values_len, answer, answer_len);
}

uint64_t hz_counts(uint64_t field, uint64_t shares, uint64_t size, uint64_t *answer, size_t answer_len)
{
    return hz_counts_64(field, shares, size, answer, answer_len);
}

uint64_t hz_wide_start(uint64_t field, uint64_t shares, uint64_t rows, uint64_t columns, uint64_t *record,
                       size_t record_len, uint64_t *answer, size_t answer_len)
{
    return hz_wide_start_64(field, shares, rows, columns, record, record_len, answer, answer_len);
}

uint64_t hz_wide_counts(uint64_t field, uint64_t shares, uint64_t rows, uint64_t columns, uint64_t *answer,
                        size_t answer_len)
{
    return hz_wide_counts_64(field, shares, rows, columns, answer, answer_len);
}

uint64_t hz_wide_wanted(const uint64_t *record, size_t record_len, uint64_t *answer, size_t answer_len)
{
    return hz_wide_wanted_64(record, record_len, answer, answer_len);
}

uint64_t hz_wide_step(uint64_t *record, size_t record_len, uint8_t *table, size_t table_len, uint8_t *solution,
                      size_t solution_len, const uint8_t *mask, size_t mask_len, const uint8_t *nonzero,
                      size_t nonzero_len, uint64_t *answer, size_t answer_len)
{
    return hz_wide_step_64(record, record_len, table, table_len, solution, solution_len, mask, mask_len, nonzero,
                           nonzero_len, answer, answer_len);
}

uint64_t hz_wide_solve(uint64_t field, uint64_t shares, uint64_t rows, uint64_t columns, uint8_t *table,
                       size_t table_len, uint8_t *solution, size_t solution_len, const uint8_t *mask, size_t mask_len,
                       const uint8_t *nonzero, size_t nonzero_len, uint64_t *answer, size_t answer_len)
{
    return hz_wide_solve_64(field, shares, rows, columns, table, table_len, solution, solution_len, mask, mask_len,
                            nonzero, nonzero_len, answer, answer_len);
}

uint64_t hz_write(uint64_t field, uint64_t shares, uint64_t size, const uint8_t *table, size_t table_len,
                  uint8_t *target, size_t target_len, uint64_t *answer, size_t answer_len)
{
    return hz_write_64(field, shares, size, table, table_len, target, target_len, answer, answer_len);
}

uint64_t hz_read(const uint8_t *input, size_t input_len, uint64_t *answer, size_t answer_len)
{
    return hz_read_64(input, input_len, answer, answer_len);
}
