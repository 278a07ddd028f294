/* Wrong calls of hz_step in the library's place, of the kinds that only a board shows; MUTANT names one:
 *
 *     writes past      a byte behind the table
 *     writes in front  a byte in front of the solution
 *     unaligned        four bytes of the table at once, from a place that is no multiple of four
 *
 * Linked with --wrap for hz_step. */
#include "hostozaro.h"

#include <stdlib.h>
#include <string.h>

uint64_t __real_hz_step(uint64_t *record, size_t record_len, uint8_t *table, size_t table_len, uint8_t *solution,
                        size_t solution_len, const uint8_t *mask, size_t mask_len, const uint8_t *nonzero,
                        size_t nonzero_len, uint64_t *answer, size_t answer_len);
uint64_t __wrap_hz_step(uint64_t *record, size_t record_len, uint8_t *table, size_t table_len, uint8_t *solution,
                        size_t solution_len, const uint8_t *mask, size_t mask_len, const uint8_t *nonzero,
                        size_t nonzero_len, uint64_t *answer, size_t answer_len);

uint64_t __wrap_hz_step(uint64_t *record, size_t record_len, uint8_t *table, size_t table_len, uint8_t *solution,
                        size_t solution_len, const uint8_t *mask, size_t mask_len, const uint8_t *nonzero,
                        size_t nonzero_len, uint64_t *answer, size_t answer_len)
{
    const char *mutant = getenv("MUTANT");
    if (strcmp(mutant, "writes past") == 0)
        *(volatile uint8_t *)(table + table_len) = 0;
    if (strcmp(mutant, "writes in front") == 0)
        *(volatile uint8_t *)(solution - 1) = 0;
    if (strcmp(mutant, "unaligned") == 0 && table_len >= 8) {
        uint8_t *odd = table + 1 + ((uintptr_t)table & 1);
        uint32_t four;
        odd += (uintptr_t)odd % 4 == 0;
        __asm__ volatile("ldr %0, [%1]" : "=r"(four) : "r"(odd) : "memory");
    }
    return __real_hz_step(record, record_len, table, table_len, solution, solution_len, mask, mask_len, nonzero,
                          nonzero_len, answer, answer_len);
}
