/* A library that does wrong, for tests/exchange/run: ./exchange must print nothing then.
 * WRONG in the environment says what:
 *
 *     byte                        hz_write changes the first share
 *     field, shares, size, length hz_read answers one more than that
 *     refuses                     hz_read refuses by 16, at offset 99
 *     code                        both answer 99
 *     share                       the last byte of hz_write's table is 16
 *     table, target               hz_write's table or target lacks a byte
 *
 * Linked with --wrap for both calls. */
#include "hostozaro.h"

#include <stdbool.h>
#include <stdlib.h>
#include <string.h>

static bool wrong(const char *which)
{
    const char *named = getenv("WRONG");
    return named != NULL && strcmp(named, which) == 0;
}

uint64_t __real_hz_write(uint64_t, uint64_t, uint64_t, const uint8_t *, size_t, uint8_t *, size_t, uint64_t *, size_t);
uint64_t __wrap_hz_write(uint64_t field, uint64_t shares, uint64_t size, const uint8_t *table, size_t table_len,
                         uint8_t *target, size_t target_len, uint64_t *answer, size_t answer_len)
{
    if (wrong("share"))
        ((uint8_t *)table)[table_len - 1] = 16;
    uint64_t code = __real_hz_write(field, shares, size, table, table_len - wrong("table"), target,
                                    target_len - wrong("target"), answer, answer_len);
    if (wrong("byte"))
        target[HZ_TABLE_AT] ^= 1;
    return wrong("code") ? HZ_BAD_WORDS : code;
}

uint64_t __real_hz_read(const uint8_t *, size_t, uint64_t *, size_t);
uint64_t __wrap_hz_read(const uint8_t *input, size_t input_len, uint64_t *answer, size_t answer_len)
{
    static const char *const words[] = {"field", "shares", "size", "length"};
    uint64_t code = __real_hz_read(input, input_len, answer, answer_len);
    for (int k = 0; k < 4; k++)
        answer[k] += wrong(words[k]);
    if (wrong("refuses")) {
        answer[0] = 16;
        answer[1] = 99;
        return HZ_REFUSED;
    }
    return wrong("code") ? HZ_BAD_WORDS : code;
}
