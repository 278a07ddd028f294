/* The functions on memory that the library and a compiler call by name, with no access that is not aligned. Those of
 * newlib for a Cortex-M4 have such accesses, and fault where these are trapped. */
#include <stddef.h>
#include <stdint.h>

typedef uint32_t __attribute__((may_alias)) word;

static int both_aligned(const void *one, const void *other)
{
    return (((uintptr_t)one | (uintptr_t)other) & 3) == 0;
}

void *memcpy(void *restrict to, const void *restrict from, size_t len)
{
    uint8_t *t = to;
    const uint8_t *f = from;
    if (both_aligned(t, f))
        for (; len >= 4; len -= 4, t += 4, f += 4)
            *(word *)(void *)t = *(const word *)(const void *)f;
    for (; len > 0; len--)
        *t++ = *f++;
    return to;
}

void *memmove(void *to, const void *from, size_t len)
{
    uint8_t *t = to;
    const uint8_t *f = from;
    if ((uintptr_t)t - (uintptr_t)f >= len)
        return memcpy(to, from, len);
    while (len-- > 0)
        t[len] = f[len];
    return to;
}

void *memset(void *to, int byte, size_t len)
{
    uint8_t *t = to, b = (uint8_t)byte;
    if (both_aligned(t, t))
        for (; len >= 4; len -= 4, t += 4)
            *(word *)(void *)t = b * 0x01010101u;
    for (; len > 0; len--)
        *t++ = b;
    return to;
}

int memcmp(const void *one, const void *other, size_t len)
{
    const uint8_t *a = one, *b = other;
    if (both_aligned(a, b))
        for (; len >= 4 && *(const word *)(const void *)a == *(const word *)(const void *)b; len -= 4)
            a += 4, b += 4;
    for (; len > 0; len--, a++, b++)
        if (*a != *b)
            return *a - *b;
    return 0;
}

/* The names that the Arm ABI has for them. memset's takes the length before the byte. */
#define COPY(name) \
    void name(void *to, const void *from, size_t len) { memmove(to, from, len); }
#define SET(name) \
    void name(void *to, size_t len, int byte) { memset(to, byte, len); }
#define CLEAR(name) \
    void name(void *to, size_t len) { memset(to, 0, len); }
COPY(__aeabi_memcpy)
COPY(__aeabi_memcpy4)
COPY(__aeabi_memcpy8)
COPY(__aeabi_memmove)
COPY(__aeabi_memmove4)
COPY(__aeabi_memmove8)
SET(__aeabi_memset)
SET(__aeabi_memset4)
SET(__aeabi_memset8)
CLEAR(__aeabi_memclr)
CLEAR(__aeabi_memclr4)
CLEAR(__aeabi_memclr8)
