/* What compilers expect of a C library, for programs that are linked without one. */
#pragma GCC optimize("no-tree-loop-distribute-patterns") /* no memcpy that calls memcpy */
#include <stddef.h>

#ifndef __arm__ /* a Cortex-M4 has those of its C library */
typedef char sixteen __attribute__((vector_size(16), aligned(1), may_alias));

typedef struct {
    char byte[8];
} __attribute__((packed)) eight;
typedef struct {
    char byte[4];
} __attribute__((packed)) four;

/* As C libraries do it: four times sixteen at once, and the last bytes overlap what was
 * moved before them. */
void *memcpy(void *to, const void *from, size_t len)
{
    char *t = to;
    const char *f = from;
    if (len >= 16) {
        size_t i = 0;
        for (; i + 64 < len; i += 64)
            for (size_t j = i; j < i + 64; j += 16)
                *(sixteen *)(t + j) = *(const sixteen *)(f + j);
        for (; i + 16 < len; i += 16)
            *(sixteen *)(t + i) = *(const sixteen *)(f + i);
        *(sixteen *)(t + len - 16) = *(const sixteen *)(f + len - 16);
    } else if (len >= 8) {
        eight last = *(const eight *)(f + len - 8);
        *(eight *)t = *(const eight *)f;
        *(eight *)(t + len - 8) = last;
    } else if (len >= 4) {
        four last = *(const four *)(f + len - 4);
        *(four *)t = *(const four *)f;
        *(four *)(t + len - 4) = last;
    } else {
        for (size_t i = 0; i < len; i++)
            t[i] = f[i];
    }
    return to;
}

void *memmove(void *to, const void *from, size_t len)
{
    char *t = to;
    const char *f = from;
    if (t <= f)
        return memcpy(to, from, len);
    while (len-- > 0)
        t[len] = f[len];
    return to;
}

void *memset(void *to, int byte, size_t len)
{
    char *t = to;
    if (len >= 16) {
        sixteen bytes = (sixteen){0} + (char)byte;
        size_t i = 0;
        for (; i + 64 < len; i += 64)
            for (size_t j = i; j < i + 64; j += 16)
                *(sixteen *)(t + j) = bytes;
        for (; i + 16 < len; i += 16)
            *(sixteen *)(t + i) = bytes;
        *(sixteen *)(t + len - 16) = bytes;
    } else {
        for (size_t i = 0; i < len; i++)
            t[i] = (char)byte;
    }
    return to;
}

int memcmp(const void *a, const void *b, size_t len)
{
    const unsigned char *p = a, *q = b;
    for (size_t i = 0; i < len; i++)
        if (p[i] != q[i])
            return p[i] - q[i];
    return 0;
}
#endif

/* So many reads and as many stores: by these an emulator is tried. */
void copy_one_by_one(volatile char *to, const volatile char *from, size_t len)
{
    for (size_t i = 0; i < len; i++)
        to[i] = from[i];
}
