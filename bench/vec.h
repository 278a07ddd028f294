/* As many elements at once as LANES says: sixteen, in the vectors that gcc makes of SSE2 or
 * of AArch64's, or four in a word, for a core that has no vectors. -DLANES=4 tries the
 * words elsewhere. */
#ifndef VEC_H
#define VEC_H

#include <stddef.h>
#include <stdint.h>
#include <string.h>

#ifndef LANES
#ifdef __arm__
#define LANES 4
#else
#define LANES 16
#endif
#endif

/* IN_PLACE: how inline assembly names a vec that it may change. */
#if LANES == 4
typedef uint32_t vec;
#define IN_PLACE "+r"
#else
typedef uint8_t vec __attribute__((vector_size(LANES)));
#ifdef __x86_64__
#define IN_PLACE "+x"
#else
#define IN_PLACE "+w"
#endif
#endif

/* A row, of up to 145 columns, is worked on from any column by LANES at once, so up to
 * BEYOND columns beyond its last; what stands there is never looked at. */
#define BEYOND (LANES - 1)
#define STRIDE (145 + BEYOND)

/* So that w and n are constants in each copy of the code. */
#define INLINE static inline __attribute__((always_inline))

INLINE vec load(const uint8_t *p)
{
    vec v;
    memcpy(&v, p, LANES);
    return v;
}

INLINE void store(uint8_t *p, vec v)
{
    memcpy(p, &v, LANES);
}

#if LANES == 4

INLINE vec all(unsigned byte)
{
    return (uint8_t)byte * 0x01010101u;
}

/* All ones where bit t of b is 1. */
INLINE vec where_bit(vec b, unsigned t)
{
    return (b >> t & 0x01010101u) * 0xffu;
}

#else

INLINE vec all(unsigned byte)
{
    return (vec){0} + (uint8_t)byte;
}

/* All ones where bit t of b is 1. */
INLINE vec where_bit(vec b, unsigned t)
{
    vec bit = all(1u << t);
    return (vec)((b & bit) == bit);
}

#endif

/* a times x, for w bits. */
INLINE uint8_t doubled(unsigned w, uint8_t a)
{
    unsigned twice = (unsigned)a << 1;
    return (uint8_t)(twice ^ (twice >> w) * (w == 4 ? 0x13u : 0x11bu));
}

/* a times 1, x, x^2 ..: with these a product is a choice for each bit of the
 * other factor. */
INLINE void multiples(unsigned w, uint8_t a, vec out[8])
{
    for (unsigned t = 0; t < w; t++, a = doubled(w, a))
        out[t] = all(a);
}

INLINE vec times_vec(unsigned w, const vec of_a[8], vec b)
{
    vec sum = {0};
    for (unsigned t = 0; t < w; t++)
        sum ^= where_bit(b, t) & of_a[t];
    return sum;
}

INLINE uint8_t times(unsigned w, uint8_t a, uint8_t b)
{
    uint8_t sum = 0;
    for (unsigned t = 0; t < w; t++, a = doubled(w, a))
        sum ^= (uint8_t)((b >> t & 1) * a);
    return sum;
}

/* a^(2^w - 2), the product of a^2, a^4 .. a^(2^(w-1)). */
INLINE uint8_t inverse(unsigned w, uint8_t a)
{
    uint8_t product = 1;
    for (unsigned t = 1; t < w; t++) {
        a = times(w, a, a);
        product = times(w, product, a);
    }
    return product;
}

#endif
