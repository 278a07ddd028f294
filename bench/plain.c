/* The solve without shares: rows swapped where a pivot is 0, then cleared. */
#include "solves.h"
#include "vec.h"

/* Row `to` += factor times row `from`, from column `first` on. */
INLINE void add_times(unsigned w, uint8_t *to, uint8_t factor, const uint8_t *from, size_t first, size_t columns)
{
    vec of_factor[8];
    multiples(w, factor, of_factor);
    for (size_t c = first; c < columns; c += LANES)
        store(to + c, load(to + c) ^ times_vec(w, of_factor, load(from + c)));
}

INLINE uint64_t solve(unsigned w, size_t m, const uint8_t *values, uint8_t *solution)
{
    uint8_t rows[96][STRIDE], *row[96]; /* swapping moves pointers only */
    for (size_t r = 0; r < m; r++) {
        row[r] = rows[r];
        memcpy(row[r], values + r * (m + 1), m + 1);
        memset(row[r] + m + 1, 0, BEYOND);
    }
    for (size_t j = 0; j < m; j++) {
        size_t p = j;
        while (p < m && row[p][j] == 0)
            p++;
        if (p == m)
            return j + 1;
        uint8_t *pivot = row[p];
        row[p] = row[j];
        row[j] = pivot;
        uint8_t factor = inverse(w, pivot[j]);
        vec of_factor[8];
        multiples(w, factor, of_factor);
        for (size_t c = j; c <= m; c += LANES)
            store(pivot + c, times_vec(w, of_factor, load(pivot + c)));
        for (size_t k = j + 1; k < m; k++)
            add_times(w, row[k], row[k][j], pivot, j, m + 1);
    }
    for (size_t j = m; j-- > 0;) {
        solution[j] = row[j][m];
        for (size_t k = 0; k < j; k++)
            row[k][m] ^= times(w, solution[j], row[k][j]);
    }
    return 0;
}

uint64_t plain_solve(uint64_t field, uint64_t size, const uint8_t *values, uint8_t *solution)
{
    return field == 16 ? solve(4, size, values, solution) : solve(8, size, values, solution);
}
