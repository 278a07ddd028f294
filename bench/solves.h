/* C solves to measure the library against. Those of shared tables leave the same
 * table, solution and answer as hz_solve, and return HZ_SOLVED or HZ_STOPPED; those of
 * wide systems, in F16 only, as hz_wide_solve, and HZ_SOLVED or HZ_SHORT. They look for
 * no refusal: every input is right. The straightforward C solve is model_solve of
 * tests/host/model.h. */
#ifndef SOLVES_H
#define SOLVES_H

#include <stdint.h>

typedef uint64_t shared_solve(uint64_t field, uint64_t shares, uint64_t size, uint8_t *table, uint8_t *solution,
                              const uint8_t *mask, const uint8_t *nonzero, uint64_t answer[4]);
typedef uint64_t wide_solve(uint64_t field, uint64_t shares, uint64_t rows, uint64_t columns, uint8_t *table,
                            uint8_t *solution, const uint8_t *mask, const uint8_t *nonzero, uint64_t answer[4]);

/* As fast as plain x86-64 (SSE2) allows with every product of two shares made by
 * itself. The compiler may add them up in any order. */
shared_solve best_solve;
wide_solve best_wide_solve;

/* The same, but the object code adds in the paper's order: the draw joins the
 * first cross term before the second one comes. */
shared_solve ordered_solve;
wide_solve ordered_wide_solve;

/* Without shares: values has the size·(size+1) entries of [A | b].
 * Returns 0, or the first column that depends on those before it. */
uint64_t plain_solve(uint64_t field, uint64_t size, const uint8_t *values, uint8_t *solution);

/* The same system by M4RIE, where it is installed, in parts that are counted apart:
 * open makes M4RIE's tables for the field, fill makes a matrix of [A | b], reduce
 * brings it into reduced row echelon form and returns the rank, take reads the last
 * column and frees the matrix. After close another field can be opened. */
void m4rie_open(uint64_t field);
void m4rie_fill(uint64_t size, const uint8_t *values);
uint64_t m4rie_reduce(void);
void m4rie_take(uint8_t *solution);
void m4rie_close(void);

#endif
