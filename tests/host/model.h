/* An independent C implementation of the paper 01, and of in
 * 02, for the calls of hostozaro.h: each model_X answers as hz_X must. Written from the
 * papers alone (model_wanted and model_wide_wanted, which they have not, and the words of
 * an answer and of a record from hostozaro.h), for clarity, and used only to compare. */
#ifndef MODEL_H
#define MODEL_H

#include <stdbool.h>
#include <stddef.h>
#include <stdint.h>

uint64_t model_start(uint64_t field, uint64_t shares, uint64_t size,
                     uint64_t *record, size_t record_len,
                     uint64_t *answer, size_t answer_len);

uint64_t model_wanted(const uint64_t *record, size_t record_len,
                      uint64_t *answer, size_t answer_len);

uint64_t model_step(uint64_t *record, size_t record_len,
                    uint8_t *table, size_t table_len,
                    uint8_t *solution, size_t solution_len,
                    const uint8_t *mask, size_t mask_len,
                    const uint8_t *nonzero, size_t nonzero_len,
                    uint64_t *answer, size_t answer_len);

uint64_t model_solve(uint64_t field, uint64_t shares, uint64_t size,
                     uint8_t *table, size_t table_len,
                     uint8_t *solution, size_t solution_len,
                     const uint8_t *mask, size_t mask_len,
                     const uint8_t *nonzero, size_t nonzero_len,
                     uint64_t *answer, size_t answer_len);

/* By another way than the call's own: no elimination, but a basis of columns. */
uint64_t model_plain(uint64_t field, uint64_t size,
                     const uint8_t *values, size_t values_len,
                     uint8_t *solution, size_t solution_len,
                     uint64_t *answer, size_t answer_len);

uint64_t model_deal(uint64_t field, uint64_t shares, uint64_t size,
                    const uint8_t *values, size_t values_len,
                    uint8_t *table, size_t table_len,
                    const uint8_t *mask, size_t mask_len,
                    uint64_t *answer, size_t answer_len);

uint64_t model_gather(uint64_t field, uint64_t shares, uint64_t size,
                      const uint8_t *table, size_t table_len,
                      uint8_t *values, size_t values_len,
                      uint64_t *answer, size_t answer_len);

uint64_t model_counts(uint64_t field, uint64_t shares, uint64_t size,
                      uint64_t *answer, size_t answer_len);

uint64_t model_write(uint64_t field, uint64_t shares, uint64_t size,
                     const uint8_t *table, size_t table_len,
                     uint8_t *target, size_t target_len,
                     uint64_t *answer, size_t answer_len);

uint64_t model_read(const uint8_t *input, size_t input_len,
                    uint64_t *answer, size_t answer_len);

uint64_t model_wide_start(uint64_t field, uint64_t shares, uint64_t rows, uint64_t columns,
                          uint64_t *record, size_t record_len,
                          uint64_t *answer, size_t answer_len);

uint64_t model_wide_counts(uint64_t field, uint64_t shares, uint64_t rows, uint64_t columns,
                           uint64_t *answer, size_t answer_len);

uint64_t model_wide_wanted(const uint64_t *record, size_t record_len,
                           uint64_t *answer, size_t answer_len);

uint64_t model_wide_step(uint64_t *record, size_t record_len,
                         uint8_t *table, size_t table_len,
                         uint8_t *solution, size_t solution_len,
                         const uint8_t *mask, size_t mask_len,
                         const uint8_t *nonzero, size_t nonzero_len,
                         uint64_t *answer, size_t answer_len);

uint64_t model_wide_solve(uint64_t field, uint64_t shares, uint64_t rows, uint64_t columns,
                          uint8_t *table, size_t table_len,
                          uint8_t *solution, size_t solution_len,
                          const uint8_t *mask, size_t mask_len,
                          const uint8_t *nonzero, size_t nonzero_len,
                          uint64_t *answer, size_t answer_len);

/* For tests that make up systems and tapes. */

/* The product of two elements of the field (16 or 256). */
uint8_t model_times(uint64_t field, uint8_t a, uint8_t b);

/* The draws of one step of the list, by the paper's table, R-6 and R-7. A square system
 * has as many columns as rows. */
uint64_t model_mask_draws(uint64_t field, uint64_t shares, uint64_t columns, uint64_t step, uint64_t j);
uint64_t model_nonzero_draws(uint64_t shares, uint64_t step);

/* The mask draws of a full solve, by the same table. */
uint64_t model_full_mask_draws(uint64_t field, uint64_t shares, uint64_t size);

/* The draws of all steps before a place, of a stop up to and with its Check. False,
 * with the draws of the whole list, where this size has no such place. */
bool model_taken(uint64_t field, uint64_t shares, uint64_t size, uint64_t step, uint64_t j, uint64_t k,
                 uint64_t *mask, uint64_t *nonzero);

/* The mask draws that a whole wide solve wants. */
uint64_t model_wide_mask_draws(uint64_t shares, uint64_t rows, uint64_t columns);

/* The draws of all steps before a wide record's place, by its pivots; its numbers are right
 * ones. False where its pivots have no such place. */
bool model_wide_taken(const uint64_t *record, uint64_t *mask, uint64_t *nonzero);

/* The answer of a wide system from its plain values, by a basis of columns: how many pivots
 * there are, the pivots, ascending, and, where each row has one, x. */
uint64_t model_wide_plain(uint64_t rows, uint64_t columns, const uint8_t *values, uint64_t *pivots, uint8_t *x);

#endif
