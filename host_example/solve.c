/* Solves one system of two equations with Hostozaro, in one call and by steps.
 *
 * Over the field of 16:  2x + y = 1
 *                         x + y = 0     so x = y = 14. */
#include "hostozaro.h"

#include <inttypes.h>
#include <stdio.h>
#include <stdlib.h>

enum { FIELD = 16, SHARES = 3, SIZE = 2, VALUES = SIZE * (SIZE + 1), TABLE = VALUES * SHARES };

static uint64_t answer[HZ_ANSWER_WORDS];

/* A tape of fresh random bytes, all draws nonzero where that is asked. */
static uint8_t *tape(size_t len, int nonzero)
{
    FILE *random = fopen("/dev/urandom", "rb");
    uint8_t *bytes = malloc(len + 1); /* no pointer may be NULL, not even for no bytes */
    if (random == NULL || bytes == NULL)
        exit(1);
    for (size_t i = 0; i < len; i++)
        do {
            int c = fgetc(random);
            if (c == EOF)
                exit(1);
            bytes[i] = (uint8_t)c;
        } while (nonzero && bytes[i] % FIELD == 0);
    fclose(random);
    return bytes;
}

/* Ends the program unless the call answered what it must. Refusals 6 and 12 tell a
 * cell, the others one number. */
static void must(uint64_t code, uint64_t wanted)
{
    if (code == wanted)
        return;
    if (code != HZ_REFUSED)
        fprintf(stderr, "answered %" PRIu64 "\n", code);
    else if (answer[0] == 6 || answer[0] == 12)
        fprintf(stderr, "refused %" PRIu64 ": row %" PRIu64 ", column %" PRIu64 ", share %" PRIu64 "\n", answer[0],
                answer[1], answer[2], answer[3]);
    else
        fprintf(stderr, "refused %" PRIu64 ": %" PRIu64 "\n", answer[0], answer[1]);
    exit(1);
}

static void deal(uint8_t table[TABLE])
{
    static const uint8_t values[VALUES] = {2, 1, 1, 1, 1, 0}; /* row by row, b last in each */
    size_t draws = VALUES * (SHARES - 1);
    uint8_t *mask = tape(draws, 0);
    must(hz_deal(FIELD, SHARES, SIZE, values, VALUES, table, TABLE, mask, draws, answer, HZ_ANSWER_WORDS), HZ_FILLED);
    free(mask);
}

static void in_one_call(void)
{
    uint8_t table[TABLE], x[SIZE], left[VALUES];
    deal(table);

    must(hz_counts(FIELD, SHARES, SIZE, answer, HZ_ANSWER_WORDS), HZ_COUNTS);
    size_t mask_draws = answer[1], nonzero_draws = answer[2];
    uint8_t *mask = tape(mask_draws, 0), *nonzero = tape(nonzero_draws, 1);

    must(hz_solve(FIELD, SHARES, SIZE, table, TABLE, x, SIZE, mask, mask_draws, nonzero, nonzero_draws, answer,
                  HZ_ANSWER_WORDS),
         HZ_SOLVED);
    printf("solved: x = %d, y = %d (%" PRIu64 " steps, %" PRIu64 " mask draws, %" PRIu64 " nonzero draws)\n", x[0], x[1],
           answer[0], answer[1], answer[2]);
    free(mask);
    free(nonzero);

    /* What is left in the table: a triangle with 1 on its diagonal, and at each
     * row's end that row's unknown. */
    must(hz_gather(FIELD, SHARES, SIZE, table, TABLE, left, VALUES, answer, HZ_ANSWER_WORDS), HZ_FILLED);
    printf("left in the table: %d %d | %d   %d %d | %d\n", left[0], left[1], left[2], left[3], left[4], left[5]);
}

/* Signers of another make want every opened number before it is used. Open(j) has just
 * written x_j into the solution, and Lift(j), which carries it into the rows above, is
 * yet to come (x_1 has none above it). It may be copied or sent away here, as long as
 * that takes; only the solution must stay as it is, for Lift reads x_j there. */
static void collect(uint64_t j, uint8_t opened)
{
    printf("[x_%" PRIu64 " = %d] ", j, opened);
}

static void by_steps(void)
{
    static const char *const names[] = {[HZ_MIX] = "Mix",     [HZ_CHECK] = "Check", [HZ_SCALE] = "Scale",
                                        [HZ_CLEAR] = "Clear", [HZ_OPEN] = "Open",   [HZ_LIFT] = "Lift"};
    uint8_t table[TABLE], x[SIZE] = {0}; /* one solution for all steps */
    uint64_t record[HZ_RECORD_WORDS], code;
    deal(table);
    must(hz_start(FIELD, SHARES, SIZE, record, HZ_RECORD_WORDS, answer, HZ_ANSWER_WORDS), HZ_FRESH);
    do {
        must(hz_wanted(record, HZ_RECORD_WORDS, answer, HZ_ANSWER_WORDS), HZ_WANTED);
        size_t mask_draws = answer[0], nonzero_draws = answer[1];
        uint8_t *mask = tape(mask_draws, 0), *nonzero = tape(nonzero_draws, 1);
        uint64_t j = record[HZ_J];
        printf("%s(%" PRIu64, names[record[HZ_STEP]], j);
        if (record[HZ_K] != 0)
            printf(",%" PRIu64, record[HZ_K]);
        printf(") ");
        code = hz_step(record, HZ_RECORD_WORDS, table, TABLE, x, SIZE, mask, mask_draws, nonzero, nonzero_draws, answer,
                       HZ_ANSWER_WORDS);
        free(mask);
        free(nonzero);
        if (code == HZ_OPENED || code == HZ_DONE)
            collect(j, x[j - 1]);
        /* the host's other work goes here */
    } while (code == HZ_MOVED || code == HZ_OPENED);
    must(code, HZ_DONE);
    printf("\nby steps: x = %d, y = %d\n", x[0], x[1]);
}

int main(void)
{
    in_one_call();
    by_steps();
    return 0;
}
