/* Solves wide systems of MAYO's sizes at levels I and III with Hostozaro, in one call and
 * by steps.
 *
 * Each system is solved twice. In one call its tapes are as long as hz_wide_counts tells:
 * that is enough for any pivots, and usually more than is taken. By steps each draw is
 * fetched when hz_wide_wanted has told that the next step wants it, so no whole tape is
 * ever held, and no draw is fetched in vain. Both ways must take the same steps and draws
 * and end with the same x and the same values in the table. The shares there are others,
 * since no random byte is lent twice. */
#include "hostozaro.h"

#include <inttypes.h>
#include <stdio.h>
#include <stdlib.h>
#include <string.h>

enum { FIELD = 16, MOST_ROWS = 96, MOST_COLUMNS = 110, MOST_SHARES = 4, MOST_VALUES = MOST_ROWS * (MOST_COLUMNS + 1) };

typedef struct {
    const char *name;
    uint64_t rows, columns;
} level;

static const level I = {"level I, 64 by 72", 64, 72}, III = {"level III, 96 by 110", 96, 110};

static uint64_t rows, columns, shares; /* of the system at hand */
static uint64_t answer[HZ_ANSWER_WORDS];
static FILE *source;

/* A table with its solution. */
typedef struct {
    uint8_t table[MOST_VALUES * MOST_SHARES], x[MOST_COLUMNS];
} dealing;

/* All that tells of the system, in one place, so that it can be wiped. A signer holds the
 * shares alone: the values are here only so that x can be checked. */
static struct {
    uint8_t values[MOST_VALUES]; /* row by row, b last in each */
    dealing whole, stepped;
} secret;

/* Volatile, so that no compiler leaves it out. */
static void wipe(volatile uint8_t *bytes, size_t len)
{
    while (len > 0)
        bytes[--len] = 0;
}

static void wipe_all(void)
{
    wipe((uint8_t *)&secret, sizeof secret);
}

/* Ends the program unless the call answered what it must. Refusals 6 and 12 tell a
 * cell, the others one number. */
static void must(uint64_t code, uint64_t wanted)
{
    if (code == wanted)
        return;
    if (code != HZ_REFUSED)
        fprintf(stderr, "answered %" PRIu64 "\n", code);
    else if (answer[0] == 6 || answer[0] == 12)
        fprintf(stderr, "refused %" PRIu64 ": row %" PRIu64 ", column %" PRIu64 ", share %" PRIu64 "\n", answer[0],
                answer[1], answer[2], answer[3]);
    else
        fprintf(stderr, "refused %" PRIu64 ": %" PRIu64 "\n", answer[0], answer[1]);
    exit(1);
}

/* Ends the program where the library was wrong. */
static void must_hold(int holds, const char *what)
{
    if (holds)
        return;
    fprintf(stderr, "this does not hold: %s\n", what);
    exit(1);
}

/* ---- The tapes ---- */

/* Fresh random bytes, all draws nonzero where that is asked. */
static uint8_t *fetch(size_t len, int nonzero)
{
    uint8_t *bytes = malloc(len + 1); /* no pointer may be NULL, not even for no bytes */
    if (bytes == NULL || fread(bytes, 1, len, source) != len)
        exit(1);
    for (size_t i = 0; nonzero && i < len; i++)
        while (bytes[i] % FIELD == 0)
            if (fread(bytes + i, 1, 1, source) != 1)
                exit(1);
    return bytes;
}

static void drop(uint8_t *bytes, size_t len)
{
    wipe(bytes, len);
    free(bytes);
}

/* ---- The system ---- */

/* Row r and column c count from 1; column columns+1 is b. */
static uint8_t *value(uint64_t r, uint64_t c)
{
    return secret.values + (r - 1) * (columns + 1) + (c - 1);
}

/* The product in the field, bit by bit, modulo x^4+x+1. */
static uint8_t times(unsigned a, unsigned b)
{
    unsigned product = 0;
    for (; b != 0; b >>= 1) {
        product ^= b & 1 ? a : 0;
        a <<= 1;
        a ^= a & 16 ? 0x13 : 0;
    }
    return (uint8_t)product;
}

/* Made-up values. They are the same in every run, so that what is printed can be compared:
 * good enough for an example, and for no secret. */
static void make_system(void)
{
    uint64_t state = 1;
    for (size_t v = 0; v < rows * (columns + 1); v++) {
        state = state * 6364136223846793005u + 1442695040888963407u;
        secret.values[v] = (uint8_t)(state >> 60);
    }
}

/* Makes one column a combination of the columns before it: it will be passed over. */
static void plant_column(uint64_t at)
{
    for (uint64_t r = 1; r <= rows; r++) {
        *value(r, at) = 0;
        for (uint64_t c = 1; c < at; c++)
            *value(r, at) ^= times((unsigned)c % FIELD, *value(r, c));
    }
}

/* Makes one row of A the sum of the rows before it: it adds nothing to the rank, so the
 * system is short. */
static void plant_row(uint64_t at)
{
    for (uint64_t c = 1; c <= columns; c++) {
        *value(at, c) = 0;
        for (uint64_t r = 1; r < at; r++)
            *value(at, c) ^= *value(r, c);
    }
}

/* The library deals square tables only. A wide one is dealt like those: shares 2 to n of
 * each value are fresh draws, and share 1 is the value plus their sum. */
static void deal(uint8_t *table)
{
    size_t count = rows * (columns + 1), draws = count * (shares - 1), next = 0;
    uint8_t *mask = fetch(draws, 0);
    for (size_t v = 0; v < count; v++) {
        table[v * shares] = secret.values[v];
        for (size_t s = 1; s < shares; s++) {
            table[v * shares + s] = mask[next++] % FIELD;
            table[v * shares] ^= table[v * shares + s];
        }
    }
    drop(mask, draws);
}

static size_t table_len(void)
{
    return rows * (columns + 1) * shares;
}

/* ---- Solving ---- */

typedef struct {
    int solved; /* or short */
    uint64_t steps, mask_taken, nonzero_taken;
    uint64_t mask_held, nonzero_held; /* the most bytes of each tape that were held at once */
} outcome;

static outcome in_one_call(dealing *d)
{
    must(hz_wide_counts(FIELD, shares, rows, columns, answer, HZ_ANSWER_WORDS), HZ_WANTED);
    size_t mask_len = answer[0], nonzero_len = answer[1];
    uint8_t *mask = fetch(mask_len, 0), *nonzero = fetch(nonzero_len, 1);
    uint64_t code = hz_wide_solve(FIELD, shares, rows, columns, d->table, table_len(), d->x, columns, mask, mask_len,
                                  nonzero, nonzero_len, answer, HZ_ANSWER_WORDS);
    drop(mask, mask_len);
    drop(nonzero, nonzero_len);
    if (code != HZ_SHORT) /* which is an answer too, and counts the same */
        must(code, HZ_SOLVED);
    return (outcome){code == HZ_SOLVED, answer[0], answer[1], answer[2], mask_len, nonzero_len};
}

static outcome by_steps(dealing *d, uint64_t record[HZ_WIDE_RECORD_WORDS])
{
    outcome o = {0};
    uint64_t code;
    memset(d->x, 0, columns); /* steps write x at the pivots alone; elsewhere it is 0, and this the host's to write */
    must(hz_wide_start(FIELD, shares, rows, columns, record, HZ_WIDE_RECORD_WORDS, answer, HZ_ANSWER_WORDS), HZ_FRESH);
    do {
        must(hz_wide_wanted(record, HZ_WIDE_RECORD_WORDS, answer, HZ_ANSWER_WORDS), HZ_WANTED);
        size_t mask_len = answer[0], nonzero_len = answer[1];
        uint8_t *mask = fetch(mask_len, 0), *nonzero = fetch(nonzero_len, 1);
        code = hz_wide_step(record, HZ_WIDE_RECORD_WORDS, d->table, table_len(), d->x, columns, mask, mask_len, nonzero,
                            nonzero_len, answer, HZ_ANSWER_WORDS);
        drop(mask, mask_len);
        drop(nonzero, nonzero_len);
        o.steps++;
        o.mask_held = mask_len > o.mask_held ? mask_len : o.mask_held;
        o.nonzero_held = nonzero_len > o.nonzero_held ? nonzero_len : o.nonzero_held;
        /* the host's other work goes here */
    } while (code == HZ_MOVED || code == HZ_OPENED);
    if (code != HZ_SHORT)
        must(code, HZ_DONE);
    o.solved = code == HZ_DONE;
    o.mask_taken = record[HZ_WIDE_MASK_TAKEN]; /* the record has added them up */
    o.nonzero_taken = record[HZ_WIDE_NONZERO_TAKEN];
    return o;
}

/* ---- The checks ---- */

static int same_values(void)
{
    for (size_t v = 0; v < rows * (columns + 1); v++) {
        unsigned difference = 0;
        for (size_t s = 0; s < shares; s++)
            difference ^= secret.whole.table[v * shares + s] ^ secret.stepped.table[v * shares + s];
        if (difference != 0)
            return 0;
    }
    return 1;
}

/* Whether A·x = b for the values before they were dealt. */
static int solves(const uint8_t *x)
{
    for (uint64_t r = 1; r <= rows; r++) {
        unsigned sum = 0;
        for (uint64_t c = 1; c <= columns; c++)
            sum ^= times(*value(r, c), x[c - 1]);
        if (sum != *value(r, columns + 1))
            return 0;
    }
    return 1;
}

/* Whether x is 0 at all columns but the pivots. */
static int only_at(const uint64_t *pivots, uint64_t found, const uint8_t *x)
{
    uint64_t i = 0;
    for (uint64_t c = 1; c <= columns; c++)
        if (i < found && c == pivots[i])
            i++;
        else if (x[c - 1] != 0)
            return 0;
    return 1;
}

/* Each run of neighbours as its first and last: the gaps are the columns passed over. */
static void print_pivots(const uint64_t *pivots, uint64_t found)
{
    for (uint64_t i = 0, end; i < found; i = end) {
        for (end = i + 1; end < found && pivots[end] == pivots[end - 1] + 1;)
            end++;
        printf(" %" PRIu64 "-%" PRIu64, pivots[i], pivots[end - 1]);
    }
}

/* A column or a row is planted where its number is not 0. */
static void solve_twice(level l, uint64_t n, uint64_t planted_column, uint64_t planted_row)
{
    uint64_t record[HZ_WIDE_RECORD_WORDS];
    rows = l.rows;
    columns = l.columns;
    shares = n;
    make_system();
    if (planted_column != 0)
        plant_column(planted_column);
    if (planted_row != 0)
        plant_row(planted_row);
    deal(secret.whole.table);
    outcome whole = in_one_call(&secret.whole);
    deal(secret.stepped.table); /* anew: a solve works in its table */
    outcome stepped = by_steps(&secret.stepped, record);
    const uint64_t *pivots = record + HZ_WIDE_PIVOTS, found = record[HZ_WIDE_FOUND];

    must_hold(whole.solved == stepped.solved, "both ways solve, or are short");
    must_hold(whole.steps == stepped.steps, "both ways take the same steps");
    must_hold(whole.mask_taken == stepped.mask_taken && whole.nonzero_taken == stepped.nonzero_taken,
              "both ways take the same draws");
    must_hold(same_values(), "both ways leave the same values in the table");
    must_hold(memcmp(secret.whole.x, secret.stepped.x, columns) == 0, "both ways end with the same x");
    must_hold(whole.solved == (found == rows), "each row has a pivot, or the system is short");
    must_hold(!whole.solved || solves(secret.whole.x), "A x = b");
    must_hold(only_at(pivots, found, secret.whole.x), "x is 0 at all columns but the pivots");

    printf("%s, %" PRIu64 " shares: %s, pivots", l.name, n, whole.solved ? "solved" : "short");
    print_pivots(pivots, found);
    printf("; steps %" PRIu64 ", mask draws %" PRIu64 " of %" PRIu64 ", nonzero draws %" PRIu64 " of %" PRIu64
           "; by steps %" PRIu64 " and %" PRIu64 " at most at a time\n",
           whole.steps, whole.mask_taken, whole.mask_held, whole.nonzero_taken, whole.nonzero_held, stepped.mask_held,
           stepped.nonzero_held);
}

int main(void)
{
    source = fopen("/dev/urandom", "rb");
    if (source == NULL || setvbuf(source, NULL, _IONBF, 0) != 0) /* a buffer would keep bytes that are wiped here */
        return 1;
    atexit(wipe_all);
    solve_twice(I, 2, 0, 0);
    solve_twice(I, 2, 20, 0); /* column 20 is passed over */
    solve_twice(I, 3, 0, 0);
    solve_twice(I, 4, 0, 0);
    solve_twice(III, 2, 0, 0);
    solve_twice(III, 2, 0, 50); /* short */
    return 0;
}
