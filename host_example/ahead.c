/* Solves one system of two equations by steps. Its random bytes come over a slow bus,
 * which brings them ahead while the host does other work; and once the power fails.
 *
 * Over the field of 16:  2x + y = 1
 *                         x + y = 0     so x = y = 14.
 *
 * Each tape of the full solve is one stretch of memory that fills from the front. The
 * host counts no draws: the record says where on the tapes the next step's begin,
 * hz_wanted how many these are, and hz_counts where the tapes end. */
#include "hostozaro.h"

#include <inttypes.h>
#include <stdio.h>
#include <stdlib.h>

enum { FIELD = 16, SHARES = 3, SIZE = 2, VALUES = SIZE * (SIZE + 1), TABLE = VALUES * SHARES };
enum { AT_A_TIME = 16 }; /* bytes that the bus brings in one turn */

static uint64_t answer[HZ_ANSWER_WORDS];
static FILE *bus;

/* All that outlives a power cut: the solution too, since Lift reads there what Open has
 * written. A host that stores it in two places in turn has one of them whole, whenever
 * the cut comes. */
static struct state {
    uint64_t record[HZ_RECORD_WORDS];
    uint8_t table[TABLE], x[SIZE];
} stored;

typedef struct {
    uint8_t *bytes;
    size_t len, fetched; /* the bytes below `fetched` have come; those that were lent are wiped again */
    int nonzero;
} tape;

/* Ends the program unless the call answered what it must. */
static void must(uint64_t code, uint64_t wanted)
{
    if (code == wanted)
        return;
    fprintf(stderr, "answered %" PRIu64 ": %" PRIu64 ", %" PRIu64 "\n", code, answer[0], answer[1]);
    exit(1);
}

/* The first `taken` bytes of a tape are never looked at, so they need not come. */
static tape open_tape(size_t len, size_t taken, int nonzero)
{
    tape t = {malloc(len + 1), len, taken, nonzero}; /* no pointer may be NULL, not even for no bytes */
    if (t.bytes == NULL)
        exit(1);
    return t;
}

/* One turn of the bus. What would be a nonzero draw of 0 is fetched again. */
static void bring(tape *t)
{
    for (int i = 0; i < AT_A_TIME && t->fetched < t->len; i++) {
        int c;
        do {
            c = fgetc(bus);
            if (c == EOF)
                exit(1);
        } while (t->nonzero && c % FIELD == 0);
        t->bytes[t->fetched++] = (uint8_t)c;
    }
}

/* Volatile, so that no compiler leaves it out. */
static void wipe(volatile uint8_t *bytes, size_t len)
{
    while (len > 0)
        bytes[--len] = 0;
}

static void close_tape(tape *t)
{
    wipe(t->bytes, t->len);
    free(t->bytes);
}

/* The power comes on, and the host knows only what is stored. The power fails after so
 * many steps (0: never), before the last of them is stored. Returns that step's code. */
static uint64_t power_on(int fails)
{
    static const char *const names[] = {[HZ_MIX] = "Mix",     [HZ_CHECK] = "Check", [HZ_SCALE] = "Scale",
                                        [HZ_CLEAR] = "Clear", [HZ_OPEN] = "Open",   [HZ_LIFT] = "Lift"};
    struct state now = stored;
    uint64_t *record = now.record, code;
    /* Before the counters are used: it refuses a record whose counters were stored wrong, by 19. */
    must(hz_wanted(record, HZ_RECORD_WORDS, answer, HZ_ANSWER_WORDS), HZ_WANTED);
    must(hz_counts(FIELD, SHARES, SIZE, answer, HZ_ANSWER_WORDS), HZ_COUNTS);
    tape mask = open_tape(answer[1], record[HZ_MASK_TAKEN], 0);
    tape nonzero = open_tape(answer[2], record[HZ_NONZERO_TAKEN], 1);
    printf("taken: mask %zu of %zu, nonzero %zu of %zu; to fetch: %zu and %zu\n", mask.fetched, mask.len,
           nonzero.fetched, nonzero.len, mask.len - mask.fetched, nonzero.len - nonzero.fetched);
    do {
        must(hz_wanted(record, HZ_RECORD_WORDS, answer, HZ_ANSWER_WORDS), HZ_WANTED);
        size_t mask_at = record[HZ_MASK_TAKEN], mask_end = mask_at + answer[0];
        size_t nonzero_at = record[HZ_NONZERO_TAKEN], nonzero_end = nonzero_at + answer[1];
        int waits = mask.fetched < mask_end || nonzero.fetched < nonzero_end;
        while (mask.fetched < mask_end)
            bring(&mask);
        while (nonzero.fetched < nonzero_end)
            bring(&nonzero);
        printf(record[HZ_K] != 0 ? "%s(%" PRIu64 ",%" PRIu64 "): " : "%s(%" PRIu64 "): ", names[record[HZ_STEP]],
               record[HZ_J], record[HZ_K]);
        printf("mask %zu to %zu of %zu fetched, nonzero %zu to %zu of %zu fetched%s\n", mask_at, mask_end, mask.fetched,
               nonzero_at, nonzero_end, nonzero.fetched, waits ? "; waited for the bus" : "");
        code = hz_step(record, HZ_RECORD_WORDS, now.table, TABLE, now.x, SIZE, mask.bytes + mask_at, mask_end - mask_at,
                       nonzero.bytes + nonzero_at, nonzero_end - nonzero_at, answer, HZ_ANSWER_WORDS);
        wipe(mask.bytes + mask_at, mask_end - mask_at);
        wipe(nonzero.bytes + nonzero_at, nonzero_end - nonzero_at);
        if (--fails == 0)
            break;
        stored = now;
        bring(&mask); /* the host's other work goes here, and the bus brings more meanwhile */
        bring(&nonzero);
    } while (code == HZ_MOVED || code == HZ_OPENED);
    close_tape(&mask);
    close_tape(&nonzero);
    return code;
}

int main(void)
{
    static const uint8_t values[VALUES] = {2, 1, 1, 1, 1, 0}; /* row by row, b last in each */
    bus = fopen("/dev/urandom", "rb");
    if (bus == NULL || setvbuf(bus, NULL, _IONBF, 0) != 0) /* a buffer would keep bytes that are wiped here */
        return 1;
    tape deal = open_tape(VALUES * (SHARES - 1), 0, 0);
    while (deal.fetched < deal.len)
        bring(&deal);
    must(hz_deal(FIELD, SHARES, SIZE, values, VALUES, stored.table, TABLE, deal.bytes, deal.len, answer,
                 HZ_ANSWER_WORDS),
         HZ_FILLED);
    close_tape(&deal);
    must(hz_start(FIELD, SHARES, SIZE, stored.record, HZ_RECORD_WORDS, answer, HZ_ANSWER_WORDS), HZ_FRESH);

    must(power_on(4), HZ_MOVED);
    printf("the power fails: the tapes are lost, and so is the step that was not stored\n");
    must(power_on(0), HZ_DONE); /* that step once more, and the rest, with bytes that were never lent */
    printf("fetched ahead: x = %d, y = %d\n", stored.x[0], stored.x[1]);
    return 0;
}
