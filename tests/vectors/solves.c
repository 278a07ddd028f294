/* Prints what the program crates/solves must print, from the model in tests/host: the same systems, draws and words. */
#include "hostozaro.h"
#include "model.h"

#include <stdio.h>
#include <string.h>

static const uint8_t nonzero[15] = "\xba\x9f\x16\x53\xc1\x8d\x72\x2e\xe9\x34\x0b\xf7\x65\xd8\x4c";

static uint64_t field, n, m, answer[HZ_ANSWER_WORDS];
static size_t entries;
static uint8_t draws[90], mask[1515], table[120], solution[5];

static void bytes(const char *name, const uint8_t *b, size_t len)
{
    printf("%s", name);
    for (size_t i = 0; i < len; i++)
        printf(" %02x", b[i]);
}

static void deal(const uint8_t *values)
{
    memset(solution, 0xee, sizeof solution);
    model_deal(field, n, m, values, entries, table, entries * n, draws, sizeof draws, answer, HZ_ANSWER_WORDS);
}

static void show_left(void)
{
    bytes("  table", table, entries * n);
    bytes("\n  solution", solution, m);
    printf("\n");
}

static void whole(void)
{
    uint64_t code = model_solve(field, n, m, table, entries * n, solution, m, mask, sizeof mask, nonzero, sizeof nonzero, answer,
                                HZ_ANSWER_WORDS);
    uint64_t *counts = code == HZ_SOLVED ? answer : answer + 1;
    if (code == HZ_SOLVED)
        printf("solved: ");
    else
        printf("stopped %u: ", (unsigned)answer[0]);
    printf("%u %u %u\n", (unsigned)counts[0], (unsigned)counts[1], (unsigned)counts[2]);
    show_left();
}

static void say(uint64_t code)
{
    switch (code) {
    case HZ_MOVED:
        printf("moved");
        break;
    case HZ_OPENED:
        printf("opened x_%u = %u", (unsigned)answer[0], (unsigned)answer[1]);
        break;
    case HZ_STOPPED:
        printf("stopped %u", (unsigned)answer[0]);
        break;
    case HZ_DONE:
        printf("done, x_1 = %u", (unsigned)answer[0]);
        break;
    default:
        printf("refused %u, detail %u", (unsigned)answer[0], (unsigned)answer[1]);
    }
}

static void steps(void)
{
    static const char *const names[] = {[HZ_MIX] = "Mix",     [HZ_CHECK] = "Check", [HZ_SCALE] = "Scale",
                                        [HZ_CLEAR] = "Clear", [HZ_OPEN] = "Open",   [HZ_LIFT] = "Lift"};
    uint64_t record[HZ_RECORD_WORDS];
    size_t at = 0, nonzero_at = 0;
    model_start(field, n, m, record, HZ_RECORD_WORDS, answer, HZ_ANSWER_WORDS);
    while (record[HZ_STEP] != HZ_AT_STOPPED && record[HZ_STEP] != HZ_AT_DONE) {
        uint64_t step = record[HZ_STEP], j = record[HZ_J], k = record[HZ_K];
        uint64_t count = model_mask_draws(field, n, m, step, j), nonzero_count = model_nonzero_draws(n, step);
        uint64_t code = model_step(record, HZ_RECORD_WORDS, table, entries * n, solution, m, mask + at, count, nonzero + nonzero_at,
                                   nonzero_count, answer, HZ_ANSWER_WORDS);
        at += count;
        nonzero_at += nonzero_count;
        printf(k ? "%s(%u,%u): " : "%s(%u): ", names[step], (unsigned)j, (unsigned)k);
        say(code);
        if (m <= 3)
            bytes("; table", table, entries * n);
        printf("\n");
    }
    show_left();
}

static void fill(uint8_t *tape, size_t len, unsigned x)
{
    for (size_t i = 0; i < len; i++) {
        x = (x * 25173 + 13849) % 65536;
        tape[i] = (uint8_t)(x / 256);
    }
}

static void system_of(const uint8_t *values)
{
    fill(draws, sizeof draws, 0);
    fill(mask, sizeof mask, (unsigned)(field * 100 + n * 10 + m));
    entries = m * (m + 1);
    printf("field %u, shares %u, size %u", (unsigned)field, (unsigned)n, (unsigned)m);
    bytes(": values", values, entries);
    deal(values);
    bytes("\n  table", table, entries * n);
    printf("\n");
    whole();
    deal(values);
    steps();
}

static void shared(uint64_t f, uint64_t size, const char *values)
{
    field = f;
    m = size;
    for (n = 2; n <= 4; n++)
        system_of((const uint8_t *)values);
}

int main(void)
{
    shared(16, 1, "\x02\x03");
    shared(16, 1, "\x00\x03");
    shared(16, 2, "\x00\x01\x05\x01\x00\x07");
    shared(16, 2, "\x01\x02\x01\x02\x04\x02");
    shared(16, 3, "\x00\x00\x03\x07\x02\x00\x01\x05\x01\x04\x09\x06");
    shared(16, 3, "\x00\x00\x03\x07\x02\x02\x01\x05\x01\x01\x09\x06");
    shared(16, 4, "\x00\x0c\x00\x0f\x0e\x00\x0f\x06\x04\x02\x01\x07\x0f\x00\x0d\x03\x08\x01\x00\x0d");
    shared(16, 4, "\x03\x00\x03\x0b\x03\x00\x0f\x0f\x03\x00\x06\x0a\x0c\x06\x06\x08\x03\x0b\x05\x00");
    shared(16, 5, "\x00\x07\x0d\x07\x02\x0c\x00\x04\x00\x00\x06\x00\x00\x0c\x06\x00\x02\x09\x0f\x05\x00\x05\x05\x02\x0c\x08\x01\x0a\x07\x0c");
    shared(16, 5, "\x0e\x0b\x01\x00\x0b\x0e\x0c\x03\x0d\x03\x00\x07\x08\x00\x03\x00\x00\x06\x05\x0f\x07\x09\x06\x08\x00\x08\x0d\x09\x01\x06");
    shared(256, 1, "\x57\xc1");
    shared(256, 1, "\x00\xc1");
    shared(256, 2, "\x00\x57\x83\xc1\x13\xfe");
    shared(256, 2, "\x57\xae\x13\x83\x1d\x11");
    shared(256, 3, "\x00\x00\xa3\x7e\x57\x00\xc1\x83\x13\x2f\x09\x5a");
    shared(256, 3, "\x57\x13\x44\x09\xc1\x83\x42\xfe\xfe\x2f\xd1\x11");
    shared(256, 4, "\x00\x4f\xb5\xd6\xc6\x00\xf5\x00\x95\x00\xc7\xac\x4a\xa6\x5c\xa5\xf1\x5a\x00\xde");
    shared(256, 4, "\xfa\x56\xac\x00\x5d\x00\xb2\xb2\x2c\xf0\xab\x00\xab\xa4\xff\x29\xa0\x89\x2f\x0b");
    shared(256, 5, "\x00\x00\xe5\x52\x00\x8d\x00\xaa\x98\xb8\x00\x68\x00\x00\x00\x8d\x0a\x4e\x8c\xf4\xf6\x22\xd1\x8a\x25\x62\xf6\x23\x5a\xaa");
    shared(256, 5, "\x1c\xeb\x25\xe1\x0a\x6f\x00\x7b\x00\xf7\x8c\x99\xfc\x41\x52\x00\x41\x7b\xa9\x72\x0b\xd4\xa6\x47\x7a\x3f\xd9\xfe\xc1\x7a");
    return 0;
}
