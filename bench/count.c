/* Counts the instructions of full solves, inside the called functions only, and compares
 * every result with the model's.
 *
 *     count PROGRAM [SIZE..]
 *     count PROGRAM --board
 *
 * PROGRAM holds the library, the model, the C solves and M4RIE if that is installed; it
 * is emulated. A size is that of a square system, or ROWSxCOLUMNS for a wide one. Where
 * sizes are given, only those are counted, and nothing is set against document 001. With
 * --board PROGRAM is for a Cortex-M4, and the tables are other ones. */
#include "hostozaro.h"
#include "model.h"
#include "emulator.h"

#include <inttypes.h>
#include <stdbool.h>
#include <stdio.h>
#include <stdlib.h>
#include <string.h>

#define MAX_ENTRIES (96 * 145)
#define MAX_TABLE (MAX_ENTRIES * 4)
#define MAX_MASK 12528144 /* wide, n = 4, 96 rows, 144 columns */

static emulator *machine;

/* One system with its tapes, and what a solve must leave. A square one has as many columns
 * as rows. */
static uint64_t field, n, rows, columns, wanted_answer[4];
static bool wide;
static size_t entries, table_len, mask_len, nonzero_len;
static uint8_t values[MAX_ENTRIES], table[MAX_TABLE], mask[MAX_MASK], nonzero[96 * 3], wanted[MAX_TABLE];
static uint8_t wanted_x[144];

static uint8_t any(void)
{
    static uint64_t state;
    state = state * 6364136223846793005u + 1442695040888963407u;
    return (uint8_t)(state >> 56);
}

/* Lengths and tapes; mask_len is set before. */
static void make_tapes(void)
{
    entries = rows * (columns + 1);
    table_len = entries * n, nonzero_len = rows * (n - 1);
    for (size_t i = 0; i < mask_len; i++)
        mask[i] = any();
    for (size_t i = 0; i < nonzero_len; i++)
        do
            nonzero[i] = any();
        while (nonzero[i] % field == 0);
}

static void make_values(void)
{
    for (size_t e = 0; e < entries; e++)
        values[e] = (uint8_t)(any() % field);
}

static void deal(void)
{
    for (size_t e = 0; e < entries; e++) {
        table[e * n] = values[e];
        for (size_t s = 1; s < n; s++) {
            table[e * n + s] = (uint8_t)(any() % field);
            table[e * n] ^= table[e * n + s];
        }
    }
    memcpy(wanted, table, table_len);
}

/* A square system that has one solution. */
static void make_system(uint64_t new_field, uint64_t new_n, uint64_t m)
{
    field = new_field, n = new_n, rows = columns = m, wide = false;
    mask_len = model_full_mask_draws(field, n, m);
    make_tapes();
    do {
        make_values();
        deal();
    } while (model_solve(field, n, m, wanted, table_len, wanted_x, m, mask, mask_len, nonzero, nonzero_len,
                         wanted_answer, 4) != HZ_SOLVED);
}

/* A wide system with a pivot in every row, which passes so many columns over: those that
 * follow every tenth one double the column before them. */
static void make_wide_system(uint64_t new_n, uint64_t new_rows, uint64_t new_columns, uint64_t passed_over)
{
    uint64_t pivots[96];
    field = 16, n = new_n, rows = new_rows, columns = new_columns, wide = true;
    mask_len = model_wide_mask_draws(n, rows, columns);
    make_tapes();
    do {
        make_values();
        for (uint64_t r = 0; r < rows; r++)
            for (uint64_t i = 1; i <= passed_over; i++) {
                uint8_t *entry = values + r * (columns + 1) + 10 * i;
                *entry = model_times(16, 2, entry[-1]);
            }
    } while (model_wide_plain(rows, columns, values, pivots, wanted_x) < rows
             || pivots[rows - 1] != rows + passed_over);
    deal();
    model_wide_solve(16, n, rows, columns, wanted, table_len, wanted_x, columns, mask, mask_len, nonzero, nonzero_len,
                     wanted_answer, 4);
}

static void compare(const char *name, const void *got, const void *want, size_t len)
{
    if (memcmp(got, want, len) == 0)
        return;
    printf("%s differs from the model: field %" PRIu64 " shares %" PRIu64 " rows %" PRIu64 " columns %" PRIu64 "\n",
           name, field, n, rows, columns);
    exit(1);
}

/* What the functions are lent, as addresses in the machine. */
static uint64_t at_table, at_values, at_x, at_mask, at_nonzero, at_answer;
static const uint8_t empty[144];

static void lend(void)
{
    emulator_reset(machine);
    at_table = emulator_lend(machine, table, table_len);
    at_x = emulator_lend(machine, empty, columns);
    at_mask = emulator_lend(machine, mask, mask_len);
    at_nonzero = emulator_lend(machine, nonzero, nonzero_len);
    at_answer = emulator_lend(machine, empty, 32);
}

static void compare_solution(const char *name)
{
    uint8_t x[144];
    emulator_take(machine, at_x, x, columns);
    compare(name, x, wanted_x, columns);
}

static void compare_results(const char *name)
{
    static uint8_t got[MAX_TABLE];
    emulator_take(machine, at_table, got, table_len);
    compare(name, got, wanted, table_len);
    compare_solution(name);
}

/* A whole solve: field, shares and sizes, and after them what is lent. */
static uint64_t whole(const char *name, const uint64_t *lent, size_t count)
{
    uint64_t arguments[14] = {field, n, rows, columns};
    size_t numbers = wide ? 4 : 3;
    memcpy(arguments + numbers, lent, count * sizeof *lent);
    count += numbers;
    uint64_t answer[4], code = emulator_call(machine, name, numbers, arguments, count), solved = HZ_SOLVED;
    compare(name, &code, &solved, sizeof code);
    emulator_take(machine, at_answer, answer, sizeof answer);
    compare(name, answer, wanted_answer, sizeof answer);
    compare_results(name);
    return machine->counted;
}

/* The library's and the model's: each buffer with its length. */
static uint64_t with_lengths(const char *name)
{
    lend();
    return whole(name,
                 (uint64_t[]){at_table, table_len, at_x, columns, at_mask, mask_len, at_nonzero, nonzero_len,
                              at_answer, 4},
                 10);
}

/* Those of solves.h. */
static uint64_t without_lengths(const char *name)
{
    lend();
    return whole(name, (uint64_t[]){at_table, at_x, at_mask, at_nonzero, at_answer}, 5);
}

/* All the single steps together. */
static uint64_t single_steps(void)
{
    static const uint64_t no_record[HZ_WIDE_RECORD_WORDS];
    const char *step = wide ? "hz_wide_step" : "hz_step";
    uint64_t record[HZ_WIDE_RECORD_WORDS], words = wide ? HZ_WIDE_RECORD_WORDS : HZ_RECORD_WORDS, sum, code;
    lend();
    uint64_t at_record = emulator_lend(machine, no_record, words * sizeof *no_record);
    if (wide)
        emulator_call(machine, "hz_wide_start", 4,
                      (uint64_t[]){field, n, rows, columns, at_record, words, at_answer, 4}, 8);
    else
        emulator_call(machine, "hz_start", 3, (uint64_t[]){field, n, rows, at_record, words, at_answer, 4}, 7);
    sum = machine->counted;
    do {
        emulator_take(machine, at_record, record, words * sizeof *record);
        uint64_t kind = record[wide ? HZ_WIDE_STEP : HZ_STEP];
        uint64_t masks = model_mask_draws(field, n, columns, kind, record[wide ? HZ_WIDE_J : HZ_J]);
        uint64_t nonzeros = model_nonzero_draws(n, kind);
        code = emulator_call(machine, step, 0,
                             (uint64_t[]){at_record, words, at_table, table_len, at_x, columns, at_mask, masks,
                                          at_nonzero, nonzeros, at_answer, 4},
                             12);
        sum += machine->counted;
        at_mask += masks;
        at_nonzero += nonzeros;
    } while (code == HZ_MOVED || code == HZ_OPENED);
    compare_results(step);
    return sum;
}

/* For the solves without shares. Solution and answer begin with other bytes, so that it
 * shows if they are not written. */
static void lend_values(void)
{
    emulator_reset(machine);
    at_values = emulator_lend(machine, values, entries);
    at_x = emulator_lend(machine, wanted, rows);
    at_answer = emulator_lend(machine, wanted, 32);
}

static uint64_t plain_c(void)
{
    lend_values();
    emulator_call(machine, "plain_solve", 2, (uint64_t[]){field, rows, at_values, at_x}, 4);
    compare_solution("plain_solve");
    return machine->counted;
}

static uint64_t plain_engine(void)
{
    uint64_t answer[4], solved = HZ_SOLVED;
    uint8_t after[MAX_ENTRIES];
    lend_values();
    uint64_t code = emulator_call(machine, "hz_plain", 2,
                                  (uint64_t[]){field, rows, at_values, entries, at_x, rows, at_answer, 4}, 8);
    compare("hz_plain", &code, &solved, sizeof code);
    emulator_take(machine, at_answer, answer, sizeof answer);
    compare("hz_plain", answer, empty, sizeof answer);
    emulator_take(machine, at_values, after, entries);
    compare("hz_plain", after, values, entries);
    compare_solution("hz_plain");
    return machine->counted;
}

static bool have_m4rie(void)
{
    for (size_t i = 0; i < machine->symbol_count; i++)
        if (strcmp(machine->symbols[i].name, "m4rie_open") == 0)
            return true;
    return false;
}

typedef struct {
    uint64_t solve, echelon_form; /* the first includes the second */
} m4rie_counts;

static m4rie_counts m4rie(void)
{
    m4rie_counts counted;
    lend_values();
    /* Debian builds M4RIE with a stack protector, which looks at fs:0x28. */
    uint64_t at_thread = emulator_lend(machine, empty, 64);
    uc_reg_write(machine->uc, UC_X86_REG_FS_BASE, &at_thread);
    emulator_call(machine, "m4rie_open", 1, &field, 1);
    emulator_call(machine, "m4rie_fill", 1, (uint64_t[]){rows, at_values}, 2);
    counted.solve = machine->counted;
    uint64_t rank = emulator_call(machine, "m4rie_reduce", 0, NULL, 0);
    counted.echelon_form = machine->counted;
    emulator_call(machine, "m4rie_take", 0, &at_x, 1);
    counted.solve += counted.echelon_form + machine->counted;
    emulator_call(machine, "m4rie_close", 0, NULL, 0);
    compare("M4RIE's rank", &rank, &rows, sizeof rank);
    compare_solution("M4RIE");
    return counted;
}

static double millions(uint64_t count)
{
    return (double)count / 1e6;
}

static double over(uint64_t a, uint64_t b)
{
    return (double)a / (double)b;
}

static void print_row(void)
{
    uint64_t library = with_lengths("hz_solve"), steps = single_steps(), straight = with_lengths("model_solve");
    uint64_t best = without_lengths("best_solve"), ordered = without_lengths("ordered_solve");
    printf("| F%" PRIu64 " | %" PRIu64 " | %" PRIu64 " | %.3f | %.3f | %.3f | %.3f | %.3f | %.2f | %.2f | %.2f | %.2f |\n", field, n,
           rows, millions(library), millions(straight), millions(best), millions(ordered), millions(steps),
           over(library, straight), over(library, best), over(library, ordered), over(steps, library));
    fflush(stdout);
}

static void print_wide_row(uint64_t passed_over)
{
    uint64_t library = with_lengths("hz_wide_solve"), steps = single_steps();
    uint64_t best = without_lengths("best_wide_solve"), ordered = without_lengths("ordered_wide_solve");
    printf("| %" PRIu64 "x%" PRIu64 " | %" PRIu64 " | %" PRIu64 " | %" PRIu64
           " | %.3f | %.3f | %.3f | %.3f | %.2f | %.2f | %.2f |\n",
           rows, columns, passed_over, n, wanted_answer[1], millions(library), millions(best), millions(ordered),
           millions(steps), over(library, best), over(library, ordered), over(steps, library));
    fflush(stdout);
}

static void print_against_plain(uint64_t size, const char *paper)
{
    printf("| %" PRIu64, size);
    for (uint64_t f = 16; f <= 256; f += 240) {
        make_system(f, 2, size);
        uint64_t masked = with_lengths("hz_solve"), bare = plain_c();
        printf(" | %.3f | %.3f | %.1f", millions(masked), millions(bare), over(masked, bare));
    }
    printf(" | %s |\n", paper);
}

static void print_plain_row(bool beside_m4rie)
{
    uint64_t engine = plain_engine(), c = plain_c();
    m4rie_counts its = beside_m4rie ? m4rie() : (m4rie_counts){0};
    printf("| F%" PRIu64 " | %" PRIu64 " | %.3f | %.3f | %.2f |", field, rows, millions(engine), millions(c),
           over(engine, c));
    if (beside_m4rie)
        printf(" %.3f | %.3f | %.2f | %.2f |", millions(its.solve), millions(its.echelon_form),
               over(engine, its.solve), over(engine, its.echelon_form));
    printf("\n");
    fflush(stdout);
}

static void print_masked(char **sizes, int count)
{
    printf("| field | n | m | library | straightforward C | best C | ordered C | single steps | library / straightforward "
           "| library / best | library / ordered | steps / library |\n"
           "|---|---|---|---|---|---|---|---|---|---|---|---|\n");
    for (uint64_t f = 16; f <= 256; f += 240)
        for (uint64_t shares = 2; shares <= 4; shares++)
            for (int i = 0; i < count; i++) {
                make_system(f, shares, strtoull(sizes[i], NULL, 10));
                print_row();
            }
}

static void print_wide_rows(uint64_t r, uint64_t c, uint64_t passed_over)
{
    for (uint64_t shares = 2; shares <= 4; shares++) {
        make_wide_system(shares, r, c, passed_over);
        print_wide_row(passed_over);
    }
}

static void print_wide(char **sizes, int count)
{
    printf("\n| F16, wide | passed over | n | mask draws | library | best C | ordered C | single steps "
           "| library / best | library / ordered | steps / library |\n"
           "|---|---|---|---|---|---|---|---|---|---|---|\n");
    for (int i = 0; i < count; i++) {
        char *x;
        uint64_t r = strtoull(sizes[i], &x, 10);
        print_wide_rows(r, strtoull(x + 1, NULL, 10), 0);
    }
}

static void print_beside_001(void)
{
    printf("\n| m | F16: library | plain C | ratio | F256: library | plain C | ratio | 001 |\n"
           "|---|---|---|---|---|---|---|---|\n");
    print_against_plain(44, "6.5");
    print_against_plain(72, "5.9");
    print_against_plain(96, "5.7");
}

static void print_plain(char **sizes, int count)
{
    bool beside_m4rie = have_m4rie();
    printf("\n| field | m | plain engine | plain C | plain engine / plain C |%s\n|---|---|---|---|---|%s\n",
           beside_m4rie ? " M4RIE | its echelon form | plain engine / M4RIE | plain engine / its echelon form |" : "",
           beside_m4rie ? "---|---|---|---|" : "");
    for (uint64_t f = 16; f <= 256; f += 240)
        for (int i = 0; i < count; i++) {
            make_system(f, 2, strtoull(sizes[i], NULL, 10));
            print_plain_row(beside_m4rie);
        }
    if (!beside_m4rie)
        printf("\nM4RIE is not installed here (Debian's libm4rie-dev and libm4ri-dev), so it has no column.\n");
}

/* ---- The board ---- */

typedef struct {
    uint64_t library, straight, ordered;
} board_counts;

static board_counts print_board_row(void)
{
    board_counts of = {with_lengths("hz_solve"), with_lengths("model_solve"), without_lengths("ordered_solve")};
    printf("| F%" PRIu64 " | %" PRIu64 " | %" PRIu64 " | %.3f | %.3f | %.3f | %.2f | %.2f |\n", field, n, rows,
           millions(of.library), millions(of.straight), millions(of.ordered), over(of.library, of.straight),
           over(of.library, of.ordered));
    fflush(stdout);
    return of;
}

/* Of a count of more than a million. */
static void print_thousands(uint64_t count)
{
    uint64_t thousands = (count + 500) / 1000;
    printf("%" PRIu64 ",%03" PRIu64 " | ", thousands / 1000, thousands % 1000);
}

static void print_board_counts(void)
{
    static const struct {
        uint64_t size;
        const char *masked, *unmasked; /* thousands of cycles of document 001, F256 and n = 2 */
    } paper[3] = {{44, "6,670", "1,034"}, {72, "24,399", "4,117"}, {96, "53,461", "9,336"}};
    board_counts beside[3];
    printf("| field | n | m | library | straightforward C | ordered C | library / straightforward "
           "| library / ordered |\n|---|---|---|---|---|---|---|---|\n");
    for (uint64_t f = 16; f <= 256; f += 240)
        for (uint64_t shares = 2; shares <= 4; shares++)
            for (int i = 0; i < 3; i++) {
                make_system(f, shares, paper[i].size);
                board_counts of = print_board_row();
                if (f == 256 && shares == 2)
                    beside[i] = of;
            }
    printf("\nThe rows of F256 with n = 2 beside document 001, which has cycles of a Cortex-M4; both in thousands.\n"
           "Its cycles have the making of its random numbers in them, and it mixes only a few rows. Instructions are\n"
           "not cycles: some take more than one, such as loads and taken branches, and nothing here is timed. The\n"
           "emulator does not count an instruction that its condition skips: 1 or 2 of a hundred of the library's.\n\n"
           "| m | library, instructions | ordered C, instructions | 001 masked, cycles | 001 unmasked, cycles |\n"
           "|---|---|---|---|---|\n");
    for (int i = 0; i < 3; i++) {
        printf("| %" PRIu64 " | ", paper[i].size);
        print_thousands(beside[i].library);
        print_thousands(beside[i].ordered);
        printf("%s | %s |\n", paper[i].masked, paper[i].unmasked);
    }
}

int main(int argc, char **argv)
{
    if (argc < 2)
        return 2;
    machine = emulator_open(argv[1]);
    if (argc == 3 && strcmp(argv[2], "--board") == 0) {
        print_board_counts();
        return 0;
    }
    char *squares[argc], *wides[argc];
    int square_count = 0, wide_count = 0;
    for (int i = 2; i < argc; i++)
        if (strchr(argv[i], 'x') == NULL)
            squares[square_count++] = argv[i];
        else
            wides[wide_count++] = argv[i];
    if (argc == 2) {
        print_masked((char *[]){"16", "44", "96"}, 3);
        print_beside_001();
        print_plain((char *[]){"44", "96"}, 2);
        print_wide((char *[]){"64x72", "96x110", "96x144"}, 3);
        print_wide_rows(96, 144, 8);
    }
    if (square_count > 0) {
        print_masked(squares, square_count);
        print_plain(squares, square_count);
    }
    if (wide_count > 0)
        print_wide(wides, wide_count);
    return 0;
}
