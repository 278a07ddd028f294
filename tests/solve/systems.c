/* Makes up systems for tests/solve/run, each a file such as a person might type.
 *
 *     systems FOLDER SEED
 *
 * prints 'FIELD SHARES FILE' for each. FILE.wanted holds what ./solve must print of
 * it and FILE.plain what ./solve --plain must, each worked out by the model's call of
 * tests/host that is like the library's.
 * Of wide systems it prints 'FIELD SHARES FILE ROWS'. These are made from their pivots
 * and x on, so that FILE.wanted is known with no elimination. There is no FILE.plain. */
#include "hostozaro.h"
#include "model.h"

#include <inttypes.h>
#include <stdio.h>
#include <stdlib.h>
#include <string.h>

static uint64_t state, field, n, rows, m; /* m unknowns; a square system has as many rows */
static uint8_t values[96 * 145];

static uint64_t below(uint64_t bound)
{
    state += 0x9e3779b97f4a7c15u; /* splitmix64 */
    uint64_t z = state;
    z = (z ^ z >> 30) * 0xbf58476d1ce4e5b9u;
    z = (z ^ z >> 27) * 0x94d049bb133111ebu;
    return (z ^ z >> 31) % bound;
}

/* Row r and column c count from 0; column m is b. */
static uint8_t *value(uint64_t r, uint64_t c)
{
    return values + r * (m + 1) + c;
}

static void make_dependent(uint64_t c)
{
    for (uint64_t r = 0; r < m; r++)
        *value(r, c) = 0;
    for (uint64_t d = 0; d < c; d++) {
        uint8_t factor = (uint8_t)below(field);
        for (uint64_t r = 0; r < m; r++)
            *value(r, c) ^= model_times(field, factor, *value(r, d));
    }
}

enum { ANY, ZERO_PIVOTS, DEPENDENT, FITTING_B, KINDS };

static void make_values(int kind)
{
    for (uint64_t e = 0; e < m * (m + 1); e++)
        values[e] = (uint8_t)below(field);
    if (kind == ZERO_PIVOTS)
        for (uint64_t r = 0; r < m; r++)
            memset(value(r, 0), 0, m - 1 - r);
    if (kind == DEPENDENT || kind == FITTING_B)
        make_dependent(below(m));
    if (kind == FITTING_B)
        make_dependent(m);
}

/* The values, with all that is allowed beside them. */
static void write_typed(FILE *to)
{
    static const char *const forms[] = {"%d", "%d", "%03d", "0x%x", "0X%02X"};
    static const char *const gaps[] = {" ", " ", "  ", "\t"};
    const char *end = below(3) == 0 ? "\r\n" : "\n";
    int last_end = below(3) != 0;
    if (below(2) == 0)
        fprintf(to, "# %" PRIu64 " equations%s%s", rows, end, end);
    for (uint64_t r = 0; r < rows; r++) {
        for (uint64_t c = 0; c <= m; c++) {
            fputs(c == 0 && below(8) != 0 ? "" : gaps[below(4)], to);
            fprintf(to, forms[below(5)], *value(r, c));
        }
        if (below(6) == 0)
            fprintf(to, "%s# row %" PRIu64 ", and 1 2 3", below(2) == 0 ? "" : " ", r + 1);
        if (r + 1 < rows || last_end)
            fputs(end, to);
        if (r + 1 < rows && below(8) == 0)
            fputs(end, to);
    }
}

static void write_x(FILE *to, const uint8_t *x)
{
    for (uint64_t c = 0; c < m; c++)
        fprintf(to, "%s%d", c == 0 ? "x = " : ", ", x[c]);
    fprintf(to, "\n");
}

/* The lines that tell the answer: column `stops`, or x where it is 0. */
static void write_answer(FILE *to, uint64_t stops, const uint8_t *x)
{
    if (stops == 0) {
        write_x(to, x);
        fprintf(to, "checked: A x = b for the numbers as typed\n");
    } else {
        fprintf(to, "stopped at column %" PRIu64 ": it is %s, so there is not exactly one x, whatever b is\n", stops,
                stops == 1 ? "zero" : "a combination of the columns before it");
    }
}

/* The answer depends on no draw, so these tapes are as good as any. */
static void write_wanted(FILE *to)
{
    static uint8_t zeros[3820512], ones[96 * 3], table[96 * 97 * 4];
    uint8_t x[96];
    uint64_t answer[HZ_ANSWER_WORDS], *counts = answer, stops = 0;
    memset(ones, 1, sizeof ones);
    model_deal(field, n, m, values, m * (m + 1), table, m * (m + 1) * n, zeros, sizeof zeros, answer, HZ_ANSWER_WORDS);
    if (model_solve(field, n, m, table, m * (m + 1) * n, x, m, zeros, sizeof zeros, ones, sizeof ones, answer,
                    HZ_ANSWER_WORDS) == HZ_STOPPED)
        stops = *counts++;
    write_answer(to, stops, x);
    fprintf(to, "agreed: the plain engine %s\n", stops == 0 ? "has the same x" : "stops at the same column");
    fprintf(to, "steps %" PRIu64 ", mask draws %" PRIu64 ", nonzero draws %" PRIu64 "\n", counts[0], counts[1], counts[2]);
}

static void write_plain(FILE *to)
{
    uint8_t x[96];
    uint64_t answer[HZ_ANSWER_WORDS];
    model_plain(field, m, values, m * (m + 1), x, m, answer, HZ_ANSWER_WORDS);
    write_answer(to, answer[0], x);
    fprintf(to, "plain: worked out in the open, nothing was masked\n");
}

/* ---- Wide systems ---- */

static uint64_t found, pivots[96]; /* from 1, as ./solve prints them */
static uint8_t wide_x[144];

enum { FIRST_COLUMNS, SOME_PASSED, LAST_COLUMNS, SHORT, ALL_ZERO, WIDE_KINDS };

/* Where columns are passed over, each of those left is a pivot with the chance that just
 * fills the pivots that are left. */
static void pick_pivots(int kind)
{
    uint64_t wanted = kind == ALL_ZERO ? 0 : kind == SHORT ? below(rows) : rows;
    found = 0;
    for (uint64_t c = kind == LAST_COLUMNS ? m - rows : 0; found < wanted; c++)
        if (kind == FIRST_COLUMNS || below(m - c) < wanted - found)
            pivots[found++] = c + 1;
}

/* Adds factor times row s to row r. Pivots and solutions stay the same by it. */
static void add_row(uint64_t r, uint64_t s, uint8_t factor)
{
    for (uint64_t c = 0; c <= m; c++)
        *value(r, c) ^= model_times(16, factor, *value(s, c));
}

static uint8_t row_times_x(uint64_t r)
{
    uint8_t sum = 0;
    for (uint64_t c = 0; c < m; c++)
        sum ^= model_times(16, *value(r, c), wide_x[c]);
    return sum;
}

/* Begins with the echelon form: before its pivot, which is not 0, a row has zeros, and so
 * have the rows below the last pivot all along. Where each row has a pivot, b is the
 * product of A and x. Then the rows are added to one another, and hide all that. */
static void make_wide(int kind)
{
    pick_pivots(kind);
    memset(values, 0, sizeof values);
    memset(wide_x, 0, sizeof wide_x);
    for (uint64_t r = 0; r < found; r++) {
        wide_x[pivots[r] - 1] = (uint8_t)below(16);
        *value(r, pivots[r] - 1) = (uint8_t)(1 + below(15));
        for (uint64_t c = pivots[r]; c < m; c++)
            *value(r, c) = (uint8_t)below(16);
    }
    for (uint64_t r = 0; r < rows; r++)
        *value(r, m) = found < rows ? (uint8_t)below(16) : row_times_x(r);
    for (uint64_t r = 1; r < rows; r++)
        for (uint64_t s = 0; s < r; s++)
            add_row(r, s, (uint8_t)below(16));
    for (uint64_t r = 0; r < rows; r++)
        for (uint64_t s = r + 1; s < rows; s++)
            add_row(r, s, (uint8_t)below(16));
}

/* The steps and the mask draws, by the table of the paper with. */
static void count_wide(uint64_t *steps, uint64_t *mask)
{
    uint64_t pairs = n * (n - 1) / 2, r = 0; /* pivots before column c */
    *steps = *mask = 0;
    for (uint64_t c = 1; c <= m && r < rows; c++) {
        uint64_t length = m + 2 - c, below_it = rows - r - 1;
        *steps += below_it + 1; /* Mix and Check */
        *mask += below_it * (4 * pairs + length * pairs) + 4 * pairs + pairs;
        if (r == found || pivots[r] != c)
            continue;
        *steps += 1 + below_it; /* Scale and Clear */
        *mask += (n - 1) * (n - 1) + pairs + n * (n - 1) * length + below_it * length * pairs;
        r++;
    }
    if (r < rows)
        return;
    *steps += 2 * rows - 1; /* Open and Lift */
    *mask += rows * pairs;
}

static void write_wide(FILE *to)
{
    uint64_t steps, mask;
    count_wide(&steps, &mask);
    if (found == rows)
        write_x(to, wide_x);
    else
        fprintf(to,
                "short: the rank, %" PRIu64 ", is below the number of rows, %" PRIu64
                ", so whether there is an x depends on b\n",
                found, rows);
    fprintf(to, "pivots: %s", found == 0 ? "none" : "");
    for (uint64_t i = 0; i < found; i++)
        fprintf(to, "%s%" PRIu64, i == 0 ? "" : ", ", pivots[i]);
    fprintf(to, found == rows ? "\nchecked: A x = b for the numbers as typed\n" : "\n");
    fprintf(to, "agreed: the plain engine has the same pivots%s\n", found == rows ? " and the same x" : "");
    fprintf(to, "steps %" PRIu64 ", mask draws %" PRIu64 ", nonzero draws %" PRIu64 "\n", steps, mask, found * (n - 1));
}

/* ---- */

static void write_file(const char *name, const char *end, void (*write)(FILE *))
{
    char whole[4200];
    snprintf(whole, sizeof whole, "%s%s", name, end);
    FILE *to = fopen(whole, "w");
    if (to == NULL)
        exit(2);
    write(to);
    if (fclose(to) != 0)
        exit(2);
}

static void all_squares(const char *folder)
{
    static const uint64_t sizes[] = {1, 2, 3, 4, 7, 16, 33, 96};
    for (field = 16; field <= 256; field += 240)
        for (n = 2; n <= 4; n++)
            for (size_t s = 0; s < sizeof sizes / sizeof sizes[0]; s++)
                for (int kind = 0; kind < KINDS; kind++) {
                    char name[4096];
                    rows = m = sizes[s];
                    if (m == 96 && kind != (int)(n % 3)) /* the largest take longest */
                        continue;
                    make_values(kind);
                    snprintf(name, sizeof name, "%s/%" PRIu64 "-%" PRIu64 "-%" PRIu64 "-%d.txt", folder, field, n, m, kind);
                    write_file(name, "", write_typed);
                    write_file(name, ".wanted", write_wanted);
                    write_file(name, ".plain", write_plain);
                    printf("%" PRIu64 " %" PRIu64 " %s\n", field, n, name);
                }
}

static void all_wide(const char *folder)
{
    static const struct {
        uint64_t rows, columns;
    } sizes[] = {{1, 1}, {1, 144}, {2, 3}, {5, 5}, {7, 16}, {64, 72}, {96, 110}, {96, 144}}; /* MAYO's among them */
    field = 16;
    for (n = 2; n <= 4; n++)
        for (size_t s = 0; s < sizeof sizes / sizeof sizes[0]; s++)
            for (int kind = 0; kind < WIDE_KINDS; kind++) {
                char name[4096];
                rows = sizes[s].rows;
                m = sizes[s].columns;
                if (rows == 96 && kind != (int)(n - 2)) /* the largest take longest */
                    continue;
                make_wide(kind);
                snprintf(name, sizeof name, "%s/wide-%" PRIu64 "-%" PRIu64 "-%" PRIu64 "-%d.txt", folder, n, rows, m,
                         kind);
                write_file(name, "", write_typed);
                write_file(name, ".wanted", write_wide);
                printf("16 %" PRIu64 " %s %" PRIu64 "\n", n, name, rows);
            }
}

int main(int argc, char **argv)
{
    if (argc != 3)
        return 2;
    state = strtoull(argv[2], NULL, 10);
    all_squares(argv[1]);
    all_wide(argv[1]);
    return 0;
}
