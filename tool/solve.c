/* The program behind ./solve: a system comes in as numbers, is dealt into shares and
 * solved through the library, and x is printed once it is found to solve what was
 * typed and the library's plain engine has the same. Or the plain engine solves it
 * alone, in the open. A wide system has at least as many unknowns as its ROWS
 * equations.
 *
 *     solve FIELD SHARES NAME [--steps] <SYSTEM
 *     solve FIELD SHARES NAME --wide ROWS <SYSTEM
 *     solve FIELD --plain NAME <SYSTEM
 *
 * NAME is what messages call the input. ./solve --help tells the rest. */
#define _DEFAULT_SOURCE /* for explicit_bzero and getrandom */
#include "typed.h"

#include <errno.h>
#include <inttypes.h>
#include <stdio.h>
#include <stdlib.h>
#include <string.h>
#include <sys/random.h>
#include <unistd.h>

enum { MOST_COLUMNS = 144 }; /* of a wide system, by R-8 */

static const char *field_typed, *shares_typed, *rows_typed;
static bool wide;
static uint64_t rows = 1; /* that the system must have; a square one's are known after row 1 */

/* All that tells of the system, in one place, so that it can be wiped. */
static struct {
    uint8_t values[MOST * (MOST_COLUMNS + 1)]; /* as typed, row by row, b last in each */
    uint8_t table[MOST * (MOST_COLUMNS + 1) * MOST_SHARES];
    uint8_t x[MOST_COLUMNS];
    uint8_t plain_x[MOST_COLUMNS]; /* the plain engine's, to compare */
    uint8_t square[MOST * (MOST + 1)]; /* what the plain engine is asked of a wide system */
} secret;

/* ---- What the library refuses ---- */

/* A refusal of something that this program lent, which is a fault of its own. */
static void say_lent(void)
{
    switch (answer[0]) {
    case 7:
    case 8:
    case 14:
    case 15:
        fprintf(stderr, "the %s tape is too %s; the length wanted is %" PRIu64,
                answer[0] == 7 || answer[0] == 14 ? "mask" : "nonzero", answer[0] < 14 ? "short" : "long", answer[1]);
        break;
    case 9:
        fprintf(stderr, "nonzero draw %" PRIu64 ", counted from 0, is 0", answer[1]);
        break;
    case 10:
        fprintf(stderr, "the record is at no step of %s", wide ? "these pivots" : "this size");
        break;
    case 11:
        fputs("the record has ended", stderr);
        break;
    case 12:
        say_cell(answer[1], answer[2], answer[3]);
        fputs(" is a pivot of 0", stderr);
        break;
    case 19:
        fputs("the record's counters do not match its place", stderr);
        break;
    case 20:
        fprintf(stderr, "x_%" PRIu64 " in the solution is no element of this field, 0 to %" PRIu64, answer[1], field - 1);
        break;
    default:
        say_buffer();
    }
    fputs(", which never should be", stderr);
}

void say_refused(void)
{
    switch (answer[0]) {
    case 1:
        say_word("FIELD", field_typed);
        if (wide)
            fputs("; with --wide it may be 16", stderr);
        else
            say_may_be();
        break;
    case 2:
        say_word("SHARES", shares_typed);
        say_may_be();
        break;
    case 3:
        if (wide)
            say_word("ROWS", rows_typed);
        else
            fprintf(stderr, "row 1 has %" PRIu64 " numbers, so the size is %" PRIu64, answer[1] + 1, answer[1]);
        say_may_be();
        break;
    case 21:
        fprintf(stderr,
                "row 1 has %" PRIu64 " numbers, so the unknowns are %" PRIu64 "; with ROWS %" PRIu64
                " they may be %" PRIu64 " to %d",
                answer[1] + 1, answer[1], rows, rows, MOST_COLUMNS);
        break;
    default:
        say_lent();
    }
}

/* How a solve ended. */
typedef struct {
    uint64_t stopped; /* the column, 0 where it did not stop */
    uint64_t steps, mask_draws, nonzero_draws;
    bool is_short; /* wide: the rows' rank is below ROWS */
} ending;

static bool has_x(ending end)
{
    return end.stopped == 0 && !end.is_short;
}

/* What a full solve with so many unknowns takes, unless the library refuses the field,
 * the shares or the size. Of a wide one it can only tell how many draws it may take, and
 * no steps. */
static ending ask_counts(uint64_t unknowns)
{
    if (wide) {
        must(hz_wide_counts(field, shares, rows, unknowns, answer, HZ_ANSWER_WORDS), HZ_WANTED);
        return (ending){.mask_draws = answer[0], .nonzero_draws = answer[1]};
    }
    must(hz_counts(field, shares, unknowns, answer, HZ_ANSWER_WORDS), HZ_COUNTS);
    return (ending){.steps = answer[0], .mask_draws = answer[1], .nonzero_draws = answer[2]};
}

/* ---- Reading the system ---- */

static uint64_t width; /* numbers to a row, known after row 1 */

static _Noreturn void bad_rows(uint64_t at_line, const char *what)
{
    if (wide)
        bad(at_line, 1, "%s; ROWS is %" PRIu64, what, rows);
    bad(at_line, 1, "%s; row 1 has %" PRIu64 " numbers, that of b among them, so the number of rows is %" PRIu64, what,
        width, rows);
}

static void take_number(size_t length, bool last)
{
    (void)last; /* there are no shares */
    column++;
    if (row > rows)
        bad_rows(line, "one row too many");
    if (row > 1 && column > width)
        bad(line, column, "one number too many; row 1 has %" PRIu64, width);
    uint8_t number = element(length);
    if (column <= MOST_COLUMNS + 1) /* the library refuses more, once row 1 is read */
        secret.values[(row - 1) * width + column - 1] = number;
}

static void end_row(void)
{
    if (column == 0)
        return;
    if (row == 1) {
        if (column == 1)
            bad(line, 2, "missing; a row has its numbers of A and then that of b, two at least");
        width = column;
        ask_counts(width - 1);
        if (!wide)
            rows = width - 1;
    }
    if (column < width)
        bad(line, column + 1, "missing; row 1 has %" PRIu64 " numbers", width);
    row++;
    column = 0;
}

/* Reads all of standard input into the values, and sets the size. */
static void read_system(void)
{
    uint64_t last_line = read_rows(false, take_number, end_row);
    if (row == 1 && wide)
        bad_input(" has no rows; ROWS is %" PRIu64, rows);
    if (row == 1)
        bad_input(" has no rows; m rows of m+1 numbers are wanted");
    if (row <= rows)
        bad_rows(last_line, "missing below this line");
    size = width - 1;
}

/* ---- Solving ---- */

static void fill_random(uint8_t *bytes, size_t len)
{
    while (len > 0) {
        ssize_t got = getrandom(bytes, len, 0);
        if (got < 0 && errno != EINTR)
            trouble("the system's random generator");
        if (got > 0) {
            bytes += got;
            len -= (size_t)got;
        }
    }
}

/* A tape of fresh random bytes, of which no draw is 0 where that is asked. */
static uint8_t *lend_tape(size_t len, bool nonzero)
{
    uint8_t *tape = malloc(len + 1); /* no pointer may be NULL, not even for no bytes */
    if (tape == NULL)
        trouble("memory for a tape");
    fill_random(tape, len);
    for (size_t i = 0; nonzero && i < len; i++)
        while (tape[i] % field == 0)
            fill_random(tape + i, 1);
    return tape;
}

static void take_back(uint8_t *tape, size_t len)
{
    explicit_bzero(tape, len);
    free(tape);
}

static size_t table_len(void)
{
    return rows * (size + 1) * shares;
}

/* The library's hz_deal has square tables alone. This deals a wide one as it would:
 * shares 2 to n of a value are the next draws, and share 1 is the value plus their sum. */
static void deal_wide(void)
{
    size_t values_len = rows * (size + 1), draws = values_len * (shares - 1), next = 0;
    uint8_t *mask = lend_tape(draws, false);
    for (size_t v = 0; v < values_len; v++) {
        uint8_t *entry = secret.table + v * shares;
        entry[0] = secret.values[v];
        for (size_t s = 1; s < shares; s++) {
            entry[s] = (uint8_t)(mask[next++] % field);
            entry[0] ^= entry[s];
        }
    }
    take_back(mask, draws);
}

static void deal(void)
{
    size_t values_len = size * (size + 1), draws = values_len * (shares - 1);
    uint8_t *mask = lend_tape(draws, false);
    must(hz_deal(field, shares, size, secret.values, values_len, secret.table, table_len(), mask, draws, answer,
                 HZ_ANSWER_WORDS),
         HZ_FILLED);
    take_back(mask, draws);
}

static ending in_one_call(void)
{
    ending full = ask_counts(size);
    size_t mask_len = full.mask_draws, nonzero_len = full.nonzero_draws;
    uint8_t *mask = lend_tape(mask_len, false), *nonzero = lend_tape(nonzero_len, true);
    uint64_t code = hz_solve(field, shares, size, secret.table, table_len(), secret.x, size, mask, mask_len, nonzero,
                             nonzero_len, answer, HZ_ANSWER_WORDS);
    take_back(mask, mask_len);
    take_back(nonzero, nonzero_len);
    if (code == HZ_STOPPED)
        return (ending){answer[0], answer[1], answer[2], answer[3], false};
    must(code, HZ_SOLVED);
    return (ending){0, answer[0], answer[1], answer[2], false};
}

/* How far the steps have come on the way to a full solve, where somebody watches; all 0
 * wipes the line. How many steps a wide one has is not known ahead, so there the bar goes
 * by the mask draws. The longest line has 78 columns. */
static void show_progress(ending so_far, ending full)
{
    static const char bar[] = "############";
    if (!isatty(STDERR_FILENO))
        return;
    if (so_far.steps == 0)
        fprintf(stderr, "\r%79s\r", "");
    else if (wide)
        fprintf(stderr,
                "\r[%-12.*s] step %" PRIu64 ", mask %" PRIu64 " of up to %" PRIu64 ", nonzero %" PRIu64 " of %" PRIu64,
                (int)(12 * so_far.mask_draws / full.mask_draws), bar, so_far.steps, so_far.mask_draws, full.mask_draws,
                so_far.nonzero_draws, full.nonzero_draws);
    else
        fprintf(stderr,
                "\r[%-12.*s] step %" PRIu64 " of %" PRIu64 ", mask %" PRIu64 " of %" PRIu64 ", nonzero %" PRIu64
                " of %" PRIu64,
                (int)(12 * so_far.steps / full.steps), bar, so_far.steps, full.steps, so_far.mask_draws,
                full.mask_draws, so_far.nonzero_draws, full.nonzero_draws);
}

/* The steps' record. That of a wide solve tells the pivots, when it has ended. */
static uint64_t record[HZ_WIDE_RECORD_WORDS];

static uint64_t start(void)
{
    return wide ? hz_wide_start(field, shares, rows, size, record, HZ_WIDE_RECORD_WORDS, answer, HZ_ANSWER_WORDS)
                : hz_start(field, shares, size, record, HZ_RECORD_WORDS, answer, HZ_ANSWER_WORDS);
}

static ending by_steps(void)
{
    size_t words = wide ? HZ_WIDE_RECORD_WORDS : HZ_RECORD_WORDS;
    uint64_t code;
    ending so_far = {0}, full = ask_counts(size);
    must(start(), HZ_FRESH);
    do {
        must((wide ? hz_wide_wanted : hz_wanted)(record, words, answer, HZ_ANSWER_WORDS), HZ_WANTED);
        size_t mask_len = answer[0], nonzero_len = answer[1];
        uint8_t *mask = lend_tape(mask_len, false), *nonzero = lend_tape(nonzero_len, true);
        code = (wide ? hz_wide_step : hz_step)(record, words, secret.table, table_len(), secret.x, size, mask, mask_len,
                                               nonzero, nonzero_len, answer, HZ_ANSWER_WORDS);
        take_back(mask, mask_len);
        take_back(nonzero, nonzero_len);
        so_far.steps++;
        so_far.mask_draws = record[wide ? HZ_WIDE_MASK_TAKEN : HZ_MASK_TAKEN];
        so_far.nonzero_draws = record[wide ? HZ_WIDE_NONZERO_TAKEN : HZ_NONZERO_TAKEN];
        show_progress(so_far, full);
    } while (code == HZ_MOVED || code == HZ_OPENED);
    show_progress((ending){0}, full);
    if (code == HZ_STOPPED && !wide)
        so_far.stopped = answer[0];
    else if (code == HZ_SHORT && wide)
        so_far.is_short = true;
    else
        must(code, HZ_DONE);
    return so_far;
}

static ending in_the_open(const uint8_t *square, uint8_t *x)
{
    uint64_t code = hz_plain(field, rows, square, rows * (rows + 1), x, rows, answer, HZ_ANSWER_WORDS);
    wipe_stack(); /* the plain engine works in a copy of the values there, and leaves it */
    if (code == HZ_STOPPED)
        return (ending){.stopped = answer[0]};
    must(code, HZ_SOLVED);
    return (ending){0};
}

/* What the record's words of these names should be, as the plain engine finds it: the
 * pivots, and then zeros. For a square system all stays 0, here and there. */
static struct {
    uint64_t found, pivots[MOST];
} plain;

/* Column c of what was typed becomes column d of the square, both from 0. */
static void put_in_square(uint64_t d, uint64_t c)
{
    for (size_t r = 0; r < rows; r++)
        secret.square[r * (rows + 1) + d] = secret.values[r * (size + 1) + c];
}

/* A wide system in the open. The plain engine has square ones alone, so it is asked of one
 * column after the other, in a square of the pivots so far, this column and zeros: if it
 * stops there, the pivots before combine to the column; if it gets past, it is a pivot. A
 * square that is all pivots is solved, to the x at these. */
static ending wide_in_the_open(void)
{
    put_in_square(rows, size); /* b */
    for (uint64_t c = 0; c < size && plain.found < rows; c++) {
        put_in_square(plain.found, c);
        uint64_t stopped = in_the_open(secret.square, secret.plain_x).stopped;
        if (stopped == 0 || stopped > plain.found + 1)
            plain.pivots[plain.found++] = c + 1;
    }
    for (uint64_t i = plain.found; i-- > 0;) { /* the last first, since no unknown moves to the front */
        uint8_t unknown = secret.plain_x[i];
        secret.plain_x[i] = 0;
        secret.plain_x[plain.pivots[i] - 1] = unknown;
    }
    return (ending){.is_short = plain.found < rows};
}

/* ---- The checks, and the answer ---- */

/* The product in the field, bit by bit. The bit of x^w is the field's own number. */
static unsigned times(unsigned a, unsigned b)
{
    unsigned modulus = field == 16 ? 0x13 : 0x11b, product = 0; /* x^4+x+1, x^8+x^4+x^3+x+1 */
    for (; b != 0; b >>= 1) {
        product ^= b & 1 ? a : 0;
        a <<= 1;
        a ^= a & field ? modulus : 0;
    }
    return product;
}

/* Whether A·x = b for the numbers as typed. */
static bool solves(void)
{
    for (size_t r = 0; r < rows; r++) {
        const uint8_t *equation = secret.values + r * (size + 1);
        unsigned sum = 0;
        for (size_t c = 0; c < size; c++)
            sum ^= times(equation[c], secret.x[c]);
        if (sum != equation[size])
            return false;
    }
    return true;
}

/* Ends the program where x was found that does not solve the system. */
static void must_solve(ending end)
{
    if (!has_x(end) || solves())
        return;
    fprintf(stderr, "solve: the library's x does not solve the system: please report this\n");
    exit(WRONG);
}

static void say_ended(const char *which, ending end, const char *found)
{
    if (end.stopped != 0)
        fprintf(stderr, "the %s engine stops at column %" PRIu64, which, end.stopped);
    else
        fprintf(stderr, "the %s engine %s", which, end.is_short ? "finds the rank short" : found);
}

/* Ends the program where the plain engine has another answer for what was typed. */
static void must_agree(ending masked)
{
    ending open = wide ? wide_in_the_open() : in_the_open(secret.values, secret.plain_x);
    bool same_pivots = record[HZ_WIDE_FOUND] == plain.found
                       && memcmp(record + HZ_WIDE_PIVOTS, plain.pivots, sizeof plain.pivots) == 0;
    if (masked.stopped == open.stopped && masked.is_short == open.is_short && same_pivots
        && (!has_x(masked) || memcmp(secret.x, secret.plain_x, size) == 0))
        return;
    fputs("solve: ", stderr);
    if (same_pivots) {
        say_ended("masked", masked, "finds x");
        fputs(", but ", stderr);
        say_ended("plain", open, has_x(masked) ? "another" : "finds x");
    } else {
        fputs("the masked engine finds other pivots than the plain engine", stderr);
    }
    fputs(": please report this\n", stderr);
    exit(WRONG);
}

static void print_x(void)
{
    for (size_t c = 0; c < size; c++)
        printf(c == 0 ? "x = %d" : ", %d", secret.x[c]);
    printf("\n");
}

static void print_pivots(void)
{
    printf("pivots: ");
    for (uint64_t i = 0; i < record[HZ_WIDE_FOUND]; i++)
        printf(i == 0 ? "%" PRIu64 : ", %" PRIu64, record[HZ_WIDE_PIVOTS + i]);
    printf(record[HZ_WIDE_FOUND] == 0 ? "none\n" : "\n");
}

static const char *agreement(ending end)
{
    if (end.stopped != 0)
        return "stops at the same column";
    if (!wide)
        return "has the same x";
    return end.is_short ? "has the same pivots" : "has the same pivots and the same x";
}

static void print_answer(ending end, bool masked)
{
    if (has_x(end))
        print_x();
    else if (end.is_short)
        printf("short: the rank, %" PRIu64 ", is below the number of rows, %" PRIu64
               ", so whether there is an x depends on b\n",
               record[HZ_WIDE_FOUND], rows);
    else
        printf("stopped at column %" PRIu64 ": it is %s, so there is not exactly one x, whatever b is\n", end.stopped,
               end.stopped == 1 ? "zero" : "a combination of the columns before it");
    if (wide)
        print_pivots();
    if (has_x(end))
        printf("checked: A x = b for the numbers as typed\n");
    if (masked)
        printf("agreed: the plain engine %s\nsteps %" PRIu64 ", mask draws %" PRIu64 ", nonzero draws %" PRIu64 "\n",
               agreement(end), end.steps, end.mask_draws, end.nonzero_draws);
    else
        printf("plain: worked out in the open, nothing was masked\n");
    if (fflush(stdout) != 0)
        trouble("printing the answer");
}

int main(int argc, char **argv)
{
    if (argc < 4 || argc > 6)
        return BAD_INPUT;
    begin("solve", argv[3], &secret, sizeof secret);
    field_typed = argv[1];
    shares_typed = argv[2];
    bool masked = strcmp(shares_typed, "--plain") != 0;
    wide = argc == 6;
    if (wide) {
        rows_typed = argv[5];
        rows = number_typed(rows_typed);
    }
    field = number_typed(field_typed);
    shares = masked ? number_typed(shares_typed) : 2; /* none are dealt then, but hz_counts asks for a number */
    ask_counts(rows); /* so that nobody types a system for a field that there is not */
    read_system();
    if (wide)
        deal_wide();
    else if (masked)
        deal();
    /* A wide system always goes by steps: their record tells the pivots, and hz_wide_solve
     * does not. */
    ending end = !masked ? in_the_open(secret.values, secret.x) : argc > 4 ? by_steps() : in_one_call();
    must_solve(end);
    if (masked)
        must_agree(end);
    print_answer(end, masked);
    return ANSWERED;
}
