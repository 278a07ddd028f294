/* typed.h says what each of these is for. */
#define _DEFAULT_SOURCE /* for explicit_bzero */
#include "typed.h"

#include <ctype.h>
#include <errno.h>
#include <inttypes.h>
#include <stdarg.h>
#include <stdio.h>
#include <stdlib.h>
#include <string.h>

enum { MOST_SHOWN = 24 };

uint64_t field, shares, size;
uint64_t answer[HZ_ANSWER_WORDS];
uint64_t line = 1, row = 1, column, share;

static const char *program, *input_name;

/* All that tells of the input here, in one place, so that it can be wiped. */
static struct {
    char word[32];
    char shown[4 * MOST_SHOWN + 4];
    char input[4096]; /* standard input's buffer */
} typed;

static void *secret; /* the program's own */
static size_t secret_len;

static void wipe(void)
{
    explicit_bzero(&typed, sizeof typed);
    explicit_bzero(secret, secret_len);
}

void begin(const char *program_name, const char *input, void *to_wipe, size_t length)
{
    program = program_name;
    input_name = input;
    secret = to_wipe;
    secret_len = length;
    atexit(wipe);
    setvbuf(stdin, typed.input, _IOFBF, sizeof typed.input);
}

void wipe_stack(void)
{
    uint8_t all_below[1 << 16];
    explicit_bzero(all_below, sizeof all_below);
}

/* ---- What the library refuses ---- */

void must(uint64_t code, uint64_t wanted)
{
    if (code == wanted)
        return;
    if (code == HZ_REFUSED) {
        fprintf(stderr, "%s: refused %" PRIu64 ": ", program, answer[0]);
        say_refused();
        fputc('\n', stderr);
        exit(REFUSED);
    }
    fprintf(stderr, "%s: the library answered %" PRIu64 ", which never should be\n", program, code);
    exit(WRONG);
}

static bool is_blank(const char *word)
{
    return word[strspn(word, " \t\r\n")] == '\0';
}

static bool is_digits(const char *word)
{
    return word[strspn(word, "0123456789")] == '\0';
}

uint64_t number_typed(const char *word)
{
    if (is_blank(word))
        return 0;
    return is_digits(word) ? strtoull(word, NULL, 10) : UINT64_MAX;
}

void say_may_be(void)
{
    static const char *const numbers[] = {"16 or 256", "2, 3 or 4", "1 to 96"};
    fprintf(stderr, "; it may be %s", numbers[answer[0] - 1]);
}

void say_word(const char *which, const char *word)
{
    const char *as_typed = shown(word, strlen(word));
    if (is_blank(word))
        fprintf(stderr, "%s is blank, which counts as 0", which);
    else if (!is_digits(word))
        fprintf(stderr, "%s is '%s', which is no number written in digits alone", which, as_typed);
    else
        fprintf(stderr, "%s is %s", which, as_typed);
}

void say_cell(uint64_t at_row, uint64_t at_column, uint64_t at_share)
{
    fprintf(stderr, "row %" PRIu64 ", column %" PRIu64, at_row, at_column);
    if (at_share != 0)
        fprintf(stderr, ", share %" PRIu64, at_share);
}

void say_buffer(void)
{
    switch (answer[0]) {
    case 4:
        fprintf(stderr, "the table or the values are of wrong length; that wanted is %" PRIu64, answer[1]);
        break;
    case 5:
        fprintf(stderr, "the solution or the target is of wrong length; that wanted is %" PRIu64, answer[1]);
        break;
    case 6:
        say_cell(answer[1], answer[2], answer[3]);
        fprintf(stderr, " is no element of this field, 0 to %" PRIu64, field - 1);
        break;
    default:
        fprintf(stderr, "detail %" PRIu64, answer[1]);
    }
}

/* ---- Reading the input ---- */

_Noreturn void bad_input(const char *what, ...)
{
    va_list rest;
    va_start(rest, what);
    fprintf(stderr, "%s: %s", program, input_name);
    vfprintf(stderr, what, rest);
    fputc('\n', stderr);
    va_end(rest);
    exit(BAD_INPUT);
}

_Noreturn void bad(uint64_t at_line, uint64_t at_column, const char *what, ...)
{
    va_list rest;
    va_start(rest, what);
    fprintf(stderr, "%s: %s, line %" PRIu64 ": ", program, input_name, at_line);
    say_cell(row, at_column, share);
    fputs(": ", stderr);
    vfprintf(stderr, what, rest);
    fputc('\n', stderr);
    va_end(rest);
    exit(BAD_INPUT);
}

_Noreturn void trouble(const char *what)
{
    fprintf(stderr, "%s: %s: %s\n", program, what, strerror(errno));
    exit(TROUBLE);
}

const char *shown(const char *text, size_t length)
{
    size_t end = 0;
    for (size_t i = 0; i < length && i < MOST_SHOWN; i++)
        end += (size_t)sprintf(typed.shown + end, isprint((unsigned char)text[i]) ? "%c" : "\\x%02x",
                               (unsigned char)text[i]);
    strcpy(typed.shown + end, length > MOST_SHOWN ? "..." : "");
    return typed.shown;
}

int next_byte(void)
{
    int c = getchar();
    if (c == EOF && ferror(stdin))
        bad_input(" can't be read: %s", strerror(errno));
    return c;
}

int next_character(void)
{
    int c = next_byte();
    if (c == '#')
        while (c != '\n' && c != EOF)
            c = next_byte();
    return c;
}

uint64_t read_rows(bool in_shares, void (*take_word)(size_t length, bool last), void (*end_row)(void))
{
    size_t length = 0;     /* of the word so far */
    uint64_t last_row = 0; /* its line */
    int c;
    do {
        c = next_character();
        bool comma = in_shares && c == ',';
        if (c != EOF && !isspace(c) && !comma) {
            if (length < sizeof typed.word - 1) {
                typed.word[length] = (char)c;
                typed.word[length + 1] = '\0';
            }
            length++;
            continue;
        }
        if (length > 0 || comma || share > 0) /* share > 0 after a comma: one more is due */
            take_word(length, !comma);
        length = 0;
        if (column > 0)
            last_row = line;
        if (c == '\n' || c == EOF)
            end_row();
        if (c == '\n')
            line++;
    } while (c != EOF);
    return last_row;
}

uint8_t element(size_t length)
{
    const char *word = typed.word, *as_typed = shown(word, length);
    bool hex = word[0] == '0' && (word[1] == 'x' || word[1] == 'X');
    const char *digits = hex ? word + 2 : word;
    size_t count = strspn(digits, hex ? "0123456789abcdefABCDEF" : "0123456789");
    if (length >= sizeof typed.word)
        bad(line, column, "'%s' is too long for a number", as_typed);
    if (word[0] == '-' && isdigit((unsigned char)word[1]))
        bad(line, column, "%s is negative; an element of this field is 0 to %" PRIu64, as_typed, field - 1);
    if (count == 0 || digits + count != word + length)
        bad(line, column, "'%s' is no number, decimal or 0x..", as_typed);
    uint64_t number = strtoull(digits, NULL, hex ? 16 : 10);
    if (number >= field)
        bad(line, column, "%s is too large; an element of this field is 0 to %" PRIu64, as_typed, field - 1);
    return (uint8_t)number;
}
