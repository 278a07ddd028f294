/* The program behind ./exchange: a typed table of shares becomes an exchange record, or
 * a record such a table, through the library. Either way the library's other call is
 * asked too, and nothing is printed unless that gives back what came in.
 *
 *     exchange write NAME FORM FIELD SHARES SIZE <TABLE >RECORD
 *     exchange read NAME FORM <RECORD >TABLE
 *
 * NAME is what messages call the input. FORM, --hex or --binary, is that of the record.
 * ./exchange --help tells the rest. */
#define _POSIX_C_SOURCE 200809L /* for write and close */
#include "typed.h"

#include <ctype.h>
#include <errno.h>
#include <inttypes.h>
#include <stdarg.h>
#include <stdio.h>
#include <stdlib.h>
#include <string.h>
#include <unistd.h>

enum {
    MOST_TABLE = MOST * (MOST + 1) * MOST_SHARES,
    LONGEST = HZ_BESIDE_TABLE + 0xffff, /* the five fields of a record take no more, whatever they hold */
    MOST_READ = 1 << 24                 /* bytes, so that an input without an end is answered too */
};

static bool reading, hex;
static const char *field_typed, *shares_typed, *size_typed; /* for writing */

/* All that holds shares, in one place, so that it can be wiped. */
static struct {
    uint8_t table[MOST_TABLE];                   /* as typed */
    uint8_t record[LONGEST + 1];                 /* as read or written */
    uint8_t again[HZ_BESIDE_TABLE + MOST_TABLE]; /* what was read, written once more */
    char text[128 + 4 * MOST_TABLE];             /* to be printed: of a byte, three digits and a comma at most */
} secret;

/* One byte more than LONGEST is kept of an input. No field reaches beyond LONGEST, so the
 * library answers of these bytes what it would of all. */
static size_t record_len;
static uint64_t not_kept;

/* ---- What the library refuses ---- */

/* The fields of a record, each with its first offset. The end stands where no other does. */
typedef struct {
    uint64_t at;
    unsigned tag;
    const char *name;
    unsigned length; /* that suits it */
} part;

enum { ANY = 0x10000 };
static const part parts[] = {
    {0, 1, "field", 2},
    {5, 2, "shares", 1},
    {9, 3, "size", 1},
    {HZ_TABLE_AT - 3, 4, "the table", ANY},
    {0, 255, "the end", 0},
};

/* The field that is due at the first offset of one. */
static part due(uint64_t at)
{
    size_t k = 0;
    while (parts[k].tag != 255 && parts[k].at != at)
        k++;
    part found = parts[k];
    found.at = at;
    return found;
}

/* The length that the field tells. */
static unsigned length_told(part p)
{
    return (unsigned)secret.record[p.at + 1] << 8 | secret.record[p.at + 2];
}

static void say_part(part p)
{
    fprintf(stderr, "the field at offset %" PRIu64 " (tag %u, %s)", p.at, p.tag, p.name);
}

static void say_wrong_tag(part p)
{
    unsigned tag = secret.record[p.at];
    fprintf(stderr, "at offset %" PRIu64 " stands tag %u, and tag %u (%s) is due there", p.at, tag, p.tag, p.name);
    if (p.at == 0 && !hex && (tag == '0' || tag == '#' || isspace((int)tag)))
        fputs("; hex text is read with --hex", stderr);
}

static void say_cut_or_unsuitable(part p)
{
    bool has_length = record_len - p.at >= 3;
    if (record_len == 0) {
        fputs("the input is empty", stderr);
    } else if (has_length && p.length != ANY && p.length != length_told(p)) {
        say_part(p);
        fprintf(stderr, " has length %u, and %u suits it", length_told(p), p.length);
    } else {
        fprintf(stderr, "the input ends at byte %zu, %s ", record_len, record_len == p.at ? "before" : "inside");
        say_part(p);
        if (has_length)
            fprintf(stderr, ", which has length %u", length_told(p));
    }
}

static void say_bytes_after(uint64_t end)
{
    uint64_t count = record_len - end + not_kept;
    bool all = record_len + not_kept < MOST_READ;
    fprintf(stderr, "the record ends before offset %" PRIu64 ", and %" PRIu64 " byte%s", end, count,
            count == 1 ? " follows" : all ? "s follow" : "s or more follow");
}

static void say_never(void)
{
    say_buffer();
    fputs(", which never should be", stderr);
}

/* The words for a record: what the library answered, with the bytes at that place. */
static void say_refused_record(void)
{
    uint64_t why = answer[0], at = answer[1], n = secret.record[8], m = secret.record[12];
    uint64_t cell = HZ_TABLE_AT + ((answer[1] - 1) * (m + 1) + answer[2] - 1) * n + answer[3] - 1;
    if (why == 16 && at < record_len) {
        say_wrong_tag(due(at));
    } else if (why == 17 && at <= record_len) {
        say_cut_or_unsuitable(due(at));
    } else if (why == 18 && at < record_len) {
        say_bytes_after(at);
    } else if (why >= 1 && why <= 3) {
        say_part(parts[why - 1]);
        fprintf(stderr, " holds %" PRIu64, answer[1]);
        say_may_be();
    } else if (why == 4) {
        say_part(parts[3]);
        fprintf(stderr, " has length %u; size %" PRIu64 " in %" PRIu64 " shares wants %" PRIu64, length_told(parts[3]),
                m, n, answer[1]);
    } else if (why == 6 && cell < record_len) {
        say_cell(answer[1], answer[2], answer[3]);
        fprintf(stderr, ": 0x%02x, at offset %" PRIu64 ", is too large; an element of this field is 0 to 15",
                secret.record[cell], cell);
    } else {
        say_never();
    }
}

void say_refused(void)
{
    static const char *const names[] = {"FIELD", "SHARES", "SIZE"};
    const char *const words[] = {field_typed, shares_typed, size_typed};
    uint64_t why = answer[0];
    if (reading) {
        say_refused_record();
    } else if (why >= 1 && why <= 3) {
        say_word(names[why - 1], words[why - 1]);
        say_may_be();
    } else {
        say_never();
    }
}

/* ---- Reading a typed table ---- */

static const char *rows_wanted(void)
{
    static char made[80];
    sprintf(made, "size %" PRIu64 " wants %" PRIu64 " row%s of %" PRIu64 " entries", size, size, size == 1 ? "" : "s",
            size + 1);
    return made;
}

#define ENTRY "; an entry is %" PRIu64 " shares joined by commas, without blanks"

static void take_share(size_t length, bool last)
{
    if (share == 0)
        column++;
    if (row > size)
        bad(line, column, "one row too many; %s", rows_wanted());
    if (column > size + 1)
        bad(line, column, "one entry too many; %s", rows_wanted());
    share++;
    if (share > shares)
        bad(line, column, "one share too many" ENTRY, shares);
    if (length == 0)
        bad(line, column, "missing" ENTRY, shares);
    secret.table[((row - 1) * (size + 1) + column - 1) * shares + share - 1] = element(length);
    if (last && share < shares) {
        share++;
        bad(line, column, "missing" ENTRY, shares);
    }
    if (last)
        share = 0;
}

static void end_row(void)
{
    if (column == 0)
        return;
    if (column <= size)
        bad(line, column + 1, "missing; %s", rows_wanted());
    row++;
    column = 0;
}

static void read_table(void)
{
    uint64_t last_line = read_rows(true, take_share, end_row);
    if (row == 1)
        bad_input(" has no rows; %s", rows_wanted());
    if (row <= size)
        bad(last_line, 1, "missing below this line; %s", rows_wanted());
}

/* ---- Reading a record ---- */

/* The next digit of hex text, or EOF. */
static int next_digit(void)
{
    static uint64_t at; /* the character of this line that was read last */
    int c;
    do {
        c = next_character();
        at++;
        if (c == '\n') {
            line++;
            at = 0;
        }
    } while (c != EOF && isspace(c));
    char as_typed = (char)c;
    if (c != EOF && !isxdigit(c))
        bad_input(", line %" PRIu64 ", character %" PRIu64 ": '%s' is no hex digit", line, at, shown(&as_typed, 1));
    return c == EOF ? EOF : isdigit(c) ? c - '0' : tolower(c) - 'a' + 10;
}

static int next_of_hex(void)
{
    int high = next_digit();
    uint64_t its_line = line;
    if (high == EOF)
        return EOF;
    int low = next_digit();
    if (low == EOF)
        bad_input(", line %" PRIu64 ": the last byte has one hex digit, and two are wanted", its_line);
    return high << 4 | low;
}

static void read_record(void)
{
    int byte;
    while (record_len + not_kept < MOST_READ && (byte = hex ? next_of_hex() : next_byte()) != EOF)
        if (record_len < sizeof secret.record)
            secret.record[record_len++] = (uint8_t)byte;
        else
            not_kept++;
}

/* ---- Printing ---- */

static size_t text_len;

__attribute__((format(printf, 1, 2)))
static void put(const char *format, ...)
{
    va_list rest;
    va_start(rest, format);
    text_len += (size_t)vsnprintf(secret.text + text_len, sizeof secret.text - text_len, format, rest);
    va_end(rest);
}

/* A table, a row to a line: in decimal with commas, or in hex with none. */
static void put_rows(const uint8_t *table, bool decimal)
{
    for (uint64_t r = 0; r < size; r++)
        for (uint64_t c = 0; c <= size; c++)
            for (uint64_t s = 0; s < shares; s++) {
                put(decimal ? "%d" : "%02x", *table++);
                put("%s", s + 1 == shares ? (c == size ? "\n" : " ") : decimal ? "," : "");
            }
    wipe_stack(); /* printf had the digits there */
}

/* A field in hex: its tag, its length and so many bytes of its body. */
static void put_part(const uint8_t *at, unsigned count)
{
    put("%02x %02x%02x%s", at[0], at[1], at[2], count > 0 ? " " : "");
    for (unsigned i = 0; i < count; i++)
        put("%02x", at[3 + i]);
    put("\n");
}

/* The record in hex, a field to a line, and a line for each row of the table. */
static void put_record(void)
{
    for (int k = 0; k < 3; k++)
        put_part(secret.record + parts[k].at, parts[k].length);
    put_part(secret.record + parts[3].at, 0);
    put_rows(secret.record + HZ_TABLE_AT, false);
    put_part(secret.record + record_len - 3, 0);
}

/* Not by stdio, whose buffer is not wiped. */
static void print(const void *bytes, size_t len, const char *what)
{
    const uint8_t *next = bytes;
    while (len > 0) {
        ssize_t gone = write(STDOUT_FILENO, next, len);
        if (gone < 0 && errno != EINTR)
            trouble(what);
        if (gone > 0) {
            next += gone;
            len -= (size_t)gone;
        }
    }
    if (close(STDOUT_FILENO) != 0)
        trouble(what);
}

/* ---- The two commands ---- */

static size_t table_len(void)
{
    return size * (size + 1) * shares;
}

static _Noreturn void wrong(const char *what)
{
    fprintf(stderr, "exchange: the library %s: please report this\n", what);
    exit(WRONG);
}

static void write_record(void)
{
    field = number_typed(field_typed);
    shares = number_typed(shares_typed);
    size = number_typed(size_typed);
    /* so that nobody types a table for numbers that are refused */
    must(hz_counts(field, shares, size, answer, HZ_ANSWER_WORDS), HZ_COUNTS);
    read_table();
    record_len = HZ_BESIDE_TABLE + table_len();
    must(hz_write(field, shares, size, secret.table, table_len(), secret.record, record_len, answer, HZ_ANSWER_WORDS),
         HZ_FILLED);
    if (hz_read(secret.record, record_len, answer, HZ_ANSWER_WORDS) != HZ_SYSTEM || answer[0] != field ||
        answer[1] != shares || answer[2] != size || answer[3] != table_len() ||
        memcmp(secret.record + HZ_TABLE_AT, secret.table, table_len()) != 0)
        wrong("does not read back what it wrote");
    if (!hex) {
        print(secret.record, record_len, "writing the record");
        return;
    }
    put_record();
    print(secret.text, text_len, "writing the record");
}

static void print_table(void)
{
    read_record();
    must(hz_read(secret.record, record_len, answer, HZ_ANSWER_WORDS), HZ_SYSTEM);
    field = answer[0];
    shares = answer[1];
    size = answer[2];
    if (answer[3] != table_len() || record_len != HZ_BESIDE_TABLE + table_len() || record_len > sizeof secret.again ||
        hz_write(field, shares, size, secret.record + HZ_TABLE_AT, table_len(), secret.again, record_len, answer,
                 HZ_ANSWER_WORDS) != HZ_FILLED ||
        memcmp(secret.again, secret.record, record_len) != 0)
        wrong("does not write again what it read");
    put("# field %" PRIu64 ", shares %" PRIu64 ", size %" PRIu64 ", table of %zu bytes\n", field, shares, size,
        table_len());
    put_rows(secret.record + HZ_TABLE_AT, true);
    print(secret.text, text_len, "printing the table");
}

int main(int argc, char **argv)
{
    if (argc != 4 && argc != 7)
        return BAD_INPUT;
    begin("exchange", argv[2], &secret, sizeof secret);
    reading = argc == 4;
    hex = strcmp(argv[3], "--hex") == 0;
    if (reading) {
        print_table();
    } else {
        field_typed = argv[4];
        shares_typed = argv[5];
        size_typed = argv[6];
        write_record();
    }
    return ANSWERED;
}
