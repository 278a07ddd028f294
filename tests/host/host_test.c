/* Compares every call of the library with the model, on many inputs.
 *
 *     host_test [SEED [CASE | square | wide | sizes]]
 *
 * SEED is 1 where none is given. With CASE only that case is run: each case's
 * numbers come from the seed and the case's own number alone. With square or wide
 * only the cases of such systems are run; those of wide ones are in wide_test.h. With
 * sizes a right system of every size is solved, which is no part of the rest. The
 * first difference is printed as one line and ends the run. */
#include "hostozaro.h"
#include "model.h"
#include "room.h"

#include <inttypes.h>
#include <stdbool.h>
#include <stdio.h>
#include <stdlib.h>
#include <string.h>

#ifndef RUNNER /* the command that runs this program */
#define RUNNER "tests/host/run"
#endif

#define RANDOM_CASES 16000
#define MAX_TABLE (96 * 97 * 4)
#define MAX_MASK 3820512 /* F256, n = 4, m = 96 */
#define MAX_NONZERO (96 * 3)
#define MAX_WIDE_TABLE (96 * 145 * 4)
#ifndef MAX_WIDE_MASK /* a board holds less; what wants more is left out there */
#define MAX_WIDE_MASK 12528144 /* n = 4, 96 rows, 144 columns */
#endif
_Static_assert(MAX_WIDE_MASK >= MAX_MASK, "the mask tape of every square system has room");
#define MAX_TOLD 65535 /* the longest body that an exchange record can tell of */
#define SPARE 4096 /* how much longer than right one fault makes a buffer */
#define ROOM (4 * SPARE)
#define GUARD 32
#define PAGE 65536 /* a multiple of every machine's page */

/* Lengths that are huge, and small ones in half of their bits, in all but the highest, or as
 * bytes of that many words. */
#define HALF_WORD ((size_t)1 << 4 * sizeof(size_t))
#define TOP_BIT ((size_t)1 << (8 * sizeof(size_t) - 1))
#define WORDS_WRAP ((size_t)1 << (8 * sizeof(size_t) - 3))

/* ---- Random numbers ---- */

static uint64_t seed = 1, case_number, state;

static uint64_t any(void)
{
    state += 0x9e3779b97f4a7c15u; /* splitmix64 */
    uint64_t z = state;
    z = (z ^ z >> 30) * 0xbf58476d1ce4e5b9u;
    z = (z ^ z >> 27) * 0x94d049bb133111ebu;
    return z ^ z >> 31;
}

static uint64_t below(uint64_t n)
{
    return any() % n;
}

static bool one_in(uint64_t n)
{
    return below(n) == 0;
}

static void fill(uint8_t *bytes, size_t len)
{
    for (size_t i = 0; i < len; i += 8) {
        uint64_t eight = any();
        memcpy(bytes + i, &eight, len - i < 8 ? len - i : 8);
    }
}

/* ---- Lent buffers ----
 *
 * Each stands three times: what is lent, the library's copy and the model's. The
 * library's copy ends where a page begins that can be neither read nor written,
 * and the bytes in front of it are compared too. An accepted call's results
 * become what is lent next, so a run of steps goes on by itself. */

typedef struct {
    const char *name;
    size_t capacity, width; /* in elements; bytes to an element */
    size_t len;             /* in elements */
    size_t more;            /* so many more are said to be there, and are not */
    uint8_t *lent, *library, *model;
    uint8_t *page; /* the library's copy ends here */
} buffer;

static buffer table = {.name = "table", .capacity = MAX_TOLD + ROOM, .width = 1};
static buffer solution = {.name = "solution", .capacity = 144 + ROOM, .width = 1};
static buffer values = {.name = "values", .capacity = MAX_TABLE + ROOM, .width = 1};
static buffer mask = {.name = "mask", .capacity = MAX_WIDE_MASK + ROOM, .width = 1};
static buffer nonzero = {.name = "nonzero", .capacity = MAX_NONZERO + ROOM, .width = 1};
static buffer target = {.name = "target", .capacity = HZ_BESIDE_TABLE + MAX_TABLE + ROOM, .width = 1};
static buffer input = {.name = "input", .capacity = HZ_BESIDE_TABLE + MAX_TOLD + ROOM, .width = 1};
static buffer record = {.name = "record", .capacity = 16, .width = 8};
static buffer wide_record = {.name = "record", .capacity = 128, .width = 8};
static buffer answer = {.name = "answer", .capacity = 16, .width = 8};

static uint64_t *words(const buffer *b)
{
    return (uint64_t *)(void *)b->lent;
}

/* Room for a copy, with a guard in front. */
static uint8_t *make_copy(const buffer *b)
{
    uint8_t *block = malloc(GUARD + b->capacity * b->width);
    if (block == NULL)
        exit(2);
    return block + GUARD;
}

static void make_buffer(buffer *b)
{
    b->page = guarded_room(GUARD + b->capacity * b->width);
    if (b->page == NULL)
        exit(2);
    b->lent = make_copy(b);
    b->model = make_copy(b);
}

static size_t bytes_of(const buffer *b)
{
    return b->len * b->width;
}

/* What is lent, into both sides' copies. */
static void lend(buffer *b)
{
    b->library = b->page - bytes_of(b);
    uint8_t *copies[] = {b->library, b->model};
    for (int i = 0; i < 2; i++) {
        memset(copies[i] - GUARD, 0xa5, GUARD);
        memcpy(copies[i], b->lent, bytes_of(b));
    }
}

/* Changes the length; new bytes are random. */
static void stretch(buffer *b, size_t len)
{
    if (len > b->len)
        fill(b->lent + bytes_of(b), (len - b->len) * b->width);
    b->len = len;
}

/* ---- Calls ---- */

static uint64_t field, shares, size; /* what the next call is given */
static uint64_t rows, columns;       /* by those for wide systems in place of size */
static uint64_t calls, calls_in_case;

enum {
    START,
    WANTED,
    STEP,
    SOLVE,
    PLAIN,
    DEAL,
    GATHER,
    COUNTS,
    WRITE,
    READ,
    SQUARE_KINDS,
    WIDE_START = SQUARE_KINDS,
    WIDE_COUNTS,
    WIDE_WANTED,
    WIDE_STEP,
    WIDE_SOLVE,
    KINDS,
};

static const struct {
    const char *name;
    buffer *lent[7];    /* in the order of the arguments, NULL after the last */
    const buffer *in[3]; /* those that are const */
} kinds[KINDS] = {
    [START] = {"hz_start", {&record, &answer}, {NULL}},
    [WANTED] = {"hz_wanted", {&record, &answer}, {&record}},
    [STEP] = {"hz_step", {&record, &table, &solution, &mask, &nonzero, &answer}, {&mask, &nonzero}},
    [SOLVE] = {"hz_solve", {&table, &solution, &mask, &nonzero, &answer}, {&mask, &nonzero}},
    [PLAIN] = {"hz_plain", {&values, &solution, &answer}, {&values}},
    [DEAL] = {"hz_deal", {&values, &table, &mask, &answer}, {&values, &mask}},
    [GATHER] = {"hz_gather", {&table, &values, &answer}, {&table}},
    [COUNTS] = {"hz_counts", {&answer}, {NULL}},
    [WRITE] = {"hz_write", {&table, &target, &answer}, {&table}},
    [READ] = {"hz_read", {&input, &answer}, {&input}},
    [WIDE_START] = {"hz_wide_start", {&wide_record, &answer}, {NULL}},
    [WIDE_COUNTS] = {"hz_wide_counts", {&answer}, {NULL}},
    [WIDE_WANTED] = {"hz_wide_wanted", {&wide_record, &answer}, {&wide_record}},
    [WIDE_STEP] = {"hz_wide_step",
                   {&wide_record, &table, &solution, &mask, &nonzero, &answer},
                   {&mask, &nonzero}},
    [WIDE_SOLVE] = {"hz_wide_solve", {&table, &solution, &mask, &nonzero, &answer}, {&mask, &nonzero}},
};

static int last_kind; /* of the last call */

/* How many words a record has, but for zeros at its end. */
static size_t last_word(const buffer *b)
{
    size_t len = b->len;
    while (len > 0 && words(b)[len - 1] == 0)
        len--;
    return len;
}

/* Opens the line that tells of a difference. */
static void difference(void)
{
    printf("DIFFERENCE seed %" PRIu64 " case %" PRIu64 " call %" PRIu64 " %s", seed, case_number, calls_in_case,
           kinds[last_kind].name);
    if (last_kind == STEP || last_kind == WANTED)
        for (size_t i = 0; i < record.len; i++)
            printf("%s%" PRIu64, i == 0 ? " record " : ",", words(&record)[i]);
    else if (last_kind == WIDE_STEP || last_kind == WIDE_WANTED)
        for (size_t i = 0; i < last_word(&wide_record); i++)
            printf("%s%" PRIu64, i == 0 ? " record " : ",", words(&wide_record)[i]);
    else if (last_kind >= SQUARE_KINDS)
        printf(" field %" PRIu64 " shares %" PRIu64 " rows %" PRIu64 " columns %" PRIu64, field, shares, rows, columns);
    else if (last_kind == PLAIN)
        printf(" field %" PRIu64 " size %" PRIu64, field, size);
    else if (last_kind == READ)
        for (size_t i = 0; i < input.len && i < HZ_TABLE_AT; i++)
            printf("%s%02x", i == 0 ? " input " : "", input.lent[i]);
    else
        printf(" field %" PRIu64 " shares %" PRIu64 " size %" PRIu64, field, shares, size);
    for (buffer *const *b = kinds[last_kind].lent; *b != NULL; b++) {
        /* as unsigned long: not every board's printf knows of size_t */
        printf(" %s[%lu]", (*b)->name, (unsigned long)((*b)->len + (*b)->more));
        if ((*b)->more != 0)
            printf(" (%lu there)", (unsigned long)(*b)->len);
    }
    printf(": ");
}

static void end_failed(void)
{
    printf(" (repeat: " RUNNER " %" PRIu64 " %" PRIu64 ")\n", seed, case_number);
    printf("%" PRIu64 " passed, 1 failed\n", calls - 1);
    exit(1);
}

/* A crash is told in the same way. */
static void crashed(const char *how)
{
    difference();
    printf("%s", how);
    end_failed();
}

/* A fact that this file knows of itself about the last call. */
static void demand(bool holds, const char *what)
{
    if (holds)
        return;
    difference();
    printf("%s", what);
    end_failed();
}

/* The library's copy is what is wanted, and so is the guard in front of it, which
 * `wanted` has only in the model's copy. */
static void same_bytes(const buffer *b, const uint8_t *wanted, const char *whose)
{
    size_t guard = wanted == b->model ? GUARD : 0;
    if (memcmp(b->library - guard, wanted - guard, bytes_of(b) + guard) == 0)
        return;
    int64_t at = -(int64_t)guard;
    while (b->library[at] == wanted[at])
        at++;
    difference();
    printf("%s byte %" PRId64 " is 0x%02x, %s 0x%02x", b->name, at, b->library[at], whose, wanted[at]);
    end_failed();
}

#define BYTES(copy, b) (b).copy, (b).len + (b).more
#define WORDS(copy, b) (uint64_t *)(void *)(b).copy, (b).len + (b).more

/* One side's call; `side` is hz or model, `copy` the buffers' member for it. */
#define CALL(side, copy)                                                                                              \
    static uint64_t side##_call(int kind)                                                                             \
    {                                                                                                                 \
        switch (kind) {                                                                                               \
        case START:                                                                                                   \
            return side##_start(field, shares, size, WORDS(copy, record), WORDS(copy, answer));                      \
        case WANTED:                                                                                                  \
            return side##_wanted(WORDS(copy, record), WORDS(copy, answer));                                          \
        case STEP:                                                                                                    \
            return side##_step(WORDS(copy, record), BYTES(copy, table), BYTES(copy, solution), BYTES(copy, mask),    \
                               BYTES(copy, nonzero), WORDS(copy, answer));                                            \
        case SOLVE:                                                                                                   \
            return side##_solve(field, shares, size, BYTES(copy, table), BYTES(copy, solution), BYTES(copy, mask),   \
                                BYTES(copy, nonzero), WORDS(copy, answer));                                           \
        case PLAIN:                                                                                                   \
            return side##_plain(field, size, BYTES(copy, values), BYTES(copy, solution), WORDS(copy, answer));       \
        case DEAL:                                                                                                    \
            return side##_deal(field, shares, size, BYTES(copy, values), BYTES(copy, table), BYTES(copy, mask),      \
                               WORDS(copy, answer));                                                                  \
        case GATHER:                                                                                                  \
            return side##_gather(field, shares, size, BYTES(copy, table), BYTES(copy, values), WORDS(copy, answer)); \
        case WRITE:                                                                                                   \
            return side##_write(field, shares, size, BYTES(copy, table), BYTES(copy, target), WORDS(copy, answer));  \
        case READ:                                                                                                    \
            return side##_read(BYTES(copy, input), WORDS(copy, answer));                                             \
        case WIDE_START:                                                                                              \
            return side##_wide_start(field, shares, rows, columns, WORDS(copy, wide_record), WORDS(copy, answer));   \
        case WIDE_COUNTS:                                                                                             \
            return side##_wide_counts(field, shares, rows, columns, WORDS(copy, answer));                            \
        case WIDE_WANTED:                                                                                             \
            return side##_wide_wanted(WORDS(copy, wide_record), WORDS(copy, answer));                                \
        case WIDE_STEP:                                                                                               \
            return side##_wide_step(WORDS(copy, wide_record), BYTES(copy, table), BYTES(copy, solution),             \
                                    BYTES(copy, mask), BYTES(copy, nonzero), WORDS(copy, answer));                    \
        case WIDE_SOLVE:                                                                                              \
            return side##_wide_solve(field, shares, rows, columns, BYTES(copy, table), BYTES(copy, solution),        \
                                     BYTES(copy, mask), BYTES(copy, nonzero), WORDS(copy, answer));                   \
        default:                                                                                                      \
            return side##_counts(field, shares, size, WORDS(copy, answer));                                          \
        }                                                                                                             \
    }

CALL(hz, library)
CALL(model, model)

/* How many accepted calls were a Lift, by field (16 first) and by shares from 2. */
static uint64_t lifts_made[2][3];

static void note_lift(int kind)
{
    const uint64_t *r = words(&record);
    if (kind == STEP && r[HZ_STEP] == HZ_LIFT)
        lifts_made[r[HZ_FIELD] != 16][r[HZ_SHARES] - 2]++;
}

/* How many accepted calls made a zero flag, of Mix, of Check and of whole solves, by field
 * (16 first) and by shares from 2. */
enum { WHOLE_SOLVE = HZ_CHECK + 1, FLAG_MAKERS };
static uint64_t flags_made[FLAG_MAKERS][2][3];

static void note_flag(int kind)
{
    const uint64_t *r = words(&record);
    if (kind == STEP && r[HZ_STEP] <= HZ_CHECK)
        flags_made[r[HZ_STEP]][r[HZ_FIELD] != 16][r[HZ_SHARES] - 2]++;
    if (kind == SOLVE)
        flags_made[WHOLE_SOLVE][field != 16][shares - 2]++;
}

static uint64_t calls_of[KINDS];
static uint64_t refused_by[KINDS][22]; /* how many of them were refused, by number */

/* Calls both sides and compares the answer and every lent byte. */
static uint64_t call(int kind)
{
    buffer *const *lent = kinds[kind].lent;
    last_kind = kind;
    calls++;
    calls_of[kind]++;
    calls_in_case++;
    fill(answer.lent, bytes_of(&answer));
    for (int i = 0; lent[i] != NULL; i++)
        lend(lent[i]);
    uint64_t wanted = model_call(kind), code = hz_call(kind);
    if (code != wanted) {
        difference();
        printf("returned %" PRIu64 ", model %" PRIu64, code, wanted);
        end_failed();
    }
    for (int i = 0; lent[i] != NULL; i++)
        same_bytes(lent[i], lent[i]->model, "model");
    for (int i = 0; kinds[kind].in[i] != NULL; i++)
        same_bytes(kinds[kind].in[i], kinds[kind].in[i]->lent, "before");
    if (code == HZ_REFUSED || code == HZ_BAD_WORDS)
        for (int i = 0; lent[i] != NULL; i++)
            if (lent[i] != &answer || code == HZ_BAD_WORDS)
                same_bytes(lent[i], lent[i]->lent, "before");
    if (code != HZ_REFUSED && code != HZ_BAD_WORDS) {
        note_flag(kind);
        note_lift(kind);
    }
    for (int i = 0; lent[i] != NULL; i++)
        memcpy(lent[i]->lent, lent[i]->model, bytes_of(lent[i]));
    if (code == HZ_REFUSED)
        refused_by[kind][words(&answer)[0]]++;
    return code;
}

/* The refusal that this file itself knows the next call must give: its number and
 * all its details, or 0 where the call must be accepted. */
static uint64_t refusal[HZ_ANSWER_WORDS];

static void expect(uint64_t number, uint64_t first, uint64_t second, uint64_t third)
{
    uint64_t told[] = {number, first, second, third};
    memcpy(refusal, told, sizeof refusal);
}

static uint64_t call_expecting(int kind)
{
    uint64_t code = call(kind);
    bool accepted = code != HZ_REFUSED && code != HZ_BAD_WORDS;
    demand(accepted == (refusal[0] == 0), "refused for nothing, or accepted with a fault");
    demand(accepted || memcmp(answer.lent, refusal, sizeof refusal) == 0,
           "not refused by the first fault and its details");
    return code;
}

/* ---- Systems ---- */

static uint8_t element(void)
{
    return (uint8_t)below(field);
}

static uint8_t nonzero_element(void)
{
    return (uint8_t)(1 + below(field - 1));
}

/* Plain value at row r, column c, both from 0; column m is b. */
static uint8_t *value(uint64_t r, uint64_t c)
{
    return values.lent + r * (size + 1) + c;
}

/* Column c becomes a combination of the columns before it. */
static void make_dependent(uint64_t c)
{
    for (uint64_t r = 0; r < size; r++)
        *value(r, c) = 0;
    for (uint64_t d = 0; d < c; d++) {
        uint8_t factor = element();
        for (uint64_t r = 0; r < size; r++)
            *value(r, c) ^= model_times(field, factor, *value(r, d));
    }
}

#define LAST_COLUMN 3 /* kinds of systems that are asked for by name */
#define FITTING_B 4
#define TRIANGULAR 7
#define RANDOM 11
#define SYSTEMS 12

/* Makes up the values of a system, of one of several kinds. */
static void make_values(uint64_t kind)
{
    values.len = size * (size + 1);
    for (uint64_t i = 0; i < values.len; i++)
        values.lent[i] = element();
    switch (kind) {
    case 0: /* mostly zeros: zero pivots, and many ways to be singular */
        for (uint64_t i = 0; i < values.len; i++)
            if (!one_in(4))
                values.lent[i] = 0;
        break;
    case 1: /* zero first column */
        make_dependent(0);
        break;
    case 2: /* some dependent column */
        make_dependent(below(size));
        break;
    case LAST_COLUMN:
        make_dependent(size - 1);
        break;
    case FITTING_B: /* though a column is dependent */
        make_dependent(below(size));
        make_dependent(size);
        break;
    case 5: { /* two equations that say the same */
        uint64_t to = below(size), from = below(size);
        memmove(value(to, 0), value(from, 0), size + 1);
        break;
    }
    case 6: /* one entry to each row, in turned order: every pivot but luck is 0 */
        for (uint64_t r = 0, turn = below(size); r < size; r++)
            for (uint64_t c = 0; c < size; c++)
                *value(r, c) = c == (r + turn) % size ? nonzero_element() : 0;
        break;
    case TRIANGULAR: /* the diagonal perhaps with zeros */
        for (uint64_t r = 0; r < size; r++)
            memset(value(r, 0), 0, r);
        break;
    case 8: /* anti-triangular: pivots come from the last row */
        for (uint64_t r = 0; r < size; r++)
            for (uint64_t c = 0; c < size; c++)
                if (r + c + 1 < size)
                    *value(r, c) = 0;
                else if (r + c + 1 == size)
                    *value(r, c) = nonzero_element();
        break;
    case 9:
        if (one_in(4))
            memset(values.lent, 0, values.len);
        break;
    default: /* random: mostly regular */
        break;
    }
}

/* A system of any kind. */
static void any_values(void)
{
    uint64_t kind = below(SYSTEMS);
    make_values(kind);
}

/* Any sharing of the values. */
static void make_table(void)
{
    table.len = values.len * shares;
    for (uint64_t e = 0; e < values.len; e++) {
        uint8_t *entry = table.lent + e * shares;
        entry[0] = values.lent[e];
        for (uint64_t s = 1; s < shares; s++) {
            entry[s] = element();
            entry[0] ^= entry[s];
        }
    }
}

/* The shares of T[r,c], both from 1, and their sum. */
static uint8_t *cell(uint64_t r, uint64_t c)
{
    return table.lent + ((r - 1) * (size + 1) + (c - 1)) * shares;
}

static uint8_t cell_value(uint64_t r, uint64_t c)
{
    uint8_t sum = 0;
    for (uint64_t s = 0; s < shares; s++)
        sum ^= cell(r, c)[s];
    return sum;
}

/* A solution before anything is written there: any bytes, or elements of the field, as
 * Lift wants its byte. */
static void make_solution(void)
{
    solution.len = size;
    fill(solution.lent, size);
    for (uint64_t i = 0, elements = below(2); elements && i < size; i++)
        solution.lent[i] = (uint8_t)(solution.lent[i] % field);
}

/* A byte that is no element of F16. */
static uint8_t too_large(void)
{
    return (uint8_t)(one_in(4) ? 16 : 16 + below(240));
}

/* A target as long as the table's exchange record. */
static void make_target(void)
{
    target.len = HZ_BESIDE_TABLE + table.len;
    fill(target.lent, target.len);
}

/* The exchange record of the numbers and the table as they are, right or not. */
static void make_input(void)
{
    uint8_t front[HZ_TABLE_AT] = {
        1, 0, 2, (uint8_t)(field >> 8), (uint8_t)field,     2, 0, 1, (uint8_t)shares, 3, 0, 1, (uint8_t)size,
        4, (uint8_t)(table.len >> 8),   (uint8_t)table.len,
    };
    static const uint8_t end[] = {255, 0, 0};
    input.len = HZ_BESIDE_TABLE + table.len;
    memcpy(input.lent, front, sizeof front);
    memcpy(input.lent + HZ_TABLE_AT, table.lent, table.len);
    memcpy(input.lent + HZ_TABLE_AT + table.len, end, sizeof end);
}

/* ---- Tapes ---- */

static void make_mask(size_t len)
{
    if (len > mask.capacity)
        exit(2);
    mask.len = len;
    fill(mask.lent, len);
    if (one_in(16))
        memset(mask.lent, one_in(2) ? 0 : 0xff, len);
}

static void make_nonzero(size_t len)
{
    nonzero.len = len;
    for (size_t i = 0; i < len; i++) {
        nonzero.lent[i] = nonzero_element();
        if (field == 16) /* the high bits of a draw say nothing */
            nonzero.lent[i] |= (uint8_t)(below(16) << 4);
    }
}

/* A byte that is a zero draw. */
static uint8_t zero_draw(void)
{
    static const uint8_t zeros[] = {0x00, 0x10, 0x20, 0x80, 0xf0};
    return field == 16 ? zeros[below(5)] : 0;
}

/* Puts a zero draw somewhere on the nonzero tape. The last place is taken more
 * often than others. */
static void plant_zero_draw(void)
{
    if (nonzero.len == 0)
        return;
    size_t at = one_in(3) ? nonzero.len - 1 : below(nonzero.len);
    nonzero.lent[at] = zero_draw();
}

static uint64_t full_mask(void)
{
    return model_full_mask_draws(field, shares, size);
}

static uint64_t full_nonzero(void)
{
    return size * (shares - 1);
}

/* ---- Choices ---- */

static void choose_sizes(uint64_t max_size)
{
    field = one_in(2) ? 16 : 256;
    shares = 2 + below(3);
    size = 1 + below(max_size);
}

static uint64_t small_size(void)
{
    return one_in(40) ? 24 : one_in(4) ? 10 : 5;
}

/* A number that is often near a bound of the paper, or of a machine word. */
static uint64_t absurd(void)
{
    static const uint64_t numbers[] = {
        0, 1, 2, 3, 4, 5, 7, 15, 16, 17, 95, 96, 97, 255, 256, 257, 65552, 65538, 4294967296u + 2, 4294967296u + 16,
        4294967296u + 256, (uint64_t)1 << 63, UINT64_MAX - 1, UINT64_MAX,
    };
    return one_in(8) ? any() : numbers[below(sizeof numbers / sizeof numbers[0])];
}

static bool is_field(uint64_t number)
{
    return number == 16 || number == 256;
}

static bool is_number_of_shares(uint64_t number)
{
    return number >= 2 && number <= 4;
}

static bool is_size(uint64_t number)
{
    return number >= 1 && number <= 96;
}

/* The steps of the list, and the kinds of places: Lift's number comes after those of the ends. */
static const uint64_t every_step[] = {HZ_MIX, HZ_CHECK, HZ_SCALE, HZ_CLEAR, HZ_OPEN, HZ_LIFT};
#define EVERY_STEP (sizeof every_step / sizeof every_step[0])
#define LAST_PLACE HZ_LIFT

static bool is_step(uint64_t step)
{
    return step <= HZ_OPEN || step == HZ_LIFT;
}

/* Mix and Clear have j and k. */
static bool is_pair(uint64_t step)
{
    return step == HZ_MIX || step == HZ_CLEAR;
}

static void fresh_words(void)
{
    fill(record.lent, record.capacity * record.width);
    record.len = HZ_RECORD_WORDS;
    answer.len = HZ_ANSWER_WORDS;
}

/* The record's counters become those of its place. Where there is no such place, for this
 * size or at all, they stay as they are. */
static void match_counters(void)
{
    uint64_t *r = words(&record), masks, nonzeros;
    if (!is_size(r[HZ_SIZE])
        || !model_taken(r[HZ_FIELD], r[HZ_SHARES], r[HZ_SIZE], r[HZ_STEP], r[HZ_J], r[HZ_K], &masks, &nonzeros))
        return;
    r[HZ_MASK_TAKEN] = masks;
    r[HZ_NONZERO_TAKEN] = nonzeros;
}

/* A record of the next call's numbers at this place. */
static void set_record(uint64_t step, uint64_t j, uint64_t k)
{
    uint64_t place[] = {field, shares, size, step, j, k};
    memcpy(record.lent, place, sizeof place);
    match_counters();
}

/* A length near the right one, or far from it. */
static size_t wrong_length(size_t right)
{
    switch (below(5)) {
    case 0:
        return right + 1;
    case 1:
        return right == 0 ? 1 : right - 1;
    case 2:
        return 0;
    case 3:
        return below(right + 8);
    default:
        return right + below(SPARE);
    }
}

/* Any byte in any place; the first and the last place, and 16 itself, are taken
 * more often than others. */
static void damage(buffer *b)
{
    if (b->len == 0)
        return;
    size_t at = one_in(4) ? 0 : one_in(3) ? b->len - 1 : below(b->len);
    b->lent[at] = one_in(2) ? 16 : (uint8_t)any();
}

/* A byte that is no element of F16 in this place, and perhaps another one later,
 * which a refusal by 6 does not tell. */
static void plant_large(buffer *b, size_t at)
{
    size_t later = at + below(b->len - at);
    if (one_in(2))
        b->lent[later] = (uint8_t)(16 + below(240));
    b->lent[at] = one_in(2) ? 16 : (uint8_t)(16 + below(240));
}

/* Damages some of what will be lent. */
static void spoil(void)
{
    size_t which;
    switch (below(19)) {
    case 0:
        stretch(&table, wrong_length(table.len));
        break;
    case 1:
        stretch(&solution, wrong_length(solution.len));
        break;
    case 2:
        stretch(&values, wrong_length(values.len));
        break;
    case 3:
    case 4:
        stretch(&mask, wrong_length(mask.len));
        break;
    case 5:
        stretch(&nonzero, wrong_length(nonzero.len));
        break;
    case 6:
    case 7:
        damage(&table);
        break;
    case 8:
        damage(&values);
        break;
    case 9:
    case 10:
        plant_zero_draw();
        break;
    case 11:
        which = below(HZ_MASK_TAKEN);
        words(&record)[which] = absurd();
        match_counters();
        break;
    case 12:
        record.len = one_in(2) ? record.len : below(11);
        answer.len = one_in(2) ? answer.len : below(11);
        break;
    case 13:
        stretch(&target, wrong_length(target.len));
        break;
    case 14:
        stretch(&input, wrong_length(input.len));
        break;
    case 15:
        damage(&input);
        break;
    case 16:
        which = HZ_MASK_TAKEN + below(2);
        words(&record)[which] = one_in(2) ? absurd() : words(&record)[which] + 1 - 2 * below(2);
        break;
    case 17:
        damage(&solution);
        break;
    default:
        switch (below(3)) {
        case 0:
            field = absurd();
            break;
        case 1:
            shares = absurd();
            break;
        default:
            size = absurd();
        }
    }
}

/* ---- Cases ---- */

static uint8_t first_table[MAX_TABLE], stepped_table[MAX_TABLE], dealt_values[MAX_TABLE];
static uint8_t whole_mask[MAX_WIDE_MASK], whole_nonzero[MAX_NONZERO];

/* Any numbers and lengths to every call. */
static void case_numbers(void)
{
    field = one_in(2) ? (one_in(2) ? 16 : 256) : absurd();
    shares = one_in(2) ? 2 + below(3) : absurd();
    size = one_in(2) ? 1 + below(2) : absurd();
    buffer *all[] = {&table, &solution, &values, &mask, &nonzero, &target, &input};
    for (int i = 0; i < 7; i++) {
        all[i]->len = below(60);
        fill(all[i]->lent, all[i]->len);
    }
    fresh_words();
    uint64_t step = below(9), j = below(4), k = below(4);
    set_record(step, j, k);
    if (one_in(4))
        spoil();
    for (int kind = 0; kind < SQUARE_KINDS; kind++)
        call(kind);
}

/* Right inputs for every call, then some of them damaged: the order of refusals. */
static void case_spoilt(void)
{
    choose_sizes(small_size());
    for (int kind = 0; kind < SQUARE_KINDS; kind++) {
        any_values();
        make_table();
        make_solution();
        make_mask(kind == DEAL ? values.len * (shares - 1) : full_mask());
        make_nonzero(full_nonzero());
        make_target();
        make_input();
        fresh_words();
        uint64_t step = below(LAST_PLACE + 1), j = 1 + below(size), k = 1 + below(size);
        bool pair = is_pair(step);
        set_record(step, step == HZ_AT_DONE ? 0 : j, pair ? k : 0);
        if (kind == STEP && (!pair || j < k) && is_step(step)) {
            mask.len = model_mask_draws(field, shares, size, step, j);
            nonzero.len = model_nonzero_draws(shares, step);
        }
        uint64_t right[] = {field, shares, size};
        for (uint64_t faults = below(4); faults > 0; faults--)
            spoil();
        call(kind);
        field = right[0];
        shares = right[1];
        size = right[2];
    }
}

/* A whole solve; where it is accepted, its answer against that of the values. */
static void solve_and_check(void)
{
    uint8_t x[96];
    uint64_t told[HZ_ANSWER_WORDS];
    fresh_words();
    uint64_t code = call(SOLVE);
    if (code != HZ_SOLVED && code != HZ_STOPPED)
        return;
    if (model_plain(field, size, values.lent, values.len, x, size, told, HZ_ANSWER_WORDS) == HZ_STOPPED) {
        demand(code == HZ_STOPPED && words(&answer)[0] == told[0], "not stopped at the first dependent column");
        return;
    }
    demand(code == HZ_SOLVED, "stopped, though the columns are independent");
    demand(memcmp(solution.lent, x, size) == 0, "the solution does not solve the system");
}

static void case_solve(void)
{
    any_values();
    make_table();
    make_solution();
    make_mask(full_mask() + (one_in(2) ? 0 : below(SPARE)));
    make_nonzero(full_nonzero() + (one_in(2) ? 0 : below(SPARE)));
    for (size_t i = full_nonzero(); i < nonzero.len; i++)
        nonzero.lent[i] = zero_draw(); /* what is not needed may be anything */
    if (one_in(6))
        mask.len = below(full_mask());
    if (one_in(6))
        plant_zero_draw();
    solve_and_check();
}

/* A call in the midst of a run of steps that is refused, and so leaves the run as
 * it was. Mask and nonzero hold the right draws. */
static void refused_between(void)
{
    uint64_t kept[HZ_RECORD_WORDS];
    memcpy(kept, record.lent, sizeof kept);
    size_t table_len = table.len, mask_len = mask.len, nonzero_len = nonzero.len;
    size_t at = below(table.len);
    uint8_t kept_byte = table.lent[at], kept_draws[3], kept_solution[96];
    uint64_t number = 0, j = kept[HZ_J];
    memcpy(kept_draws, nonzero.lent, nonzero.len);
    memcpy(kept_solution, solution.lent, size);
    switch (kept[HZ_STEP] == HZ_LIFT && one_in(3) ? 8 : below(8)) {
    case 0:
        stretch(&mask, mask_len + 1);
        number = 14;
        break;
    case 1:
        if (mask.len == 0)
            return;
        mask.len--;
        number = 7;
        break;
    case 2:
        stretch(&nonzero, nonzero_len + 1);
        number = 15;
        break;
    case 3:
        table.len--;
        number = 4;
        break;
    case 4:
        stretch(&solution, size + 1);
        number = 5;
        break;
    case 5: /* 10 or 11, as it comes */
        if (one_in(2))
            words(&record)[HZ_STEP] = (one_in(2) ? HZ_AT_STOPPED : LAST_PLACE + 1) + below(2);
        else
            words(&record)[HZ_J] = absurd() | (uint64_t)1 << 40;
        match_counters();
        break;
    case 6:
        if (field == 256)
            return;
        table.lent[at] |= (uint8_t)(16 + 16 * below(15));
        number = 6;
        break;
    case 7:
        if (nonzero.len == 0)
            return;
        plant_zero_draw();
        number = 9;
        break;
    default: /* at Lift */
        if (field == 256)
            return;
        solution.lent[j - 1] = too_large();
        number = 20;
    }
    demand(call(STEP) == HZ_REFUSED, "not refused");
    demand(number == 0 || words(&answer)[0] == number, "refused by another number");
    memcpy(record.lent, kept, sizeof kept);
    table.len = table_len;
    mask.len = mask_len;
    nonzero.len = nonzero_len;
    solution.len = size;
    table.lent[at] = kept_byte;
    memcpy(nonzero.lent, kept_draws, nonzero_len);
    memcpy(solution.lent, kept_solution, size);
}

/* The same where nothing is wrong but the counters, and of hz_wanted too. */
static void refused_by_counters(void)
{
    uint64_t kept[2], *counters = words(&record) + HZ_MASK_TAKEN;
    size_t which = below(2);
    memcpy(kept, counters, sizeof kept);
    switch (mask.len == 0 ? 1 + below(3) : below(4)) {
    case 0: /* as if the step were done, or done once more; Lift's draws would change nothing */
        counters[0] += mask.len;
        counters[1] += nonzero.len;
        break;
    case 1:
        counters[which]++;
        break;
    case 2:
        counters[which]--;
        break;
    default:
        counters[which] ^= (uint64_t)1 << below(64);
    }
    expect(19, 0, 0, 0);
    call_expecting(STEP);
    call_expecting(WANTED);
    memcpy(counters, kept, sizeof kept);
}

/* The record that the last call left counts these draws. */
static void demand_counters(uint64_t mask_taken, uint64_t nonzero_taken)
{
    demand(words(&record)[HZ_MASK_TAKEN] == mask_taken && words(&record)[HZ_NONZERO_TAKEN] == nonzero_taken,
           "other counters than the draws lent so far");
}

/* A run of steps from a fresh record, then the whole solve of the same table
 * with the same tapes: table, counts and answer must be the same. */
static void case_trace(uint64_t system, uint64_t refusals_one_in)
{
    make_values(system);
    make_table();
    memcpy(first_table, table.lent, table.len);
    make_mask(full_mask());
    make_nonzero(full_nonzero());
    memcpy(whole_mask, mask.lent, mask.len);
    memcpy(whole_nonzero, nonzero.lent, nonzero.len);
    make_solution();
    fresh_words();
    demand(call(START) == HZ_FRESH, "no fresh record");
    demand_counters(0, 0);

    uint64_t steps = 0, mask_taken = 0, nonzero_taken = 0, code;
    do {
        demand(call(WANTED) == HZ_WANTED, "not told what the step wants");
        mask.len = words(&answer)[0];
        nonzero.len = words(&answer)[1];
        memcpy(mask.lent, whole_mask + mask_taken, mask.len);
        memcpy(nonzero.lent, whole_nonzero + nonzero_taken, nonzero.len);
        if (one_in(refusals_one_in))
            refused_between();
        if (one_in(refusals_one_in))
            refused_by_counters();
        code = call(STEP);
        demand(code != HZ_REFUSED, "refused in a run from a fresh record");
        steps++;
        mask_taken += mask.len;
        nonzero_taken += nonzero.len;
        demand_counters(mask_taken, nonzero_taken);
    } while (code == HZ_MOVED || code == HZ_OPENED);
    uint64_t column = words(&answer)[0];
    uint8_t stepped_solution[96];
    memcpy(stepped_table, table.lent, table.len);
    memcpy(stepped_solution, solution.lent, size);
    demand(call(STEP) == HZ_REFUSED && words(&answer)[0] == 11, "an ended run is not refused");
    demand(call(WANTED) == HZ_REFUSED && words(&answer)[0] == 11, "an ended run is not refused");
    refused_by_counters();

    memcpy(table.lent, first_table, table.len);
    mask.len = full_mask();
    nonzero.len = full_nonzero();
    memcpy(mask.lent, whole_mask, mask.len);
    memcpy(nonzero.lent, whole_nonzero, nonzero.len);
    make_solution(); /* nothing of it comes from the steps */
    solve_and_check();
    const uint64_t *told = words(&answer);
    demand(memcmp(table.lent, stepped_table, table.len) == 0, "another table than after the steps");
    if (code == HZ_STOPPED) {
        demand(told[0] == column, "another stop than the steps'");
        told++;
    } else {
        demand(memcmp(solution.lent, stepped_solution, size) == 0, "another solution than the steps'");
    }
    demand(told[0] == steps && told[1] == mask_taken && told[2] == nonzero_taken, "other counts than the steps'");
}

static void case_small_trace(void)
{
    choose_sizes(small_size());
    uint64_t system = below(SYSTEMS);
    case_trace(system, 8);
}

/* A row or column, or a number near the ends of their range, or any. */
static uint64_t place_number(void)
{
    switch (below(6)) {
    case 0:
        return 0;
    case 1:
        return size + 1;
    case 2:
        return absurd();
    default:
        return 1 + below(size);
    }
}

/* A record made up at any place of a made-up table, and a few steps on from it. */
static void case_made_up(void)
{
    choose_sizes(small_size());
    any_values();
    if (one_in(4)) /* every pivot 0: Scale is refused, Check stops */
        for (uint64_t r = 0; r < size; r++)
            *value(r, r) = 0;
    make_table();
    make_solution();
    fresh_words();
    uint64_t step = one_in(8) ? absurd() : below(LAST_PLACE + 2), j = place_number();
    uint64_t k = one_in(2) ? 0 : place_number();
    switch (below(4)) { /* places that exist, more often than by luck */
    case 0:
        step = one_in(2) ? HZ_MIX : HZ_CLEAR;
        j = 1 + below(size);
        k = j + 1 + below(size);
        break;
    case 1:
        step = one_in(3) ? HZ_OPEN : one_in(3) ? HZ_CHECK : HZ_SCALE;
        j = 1 + below(size);
        k = 0;
        break;
    case 2:
        if (one_in(2))
            break;
        step = HZ_LIFT; /* of j = 1 there is none */
        j = 1 + below(size);
        k = 0;
        break;
    default:
        break;
    }
    set_record(step, j, k);
    for (int i = 0; i < 4; i++) {
        bool told = call(WANTED) == HZ_WANTED;
        uint64_t first = words(&answer)[0]; /* the mask draws, or the number of the refusal */
        make_mask(told ? first : below(9));
        make_nonzero(told ? words(&answer)[1] : below(3));
        if (one_in(8))
            plant_zero_draw();
        if (one_in(16))
            damage(&table);
        if (one_in(8))
            damage(&solution);
        bool refused = call(STEP) == HZ_REFUSED;
        uint64_t number = refused ? words(&answer)[0] : 0;
        if (told)
            demand(number != 7 && number != 14 && number != 8 && number != 15,
                   "refused with just the draws that hz_wanted told");
        else
            demand(number == first, "hz_wanted was refused by another number");
        uint64_t column = words(&record)[HZ_J], pivot_told[] = {12, column, column, 0};
        demand(number != 12 || memcmp(answer.lent, pivot_told, sizeof pivot_told) == 0,
               "another pivot than the record's");
        if (refused)
            break;
    }
}

/* Deal, then gather: the values come back. */
static void deal_and_gather(void)
{
    any_values();
    memcpy(dealt_values, values.lent, values.len);
    table.len = values.len * shares;
    fill(table.lent, table.len);
    make_mask(values.len * (shares - 1) + (one_in(2) ? 0 : below(SPARE)));
    fresh_words();
    demand(call(DEAL) == HZ_FILLED, "not dealt");
    fill(values.lent, values.len);
    demand(call(GATHER) == HZ_FILLED, "not gathered");
    demand(memcmp(values.lent, dealt_values, values.len) == 0, "other values gathered than dealt");
}

/* The plain call on the values as they stand, which it must accept. */
static uint64_t plain_answer(void)
{
    make_solution();
    fresh_words();
    uint64_t code = call(PLAIN);
    demand(code == HZ_SOLVED || code == HZ_STOPPED, "a right system is refused");
    return code;
}

/* hz_read of the input as it is. Where nothing else is expected, it tells field, shares
 * and size as they are; and hz_write makes the same bytes of what was read, the table
 * being a stretch of the input. */
static void read_expecting(void)
{
    uint64_t code = call_expecting(READ);
    if (refusal[0] != 0)
        return;
    uint64_t told[] = {field, shares, size, input.len - HZ_BESIDE_TABLE};
    demand(code == HZ_SYSTEM && memcmp(answer.lent, told, sizeof told) == 0, "another system than the record's");
    table.len = words(&answer)[3];
    memcpy(table.lent, input.lent + HZ_TABLE_AT, table.len);
    make_target();
    demand(call(WRITE) == HZ_FILLED, "not written");
    demand(memcmp(target.lent, input.lent, input.len) == 0, "other bytes written than read");
}

/* Write, then read what was written, which is as the header's picture has it. */
static void write_and_read(void)
{
    make_input();
    make_target();
    fresh_words();
    demand(call(WRITE) == HZ_FILLED, "not written");
    demand(memcmp(target.lent, input.lent, input.len) == 0, "another record than the header's picture");
    expect(0, 0, 0, 0);
    read_expecting();
}

/* Every field, number of shares and size: start, counts, deal and gather, write and read;
 * the plain call once for each field and size; and a solve of each size, of the small
 * ones for every field and number of shares. */
#define ALL_SIZES (2 * 3 * 96)
static void case_of_sizes(uint64_t i)
{
    field = i % 2 == 0 ? 16 : 256;
    shares = 2 + i / 2 % 3;
    size = 1 + i / 6;
    fresh_words();
    call(START);
    call(COUNTS);
    deal_and_gather();
    write_and_read();
    if (shares == 2)
        plain_answer();
    if (size <= 12 || size % 6 == i % 6)
        case_solve();
}

/* Every call with a number of shares that is refused, where nothing else speaks
 * against it: table and tapes are as long as for the number itself, or for
 * another that it might be taken for. One share has no draws. */
static const struct {
    uint64_t given, table, tapes; /* the lengths are right for so many shares */
} refused_shares[] = {
    {0, 0, 1}, {0, 1, 1}, {0, 2, 2}, {1, 1, 1}, {1, 1, 2}, {1, 2, 2}, {5, 4, 4}, {5, 5, 5},
};
static const uint64_t sizes_of_refused[] = {1, 2, 3, 5, 12, 24};
#define REFUSED_SIZES (sizeof sizes_of_refused / sizeof sizes_of_refused[0])
#define ALL_REFUSED_SHARES (2 * REFUSED_SIZES * (sizeof refused_shares / sizeof refused_shares[0]))

static void call_with(uint64_t given, int kind)
{
    uint64_t kept = shares;
    shares = given;
    words(&record)[HZ_SHARES] = given;
    make_input(); /* hz_read finds the number there */
    expect(2, given, 0, 0);
    call_expecting(kind);
    shares = kept;
}

static void case_of_refused_shares(uint64_t i)
{
    field = i % 2 == 0 ? 16 : 256;
    size = sizes_of_refused[i / 2 % REFUSED_SIZES];
    i /= 2 * REFUSED_SIZES;
    uint64_t given = refused_shares[i].given;
    any_values();
    shares = refused_shares[i].table;
    make_table();
    make_solution();
    fresh_words();
    shares = refused_shares[i].tapes;
    make_mask(values.len * (shares - 1));
    call_with(given, DEAL);
    make_mask(full_mask());
    make_nonzero(full_nonzero());
    call_with(given, START);
    call_with(given, COUNTS);
    call_with(given, GATHER);
    call_with(given, SOLVE);
    make_target();
    call_with(given, WRITE);
    call_with(given, READ);
    for (uint64_t step = HZ_MIX; step <= LAST_PLACE; step++) {
        set_record(step, step == HZ_AT_DONE ? 0 : step == HZ_LIFT ? 2 : 1, is_pair(step) ? 2 : 0);
        mask.len = model_mask_draws(field, shares, size, step, 1);
        nonzero.len = model_nonzero_draws(shares, step);
        call_with(given, STEP);
        call_with(given, WANTED);
    }
}

/* What is wanted at every place of small systems, and at places around those. */
#define SMALL 6
#define ALL_SMALL (2 * 3 * SMALL)
static void case_of_places(uint64_t i)
{
    field = i % 2 == 0 ? 16 : 256;
    shares = 2 + i / 2 % 3;
    size = 1 + i / 6;
    fresh_words();
    for (uint64_t step = HZ_MIX; step <= LAST_PLACE + 1; step++)
        for (uint64_t j = 0; j <= size + 1; j++)
            for (uint64_t k = 0; k <= size + 1; k++) {
                set_record(step, j, k);
                call(WANTED);
            }
}

/* ---- Lengths that are not true ----
 *
 * The bytes of a buffer are looked at only once its length is right. So a buffer
 * of wrong length may have no byte that can be read, and is refused all the same. */

/* The numbers by which each call refuses a buffer that is shorter or longer than it
 * wants. R-2 has two for the tapes of a step; other tapes may be longer, told by 0. */
typedef struct {
    int kind;
    buffer *lent;
    uint64_t shorter, longer;
} length;

static const length lengths[] = {
    {STEP, &table, 4, 4},   {STEP, &solution, 5, 5},  {STEP, &mask, 7, 14},  {STEP, &nonzero, 8, 15},
    {SOLVE, &table, 4, 4},  {SOLVE, &solution, 5, 5}, {SOLVE, &mask, 7, 0},  {SOLVE, &nonzero, 8, 0},
    {DEAL, &values, 4, 4},  {DEAL, &table, 5, 5},     {DEAL, &mask, 7, 0},
    {GATHER, &table, 4, 4}, {GATHER, &values, 5, 5},  {PLAIN, &values, 4, 4}, {PLAIN, &solution, 5, 5},
    {WRITE, &table, 4, 4},  {WRITE, &target, 5, 5},
};
#define LENGTHS (sizeof lengths / sizeof lengths[0])

/* The calls that want exactly the draws of their step. */
static bool is_step_call(int kind)
{
    return kind == STEP || kind == WIDE_STEP;
}

static void make_wide_tapes(int kind)
{
    uint64_t step = words(&wide_record)[HZ_WIDE_STEP], j = words(&wide_record)[HZ_WIDE_J];
    make_mask(kind == WIDE_STEP ? model_mask_draws(16, shares, columns, step, j)
                                : model_wide_mask_draws(shares, rows, columns));
    make_nonzero(kind == WIDE_STEP ? model_nonzero_draws(shares, step) : rows * (shares - 1));
}

/* Right tapes for a call, and for a step at the record's place. */
static void make_tapes(int kind)
{
    if (kind >= SQUARE_KINDS) {
        make_wide_tapes(kind);
        return;
    }
    uint64_t step = words(&record)[HZ_STEP], j = words(&record)[HZ_J];
    make_mask(kind == STEP ? model_mask_draws(field, shares, size, step, j)
              : kind == DEAL ? size * (size + 1) * (shares - 1)
                             : full_mask());
    make_nonzero(kind == STEP ? model_nonzero_draws(shares, step) : full_nonzero());
}

/* Right inputs for a call. hz_step's step works on the last rows. */
static void make_right(int kind, uint64_t step)
{
    make_values(RANDOM);
    make_table();
    make_target();
    make_input();
    make_solution();
    fresh_words();
    bool pair = is_pair(step);
    set_record(step, pair ? size - 1 : size, pair ? size : 0);
    make_tapes(kind);
}

/* The call is told of more elements than are there. */
static void claim(buffer *b, size_t told, size_t there)
{
    b->len = there;
    b->more = told - there;
}

/* One length is wrong; of that buffer the right number of elements is there, or
 * none. All else is made right by `make`. */
static void one_wrong_length(const length *rule, uint64_t step, void make(int, uint64_t))
{
    int kind = rule->kind;
    buffer *b = rule->lent;
    make(kind, step);
    size_t right = b->len;
    size_t wrong[] = {0, right - 1, right + 1, right + 16, right + PAGE, HALF_WORD, HALF_WORD + right, TOP_BIT,
                      SIZE_MAX - 1, SIZE_MAX};
    for (size_t i = 0; i < sizeof wrong / sizeof wrong[0]; i++) {
        if (wrong[i] == right)
            continue;
        size_t there[] = {wrong[i] < right ? wrong[i] : right, 0};
        uint64_t number = wrong[i] < right ? rule->shorter : rule->longer;
        bool needed = number == 0; /* a longer tape is accepted, and then its first bytes are read */
        expect(number, needed ? 0 : right, 0, 0);
        for (int half = 0; half < (needed ? 1 : 2); half++) {
            claim(b, wrong[i], there[half]);
            call_expecting(kind);
            claim(b, right, right);
        }
        if (needed)
            make(kind, step);
    }
}

/* This length and all those after it in the call's order, up to the end of the rules, are
 * wrong, each too short or too long, and nothing is there of any of them. */
static void all_wrong_from(const length *rule, const length *end, uint64_t step, void make(int, uint64_t))
{
    int kind = rule->kind;
    make(kind, step);
    for (const length *r = rule; r < end && r->kind == kind; r++) {
        size_t right = r->lent->len;
        bool longer = right == 0 || (r->longer != 0 && one_in(2));
        if (r == rule)
            expect(longer ? r->longer : r->shorter, right, 0, 0);
        claim(r->lent, longer ? SIZE_MAX - below(9) : right - 1, 0);
    }
    call_expecting(kind);
    for (const length *r = rule; r < end && r->kind == kind; r++)
        r->lent->more = 0;
}

/* Nothing is there at all: numbers and words are refused before any length. Only what
 * hz_read is lent is there, since any length of it is right. */
static void nothing_there(void)
{
    make_right(READ, HZ_CHECK);
    buffer *all[] = {&table, &solution, &values, &mask, &nonzero, &target};
    for (int i = 0; i < 6; i++)
        claim(all[i], absurd(), 0);
    fresh_words();
    set_record(HZ_CHECK, 1, 0);
    uint64_t *given[] = {&field, &shares, &size};
    for (uint64_t number = 1; number <= 3; number++) {
        uint64_t kept = *given[number - 1];
        *given[number - 1] = 97;
        words(&record)[number - 1] = 97;
        for (int kind = 0; kind < SQUARE_KINDS; kind++)
            if (kind != READ && (kind != PLAIN || number != 2)) /* hz_read is given none, hz_plain no shares */
                demand(call(kind) == HZ_REFUSED && words(&answer)[0] == number, "a wrong number is not refused");
        *given[number - 1] = kept;
        words(&record)[number - 1] = kept;
    }
    size_t wrong[] = {0, 3, 5, 6, 7, 9, HALF_WORD, WORDS_WRAP + 4, WORDS_WRAP + 8, SIZE_MAX};
    for (size_t i = 0; i < sizeof wrong / sizeof wrong[0]; i++)
        for (int kind = 0; kind < SQUARE_KINDS; kind++) {
            claim(&answer, wrong[i], 0);
            demand(call(kind) == HZ_BAD_WORDS, "wrong words of answer are not told");
            claim(&answer, HZ_ANSWER_WORDS, HZ_ANSWER_WORDS);
            if (kinds[kind].lent[0] != &record)
                continue;
            claim(&record, wrong[i], 0);
            demand(call(kind) == HZ_BAD_WORDS, "wrong words of record are not told");
            claim(&record, HZ_RECORD_WORDS, HZ_RECORD_WORDS);
        }
    for (int i = 0; i < 6; i++)
        all[i]->more = 0;
}

static const uint64_t sizes_of_lengths[] = {1, 2, 5, 17};
#define ALL_LENGTHS (2 * 3 * (sizeof sizes_of_lengths / sizeof sizes_of_lengths[0]))
static void case_of_lengths(uint64_t i)
{
    field = i % 2 == 0 ? 16 : 256;
    shares = 2 + i / 2 % 3;
    size = sizes_of_lengths[i / 6];
    for (size_t which = 0; which < LENGTHS; which++)
        for (size_t s = 0; s < EVERY_STEP; s++) {
            uint64_t step = every_step[s];
            bool two_rows = is_pair(step) || step == HZ_LIFT;
            if (lengths[which].kind == STEP ? two_rows && size == 1 : step != HZ_CHECK)
                continue;
            one_wrong_length(&lengths[which], step, make_right);
            all_wrong_from(&lengths[which], lengths + LENGTHS, step, make_right);
        }
    nothing_there();
}

/* ---- Which cell (R-2) ----
 *
 * Refusal 6 tells row, column and share of the first byte that is no element of F16.
 * Here the cell is known from walking 01's layout up to it, or from R-2's examples, and
 * never from dividing a place. */

/* The calls that read a table or values, and for hz_step the kinds of places. */
static const struct {
    int kind;
    buffer *input;
    uint64_t step;
} readers[] = {
    {SOLVE, &table, 0},       {GATHER, &table, 0},      {STEP, &table, HZ_MIX},  {STEP, &table, HZ_CHECK},
    {STEP, &table, HZ_SCALE}, {STEP, &table, HZ_CLEAR}, {STEP, &table, HZ_OPEN}, {STEP, &table, HZ_LIFT},
    {WRITE, &table, 0},       {READ, &table, 0},        {DEAL, &values, 0},      {PLAIN, &values, 0},
};
#define READERS (sizeof readers / sizeof readers[0])

/* Nothing else is wrong; or the tapes are too, which are looked at after 6; or the same
 * bytes are lent in F256, where none is too large. */
enum { ALONE, LATER_FAULTS, IN_F256, LARGE_ROUNDS };

/* Sets the record to any place of this kind; false where the size has none. */
static bool any_place(uint64_t step)
{
    bool pair = is_pair(step), lift = step == HZ_LIFT;
    if ((pair || lift) && size == 1)
        return false;
    uint64_t j = 1 + lift + below(pair || lift ? size - 1 : size), k = pair ? j + 1 + below(size - j) : 0;
    set_record(step, j, k);
    return true;
}

/* The shares of T[j,j]. */
static uint8_t *pivot(uint64_t j)
{
    return cell(j, j);
}

static uint8_t pivot_value(uint64_t j)
{
    return cell_value(j, j);
}

/* The call of one reader on table and values as they are, which must be refused for
 * this cell in F16. */
static void read_large(size_t reader, int round, uint64_t r, uint64_t c, uint64_t s)
{
    int kind = readers[reader].kind;
    bool tapes = kind == STEP || kind == SOLVE || kind == DEAL;
    field = round == IN_F256 ? 256 : 16;
    fresh_words();
    if (kind == STEP && !any_place(readers[reader].step))
        return;
    if (round == LATER_FAULTS && !tapes)
        return; /* 6 is their last */
    if (round == IN_F256 && size == 96 && kind == SOLVE)
        return; /* it takes long, and the large cases are full of such bytes */
    if (tapes)
        make_tapes(kind);
    if (kind == WRITE)
        make_target();
    if (kind == READ)
        make_input(); /* the table is in it */
    if (round == LATER_FAULTS) {
        stretch(&mask, wrong_length(mask.len));
        stretch(&nonzero, wrong_length(nonzero.len));
        plant_zero_draw();
    }
    uint64_t j = words(&record)[HZ_J];
    if (field == 16)
        expect(6, r, c, s);
    else if (kind == STEP && readers[reader].step == HZ_SCALE && pivot_value(j) == 0)
        expect(12, j, j, 0);
    else
        expect(0, 0, 0, 0);
    call_expecting(kind);
}

/* Everything that reads this buffer, where the first byte of 16 or more stands at
 * this place of it, which is this cell. */
static void large_byte(buffer *b, size_t at, uint64_t r, uint64_t c, uint64_t s)
{
    field = 16;
    make_values(RANDOM);
    make_table();
    make_solution();
    plant_large(b, at);
    memcpy(first_table, table.lent, table.len);
    memcpy(dealt_values, values.lent, values.len);
    for (size_t reader = 0; reader < READERS; reader++)
        for (int round = 0; readers[reader].input == b && round < LARGE_ROUNDS; round++) {
            read_large(reader, round, r, c, s);
            memcpy(table.lent, first_table, table.len); /* what was accepted has changed it */
            memcpy(values.lent, dealt_values, values.len);
        }
}

/* Examples of R-2, among them the place that a host team counted by hand. */
static const struct {
    uint64_t shares, size; /* shares 0: plain values */
    size_t at;
    uint64_t row, column, share;
} cell_vectors[] = {
    {2, 1, 0, 1, 1, 1},  {2, 1, 3, 1, 2, 2}, {4, 96, 20143, 52, 89, 4}, {3, 96, 20143, 70, 22, 2},
    {2, 2, 11, 2, 3, 2}, {0, 2, 5, 2, 3, 0},
};
#define ALL_CELL_VECTORS (sizeof cell_vectors / sizeof cell_vectors[0])
static void case_of_cell_vectors(uint64_t i)
{
    bool plain = cell_vectors[i].shares == 0;
    shares = plain ? 2 + below(3) : cell_vectors[i].shares;
    size = cell_vectors[i].size;
    large_byte(plain ? &values : &table, cell_vectors[i].at, cell_vectors[i].row, cell_vectors[i].column,
               cell_vectors[i].share);
}

/* Of the largest size not every cell is taken, but the first, the last, the one that
 * R-2 tells of, and about so many more. */
#define MORE_CELLS 12
static bool chosen(size_t at, size_t count)
{
    return size < 96 || at == 0 || at == count - 1 || at == 20143 || one_in(count / MORE_CELLS);
}

static const uint64_t sizes_of_cells[] = {1, 2, 3, 5, 96};
#define ALL_CELLS (3 * (sizeof sizes_of_cells / sizeof sizes_of_cells[0]))
static void case_of_cells(uint64_t i)
{
    shares = 2 + i % 3;
    size = sizes_of_cells[i / 3];
    size_t entries = size * (size + 1), entry = 0, byte = 0;
    for (uint64_t r = 1; r <= size; r++)
        for (uint64_t c = 1; c <= size + 1; c++) {
            if (chosen(entry, entries))
                large_byte(&values, entry, r, c, 0);
            entry++;
            for (uint64_t s = 1; s <= shares; s++) {
                if (chosen(byte, entries * shares))
                    large_byte(&table, byte, r, c, s);
                byte++;
            }
        }
}

/* ---- Which tape (R-2) ----
 *
 * A step tells apart a tape that is too short and one that is too long. The faults
 * are made from the last of the call's order to the first, so that the first has the
 * last word on what is expected: for a step 7, 14, 8, 15, 9, 20, 12, for the other
 * calls 7, 8, 9, and a longer tape is none. */

enum { ONE_SHORT, RIGHT_LENGTH, ONE_LONG, MUCH_LONGER, TAPE_LENGTHS };
enum { NO_ZERO_DRAW, ZERO_DRAW_NEEDED, ZERO_DRAW_BEYOND, ZERO_DRAWS };
#define TAPE_SETS (TAPE_LENGTHS * TAPE_LENGTHS * ZERO_DRAWS)

/* Makes a right tape shorter or longer. What is too much is there, or is only said to
 * be. The number is 0 where the call accepts the length. */
static void change_tape(buffer *tape, int how, uint64_t shorter, uint64_t longer)
{
    static const size_t much[] = {2, 16, 256, SPARE, PAGE, HALF_WORD, TOP_BIT};
    size_t right = tape->len, more = how == ONE_LONG ? 1 : much[below(sizeof much / sizeof much[0])];
    uint64_t number = how == ONE_SHORT ? shorter : how == RIGHT_LENGTH ? 0 : longer;
    if (number != 0)
        expect(number, right, 0, 0);
    if (how == ONE_SHORT)
        tape->len--;
    else if (how != RIGHT_LENGTH && more <= SPARE && one_in(2))
        stretch(tape, right + more);
    else if (how != RIGHT_LENGTH)
        tape->more = more;
}

/* A step or a whole solve with one of the sets of tapes. Where no tape is at fault, what
 * was expected before is. */
static void call_with_tapes(int kind, uint64_t set)
{
    int mask_length = (int)(set % TAPE_LENGTHS), nonzero_length = (int)(set / TAPE_LENGTHS % TAPE_LENGTHS);
    int zero = (int)(set / TAPE_LENGTHS / TAPE_LENGTHS);
    make_tapes(kind);
    size_t right = nonzero.len;
    if ((right == 0 && nonzero_length == ONE_SHORT) || (mask.len == 0 && mask_length == ONE_SHORT))
        return;
    if (zero == ZERO_DRAW_NEEDED && right > 0) {
        size_t at = below(right);
        nonzero.lent[at] = zero_draw();
        expect(9, at, 0, 0);
    }
    change_tape(&nonzero, nonzero_length, 8, is_step_call(kind) ? 15 : 0);
    for (size_t at = right; zero != NO_ZERO_DRAW && at < nonzero.len; at++)
        nonzero.lent[at] = zero_draw();
    change_tape(&mask, mask_length, 7, is_step_call(kind) ? 14 : 0);
    call_expecting(kind);
    mask.more = nonzero.more = 0;
}

/* Every set of tapes at one place, where the pivot is 0 or is not, and Lift's byte no
 * element of F16 or one. */
static void tapes_of_place(uint64_t step, uint64_t j, uint64_t k)
{
    for (uint64_t set = 0; set < 2 * TAPE_SETS; set++) {
        uint8_t wanted = set < TAPE_SETS ? nonzero_element() : 0;
        make_values(RANDOM);
        make_table();
        pivot(j)[0] ^= pivot_value(j) ^ wanted;
        solution.lent[j - 1] = wanted == 0 ? too_large() : element();
        set_record(step, j, k);
        if (step == HZ_SCALE && wanted == 0)
            expect(12, j, j, 0);
        else if (step == HZ_LIFT && wanted == 0 && field == 16)
            expect(20, j, 0, 0);
        else
            expect(0, 0, 0, 0);
        call_with_tapes(STEP, set % TAPE_SETS);
    }
}

/* Every place of the list, and whole solves and deals, which 14 and 15 are not for. */
#define TAPE_SIZES 3
#define ALL_TAPES (2 * 3 * TAPE_SIZES)
static void case_of_tapes(uint64_t i)
{
    field = i % 2 == 0 ? 16 : 256;
    shares = 2 + i / 2 % 3;
    size = 1 + i / 6;
    make_solution();
    fresh_words();
    for (uint64_t j = 1; j <= size; j++) {
        tapes_of_place(HZ_CHECK, j, 0);
        tapes_of_place(HZ_SCALE, j, 0);
        tapes_of_place(HZ_OPEN, j, 0);
        if (j > 1)
            tapes_of_place(HZ_LIFT, j, 0);
        for (uint64_t k = j + 1; k <= size; k++) {
            tapes_of_place(HZ_MIX, j, k);
            tapes_of_place(HZ_CLEAR, j, k);
        }
    }
    for (uint64_t set = 0; set < TAPE_SETS; set++) {
        any_values();
        make_table();
        expect(0, 0, 0, 0);
        call_with_tapes(SOLVE, set);
    }
    for (int how = 0; how < TAPE_LENGTHS; how++) {
        any_values();
        make_tapes(DEAL);
        expect(0, 0, 0, 0);
        change_tape(&mask, how, 7, 0);
        call_expecting(DEAL);
        mask.more = 0;
    }
}

/* Examples of R-2, 01's edges, and R-7's, in F16 and two shares. */
static const struct {
    int kind;
    uint64_t size, step, k; /* the step at j = 1, or Lift(2) */
    size_t mask, nonzero;
    uint64_t number, detail; /* 0: accepted */
} tape_vectors[] = {
    {STEP, 2, HZ_MIX, 2, 6, 0, 7, 7},    {STEP, 2, HZ_MIX, 2, 7, 0, 0, 0},    {STEP, 2, HZ_MIX, 2, 8, 0, 14, 7},
    {STEP, 2, HZ_MIX, 2, 6, 1, 7, 7},    {STEP, 2, HZ_MIX, 2, 7, 1, 15, 0},   {STEP, 2, HZ_MIX, 2, 8, 1, 14, 7},
    {STEP, 2, HZ_SCALE, 0, 8, 0, 8, 1},  {STEP, 2, HZ_SCALE, 0, 8, 1, 0, 0},  {STEP, 2, HZ_SCALE, 0, 8, 2, 15, 1},
    {STEP, 2, HZ_SCALE, 0, 9, 0, 14, 8}, {STEP, 2, HZ_SCALE, 0, 9, 2, 14, 8}, {STEP, 2, HZ_SCALE, 0, 7, 2, 7, 8},
    {STEP, 2, HZ_LIFT, 0, 0, 0, 0, 0},   {STEP, 2, HZ_LIFT, 0, 1, 0, 14, 0},  {STEP, 2, HZ_LIFT, 0, 0, 1, 15, 0},
    {STEP, 2, HZ_LIFT, 0, 1, 1, 14, 0},  {STEP, 3, HZ_LIFT, 0, 3, 0, 14, 0},  {STEP, 3, HZ_LIFT, 0, 0, 0, 0, 0},
    {SOLVE, 1, 0, 0, 11, 1, 7, 12},      {SOLVE, 1, 0, 0, 12, 1, 0, 0},       {SOLVE, 1, 0, 0, 13, 1, 0, 0},
    {SOLVE, 1, 0, 0, 13, 0, 8, 1},       {SOLVE, 1, 0, 0, 12, 2, 0, 0},       {SOLVE, 1, 0, 0, 13, 2, 0, 0},
    {DEAL, 2, 0, 0, 5, 0, 7, 6},         {DEAL, 2, 0, 0, 6, 0, 0, 0},         {DEAL, 2, 0, 0, 7, 0, 0, 0},
};
#define ALL_TAPE_VECTORS (sizeof tape_vectors / sizeof tape_vectors[0])
static void case_of_tape_vectors(uint64_t i)
{
    field = 16;
    shares = 2;
    size = tape_vectors[i].size;
    make_values(RANDOM);
    *value(0, 0) = nonzero_element(); /* for Scale */
    make_table();
    make_solution();
    fresh_words();
    uint64_t j = tape_vectors[i].step == HZ_LIFT ? 2 : 1;
    solution.lent[j - 1] = element();
    set_record(tape_vectors[i].step, j, tape_vectors[i].k);
    make_mask(tape_vectors[i].mask);
    make_nonzero(tape_vectors[i].nonzero);
    expect(tape_vectors[i].number, tape_vectors[i].detail, 0, 0);
    call_expecting(tape_vectors[i].kind);
}

/* ---- The plain call ---- */

/* Systems with their answer: those of 01, and those that came with R-1. */
static const struct {
    uint64_t field, size;
    uint8_t values[12];
    uint64_t stops; /* the column, 0 where there is x */
    uint8_t x[3];
} vectors[] = {
    {16, 1, {2, 3}, 0, {8}},
    {16, 1, {0, 0}, 1, {0}},
    {16, 1, {0, 3}, 1, {0}},
    {16, 2, {0, 1, 5, 1, 0, 7}, 0, {7, 5}},
    {16, 2, {1, 2, 1, 2, 4, 2}, 2, {0}},
    {16, 2, {0, 1, 5, 0, 3, 7}, 1, {0}},
    {16, 2, {2, 1, 1, 1, 1, 0}, 0, {14, 14}},
    {16, 3, {0, 0, 2, 4, 0, 3, 1, 7, 5, 1, 1, 9}, 0, {7, 3, 2}},
    {256, 2, {0, 2, 1, 3, 0, 0x57}, 0, {0xc4, 0x8d}},
    {256, 3, {1, 2, 3, 9, 2, 4, 6, 1, 7, 7, 1, 5}, 3, {0}},
};
#define ALL_VECTORS (sizeof vectors / sizeof vectors[0])

/* The last plain call's answer is this one: a column, or x. */
static void demand_plain(uint64_t stops, const uint8_t *x, const char *what)
{
    static const uint8_t zeros[96];
    uint64_t told[HZ_ANSWER_WORDS] = {stops};
    demand(memcmp(answer.lent, told, sizeof told) == 0 && memcmp(solution.lent, stops == 0 ? x : zeros, size) == 0, what);
}

static void case_of_vectors(uint64_t i)
{
    field = vectors[i].field;
    size = vectors[i].size;
    values.len = size * (size + 1);
    memcpy(values.lent, vectors[i].values, values.len);
    demand(plain_answer() == (vectors[i].stops == 0 ? HZ_SOLVED : HZ_STOPPED), "another answer than the paper's");
    demand_plain(vectors[i].stops, vectors[i].x, "another column or x than the paper's");
}

/* Every set of the plain call's five faults. The first in its order is told, with
 * its details; both are worked out here and not by the model. */
enum { BAD_FIELD = 1, BAD_SIZE = 2, BAD_VALUES = 4, BAD_SOLUTION = 8, LARGE_BYTE = 16, FAULT_SETS = 32 };

static const uint64_t sizes_of_faults[] = {1, 2, 3, 8, 96};
#define FAULT_ROUNDS 8
#define ALL_FAULTS (FAULT_SETS * 2 * (sizeof sizes_of_faults / sizeof sizes_of_faults[0]) * FAULT_ROUNDS)

/* Any number that a call must refuse for field or size. */
static uint64_t refused_number(bool accepted(uint64_t))
{
    uint64_t number = absurd();
    while (accepted(number))
        number = absurd();
    return number;
}

static void make_wrong(buffer *b)
{
    size_t right = b->len, wrong = wrong_length(right);
    while (wrong == right)
        wrong = wrong_length(right);
    stretch(b, wrong);
}

/* The last fault of the order is made first, so that the first has the last word. */
static void case_of_faults(uint64_t i)
{
    uint64_t faults = i % FAULT_SETS;
    field = i / FAULT_SETS % 2 == 0 ? 16 : 256;
    size = sizes_of_faults[i / (FAULT_SETS * 2) / FAULT_ROUNDS];
    make_values(RANDOM);
    make_solution();
    fresh_words();
    expect(0, 0, 0, 0);
    if (faults & LARGE_BYTE) {
        uint64_t r = below(size), c = below(size + 1);
        plant_large(&values, (size_t)(value(r, c) - values.lent));
        if (field == 16)
            expect(6, r + 1, c + 1, 0);
    }
    if (faults & BAD_SOLUTION) {
        expect(5, solution.len, 0, 0);
        make_wrong(&solution);
    }
    if (faults & BAD_VALUES) {
        expect(4, values.len, 0, 0);
        make_wrong(&values);
    }
    if (faults & BAD_SIZE) {
        size = refused_number(is_size);
        expect(3, size, 0, 0);
    }
    if (faults & BAD_FIELD) {
        field = refused_number(is_field);
        expect(1, field, 0, 0);
    }
    call_expecting(PLAIN);
}

/* ---- The exchange record (R-3) ----
 *
 * What hz_read must tell is known here from how a record was made and damaged, and not
 * from reading it. */

/* Examples of R-3, the first of them its record R, and others of the same kind. */
static const struct {
    const char *bytes;        /* in hex */
    uint64_t number, told[3]; /* of a refusal, and its details; or 0, and field, shares and size */
} record_vectors[] = {
    {"0100020010 02000102 03000101 04000401020304 FF0000", 0, {16, 2, 1}},
    {"", 17, {0}},
    {"0100020010", 17, {5}},
    {"0100020010 02000102 03000101 04000401020304 FF00", 17, {20}},
    {"0100020010 02000102 03000101 04000401020304 FF0000 00", 18, {23}},
    {"0100020010 02000102 03000101 05000401020304 FF0000", 16, {13}},
    {"0100020010 02000102 03000101 04000401020304 FE0000", 16, {20}},
    {"0100020010 02000102 03000101 04000401021004 FF0000", 6, {1, 2, 1}},
    {"0100020100 02000102 03000101 04000401021004 FF0000", 0, {256, 2, 1}},
    /* cut right after a tag, which is wrong or right */
    {"00", 16, {0}},
    {"01", 17, {0}},
    {"0100020010 03", 16, {5}},
    {"0100020010 02", 17, {5}},
    {"0100020010 02000102 FF", 16, {9}},
    {"0100020010 02000102 03", 17, {9}},
    {"0100020010 02000102 03000101 05", 16, {13}},
    {"0100020010 02000102 03000101 04", 17, {13}},
    {"0100020010 02000102 03000101 04000401020304 FE", 16, {20}},
    {"0100020010 02000102 03000101 04000401020304 FF", 17, {20}},
    /* fields exchanged, twice there, or missing */
    {"02000102 0100020010 03000101 04000401020304 FF0000", 16, {0}},
    {"0100020010 03000101 02000102 04000401020304 FF0000", 16, {5}},
    {"0100020010 02000102 04000401020304 03000101 FF0000", 16, {9}},
    {"0100020010 0100020010 02000102 03000101 04000401020304 FF0000", 16, {5}},
    {"0100020010 02000102 03000101 04000401020304 04000401020304 FF0000", 16, {20}},
    {"0100020010 03000101 04000401020304 FF0000", 16, {5}},
    {"0100020010 02000102 03000101 FF0000", 16, {13}},
    {"0100020010 02000102 03000101 04000401020304", 17, {20}},
    {"FF0000", 16, {0}},
    /* lengths that do not suit, or low byte first */
    {"01000110 02000102 03000101 04000401020304 FF0000", 17, {0}},
    {"0102000010 02000102 03000101 04000401020304 FF0000", 17, {0}},
    {"0100020010 0200020002 03000101 04000401020304 FF0000", 17, {5}},
    {"0100020010 02000102 03010001 04000401020304 FF0000", 17, {9}},
    {"0100020010 02000102 03000101 04000401020304 FF000100", 17, {20}},
    /* lengths of the table: any suits its tag, and then 4 tells what the size wants */
    {"0100020010 02000102 03000101 040000 FF0000", 4, {4}},
    {"0100020010 02000102 03000101 040003010203 FF0000", 4, {4}},
    {"0100020010 02000102 03000101 0400050102030405 FF0000", 4, {4}},
    {"0100020010 02000102 03000101 04000301020304 FF0000", 16, {19}},
    {"0100020010 02000102 03000101 04000501020304 FF0000", 16, {21}},
    {"0100020010 02000102 03000101 04000701020304 FF0000", 17, {23}},
    {"0100020010 02000102 03000101 04000801020304 FF0000", 17, {13}},
    {"0100020010 02000102 03000101 04FFFF01020304 FF0000", 17, {13}},
    {"0100020010 02000102 03000101 04040001020304 FF0000", 17, {13}},
    /* a table in which an end seems to be */
    {"0100020100 02000102 03000101 040004FF000005 FF0000", 0, {256, 2, 1}},
    {"0100020100 02000102 03000101 040004FF0000FF FF0000", 0, {256, 2, 1}},
    {"0100020100 02000102 03000101 040000FF000005 FF0000", 18, {19}},
    {"0100020100 02000102 03000101 040004FF000005 FF00", 17, {20}},
    /* 16 to 18 come before what the fields hold */
    {"0100020011 02000102 03000101 04000401020304 FF0000", 1, {17}},
    {"0100020011 02000102 03000101 04000401020304 FE0000", 16, {20}},
    {"0100020011 02000102 03000101 04000401020304 FF00", 17, {20}},
    {"0100020011 02000102 03000101 04000401020304 FF0000 00", 18, {23}},
    {"0100020010 02000102 03000101 04000401021004 FF0000 00", 18, {23}},
    /* and then 1, 2, 3, 4, 6 */
    {"010002001F 02000100 03000100 040000 FF0000", 1, {31}},
    {"010002FFFF 02000102 03000101 04000401020304 FF0000", 1, {65535}},
    {"0100020010 02000105 03000161 040000 FF0000", 2, {5}},
    {"0100020010 02000102 03000161 04000110 FF0000", 3, {97}},
    {"0100020010 02000102 03000102 04000401021004 FF0000", 4, {12}},
};
#define ALL_RECORD_VECTORS (sizeof record_vectors / sizeof record_vectors[0])

static void case_of_record_vectors(uint64_t i)
{
    const char *digits = record_vectors[i].bytes;
    const uint64_t *told = record_vectors[i].told;
    unsigned byte;
    int taken;
    for (input.len = 0; sscanf(digits, "%2x%n", &byte, &taken) == 1; digits += taken)
        input.lent[input.len++] = (uint8_t)byte;
    fresh_words();
    expect(record_vectors[i].number, told[0], told[1], told[2]);
    field = told[0]; /* for one that is accepted */
    shares = told[1];
    size = told[2];
    read_expecting();
}

/* The fields of a record by their tags. */
enum { TAG_1, TAG_2, TAG_3, TAG_4, TAG_255, TAGS };

#define TAG_4_AT 13 /* the last one whose place is always the same */

/* The length that the input tells at this field's first offset. */
static size_t told_length(size_t first)
{
    return (size_t)input.lent[first + 1] << 8 | input.lent[first + 2];
}

static void tell_length(size_t first, size_t told)
{
    input.lent[first + 1] = (uint8_t)(told >> 8);
    input.lent[first + 2] = (uint8_t)told;
}

/* The first offset of a field, by the header's picture. */
static size_t first_offset(int tag)
{
    static const size_t firsts[] = {0, 5, 9, TAG_4_AT};
    return tag < TAG_255 ? firsts[tag] : HZ_TABLE_AT + told_length(TAG_4_AT);
}

/* The field of a right record that has the byte at this offset, or misses it where the
 * record is cut there. */
static int tag_over(size_t at)
{
    int tag = TAG_255;
    while (first_offset(tag) > at)
        tag--;
    return tag;
}

/* 6 is told of this place of a table whose rows have so many entries. */
static void expect_large(size_t at, uint64_t width)
{
    expect(6, at / shares / width + 1, at / shares % width + 1, at % shares + 1);
}

/* Small records, which are damaged in every place. Their tables hold 1, 2, 3 and so on:
 * so the first is R, and 255 is in none. */
static const struct {
    uint64_t field, shares, size;
} small_records[] = {{16, 2, 1}, {256, 3, 2}, {16, 2, 2}};
#define ALL_SMALL_RECORDS (sizeof small_records / sizeof small_records[0])
#define SMALL_RECORD_BYTES (3 * HZ_BESIDE_TABLE + 4 + 18 + 12) /* of all together */

static void make_small_record(size_t which)
{
    field = small_records[which].field;
    shares = small_records[which].shares;
    size = small_records[which].size;
    table.len = size * (size + 1) * shares;
    for (size_t i = 0; i < table.len; i++)
        table.lent[i] = (uint8_t)(i + 1);
    make_input();
    fresh_words();
}

/* A small record in which the length that tag 4 tells was changed. */
static void expect_other_table(void)
{
    size_t told = told_length(TAG_4_AT), left = input.len - HZ_TABLE_AT;
    if (told > left)
        expect(17, TAG_4_AT, 0, 0);
    else /* the end is looked for where no 255 is */
        expect(told == left ? 17 : 16, HZ_TABLE_AT + told, 0, 0);
}

/* A small record in which the body's byte at this offset was changed. */
static void expect_other_body(int tag, size_t at)
{
    uint64_t byte = input.lent[at];
    switch (tag) {
    case TAG_1:
        expect(1, (uint64_t)input.lent[3] << 8 | input.lent[4], 0, 0);
        break;
    case TAG_2:
        if (byte < 2 || byte > 4)
            expect(2, byte, 0, 0);
        else
            expect(4, size * (size + 1) * byte, 0, 0);
        break;
    case TAG_3:
        if (byte < 1 || byte > 96)
            expect(3, byte, 0, 0);
        else
            expect(4, byte * (byte + 1) * shares, 0, 0);
        break;
    default:
        if (field == 16 && byte >= 16)
            expect_large(at - HZ_TABLE_AT, size + 1);
        else
            expect(0, 0, 0, 0);
    }
}

/* Every other value of one byte. */
static void case_of_changes(uint64_t i)
{
    size_t which = 0;
    for (make_small_record(which); i >= input.len; make_small_record(++which))
        i -= input.len;
    for (unsigned change = 1; change < 256; change++) {
        make_small_record(which);
        int tag = tag_over(i);
        size_t first = first_offset(tag);
        input.lent[i] ^= (uint8_t)change;
        if (i == first)
            expect(16, first, 0, 0);
        else if (i > first + 2)
            expect_other_body(tag, i);
        else if (tag == TAG_4)
            expect_other_table();
        else
            expect(17, first, 0, 0);
        read_expecting();
    }
}

/* Every cut of a small record, every wrong tag with the input cut right after it, and a
 * few bytes after the end. */
static void case_of_cuts(uint64_t which)
{
    make_small_record(which);
    size_t right = input.len;
    for (size_t len = 0; len < right; len++) {
        make_small_record(which);
        expect(17, first_offset(tag_over(len)), 0, 0);
        input.len = len;
        read_expecting();
    }
    for (int tag = 0; tag < TAGS; tag++)
        for (unsigned change = 1; change < 256; change++) {
            make_small_record(which);
            size_t first = first_offset(tag);
            input.lent[first] ^= (uint8_t)change;
            input.len = first + 1;
            expect(16, first, 0, 0);
            read_expecting();
        }
    for (size_t more = 1; more <= 4; more++)
        for (int byte = 0; byte < 256; byte++) {
            make_small_record(which);
            memset(input.lent + right, byte, more);
            input.len = right + more;
            expect(18, right, 0, 0);
            read_expecting();
        }
}

/* Faults of a record in the order in which hz_read tells them: five in each field, and
 * then those of the whole. They are made from the last to the first, so that the first
 * has the last word on what is expected; and where one is made, the form of all before
 * it is right still. */
enum { NONE_LEFT, WRONG_TAG, HEADER_CUT, WRONG_LENGTH, BODY_CUT, FIELD_FAULTS };
enum {
    AFTER_END = TAGS * FIELD_FAULTS - 1, /* the end has no body to cut */
    NO_FIELD,
    NO_SHARES,
    NO_SIZE,
    OTHER_TABLE,
    LARGE_ENTRY,
    READ_FAULTS, /* which is also the number of none */
};

#define ONE_OF(list) (list)[below(sizeof(list) / sizeof(list)[0])]

/* The table has a byte of 16 or more. */
static void make_large_entry(uint64_t width)
{
    size_t at = below(table.len);
    plant_large(&table, at);
    if (field == 16)
        expect_large(at, width);
}

/* The table is not as long as the numbers want, by its own length or by theirs. */
static void make_other_table(void)
{
    switch (below(6)) {
    case 0:
        table.len = 0;
        break;
    case 1:
        stretch(&table, MAX_TOLD);
        break;
    case 2:
        shares = 2 + (shares - 1 + below(2)) % 3;
        break;
    case 3:
        size = 1 + (size + below(95)) % 96;
        break;
    default:
        make_wrong(&table);
    }
    expect(4, size * (size + 1) * shares, 0, 0);
}

/* The faults of this set that a record can have though its form is right. */
static void make_content_faults(uint32_t faults)
{
    static const uint64_t no_fields[] = {0, 1, 15, 17, 31, 255, 257, 4096, 65535};
    static const uint64_t no_shares[] = {0, 1, 5, 255}, no_sizes[] = {0, 97, 255};
    if (faults & 1u << LARGE_ENTRY)
        make_large_entry(size + 1);
    if (faults & 1u << OTHER_TABLE)
        make_other_table();
    if (faults & 1u << NO_SIZE) {
        size = ONE_OF(no_sizes);
        expect(3, size, 0, 0);
    }
    if (faults & 1u << NO_SHARES) {
        shares = ONE_OF(no_shares);
        expect(2, shares, 0, 0);
    }
    if (faults & 1u << NO_FIELD) {
        field = ONE_OF(no_fields);
        expect(1, field, 0, 0);
    }
}

static void make_bytes_after(void)
{
    size_t right = input.len;
    expect(18, right, 0, 0);
    stretch(&input, right + 1 + below(one_in(8) ? SPARE : 4));
    if (one_in(4))
        memset(input.lent + right, 0, input.len - right);
    if (one_in(4) && right <= ROOM) { /* the same record once more */
        memcpy(input.lent + right, input.lent, right);
        input.len = 2 * right;
    }
}

/* A field's length does not suit its tag. The body is of that length, or as it was. */
static void make_unsuitable(size_t first, size_t right)
{
    size_t told = right, body = first + 3;
    while (told == right)
        told = one_in(2) ? below(4) : one_in(2) ? right << 8 : below(MAX_TOLD + 1);
    tell_length(first, told);
    if (told >= 256 || input.len < body + right || one_in(2))
        return;
    memmove(input.lent + body + told, input.lent + body + right, input.len - (body + right));
    fill(input.lent + body, told);
    input.len += told - right;
}

/* Tag 4 tells more bytes than are left: the input is cut, or it tells too many. Where it
 * tells none, nothing can be cut; where as many are left as can be told, it can't tell
 * more. */
static void make_table_longer(bool cut)
{
    size_t told = told_length(TAG_4_AT), left = input.len - HZ_TABLE_AT;
    if (left >= MAX_TOLD || (cut && told > 0))
        input.len = HZ_TABLE_AT + below(told);
    else
        tell_length(TAG_4_AT, one_in(4) ? MAX_TOLD : left + 1 + (one_in(2) ? 0 : below(MAX_TOLD - left)));
}

static void make_form_fault(int tag, int fault)
{
    static const uint8_t tags[TAGS] = {1, 2, 3, 4, 255};
    static const size_t lengths_wanted[TAGS] = {2, 1, 1, 0, 0}; /* any number suits tag 4 */
    size_t told = told_length(TAG_4_AT);
    if (tag == TAG_255 && fault == WRONG_TAG && told > 0 && one_in(2))
        tell_length(TAG_4_AT, below(told)); /* so that the end is looked for in the table */
    size_t first = first_offset(tag);
    switch (fault) {
    case NONE_LEFT:
        input.len = first;
        break;
    case WRONG_TAG:
        do
            input.lent[first] = one_in(2) ? ONE_OF(tags) : (uint8_t)any();
        while (input.lent[first] == tags[tag]);
        break;
    case HEADER_CUT:
        input.len = first + 1 + below(2);
        break;
    case WRONG_LENGTH:
        if (tag == TAG_4)
            make_table_longer(false);
        else
            make_unsuitable(first, lengths_wanted[tag]);
        break;
    default: /* BODY_CUT */
        if (tag == TAG_4)
            make_table_longer(true);
        else
            input.len = first + 3 + below(lengths_wanted[tag]);
    }
    expect(fault == WRONG_TAG ? 16 : 17, first, 0, 0);
}

static uint64_t made_up_records, damaged_records;

/* Every pair of faults; and every set of those of the whole, a few times each, since of
 * most pairs a fault in a field is told. */
#define FAULT_PAIRS ((READ_FAULTS + 1) * (READ_FAULTS + 1))
#define WHOLE_SETS (1 << (READ_FAULTS - AFTER_END))
#define READ_SETS (FAULT_PAIRS + 5 * WHOLE_SETS)

static uint32_t read_set(uint64_t i)
{
    if (i < FAULT_PAIRS)
        return 1u << i % (READ_FAULTS + 1) | 1u << i / (READ_FAULTS + 1);
    return (uint32_t)((i - FAULT_PAIRS) % WHOLE_SETS << AFTER_END);
}

/* These sets, and sometimes a fault more, in records of made-up systems, which are
 * written and read while they are right still. */
#define READ_ROUNDS 5
#define ALL_READ_FAULTS (READ_SETS * 2 * 3 * READ_ROUNDS)
static void case_of_read_faults(uint64_t i)
{
    uint32_t faults = read_set(i % READ_SETS);
    i /= READ_SETS;
    field = i % 2 == 0 ? 16 : 256;
    shares = 2 + i / 2 % 3;
    size = one_in(80) ? 96 : one_in(80) ? 1 + below(96) : 1 + below(6);
    make_values(RANDOM);
    make_table();
    write_and_read();
    if (one_in(4))
        faults |= 1u << below(READ_FAULTS);
    make_content_faults(faults);
    make_input();
    if (faults & 1u << AFTER_END)
        make_bytes_after();
    for (int fault = AFTER_END; fault-- > 0;)
        if (faults & 1u << fault)
            make_form_fault(fault / FIELD_FAULTS, fault % FIELD_FAULTS);
    read_expecting();
    made_up_records += 2;
    damaged_records += refusal[0] != 0;
}

/* Every set of the six faults of a write, as with the plain call. */
enum { BAD_TABLE = BAD_VALUES, BAD_TARGET = BAD_SOLUTION, BAD_SHARES = FAULT_SETS, WRITE_FAULT_SETS = 2 * FAULT_SETS };

#define WRITE_ROUNDS 4
#define WRITE_SIZES (sizeof sizes_of_faults / sizeof sizes_of_faults[0])
#define ALL_WRITE_FAULTS (WRITE_FAULT_SETS * 2 * 3 * WRITE_SIZES * WRITE_ROUNDS)

static void case_of_write_faults(uint64_t i)
{
    uint64_t faults = i % WRITE_FAULT_SETS;
    i /= WRITE_FAULT_SETS;
    field = i % 2 == 0 ? 16 : 256;
    shares = 2 + i / 2 % 3;
    size = sizes_of_faults[i / 6 / WRITE_ROUNDS];
    make_values(RANDOM);
    make_table();
    make_target();
    fresh_words();
    expect(0, 0, 0, 0);
    if (faults & LARGE_BYTE)
        make_large_entry(size + 1);
    if (faults & BAD_TARGET) {
        expect(5, HZ_BESIDE_TABLE + table.len, 0, 0);
        make_wrong(&target);
    }
    if (faults & BAD_TABLE) {
        expect(4, table.len, 0, 0);
        make_wrong(&table);
    }
    if (faults & BAD_SIZE) {
        size = refused_number(is_size);
        expect(3, size, 0, 0);
    }
    if (faults & BAD_SHARES) {
        shares = refused_number(is_number_of_shares);
        expect(2, shares, 0, 0);
    }
    if (faults & BAD_FIELD) {
        field = refused_number(is_field);
        expect(1, field, 0, 0);
    }
    call_expecting(WRITE);
}

/* ---- The zero flag (R-6) ----
 *
 * Mix adds Product(flag, row k) to row j. Where an entry of row k is (1,0,..,0) and the
 * draws of its Product are 0, the Product is the flag itself, share for share: out_1 is
 * flag_1, and the pair (1,s) adds flag_s to out_s. */

/* Flags worked out from 01 and R-6, and not by the model: 01's example, where R-6 changes
 * nothing; R-6's; and two at four shares, which every wrong flag of mutants.c changes. The
 * comments have the entry with share 1 complemented, and then of each fold t, t refreshed,
 * and the And. */
static const struct {
    uint64_t field, shares;
    size_t mask, before;                  /* the draws of Mix at size 2, and before R-6 */
    uint8_t entry[4], draws[54], flag[4]; /* the last draws are the Products' */
} flag_vectors[] = {
    {16, 2, 7, 7, {3, 3}, {0}, {0, 1}},
    /* 14,2,3; 3,0,0 0,2,1 1,2,0; 0,1,0 15,15,1 0,7,6. With 01's Refresh it was (1,1,1). */
    {16, 3, 21, 19, {1, 2, 3}, {1, 2, 3, 4, 5, 6, 7, 8, 9, 10, 11, 12}, {0, 1, 0}},
    /* 8,5,3,1; 2,1,0,0 6,9,7,11 11,0,0,8; 5,0,0,4 8,14,6,1 8,13,9,13 */
    {16, 4, 42, 36, {7, 5, 3, 1},
     {2, 7, 1, 8, 2, 8, 1, 8, 2, 8, 4, 5, 9, 0, 4, 5, 2, 3, 5, 3, 6, 0, 2, 8},
     {0, 1, 1, 1}},
    /* in hex: a8,83,d4; a,8,d b,a,e f,f,f; 3,3,3 2,d,c 1,0,2; 0,0,1 1,2,2 3e,3e,1 */
    {256, 3, 27, 24, {0x57, 0x83, 0xd4},
     {16, 17, 18, 19, 20, 21, 22, 23, 24, 25, 26, 27, 28, 29, 30, 31, 32, 33},
     {0, 0, 1}},
    /* in hex: a8,c1,ae,38; a,c,a,3 7b,25,1e,4f e0,fb,ec,f8; 38,3e,3b,3e 38,dd,6,e0 13,b7,8f,28;
     * 9,5b,47,14 d5,27,bf,4c b1,d4,ee,8a */
    {256, 4, 54, 45, {0x57, 0xc1, 0xae, 0x38},
     {0x24, 0x3f, 0x6a, 0x88, 0x85, 0xa3, 0x08, 0xd3, 0x13, 0x19, 0x8a, 0x2e, 0x03, 0x70, 0x73, 0x44, 0xa4, 0x09,
      0x38, 0x22, 0x29, 0x9f, 0x31, 0xd0, 0x08, 0x2e, 0xfa, 0x98, 0xec, 0x4e, 0x6c, 0x89, 0x45, 0x28, 0x21, 0xe6},
     {1, 0, 0, 0}},
};
#define ALL_FLAG_VECTORS (sizeof flag_vectors / sizeof flag_vectors[0])

static void case_of_flag_vectors(uint64_t i)
{
    uint8_t wanted[2 * 3 * 4] = {0};
    field = flag_vectors[i].field;
    shares = flag_vectors[i].shares;
    size = 2;
    memcpy(wanted, flag_vectors[i].entry, shares); /* T[1,1]; the rest of row 1 is 0 */
    for (uint64_t c = 0; c < 3; c++)
        wanted[(3 + c) * shares] = 1;
    table.len = 2 * 3 * shares;
    memcpy(table.lent, wanted, table.len);
    for (uint64_t c = 0; c < 3; c++)
        for (uint64_t s = 0; s < shares; s++)
            wanted[c * shares + s] ^= flag_vectors[i].flag[s];
    make_solution();
    fresh_words();
    set_record(HZ_MIX, 1, 2);
    make_nonzero(0);
    memcpy(mask.lent, flag_vectors[i].draws, sizeof flag_vectors[i].draws);
    mask.len = flag_vectors[i].before;
    expect(7, flag_vectors[i].mask, 0, 0);
    if (shares > 2)
        call_expecting(STEP);
    mask.len = flag_vectors[i].mask;
    expect(0, 0, 0, 0);
    call_expecting(STEP);
    demand(memcmp(table.lent, wanted, table.len) == 0, "another flag than R-6's");
}

/* ---- Counts ---- */

/* 01's counts, as R-6 and R-7 have them. */
static const struct {
    uint64_t field, shares, size, stops; /* the column, or 0 for a full solve */
    uint64_t steps, mask, nonzero;
} count_vectors[] = {
    {16, 2, 1, 0, 3, 12, 1},   {16, 2, 2, 0, 9, 36, 2},   {16, 2, 2, 1, 2, 12, 0},  {16, 2, 2, 2, 5, 28, 1},
    {16, 2, 3, 0, 17, 76, 3},  {16, 2, 3, 1, 3, 21, 0},   {16, 2, 3, 2, 8, 51, 1},  {16, 2, 3, 3, 11, 67, 2},
    {16, 3, 1, 0, 3, 37, 2},   {16, 3, 2, 0, 9, 110, 4},  {16, 3, 2, 1, 2, 36, 0},  {16, 3, 2, 2, 5, 85, 2},
    {16, 4, 1, 0, 3, 75, 3},   {256, 2, 1, 0, 3, 14, 1},  {256, 3, 1, 0, 3, 43, 2}, {256, 3, 2, 0, 9, 128, 4},
    {256, 3, 2, 1, 2, 48, 0},  {256, 3, 2, 2, 5, 103, 2}, {256, 4, 1, 0, 3, 87, 3}, {256, 4, 1, 1, 1, 42, 0},
    {256, 4, 96, 0, 9503, 3820512, 288},
};
#define ALL_COUNT_VECTORS (sizeof count_vectors / sizeof count_vectors[0])

static void case_of_count_vectors(uint64_t i)
{
    uint64_t stops = count_vectors[i].stops;
    uint64_t counts[] = {count_vectors[i].steps, count_vectors[i].mask, count_vectors[i].nonzero};
    field = count_vectors[i].field;
    shares = count_vectors[i].shares;
    size = count_vectors[i].size;
    make_values(TRIANGULAR);
    for (uint64_t r = 0; r < size; r++)
        *value(r, r) = r + 1 == stops ? 0 : nonzero_element();
    make_table();
    make_solution();
    fresh_words();
    if (stops == 0) {
        demand(call(COUNTS) == HZ_COUNTS, "no counts");
        demand(memcmp(answer.lent, counts, sizeof counts) == 0, "other counts than the papers'");
        make_mask(counts[1] - 1);
        make_nonzero(counts[2]);
        expect(7, counts[1], 0, 0);
        call_expecting(SOLVE);
    }
    make_tapes(SOLVE);
    demand(call(SOLVE) == (stops == 0 ? HZ_SOLVED : HZ_STOPPED), "not the kind of system that was made");
    demand(stops == 0 || words(&answer)[0] == stops, "stopped at another column");
    demand(memcmp(words(&answer) + (stops != 0), counts, sizeof counts) == 0, "other counts than the papers'");
}

/* ---- How far along (R-5) ----
 *
 * A record counts the draws of the steps before its place. Here these sums are known from
 * going along 01's list, or from R-5's examples. Each place is given the right counters
 * and wrong ones of many kinds, alone and with every other fault of the call. */

typedef struct {
    uint64_t step, j, k;
    uint64_t mask, nonzero; /* drawn by the steps before it */
    uint64_t flags;         /* made by them */
} place;

/* The places in their order: the steps, behind each Check its stop, and at last done. */
static place list[96 * 96 + 3 * 96 - 1 + 96 + 1];
static size_t list_len;
static uint64_t mask_drawn, nonzero_drawn, flags_drawn; /* by the steps of the list so far */

static void add_place(uint64_t step, uint64_t j, uint64_t k)
{
    list[list_len++] = (place){step, j, k, mask_drawn, nonzero_drawn, flags_drawn};
    if (!is_step(step))
        return;
    mask_drawn += model_mask_draws(field, shares, size, step, j);
    nonzero_drawn += model_nonzero_draws(shares, step);
    flags_drawn += step == HZ_MIX || step == HZ_CHECK;
}

static void make_list(void)
{
    list_len = mask_drawn = nonzero_drawn = flags_drawn = 0;
    for (uint64_t j = 1; j <= size; j++) {
        for (uint64_t k = j + 1; k <= size; k++)
            add_place(HZ_MIX, j, k);
        add_place(HZ_CHECK, j, 0);
        add_place(HZ_AT_STOPPED, j, 0);
        add_place(HZ_SCALE, j, 0);
        for (uint64_t k = j + 1; k <= size; k++)
            add_place(HZ_CLEAR, j, k);
    }
    for (uint64_t j = size; j >= 1; j--) {
        add_place(HZ_OPEN, j, 0);
        if (j > 1)
            add_place(HZ_LIFT, j, 0);
    }
    add_place(HZ_AT_DONE, 0, 0);
}

/* Kinds of counters. The first ones are the right counters with these added, of mask and
 * nonzero, */
#define LESS UINT64_MAX /* one less; of 0 it makes 2^64-1 */
#define AT_32 ((uint64_t)1 << 32)
#define AT_63 ((uint64_t)1 << 63)
static const uint64_t added[][2] = {
    {0, 0},     {1, 0},     {LESS, 0},      {0, 1},     {0, LESS},  {1, 1},         {LESS, LESS}, {1, LESS}, {LESS, 1},
    {AT_32, 0}, {0, AT_32}, {AT_32, AT_32}, {AT_63, 0}, {0, AT_63}, {AT_63, AT_63}, {256, 0},     {0, 256},
};
/* and these come after them. */
enum {
    EXCHANGED = sizeof added / sizeof added[0],
    OF_BEFORE, /* of the last place before it that has others */
    OF_AFTER,  /* and the first after it */
    LESS_A_CHECK, /* of a stop: those of its Check */
    OF_DONE,
    OF_START,
    OF_OTHER_FIELD, /* of this place in another list */
    OF_OTHER_SHARES,
    OF_OTHER_SIZE,
    OF_01, /* of this place before R-6; at two shares they are right */
    MASK_HUGE,
    NONZERO_HUGE,
    BOTH_HUGE,
    ANY_MASK,
    ANY_NONZERO,
    ANY_BOTH,
    COUNTER_KINDS,
};

static void set_counters(uint64_t mask_taken, uint64_t nonzero_taken)
{
    words(&record)[HZ_MASK_TAKEN] = mask_taken;
    words(&record)[HZ_NONZERO_TAKEN] = nonzero_taken;
}

/* The counters of a place, as they are where the numbers are these. */
static void set_counters_of(uint64_t other_field, uint64_t other_shares, uint64_t other_size, const place *p)
{
    uint64_t mask_taken, nonzero_taken;
    model_taken(other_field, other_shares, other_size, p->step, p->j, p->k, &mask_taken, &nonzero_taken);
    set_counters(mask_taken, nonzero_taken);
}

/* R-6 has a flag take f·2N draws, where 01 had f(n-1+N). */
static uint64_t more_for_a_flag(void)
{
    uint64_t f = field == 16 ? 2 : 3, pairs = shares * (shares - 1) / 2;
    return f * 2 * pairs - f * (shares - 1 + pairs);
}

static void make_counters(size_t at, int kind)
{
    const place *p = &list[at], *before = p, *after = p;
    while (before > list && before->mask == p->mask)
        before--;
    while (after < list + list_len - 1 && after->mask == p->mask)
        after++;
    uint64_t one = absurd(), other = absurd();
    switch (kind) {
    case EXCHANGED:
        set_counters(p->nonzero, p->mask);
        break;
    case OF_BEFORE:
        set_counters(before->mask, before->nonzero);
        break;
    case OF_AFTER:
        set_counters(after->mask, after->nonzero);
        break;
    case LESS_A_CHECK:
        set_counters(p->mask - model_mask_draws(field, shares, size, HZ_CHECK, 1), p->nonzero);
        break;
    case OF_DONE:
        set_counters(mask_drawn, nonzero_drawn);
        break;
    case OF_START:
        set_counters(0, 0);
        break;
    case OF_OTHER_FIELD:
        set_counters_of(field == 16 ? 256 : 16, shares, size, p);
        break;
    case OF_OTHER_SHARES:
        set_counters_of(field, shares == 4 ? 2 : shares + 1, size, p);
        break;
    case OF_OTHER_SIZE:
        set_counters_of(field, shares, size == 96 ? 95 : size + 1, p);
        break;
    case OF_01:
        set_counters(p->mask - p->flags * more_for_a_flag(), p->nonzero);
        break;
    case MASK_HUGE:
        set_counters(UINT64_MAX, p->nonzero);
        break;
    case NONZERO_HUGE:
        set_counters(p->mask, UINT64_MAX);
        break;
    case BOTH_HUGE:
        set_counters(UINT64_MAX, UINT64_MAX);
        break;
    case ANY_MASK:
        set_counters(one_in(2) ? one : below(mask_drawn + 1), p->nonzero);
        break;
    case ANY_NONZERO:
        set_counters(p->mask, one_in(2) ? one : below(nonzero_drawn + 1));
        break;
    case ANY_BOTH:
        set_counters(one, other);
        break;
    default:
        set_counters(p->mask + added[kind][0], p->nonzero + added[kind][1]);
    }
}

/* Sets the record to a place of the list; true where counters of this kind are right. */
static bool stand_at(size_t at, int kind)
{
    const place *p = &list[at];
    set_record(p->step, p->j, p->k);
    make_counters(at, kind);
    return words(&record)[HZ_MASK_TAKEN] == p->mask && words(&record)[HZ_NONZERO_TAKEN] == p->nonzero;
}

/* The record's place becomes one that the list has not. */
static void leave_list(void)
{
    uint64_t *r = words(&record), step = r[HZ_STEP];
    bool pair = is_pair(step);
    switch (below(5)) {
    case 0:
        r[HZ_STEP] += one_in(2) ? LAST_PLACE + 1 : (uint64_t)1 << (8 + below(56));
        break;
    case 1:
        r[HZ_J] = step == HZ_AT_DONE ? 1 + below(size) : step == HZ_LIFT ? below(2) : 0;
        break;
    case 2:
        r[HZ_K] = pair ? r[HZ_J] : 1 + below(size);
        break;
    case 3:
        r[pair || step == HZ_AT_DONE ? HZ_K : HZ_J] = size + 1;
        break;
    default:
        r[HZ_J + below(2)] += AT_32;
    }
}

/* A set of faults of a call has a bit for each, by the number that tells it. They are made
 * from the last of the call's order to the first, so that the first has the last word. */
#define FAULT(number) (1u << (number))
#define NUMBER_FAULTS (FAULT(1) | FAULT(2) | FAULT(3))
#define LATER_THAN_11 (FAULT(6) | FAULT(7) | FAULT(14) | FAULT(8) | FAULT(15) | FAULT(9) | FAULT(20) | FAULT(12))
#define STEP_FAULTS (NUMBER_FAULTS | FAULT(4) | FAULT(5) | FAULT(10) | LATER_THAN_11)
#define LAST_FAULT 20

/* 6, 7, 14, 8, 15, 9, 20 and 12, of table and tapes that are right, at a step on column j
 * and the row that stands for it; j is 0 where the record has ended. The table's rows have
 * `width` entries. A byte that 20 is told of at Lift in F16 is none of any other step's
 * business. */
static void make_later_faults(uint64_t width, uint64_t step, uint64_t row, uint64_t j, uint32_t faults)
{
    size_t masks = mask.len, nonzeros = nonzero.len;
    if (j != 0) {
        uint8_t *entry = table.lent + ((row - 1) * width + (j - 1)) * shares, sum = 0;
        for (uint64_t s = 0; s < shares; s++)
            sum ^= entry[s];
        entry[0] ^= sum ^ (faults & FAULT(12) ? 0 : nonzero_element());
    }
    if (faults & FAULT(12) && step == HZ_SCALE)
        expect(12, row, j, 0);
    if (j != 0 && (faults & FAULT(20) || step == HZ_LIFT))
        solution.lent[j - 1] = faults & FAULT(20) ? too_large() : element();
    if (faults & FAULT(20) && step == HZ_LIFT && field == 16)
        expect(20, j, 0, 0);
    if (faults & FAULT(9) && nonzeros > 0) {
        size_t at = below(nonzeros);
        nonzero.lent[at] = zero_draw();
        expect(9, at, 0, 0);
    }
    if (faults & FAULT(15)) {
        stretch(&nonzero, nonzeros + 1 + below(3));
        expect(15, nonzeros, 0, 0);
    }
    if (faults & FAULT(8) && nonzeros > 0) {
        nonzero.len = below(nonzeros);
        expect(8, nonzeros, 0, 0);
    }
    if (faults & FAULT(14)) {
        stretch(&mask, masks + 1 + below(3));
        expect(14, masks, 0, 0);
    }
    if (faults & FAULT(7) && masks > 0) {
        mask.len = below(masks);
        expect(7, masks, 0, 0);
    }
    if (faults & FAULT(6) && field == 16)
        make_large_entry(width);
}

/* 10, 19 and 11, of a record at this place whose counters are right or not. */
static void make_place_faults(const place *p, bool right, uint32_t faults)
{
    if (!is_step(p->step))
        expect(11, 0, 0, 0);
    if (!right)
        expect(19, 0, 0, 0);
    if (faults & FAULT(10)) {
        leave_list();
        expect(10, 0, 0, 0);
    }
}

/* 1, 2 and 3, of the record's numbers. */
static void make_number_faults(uint32_t faults)
{
    static bool (*const accepted[])(uint64_t) = {is_field, is_number_of_shares, is_size};
    for (uint64_t number = 3; number >= 1; number--)
        if (faults & FAULT(number)) {
            uint64_t given = refused_number(accepted[number - 1]);
            words(&record)[number - 1] = given;
            expect(number, given, 0, 0);
        }
}

static uint64_t counters_refused;
static bool counters_met[KINDS][LAST_PLACE + 1]; /* refused by 19, by call and kind of place */

static uint64_t call_at(int kind, const place *p)
{
    uint64_t code = call_expecting(kind);
    if (refusal[0] == 19) {
        counters_refused++;
        counters_met[kind][p->step] = true;
    }
    return code;
}

/* hz_wanted at a place, with counters of this kind and with those of these faults that it
 * can have. It tells how much the counters grow up to the next place. */
static void wanted_at(size_t at, int kind, uint32_t faults)
{
    const place *p = &list[at];
    bool right = stand_at(at, kind);
    expect(0, 0, 0, 0);
    make_place_faults(p, right, faults);
    make_number_faults(faults);
    call_at(WANTED, p);
    if (refusal[0] == 0)
        demand(words(&answer)[0] == p[1].mask - p->mask && words(&answer)[1] == p[1].nonzero - p->nonzero,
               "other draws than between two places of the list");
}

/* hz_step likewise. Where it is accepted, the record it leaves is the next of the list. */
static void step_at(size_t at, int kind, uint32_t faults)
{
    const place *p = &list[at];
    bool right = stand_at(at, kind);
    memcpy(table.lent, first_table, table.len);
    make_tapes(STEP);
    expect(0, 0, 0, 0);
    make_later_faults(size + 1, p->step, p->j, p->j, faults);
    make_place_faults(p, right, faults);
    if (faults & FAULT(5)) {
        expect(5, solution.len, 0, 0);
        make_wrong(&solution);
    }
    if (faults & FAULT(4)) {
        expect(4, table.len, 0, 0);
        make_wrong(&table);
    }
    make_number_faults(faults);
    uint64_t code = call_at(STEP, p);
    solution.len = size;
    table.len = values.len * shares;
    if (refusal[0] != 0)
        return;
    bool stops = p->step == HZ_CHECK && faults & FAULT(12);
    const place *next = p->step == HZ_CHECK && !stops ? p + 2 : p + 1;
    uint64_t left[] = {field, shares, size, next->step, next->j, next->k, next->mask, next->nonzero};
    demand((code == HZ_STOPPED) == stops, "stopped at a pivot that is not 0, or moved on from one that is");
    demand(memcmp(record.lent, left, sizeof left) == 0, "another record than the next of the list");
}

/* Both calls with counters of every kind and every fault, or one, and with many faults. */
static void counters_at(size_t at, bool every_fault)
{
    make_values(RANDOM);
    make_table();
    memcpy(first_table, table.lent, table.len);
    for (int kind = 0; kind < COUNTER_KINDS; kind++) {
        wanted_at(at, kind, 0);
        step_at(at, kind, 0);
        step_at(at, kind, (uint32_t)any() & STEP_FAULTS);
        if (!every_fault) {
            wanted_at(at, kind, FAULT(1 + below(LAST_FAULT)));
            step_at(at, kind, FAULT(1 + below(LAST_FAULT)));
            continue;
        }
        for (uint64_t number = 1; number <= LAST_FAULT; number++) {
            if (FAULT(number) & STEP_FAULTS)
                step_at(at, kind, FAULT(number));
            if (FAULT(number) & (NUMBER_FAULTS | FAULT(10)))
                wanted_at(at, kind, FAULT(number));
        }
        wanted_at(at, kind, STEP_FAULTS);
        step_at(at, kind, STEP_FAULTS);
        step_at(at, kind, LATER_THAN_11);
    }
}

/* A record of any other number of words, though the first ones are right. */
static void other_words(void)
{
    for (size_t len = 0; len <= record.capacity; len++)
        for (int kind = START; kind <= STEP; kind++) {
            if (len == HZ_RECORD_WORDS)
                continue;
            stand_at(0, 0);
            make_tapes(STEP);
            record.len = len;
            demand(call(kind) == HZ_BAD_WORDS, "a record of other words is taken");
            record.len = HZ_RECORD_WORDS;
        }
}

/* Numbers for the i-th case of a size: each field with each number of shares. */
static void start_counters(uint64_t i)
{
    field = i % 2 == 0 ? 16 : 256;
    shares = 2 + i / 2 % 3;
    make_list();
    make_solution();
    fresh_words();
}

/* Every place of small systems. */
#define EVERY_FAULT_SIZES 3
static void case_of_counters(uint64_t i)
{
    size = 1 + i / 6;
    start_counters(i);
    for (size_t at = 0; at < list_len; at++)
        counters_at(at, size <= EVERY_FAULT_SIZES);
    other_words();
    call(START);
    demand_counters(0, 0);
    call(COUNTS);
    demand(words(&answer)[1] == mask_drawn && words(&answer)[2] == nonzero_drawn, "other counts than the list's");
}

/* Some place of this kind. */
static size_t any_of(uint64_t step)
{
    size_t at = below(list_len);
    while (list[at].step != step)
        at = (at + 1) % list_len;
    return at;
}

/* Of larger systems some places of each kind, the first and the last step, and all stops. */
#define COUNTER_ROUNDS 3
static const uint64_t sizes_of_counters[] = {8, 17, 40, 96};
#define ALL_LARGE_COUNTERS (2 * 3 * (sizeof sizes_of_counters / sizeof sizes_of_counters[0]))
static void case_of_large_counters(uint64_t i)
{
    size = sizes_of_counters[i / 6];
    start_counters(i);
    for (uint64_t step = HZ_MIX; step <= LAST_PLACE; step++)
        for (int round = 0; round < COUNTER_ROUNDS; round++)
            counters_at(any_of(step), false);
    counters_at(0, false);
    counters_at(list_len - 2, false);
    for (size_t at = 0; at < list_len; at++)
        for (int kind = 0; list[at].step == HZ_AT_STOPPED && kind < COUNTER_KINDS; kind++)
            wanted_at(at, kind, 0);
}

/* Examples of R-5, and 01's counts, as R-6 and R-7 have them. The places of a list follow each other. */
static const struct {
    uint64_t record[HZ_RECORD_WORDS];
    uint64_t number; /* by which both calls refuse it, or 0 */
} counter_vectors[] = {
    {{16, 2, 2, HZ_MIX, 1, 2, 0, 0}, 0},
    {{16, 2, 2, HZ_CHECK, 1, 0, 7, 0}, 0},
    {{16, 2, 2, HZ_SCALE, 1, 0, 12, 0}, 0},
    {{16, 2, 2, HZ_CLEAR, 1, 2, 20, 1}, 0},
    {{16, 2, 2, HZ_CHECK, 2, 0, 23, 1}, 0},
    {{16, 2, 2, HZ_SCALE, 2, 0, 28, 1}, 0},
    {{16, 2, 2, HZ_OPEN, 2, 0, 34, 2}, 0},
    {{16, 2, 2, HZ_LIFT, 2, 0, 35, 2}, 0},
    {{16, 2, 2, HZ_OPEN, 1, 0, 35, 2}, 0},
    {{16, 2, 2, HZ_AT_DONE, 0, 0, 36, 2}, 11},
    {{16, 2, 2, HZ_AT_STOPPED, 1, 0, 12, 0}, 11},
    {{16, 2, 2, HZ_AT_STOPPED, 2, 0, 28, 1}, 11},
    {{256, 3, 2, HZ_MIX, 1, 2, 0, 0}, 0},
    {{256, 3, 2, HZ_CHECK, 1, 0, 27, 0}, 0},
    {{256, 3, 2, HZ_SCALE, 1, 0, 48, 0}, 0},
    {{256, 3, 2, HZ_CLEAR, 1, 2, 73, 2}, 0},
    {{256, 3, 2, HZ_CHECK, 2, 0, 82, 2}, 0},
    {{256, 3, 2, HZ_SCALE, 2, 0, 103, 2}, 0},
    {{256, 3, 2, HZ_OPEN, 2, 0, 122, 4}, 0},
    {{256, 3, 2, HZ_LIFT, 2, 0, 125, 4}, 0},
    {{256, 3, 2, HZ_OPEN, 1, 0, 125, 4}, 0},
    {{256, 3, 2, HZ_AT_DONE, 0, 0, 128, 4}, 11},
    {{256, 3, 2, HZ_AT_STOPPED, 1, 0, 48, 0}, 11},
    {{256, 3, 2, HZ_AT_STOPPED, 2, 0, 103, 2}, 11},
    {{16, 4, 2, HZ_MIX, 1, 2, 0, 0}, 0},
    {{16, 4, 2, HZ_CHECK, 1, 0, 42, 0}, 0},
    {{16, 4, 2, HZ_SCALE, 1, 0, 72, 0}, 0},
    {{16, 4, 2, HZ_CLEAR, 1, 2, 123, 3}, 0},
    {{16, 4, 2, HZ_CHECK, 2, 0, 141, 3}, 0},
    {{16, 4, 2, HZ_SCALE, 2, 0, 171, 3}, 0},
    {{16, 4, 2, HZ_OPEN, 2, 0, 210, 6}, 0},
    {{16, 4, 2, HZ_LIFT, 2, 0, 216, 6}, 0},
    {{16, 4, 2, HZ_OPEN, 1, 0, 216, 6}, 0},
    {{16, 4, 2, HZ_AT_DONE, 0, 0, 222, 6}, 11},
    {{16, 4, 2, HZ_AT_STOPPED, 1, 0, 72, 0}, 11},
    {{16, 4, 2, HZ_AT_STOPPED, 2, 0, 171, 3}, 11},
    {{16, 2, 1, HZ_CHECK, 1, 0, 0, 0}, 0},
    {{16, 2, 1, HZ_SCALE, 1, 0, 5, 0}, 0},
    {{16, 2, 1, HZ_OPEN, 1, 0, 11, 1}, 0},
    {{16, 2, 1, HZ_AT_DONE, 0, 0, 12, 1}, 11},
    {{16, 2, 1, HZ_AT_STOPPED, 1, 0, 5, 0}, 11},
    {{16, 3, 1, HZ_CHECK, 1, 0, 0, 0}, 0},
    {{16, 3, 1, HZ_SCALE, 1, 0, 15, 0}, 0},
    {{16, 3, 1, HZ_OPEN, 1, 0, 34, 2}, 0},
    {{16, 3, 1, HZ_AT_DONE, 0, 0, 37, 2}, 11},
    {{16, 3, 1, HZ_AT_STOPPED, 1, 0, 15, 0}, 11},
    {{256, 4, 1, HZ_CHECK, 1, 0, 0, 0}, 0},
    {{256, 4, 1, HZ_SCALE, 1, 0, 42, 0}, 0},
    {{256, 4, 1, HZ_OPEN, 1, 0, 81, 3}, 0},
    {{256, 4, 1, HZ_AT_DONE, 0, 0, 87, 3}, 11},
    {{256, 4, 1, HZ_AT_STOPPED, 1, 0, 42, 0}, 11},
    {{16, 3, 2, HZ_AT_STOPPED, 1, 0, 36, 0}, 11},
    {{16, 3, 2, HZ_AT_STOPPED, 2, 0, 85, 2}, 11},
    {{16, 3, 2, HZ_AT_DONE, 0, 0, 110, 4}, 11},
    {{16, 4, 1, HZ_AT_DONE, 0, 0, 75, 3}, 11},
    {{256, 2, 1, HZ_AT_DONE, 0, 0, 14, 1}, 11},
    {{256, 3, 1, HZ_AT_DONE, 0, 0, 43, 2}, 11},
    {{256, 4, 96, HZ_AT_DONE, 0, 0, 3820512, 288}, 11},
    {{16, 2, 2, HZ_CHECK, 1, 0, 7, 1}, 19},
    {{16, 2, 2, HZ_CHECK, 1, 0, 12, 0}, 19},
    {{16, 2, 2, HZ_MIX, 1, 2, UINT64_MAX, UINT64_MAX}, 19},
    {{16, 2, 2, HZ_AT_STOPPED, 1, 0, 7, 0}, 19},
    {{16, 2, 2, HZ_AT_STOPPED, 2, 0, 23, 1}, 19},
    {{16, 2, 2, HZ_AT_STOPPED, 2, 0, 12, 0}, 19},
    {{16, 2, 2, HZ_AT_DONE, 0, 0, 35, 2}, 19},
    {{16, 2, 2, HZ_AT_DONE, 0, 0, 0, 0}, 19},
    {{16, 2, 2, HZ_AT_DONE, 0, 0, UINT64_MAX, UINT64_MAX}, 19},
    {{256, 4, 96, HZ_AT_DONE, 0, 0, 3820511, 288}, 19},
    {{256, 4, 96, HZ_AT_DONE, 0, 0, 3820512, 287}, 19},
    /* these were right before R-6 */
    {{16, 3, 1, HZ_SCALE, 1, 0, 13, 0}, 19},
    {{16, 3, 1, HZ_AT_STOPPED, 1, 0, 13, 0}, 19},
    {{16, 3, 1, HZ_AT_DONE, 0, 0, 35, 2}, 19},
    {{256, 3, 2, HZ_CHECK, 1, 0, 24, 0}, 19},
    {{256, 3, 2, HZ_OPEN, 1, 0, 116, 4}, 19},
    {{256, 3, 2, HZ_AT_STOPPED, 2, 0, 94, 2}, 19},
    {{256, 3, 2, HZ_AT_DONE, 0, 0, 119, 4}, 19},
    {{16, 4, 1, HZ_AT_DONE, 0, 0, 69, 3}, 19},
    {{256, 4, 1, HZ_SCALE, 1, 0, 33, 0}, 19},
    {{256, 4, 1, HZ_AT_DONE, 0, 0, 78, 3}, 19},
    {{256, 4, 96, HZ_AT_DONE, 0, 0, 3778608, 288}, 19},
    /* Lift draws nothing: what was drawn before it is what was drawn behind it */
    {{16, 2, 2, HZ_LIFT, 2, 0, 34, 2}, 19},
    {{16, 2, 2, HZ_LIFT, 2, 0, 36, 2}, 19},
    {{16, 2, 2, HZ_LIFT, 2, 0, 35, 1}, 19},
    {{16, 2, 2, HZ_OPEN, 1, 0, 34, 2}, 19},
    {{16, 2, 2, HZ_OPEN, 1, 0, 36, 2}, 19},
    {{256, 3, 2, HZ_LIFT, 2, 0, 122, 4}, 19},
    {{256, 3, 2, HZ_LIFT, 2, 0, 128, 4}, 19},
    {{256, 4, 96, HZ_LIFT, 2, 0, 3820506, 288}, 0},
    {{256, 4, 96, HZ_OPEN, 1, 0, 3820506, 288}, 0},
    {{256, 4, 96, HZ_AT_DONE, 0, 0, 3820512, 288}, 11},
    {{256, 4, 96, HZ_LIFT, 96, 0, 3819936, 288}, 19},
    {{256, 4, 96, HZ_LIFT, 96, 0, 3819948, 288}, 19},
    {{16, 2, 2, HZ_MIX, 2, 2, 0, 0}, 10},
    {{16, 2, 2, HZ_MIX, 2, 2, 20, 1}, 10},
    {{16, 2, 2, HZ_MIX, 2, 2, 23, 1}, 10},
    {{16, 2, 2, HZ_MIX, 2, 2, UINT64_MAX, UINT64_MAX}, 10},
    {{16, 2, 2, HZ_AT_STOPPED, 3, 0, 36, 2}, 10},
    {{16, 2, 2, HZ_LIFT, 1, 0, 35, 2}, 10},
    {{16, 2, 2, HZ_LIFT, 1, 0, 36, 2}, 10},
    {{16, 2, 2, HZ_LIFT, 0, 0, 35, 2}, 10},
    {{16, 2, 2, HZ_LIFT, 3, 0, 34, 2}, 10},
    {{16, 2, 2, HZ_LIFT, 3, 0, 35, 2}, 10},
    {{16, 2, 2, HZ_LIFT, 2, 1, 35, 2}, 10},
    {{16, 2, 2, HZ_LIFT, 2, 2, 35, 2}, 10},
    {{16, 2, 2, HZ_LIFT, UINT64_MAX, 0, 35, 2}, 10},
    {{16, 2, 2, HZ_LIFT, 2, UINT64_MAX, 35, 2}, 10},
    {{16, 2, 2, HZ_LIFT + 1, 2, 0, 35, 2}, 10},
    {{16, 2, 1, HZ_LIFT, 1, 0, 11, 1}, 10},
    {{16, 2, 1, HZ_LIFT, 1, 0, 12, 1}, 10},
    {{16, 2, 1, HZ_LIFT, 2, 0, 12, 1}, 10},
};
#define ALL_COUNTER_VECTORS (sizeof counter_vectors / sizeof counter_vectors[0])

static void set_vector(size_t i)
{
    memcpy(record.lent, counter_vectors[i].record, sizeof counter_vectors[i].record);
}

/* hz_step from the i-th vector, which is a step; it leads to the one of number `next`. */
static void step_of_vector(size_t i, size_t next, uint8_t pivot_wanted)
{
    uint64_t j = counter_vectors[i].record[HZ_J];
    make_values(RANDOM);
    make_table();
    pivot(j)[0] ^= pivot_value(j) ^ pivot_wanted;
    solution.lent[j - 1] = element(); /* for Lift */
    set_vector(i);
    make_tapes(STEP);
    call_expecting(STEP);
    demand(memcmp(record.lent, counter_vectors[next].record, sizeof counter_vectors[next].record) == 0,
           "another record than R-5's");
}

/* The vector of the stop that Check, the i-th one, can lead to. */
static size_t stop_of(size_t i)
{
    size_t stop = i;
    while (counter_vectors[stop].record[HZ_STEP] != HZ_AT_STOPPED
           || counter_vectors[stop].record[HZ_J] != counter_vectors[i].record[HZ_J])
        stop++;
    return stop;
}

static void case_of_counter_vectors(uint64_t i)
{
    const uint64_t *told = counter_vectors[i].record;
    uint64_t number = counter_vectors[i].number;
    field = told[HZ_FIELD];
    shares = told[HZ_SHARES];
    size = told[HZ_SIZE];
    make_solution();
    fresh_words();
    if (number == 0 && told[HZ_MASK_TAKEN] == 0) {
        demand(call(START) == HZ_FRESH, "no fresh record");
        demand(memcmp(record.lent, told, bytes_of(&record)) == 0, "another fresh record than R-5's");
    }
    set_vector(i);
    expect(number, 0, 0, 0);
    call_expecting(WANTED);
    if (number == 0) {
        step_of_vector(i, i + 1, nonzero_element());
        if (told[HZ_STEP] == HZ_CHECK)
            step_of_vector(i, stop_of(i), 0);
        return;
    }
    make_values(RANDOM);
    make_table();
    make_tapes(STEP);
    call_expecting(STEP);
}

/* ---- Three ways to one answer ----
 *
 * R-1: the plain call's answer is that of the masked solve of any dealing. Each
 * system here is solved by hz_plain, and by hz_deal and hz_solve in 2, 3 or 4
 * shares; each call is compared with the model, whose plain answer comes from a
 * basis of columns. And each is made so that its answer is known: half have one
 * known x, and half a known first column that the columns before it combine to. */

static uint64_t systems, singular_systems;
static bool stop_met[8][8]; /* by size and column, both less 1 */

static uint8_t known_x[96];

static void add_row(uint64_t to, uint8_t factor, uint64_t from)
{
    for (uint64_t c = 0; c < size; c++)
        *value(to, c) ^= model_times(field, factor, *value(from, c));
}

/* A = P·L·U, L and U triangular with no 0 on the diagonal and P any order of the
 * rows: regular, and every regular matrix is one of these. Where most of L and U
 * is 0, so are many pivots. */
static void make_regular(void)
{
    uint64_t sparse = one_in(2) ? 4 : 1;
    values.len = size * (size + 1);
    for (uint64_t r = 0; r < size; r++)
        for (uint64_t c = 0; c < size; c++)
            *value(r, c) = c == r ? nonzero_element() : c > r && one_in(sparse) ? element() : 0;
    for (uint64_t r = size; r-- > 0;) /* from the last row up: those above it are U's still */
        for (uint64_t d = 0; d < r; d++)
            add_row(r, one_in(sparse) ? element() : 0, d);
    for (uint64_t r = size; r-- > 1;) {
        uint64_t other = below(r + 1);
        for (uint64_t c = 0; c < size; c++) {
            uint8_t kept = *value(r, c);
            *value(r, c) = *value(other, c);
            *value(other, c) = kept;
        }
    }
}

/* b = A·x. */
static void make_b(const uint8_t *x)
{
    for (uint64_t r = 0; r < size; r++) {
        *value(r, size) = 0;
        for (uint64_t c = 0; c < size; c++)
            *value(r, size) ^= model_times(field, *value(r, c), x[c]);
    }
}

/* The values dealt, and solved in shares: with the answer that hz_plain had. */
static void compare_masked(uint64_t code, uint64_t stops, const uint8_t *x)
{
    table.len = values.len * shares;
    fill(table.lent, table.len);
    make_mask(values.len * (shares - 1));
    demand(call(DEAL) == HZ_FILLED, "not dealt");
    make_mask(full_mask());
    make_nonzero(full_nonzero());
    fill(solution.lent, size);
    demand(call(SOLVE) == code, "hz_plain finds x where hz_solve stops, or the reverse");
    demand(code == HZ_SOLVED || words(&answer)[0] == stops, "hz_plain stops at another column than hz_solve");
    demand(memcmp(solution.lent, x, size) == 0, "hz_plain leaves another solution than hz_solve");
}

/* A system whose first dependent column is `stops`, or that has one x for 0. */
static void compare_ways(uint64_t stops)
{
    make_regular();
    for (uint64_t c = 0; c < size; c++)
        known_x[c] = element();
    for (uint64_t c = stops; stops != 0 && c <= size; c++)
        if (c == stops || one_in(4))
            make_dependent(c - 1);
    make_b(known_x);
    if (stops != 0 && one_in(2)) /* or else b fits, and it must stop all the same */
        for (uint64_t r = 0; r < size; r++)
            *value(r, size) = element();

    uint64_t code = plain_answer();
    demand(code == (stops == 0 ? HZ_SOLVED : HZ_STOPPED), "not the kind of system that was made");
    demand_plain(stops, known_x, "another column or x than the system was made for");
    systems++;
    singular_systems += code == HZ_STOPPED;
    if (code == HZ_STOPPED && size <= 8)
        stop_met[size - 1][stops - 1] = true;

    uint8_t x[96];
    memcpy(x, solution.lent, size);
    compare_masked(code, stops, x);
}

/* Sizes 1 to 8, and every column of each for a stop. */
#define PLACES 36 /* 1 + 2 + .. + 8 */
#define WAYS_ROUNDS 47
#define ALL_WAYS (2 * 2 * 3 * PLACES * WAYS_ROUNDS)
static void case_of_ways(uint64_t i)
{
    field = i / 2 % 2 == 0 ? 16 : 256;
    shares = 2 + i / 4 % 3;
    uint64_t column = 1 + i / 12 % PLACES;
    for (size = 1; column > size; size++)
        column -= size;
    compare_ways(i % 2 == 0 ? 0 : column);
}

static const struct {
    uint64_t field, shares, size;
} large_ways[] = {
    {16, 2, 9},   {256, 3, 9},  {16, 4, 12},  {256, 2, 15}, {16, 3, 16},  {256, 4, 17}, {16, 2, 24},  {256, 3, 31},
    {256, 4, 32}, {16, 3, 33},  {256, 2, 48}, {16, 4, 48},  {256, 3, 64}, {16, 2, 64},  {256, 2, 96}, {16, 3, 96},
};
#define ALL_LARGE_WAYS (2 * (sizeof large_ways / sizeof large_ways[0]))
static void case_of_large_ways(uint64_t i)
{
    field = large_ways[i / 2].field;
    shares = large_ways[i / 2].shares;
    size = large_ways[i / 2].size;
    compare_ways(i % 2 == 0 ? 0 : 1 + below(size));
}

/* ---- Open and Lift (R-7) ----
 *
 * Open(j) opens x_j, writes it and leaves the table. Lift(j) takes byte j-1 of the solution
 * that it is lent, whatever a host made of it, into the rows above. What the two leave is
 * worked out here by R-7's words, and not by the model. */

static uint64_t lifts_tampered[2][3]; /* with another byte than Open wrote, by field and shares */
static uint64_t lifts_refused;        /* by 20 */

/* The table becomes what Lift(j) of this byte leaves. */
static void lift_by_hand(uint64_t j, uint8_t x)
{
    for (uint64_t k = 1; k < j; k++)
        for (uint64_t s = 0; s < shares; s++)
            cell(k, size + 1)[s] ^= model_times(field, x, cell(k, j)[s]);
}

/* Both calls at Lift(j), with record, table and solution as they are. */
static void lift_expecting(uint64_t j)
{
    uint8_t kept[96], x = solution.lent[j - 1];
    uint64_t left[] = {field, shares, size, HZ_OPEN, j - 1, 0, words(&record)[HZ_MASK_TAKEN],
                       words(&record)[HZ_NONZERO_TAKEN]};
    make_mask(0);
    make_nonzero(0);
    memcpy(kept, solution.lent, size);
    memcpy(first_table, table.lent, table.len);
    lift_by_hand(j, x);
    memcpy(stepped_table, table.lent, table.len);
    memcpy(table.lent, first_table, table.len);
    demand(call(WANTED) == HZ_WANTED && words(&answer)[0] == 0 && words(&answer)[1] == 0, "Lift wants draws");
    bool large = field == 16 && x >= 16;
    expect(large ? 20 : 0, large ? j : 0, 0, 0);
    uint64_t code = call_expecting(STEP);
    demand(memcmp(solution.lent, kept, size) == 0, "Lift wrote into the solution");
    lifts_refused += large;
    if (large)
        return;
    demand(code == HZ_MOVED, "Lift does not answer moved");
    demand(memcmp(table.lent, stepped_table, table.len) == 0, "another table than R-7's");
    demand(memcmp(record.lent, left, sizeof left) == 0, "another record than at the next Open, with the same counters");
}

/* Products of 01 and of FIPS 197, each of which Lift(2) adds to a share of T[1,3]. */
static const struct {
    uint64_t field, shares;
    uint8_t x, factor[4], before[4], after[4]; /* x_2, T[1,2], and T[1,3] */
} lift_products[] = {
    {16, 4, 2, {8, 9, 1, 0}, {5, 5, 5, 5}, {6, 4, 7, 5}},
    {16, 2, 15, {15, 0}, {0, 10}, {10, 10}},
    {16, 3, 7, {6, 0, 1}, {1, 2, 3}, {0, 2, 4}},
    {256, 3, 0x83, {0x57, 0, 1}, {1, 2, 3}, {0xc0, 2, 0x80}},
    {256, 2, 0x13, {0x57, 0x57}, {0, 0xff}, {0xfe, 0x01}},
    {256, 4, 0x02, {0x57, 0xae, 0x47, 0x01}, {0, 0, 0, 0xf0}, {0xae, 0x47, 0x8e, 0xf2}},
};
#define ALL_LIFT_PRODUCTS (sizeof lift_products / sizeof lift_products[0])
static void case_of_lift_products(uint64_t i)
{
    field = lift_products[i].field;
    shares = lift_products[i].shares;
    size = 2;
    make_values(RANDOM);
    make_table();
    make_solution();
    fresh_words();
    memcpy(cell(1, 2), lift_products[i].factor, shares);
    memcpy(cell(1, 3), lift_products[i].before, shares);
    solution.lent[1] = lift_products[i].x;
    set_record(HZ_LIFT, 2, 0);
    lift_expecting(2);
    demand(memcmp(cell(1, 3), lift_products[i].after, shares) == 0, "another T[1,3] than the papers' products make");
}

/* 01's rows (2,1),(1,1) with b = (1,0), dealt and solved by steps in F16 and two shares,
 * with tapes as simple as can be, and what the host may do between Open(2) and Lift(2). */
#define AS_OPENED (-1)
#define TABLE_AFTER_OPEN "0d0c0a030d040c0c0c0d0e00"
#define TABLE_AFTER_LIFT "0d0c0a030b050c0c0c0d0e00"
static const struct {
    int byte;                /* becomes byte 1 of the solution; its byte 0 is EE still */
    size_t mask, nonzero;    /* lent to Lift */
    uint64_t number, detail; /* by which it is refused; then it is done rightly */
    const char *table;       /* in hex, after Lift */
    uint8_t x_1;
} lift_vectors[] = {
    {AS_OPENED, 0, 0, 0, 0, TABLE_AFTER_LIFT, 14},
    {5, 0, 0, 0, 0, "0d0c0a03090b0c0c0c0d0e00", 2},
    {0, 0, 0, 0, 0, TABLE_AFTER_OPEN, 9},
    {1, 0, 0, 0, 0, "0d0c0a0307070c0c0c0d0e00", 0},
    {14, 0, 0, 0, 0, TABLE_AFTER_LIFT, 14},
    {AS_OPENED, 1, 0, 14, 0, TABLE_AFTER_LIFT, 14},
    {AS_OPENED, 0, 1, 15, 0, TABLE_AFTER_LIFT, 14},
    {AS_OPENED, 1, 1, 14, 0, TABLE_AFTER_LIFT, 14},
    {16, 0, 0, 20, 2, TABLE_AFTER_LIFT, 14},
    {30, 0, 0, 20, 2, TABLE_AFTER_LIFT, 14},
    {255, 0, 0, 20, 2, TABLE_AFTER_LIFT, 14},
    {16, 1, 0, 14, 0, TABLE_AFTER_LIFT, 14},
    {16, 0, 1, 15, 0, TABLE_AFTER_LIFT, 14},
    {16, 1, 1, 14, 0, TABLE_AFTER_LIFT, 14},
};
#define ALL_LIFT_VECTORS (sizeof lift_vectors / sizeof lift_vectors[0])

static void demand_table(const char *hex, const char *what)
{
    for (size_t i = 0; i < table.len; i++) {
        unsigned byte;
        demand(sscanf(hex + 2 * i, "%2x", &byte) == 1 && table.lent[i] == byte, what);
    }
}

/* hz_step with these draws of tapes whose byte i is 7+9i and 1 + (2+3i) mod 15. */
static uint64_t step_of_lift_vector(size_t masks, size_t nonzeros)
{
    mask.len = masks;
    for (size_t i = 0; i < masks; i++)
        mask.lent[i] = (uint8_t)(7 + 9 * (words(&record)[HZ_MASK_TAKEN] + i));
    nonzero.len = nonzeros;
    for (size_t i = 0; i < nonzeros; i++)
        nonzero.lent[i] = (uint8_t)(1 + (2 + 3 * (words(&record)[HZ_NONZERO_TAKEN] + i)) % 15);
    return call_expecting(STEP);
}

static void case_of_lift_vectors(uint64_t i)
{
    static const uint8_t values_of_01[] = {2, 1, 1, 1, 1, 0};
    static const uint64_t at_lift[] = {16, 2, 2, HZ_LIFT, 2, 0, 35, 2};
    field = 16;
    shares = size = 2;
    values.len = mask.len = sizeof values_of_01;
    memcpy(values.lent, values_of_01, values.len);
    for (size_t b = 0; b < mask.len; b++)
        mask.lent[b] = (uint8_t)(3 + 5 * b);
    table.len = 12;
    fill(table.lent, table.len);
    fresh_words();
    demand(call(DEAL) == HZ_FILLED, "not dealt");
    solution.len = 2;
    memset(solution.lent, 0xee, 2);
    demand(call(START) == HZ_FRESH, "no fresh record");
    expect(0, 0, 0, 0);
    while (words(&record)[HZ_STEP] != HZ_LIFT) {
        demand(call(WANTED) == HZ_WANTED, "not told what the step wants");
        step_of_lift_vector(words(&answer)[0], words(&answer)[1]);
    }
    demand(words(&answer)[0] == 2 && words(&answer)[1] == 14, "another x_2 than R-7's example");
    demand(solution.lent[0] == 0xee && solution.lent[1] == 14, "another solution after Open than R-7's example");
    demand(memcmp(record.lent, at_lift, sizeof at_lift) == 0, "another record after Open than R-7's example");
    demand_table(TABLE_AFTER_OPEN, "another table after Open than R-7's example");

    if (lift_vectors[i].byte != AS_OPENED)
        solution.lent[1] = (uint8_t)lift_vectors[i].byte;
    expect(lift_vectors[i].number, lift_vectors[i].detail, 0, 0);
    step_of_lift_vector(lift_vectors[i].mask, lift_vectors[i].nonzero);
    expect(0, 0, 0, 0);
    if (lift_vectors[i].number != 0) {
        solution.lent[1] = 14;
        step_of_lift_vector(0, 0);
    }
    demand_table(lift_vectors[i].table, "another table after Lift than R-7's example");
    uint8_t x_1 = lift_vectors[i].x_1;
    demand(step_of_lift_vector(1, 0) == HZ_DONE && words(&answer)[0] == x_1 && solution.lent[0] == x_1,
           "another x_1 than R-7's example");
    demand_table(lift_vectors[i].table, "another table after the last Open than R-7's example");
}

/* A made-up place by Lift's number that is none: both calls refuse it by 10, though the
 * counters are those of the last Open, or of done, and nothing else speaks against it. */
static void no_lift_at(uint64_t j, uint64_t k)
{
    for (int done = 0; done < 2; done++) {
        set_record(done ? HZ_AT_DONE : HZ_OPEN, done ? 0 : 1, 0);
        words(&record)[HZ_STEP] = HZ_LIFT;
        words(&record)[HZ_J] = j;
        words(&record)[HZ_K] = k;
        make_mask(0);
        make_nonzero(0);
        expect(10, 0, 0, 0);
        call_expecting(WANTED);
        call_expecting(STEP);
    }
}

static void no_lifts(void)
{
    static const uint64_t huge[] = {97, AT_32, AT_32 + 1, AT_32 + 2, AT_63, AT_63 + 2, UINT64_MAX - 1, UINT64_MAX};
    const uint64_t ks[] = {1, 2, size - 1, size, size + 1};
    make_values(RANDOM);
    make_table();
    make_solution();
    for (uint64_t i = 0; i < size; i++)
        solution.lent[i] = element();
    no_lift_at(0, 0);
    no_lift_at(1, 0);
    no_lift_at(size + 1, 0);
    no_lift_at(size + 2, 0);
    for (size_t i = 0; i < sizeof huge / sizeof huge[0]; i++) {
        no_lift_at(huge[i], 0);
        no_lift_at(size, huge[i]);
    }
    for (uint64_t j = 0; j <= size + 1; j++)
        for (size_t i = 0; i < sizeof ks / sizeof ks[0]; i++)
            if (ks[i] != 0)
                no_lift_at(j, ks[i]);
}

/* Every Lift of small systems with every byte; the others of the solution are elements, or
 * none is, or they are as it comes. And no Lift where the list has none. */
static void case_of_lifts(uint64_t i)
{
    field = i % 2 == 0 ? 16 : 256;
    shares = 2 + i / 2 % 3;
    size = 1 + i / 6;
    fresh_words();
    no_lifts();
    for (uint64_t j = 2; j <= size; j++)
        for (unsigned byte = 0; byte < 256; byte++) {
            make_values(RANDOM);
            make_table();
            make_solution();
            for (uint64_t c = 0, none = below(2); none && c < size; c++)
                solution.lent[c] = too_large();
            solution.lent[j - 1] = (uint8_t)byte;
            set_record(HZ_LIFT, j, 0);
            lift_expecting(j);
        }
}

/* Every set of the faults that Lift can have, and every set of those of a Scale's tapes,
 * where the byte that Lift would refuse says nothing. */
static const uint64_t faults_of_lift[] = {1, 2, 3, 4, 5, 10, 6, 14, 15, 20};
static const uint64_t faults_of_scale[] = {7, 14, 8, 15, 9, 20, 12};

static uint32_t fault_set(const uint64_t *numbers, uint64_t set)
{
    uint32_t faults = 0;
    for (uint64_t i = 0; set >> i != 0; i++)
        if (set >> i & 1)
            faults |= FAULT(numbers[i]);
    return faults;
}

#define SETS_OF(numbers) ((uint64_t)1 << sizeof(numbers) / sizeof(numbers)[0])
static const uint64_t sizes_of_lift_faults[] = {2, 5};
#define ALL_LIFT_FAULTS (2 * 3 * (sizeof sizes_of_lift_faults / sizeof sizes_of_lift_faults[0]))
static void case_of_lift_faults(uint64_t i)
{
    size = sizes_of_lift_faults[i / 6];
    start_counters(i);
    make_values(RANDOM);
    make_table();
    memcpy(first_table, table.lent, table.len);
    for (uint64_t set = 0; set < SETS_OF(faults_of_lift); set++) {
        size_t at = any_of(HZ_LIFT);
        step_at(at, 0, fault_set(faults_of_lift, set));
        step_at(at, 1 + (int)below(COUNTER_KINDS - 1), fault_set(faults_of_lift, set));
    }
    for (uint64_t set = 0; set < SETS_OF(faults_of_scale); set++)
        step_at(any_of(HZ_SCALE), 0, fault_set(faults_of_scale, set));
}

/* What a host does with the solution in a run: nothing; lends another one to each step,
 * where only Lift's byte is what Open wrote; changes that byte, to another element, or to
 * 0; or to any of 16 and more, which in F16 is put right when it is refused. */
enum { UNTOUCHED, OTHER_SOLUTIONS, TAMPERED, WIPED, MADE_LARGE, HOSTS };

static uint8_t opened[96], lifted[96]; /* x_j as Open told it, and as Lift found it, from 0 */

static void lift_for_host(int host, uint64_t j)
{
    uint8_t *byte = solution.lent + (j - 1), x = *byte;
    if (host == OTHER_SOLUTIONS)
        for (uint64_t i = 0; i < size; i++)
            solution.lent[i] = one_in(2) ? too_large() : (uint8_t)any();
    *byte = host == TAMPERED ? x ^ nonzero_element() : host == WIPED ? 0 : host == MADE_LARGE ? too_large() : x;
    uint8_t found = *byte;
    lift_expecting(j);
    if (field == 16 && found >= 16) {
        *byte = found = x;
        lift_expecting(j);
    }
    lifted[j - 1] = found;
    lifts_tampered[field != 16][shares - 2] += found != x;
}

/* The Opens and Lifts of a run whose record stands at Open(m), with these draws. */
static void run_back(int host, const uint8_t *draws)
{
    uint64_t pairs = shares * (shares - 1) / 2;
    for (uint64_t j = size; j >= 1; j--, draws += pairs) {
        uint8_t kept[96];
        if (host == OTHER_SOLUTIONS)
            fill(solution.lent, size);
        memcpy(kept, solution.lent, size);
        memcpy(first_table, table.lent, table.len);
        mask.len = pairs;
        memcpy(mask.lent, draws, pairs);
        make_nonzero(0);
        expect(0, 0, 0, 0);
        uint64_t code = call_expecting(STEP);
        demand(code == (j == 1 ? HZ_DONE : HZ_OPENED), "not opened");
        demand(j == 1 || words(&answer)[0] == j, "another unknown opened");
        kept[j - 1] = opened[j - 1] = (uint8_t)words(&answer)[j == 1 ? 0 : 1];
        demand(memcmp(solution.lent, kept, size) == 0, "Open wrote elsewhere, or another byte than it told");
        demand(memcmp(table.lent, first_table, table.len) == 0, "Open changed the table");
        if (j > 1)
            lift_for_host(host, j);
    }
}

/* The same, and whether x_k is b_k less what was lifted into it, whatever was. */
static void run_back_and_check(int host, const uint8_t *draws)
{
    for (uint64_t r = 1; r <= size; r++)
        for (uint64_t c = 1; c <= size + 1; c++)
            dealt_values[(r - 1) * (size + 1) + (c - 1)] = cell_value(r, c);
    run_back(host, draws);
    for (uint64_t r = 0; r < size; r++) {
        uint8_t x = dealt_values[r * (size + 1) + size];
        for (uint64_t c = r + 1; c < size; c++)
            x ^= model_times(field, dealt_values[r * (size + 1) + c], lifted[c]);
        demand(opened[r] == x, "another unknown than that of the bytes lifted");
    }
}

/* Steps from a fresh record up to Open(m). Returns the mask draws taken. */
static uint64_t run_to_open(void)
{
    uint64_t *r = words(&record);
    demand(call(START) == HZ_FRESH, "no fresh record");
    while (r[HZ_STEP] != HZ_OPEN) {
        demand(call(WANTED) == HZ_WANTED, "not told what the step wants");
        mask.len = words(&answer)[0];
        nonzero.len = words(&answer)[1];
        memcpy(mask.lent, whole_mask + r[HZ_MASK_TAKEN], mask.len);
        memcpy(nonzero.lent, whole_nonzero + r[HZ_NONZERO_TAKEN], nonzero.len);
        demand(call(STEP) == HZ_MOVED, "not moved on in a regular system");
    }
    return r[HZ_MASK_TAKEN];
}

/* Runs from a fresh record on systems with one known x. Where the host lifts what was
 * opened, the steps come to x, and to the whole solve's solution and table; where it does
 * not, x_m at least is right. */
static uint8_t dealt_table[MAX_TABLE];

#define RUN_SIZES 8
#define RUN_ROUNDS 2
#define ALL_LIFT_RUNS (HOSTS * 2 * 3 * RUN_SIZES * RUN_ROUNDS)
static void case_of_lift_runs(uint64_t i)
{
    int host = (int)(i % HOSTS);
    i /= HOSTS;
    field = i % 2 == 0 ? 16 : 256;
    shares = 2 + i / 2 % 3;
    size = 1 + i / 6 % RUN_SIZES;
    if (size == RUN_SIZES)
        size += below(9);
    make_regular();
    for (uint64_t c = 0; c < size; c++)
        known_x[c] = element();
    make_b(known_x);
    make_table();
    memcpy(dealt_table, table.lent, table.len);
    make_mask(full_mask());
    make_nonzero(full_nonzero());
    memcpy(whole_mask, mask.lent, mask.len);
    memcpy(whole_nonzero, nonzero.lent, nonzero.len);
    make_solution();
    fresh_words();
    uint64_t taken = run_to_open();
    run_back_and_check(host, whole_mask + taken);
    demand(opened[size - 1] == known_x[size - 1], "another x_m than the system was made for");
    if (host == TAMPERED || host == WIPED || (host == MADE_LARGE && field == 256))
        return;
    demand(memcmp(opened, known_x, size) == 0, "another x than the system was made for");
    demand(host != UNTOUCHED || memcmp(solution.lent, known_x, size) == 0, "another solution than x at done");

    memcpy(stepped_table, table.lent, table.len);
    memcpy(table.lent, dealt_table, table.len);
    mask.len = full_mask();
    nonzero.len = full_nonzero();
    memcpy(mask.lent, whole_mask, mask.len);
    memcpy(nonzero.lent, whole_nonzero, nonzero.len);
    make_solution();
    demand(call(SOLVE) == HZ_SOLVED, "not solved as a whole");
    demand(memcmp(solution.lent, opened, size) == 0, "another solution than the steps'");
    demand(memcmp(table.lent, stepped_table, table.len) == 0, "another table than after the steps");
    demand(words(&answer)[0] == size * size + 3 * size - 1, "another number of steps than R-7's");
}

/* Every Open and Lift of larger systems, from a record made up at Open(m) of any table. */
static const uint64_t sizes_of_lifts[] = {7, 16, 33, 64, 96};
#define ALL_LARGE_LIFTS (HOSTS * 2 * 3 * (sizeof sizes_of_lifts / sizeof sizes_of_lifts[0]))
static void case_of_large_lifts(uint64_t i)
{
    int host = (int)(i % HOSTS);
    i /= HOSTS;
    field = i % 2 == 0 ? 16 : 256;
    shares = 2 + i / 2 % 3;
    size = sizes_of_lifts[i / 6];
    make_values(RANDOM);
    make_table();
    make_solution();
    fresh_words();
    set_record(HZ_OPEN, size, 0);
    fill(whole_mask, size * shares * (shares - 1) / 2);
    run_back_and_check(host, whole_mask);
}

/* Tells how often Lift was compared. False where that was seldom for some field and number
 * of shares, or a byte that the host had changed seldom among them. */
static bool tell_lifts(void)
{
    uint64_t sum = 0, tampered = 0, fewest = UINT64_MAX, fewest_tampered = UINT64_MAX;
    for (int f = 0; f < 2; f++)
        for (int n = 2; n <= 4; n++) {
            uint64_t made = lifts_made[f][n - 2], other = lifts_tampered[f][n - 2];
            sum += made;
            tampered += other;
            fewest = made < fewest ? made : fewest;
            fewest_tampered = other < fewest_tampered ? other : fewest_tampered;
        }
    printf("Lift was compared %" PRIu64 " times, with another byte than Open wrote %" PRIu64
           ", in each field and number of shares at least %" PRIu64 " and %" PRIu64 "; its byte was refused %" PRIu64
           " times\n",
           sum, tampered, fewest, fewest_tampered, lifts_refused);
    return fewest >= 1000 && fewest_tampered >= 400 && lifts_refused >= 5000;
}

/* Tells how often flags of three and four shares were compared. False where that was
 * seldom for some field and number of shares. */
static bool tell_flags(void)
{
    uint64_t sums[FLAG_MAKERS] = {0}, fewest = UINT64_MAX;
    for (int maker = 0; maker < FLAG_MAKERS; maker++)
        for (int f = 0; f < 2; f++)
            for (int n = 3; n <= 4; n++) {
                uint64_t made = flags_made[maker][f][n - 2];
                sums[maker] += made;
                fewest = made < fewest ? made : fewest;
            }
    printf("at three and four shares Mix was compared %" PRIu64 " times, Check %" PRIu64 " and whole solves %" PRIu64
           ", each in each field and number of shares at least %" PRIu64 "\n",
           sums[HZ_MIX], sums[HZ_CHECK], sums[WHOLE_SOLVE], fewest);
    return fewest >= 1000;
}

/* The numbers by which each square call can refuse. */
static const uint64_t refusals_of[SQUARE_KINDS][17] = {
    [START] = {1, 2, 3},
    [WANTED] = {1, 2, 3, 10, 19, 11},
    [STEP] = {1, 2, 3, 4, 5, 10, 19, 11, 6, 7, 14, 8, 15, 9, 20, 12},
    [SOLVE] = {1, 2, 3, 4, 5, 6, 7, 8, 9},
    [PLAIN] = {1, 3, 4, 5, 6},
    [DEAL] = {1, 2, 3, 4, 5, 6, 7},
    [GATHER] = {1, 2, 3, 4, 5, 6},
    [COUNTS] = {1, 2, 3},
    [WRITE] = {1, 2, 3, 4, 5, 6},
    [READ] = {16, 17, 18, 1, 2, 3, 4, 6},
};

/* Tells how often the rarest refusal came up. False where that was seldom. */
static bool tell_refusals(void)
{
    uint64_t fewest = UINT64_MAX;
    for (int kind = 0; kind < SQUARE_KINDS; kind++)
        for (const uint64_t *number = refusals_of[kind]; *number != 0; number++)
            fewest = refused_by[kind][*number] < fewest ? refused_by[kind][*number] : fewest;
    printf("each refusal of each square call came up at least %" PRIu64 " times\n", fewest);
    return fewest >= 100;
}

/* What a run of all square systems must have gone through. */
static void look_back(void)
{
    bool all_met = true;
    for (uint64_t s = 0; s < 8; s++)
        for (uint64_t c = 0; c <= s; c++)
            all_met &= stop_met[s][c];
    for (uint64_t step = HZ_MIX; step <= LAST_PLACE; step++)
        all_met &= counters_met[WANTED][step] && counters_met[STEP][step];
    printf("three ways agree on %" PRIu64 " systems, of which %" PRIu64 " are singular\n", systems, singular_systems);
    printf("%" PRIu64 " exchange records were made up, of which %" PRIu64 " are damaged\n", made_up_records,
           damaged_records);
    printf("%" PRIu64 " records of a right place had wrong counters\n", counters_refused);
    bool often = tell_flags();
    often &= tell_lifts();
    often &= tell_refusals();
    if (systems >= 20000 && 2 * singular_systems == systems && all_met && made_up_records >= 50000 && often)
        return;
    printf("these are too few, or not half, or a column of some size was never the first, or a kind of place never had "
           "wrong counters\n");
    printf("%" PRIu64 " passed, 1 failed\n", calls);
    exit(1);
}

/* Large systems, by steps and whole. */
static const struct {
    uint64_t field, shares, size, system;
} large[] = {
    {16, 2, 96, RANDOM},      {16, 3, 96, LAST_COLUMN}, {16, 4, 96, RANDOM},    {256, 2, 96, FITTING_B},
    {256, 3, 96, RANDOM},     {256, 4, 96, RANDOM},     {16, 3, 64, RANDOM},    {16, 4, 48, FITTING_B},
    {256, 2, 57, RANDOM},     {256, 4, 33, LAST_COLUMN},
};
#define ALL_LARGE (sizeof large / sizeof large[0])

static void case_large(uint64_t i)
{
    field = large[i].field;
    shares = large[i].shares;
    size = large[i].size;
    case_trace(large[i].system, 64);
}

/* One of the cases that are made up as a whole. */
static void case_random(uint64_t i)
{
    (void)i; /* its numbers are the case's own as it is */
    switch (below(10)) {
    case 0:
    case 1:
        case_numbers();
        break;
    case 2:
    case 3:
        case_spoilt();
        break;
    case 4:
    case 5:
        choose_sizes(one_in(20) ? 40 : small_size());
        case_solve();
        break;
    case 6:
    case 7:
        case_small_trace();
        break;
    case 8:
        case_made_up();
        break;
    default:
        choose_sizes(small_size());
        deal_and_gather();
    }
}

typedef struct {
    uint64_t count;
    void (*run)(uint64_t i); /* i from 0 to count - 1 */
} kind_of_case;

/* The cases in the order of their numbers, those of wide systems after these. Large systems
 * come last, so that a difference shows first in a small one. */
static const kind_of_case square_cases[] = {
    {ALL_SMALL, case_of_places},
    {ALL_FLAG_VECTORS, case_of_flag_vectors},
    {ALL_LIFT_PRODUCTS, case_of_lift_products},
    {ALL_LIFT_VECTORS, case_of_lift_vectors},
    {ALL_SMALL, case_of_lifts},
    {ALL_LIFT_RUNS, case_of_lift_runs},
    {ALL_COUNTER_VECTORS, case_of_counter_vectors},
    {ALL_LENGTHS, case_of_lengths},
    {ALL_CELL_VECTORS, case_of_cell_vectors},
    {ALL_CELLS, case_of_cells},
    {ALL_TAPE_VECTORS, case_of_tape_vectors},
    {ALL_TAPES, case_of_tapes},
    {ALL_SMALL, case_of_counters},
    {ALL_LIFT_FAULTS, case_of_lift_faults},
    {ALL_COUNT_VECTORS, case_of_count_vectors},
    {ALL_SIZES, case_of_sizes},
    {ALL_REFUSED_SHARES, case_of_refused_shares},
    {ALL_VECTORS, case_of_vectors},
    {ALL_FAULTS, case_of_faults},
    {ALL_RECORD_VECTORS, case_of_record_vectors},
    {SMALL_RECORD_BYTES, case_of_changes},
    {ALL_SMALL_RECORDS, case_of_cuts},
    {ALL_READ_FAULTS, case_of_read_faults},
    {ALL_WRITE_FAULTS, case_of_write_faults},
    {ALL_WAYS, case_of_ways},
    {RANDOM_CASES, case_random},
    {ALL_LARGE_COUNTERS, case_of_large_counters},
    {ALL_LARGE_LIFTS, case_of_large_lifts},
    {ALL_LARGE_WAYS, case_of_large_ways},
    {ALL_LARGE, case_large},
};

#include "wide_test.h"

/* ---- Every size ----
 *
 * Regular systems of every size, solved whole: of case_of_sizes and case_of_wide_solves many
 * have a fault, or are small. Small ones are solved in each field and number of shares, and
 * wide ones have as many columns as there is room for. */

static bool size_solved[97];

static void case_of_every_size(uint64_t i)
{
    field = i % 2 == 0 ? 16 : 256;
    shares = 2 + i / 2 % 3;
    size = 1 + i / 6;
    if (size > 16 && size % 6 != i % 6)
        return;
    compare_ways(0);
    size_solved[size] = true;
}
#define EVERY_SIZE (2 * 3 * 96)

#define ROWS_APART 16
static void case_of_every_width(uint64_t i)
{
    field = 16;
    shares = 2 + i % 3;
    rows = ROWS_APART * (1 + i / 3);
    columns = 144;
    while (columns > rows && model_wide_mask_draws(shares, rows, columns) > MAX_WIDE_MASK)
        columns--;
    wide_solve_of(rows);
}
#define EVERY_WIDTH (3 * (96 / ROWS_APART))

static const kind_of_case size_cases[] = {
    {EVERY_SIZE, case_of_every_size},
    {EVERY_WIDTH, case_of_every_width},
};

static void look_back_sizes(void)
{
    tell_left_out();
    tell_longest();
    for (int m = 1; m <= 96; m++)
        if (!size_solved[m]) {
            printf("size %d was not solved\n", m);
            printf("%" PRIu64 " passed, 1 failed\n", calls);
            exit(1);
        }
    printf("every size from 1 to 96 was solved, up to 16 in each field and number of shares\n");
}

enum { SQUARE, WIDE, SIZES, PARTS };

static const struct {
    const kind_of_case *kinds;
    size_t len;
    void (*look_back)(void);
} parts[PARTS] = {
    [SQUARE] = {square_cases, sizeof square_cases / sizeof square_cases[0], look_back},
    [WIDE] = {wide_cases, sizeof wide_cases / sizeof wide_cases[0], look_back_wide},
    [SIZES] = {size_cases, sizeof size_cases / sizeof size_cases[0], look_back_sizes},
};

/* The number of a part's first case. */
static uint64_t first_of(int part)
{
    uint64_t number = 0;
    for (int before = 0; before < part; before++)
        for (size_t kind = 0; kind < parts[before].len; kind++)
            number += parts[before].kinds[kind].count;
    return number;
}

/* Runs the case of case_number; false where there is none. */
static bool run_case(void)
{
    state = seed * 0x2545f4914f6cdd1du ^ case_number * 0xd6e8feb86659fd93u;
    calls_in_case = 0;
    uint64_t i = case_number;
    for (int part = 0; part < PARTS; part++)
        for (size_t kind = 0; kind < parts[part].len; kind++) {
            if (i < parts[part].kinds[kind].count) {
                parts[part].kinds[kind].run(i);
                return true;
            }
            i -= parts[part].kinds[kind].count;
        }
    return false;
}

static void run_part(int part)
{
    for (case_number = first_of(part); case_number < first_of(part + 1); case_number++)
        run_case();
    parts[part].look_back();
}

int main(int argc, char **argv)
{
    buffer *all[] = {&table, &solution, &values, &mask, &nonzero, &target, &input, &record, &wide_record, &answer};
    tell_crashes(crashed);
    if (argc > 1)
        seed = strtoull(argv[1], NULL, 10);
    for (size_t i = 0; i < sizeof all / sizeof all[0]; i++)
        make_buffer(all[i]);
    bool square_alone = argc > 2 && strcmp(argv[2], "square") == 0;
    bool wide_alone = argc > 2 && strcmp(argv[2], "wide") == 0;
    bool sizes_alone = argc > 2 && strcmp(argv[2], "sizes") == 0;
    if (argc > 2 && !square_alone && !wide_alone && !sizes_alone) {
        case_number = strtoull(argv[2], NULL, 10);
        if (!run_case()) {
            printf("there is no case %" PRIu64 "\n", case_number);
            return 2;
        }
    }
    if (argc <= 2 || square_alone)
        run_part(SQUARE);
    if (argc <= 2 || wide_alone)
        run_part(WIDE);
    if (sizes_alone)
        run_part(SIZES);
    printf("%" PRIu64 " passed, 0 failed\n", calls);
    return 0;
}
