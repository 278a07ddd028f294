/* Prints how many bytes of stack each call takes on the Cortex-M4, its arguments that are handed over there included:
 * the most of systems of 1, 2, 24 and 96 equations, and of wide ones with a few columns more, right ones and, of F16,
 * such as are refused by 6. The stack is painted before a call, and after it the first word that was painted over is
 * looked for. */
#include "board.h"
#include "hostozaro.h"

#include <stddef.h>

enum { MOST = 96, MOST_COLUMNS = 110, MAX_MASK = 3820512, MAX_ENTRIES = MOST * (MOST_COLUMNS + 1) };
enum { PAINTED = 6144 }; /* words */

static uint8_t values[MAX_ENTRIES], table[MAX_ENTRIES * 4], x[MOST_COLUMNS], input[HZ_BESIDE_TABLE + MAX_ENTRIES * 4];
static uint8_t mask[MAX_MASK], nonzero[MOST * 3];
static uint64_t record[HZ_WIDE_RECORD_WORDS], answer[HZ_ANSWER_WORDS], code;
static uint64_t field, shares, size, columns;
static size_t mask_len, nonzero_len;

/* ---- The calls ---- */

#define ORDER field, shares, size
#define WIDE_ORDER field, shares, size, columns
#define RECORD record, HZ_RECORD_WORDS
#define WIDE_RECORD record, HZ_WIDE_RECORD_WORDS
#define VALUES values, size * (size + 1)
#define TABLE table, size * (columns + 1) * shares
#define X x, columns
#define TAPES mask, mask_len, nonzero, nonzero_len
#define INPUT input, HZ_BESIDE_TABLE + size * (size + 1) * shares
#define ANSWER answer, HZ_ANSWER_WORDS

static void start(void) { code = hz_start(ORDER, RECORD, ANSWER); }
static void wanted(void) { code = hz_wanted(RECORD, ANSWER); }
static void step(void) { code = hz_step(RECORD, TABLE, X, TAPES, ANSWER); }
static void solve(void) { code = hz_solve(ORDER, TABLE, X, TAPES, ANSWER); }
static void plain(void) { code = hz_plain(field, size, VALUES, X, ANSWER); }
static void deal(void) { code = hz_deal(ORDER, VALUES, TABLE, mask, mask_len, ANSWER); }
static void gather(void) { code = hz_gather(ORDER, TABLE, VALUES, ANSWER); }
static void counts(void) { code = hz_counts(ORDER, ANSWER); }
static void write(void) { code = hz_write(ORDER, TABLE, INPUT, ANSWER); }
static void read(void) { code = hz_read(INPUT, ANSWER); }
static void wide_start(void) { code = hz_wide_start(WIDE_ORDER, WIDE_RECORD, ANSWER); }
static void wide_counts(void) { code = hz_wide_counts(WIDE_ORDER, ANSWER); }
static void wide_wanted(void) { code = hz_wide_wanted(WIDE_RECORD, ANSWER); }
static void wide_step(void) { code = hz_wide_step(WIDE_RECORD, TABLE, X, TAPES, ANSWER); }
static void wide_solve(void) { code = hz_wide_solve(WIDE_ORDER, TABLE, X, TAPES, ANSWER); }

enum { FIELDS = 2, NUMBERS_OF_SHARES = 3, STEPS = HZ_LIFT + 1 };

typedef struct {
    const char *name;
    void (*call)(void);
    uint32_t deepest[FIELDS][NUMBERS_OF_SHARES];
} row;

static row rows[] = {
    {"hz_start", start, {{0}}},
    {"hz_wanted", wanted, {{0}}},
    {"hz_step", step, {{0}}},
    {"hz_solve", solve, {{0}}},
    {"hz_plain", plain, {{0}}},
    {"hz_deal", deal, {{0}}},
    {"hz_gather", gather, {{0}}},
    {"hz_counts", counts, {{0}}},
    {"hz_write", write, {{0}}},
    {"hz_read", read, {{0}}},
    {"hz_wide_start", wide_start, {{0}}},
    {"hz_wide_counts", wide_counts, {{0}}},
    {"hz_wide_wanted", wide_wanted, {{0}}},
    {"hz_wide_step", wide_step, {{0}}},
    {"hz_wide_solve", wide_solve, {{0}}},
};
#define ROWS (sizeof rows / sizeof rows[0])

static row step_rows[STEPS] = {
    [HZ_MIX] = {"  Mix", step, {{0}}},     [HZ_CHECK] = {"  Check", step, {{0}}}, [HZ_SCALE] = {"  Scale", step, {{0}}},
    [HZ_CLEAR] = {"  Clear", step, {{0}}}, [HZ_OPEN] = {"  Open", step, {{0}}},   [HZ_LIFT] = {"  Lift", step, {{0}}},
};

/* ---- Painting ---- */

/* The depth of one call. It must answer what is wanted. */
__attribute__((noinline)) static uint32_t depth_of(void (*call)(void), uint32_t paint)
{
    volatile uint32_t *top, *word;
    __asm__ volatile("mov %0, sp" : "=r"(top));
    for (word = top - PAINTED; word < top; word++)
        *word = paint;
    call();
    for (word = top - PAINTED; word < top && *word == paint;)
        word++;
    if (word == top - PAINTED) {
        say("a call takes more stack than was painted\n");
        end(1);
    }
    return ((uint32_t)(top - word) * 4 + 7) / 8 * 8; /* a call has its stack at a multiple of 8 */
}

static void keep(row *r, uint32_t depth)
{
    uint32_t *deepest = &r->deepest[field != 16][shares - 2];
    if (depth > *deepest)
        *deepest = depth;
}

static void note(row *r, uint32_t paint, uint64_t wanted_code)
{
    keep(r, depth_of(r->call, paint));
    if (code == wanted_code)
        return;
    say(r->name);
    say(" answers ");
    say_number(code);
    say("\n");
    end(1);
}

static row *row_of(void (*call)(void))
{
    row *r = rows;
    while (r->call != call)
        r++;
    return r;
}

/* ---- Systems ---- */

static uint32_t any(void)
{
    static uint32_t state = 1;
    state ^= state << 13;
    state ^= state >> 17;
    state ^= state << 5;
    return state >> 8;
}

/* Regular ones: upper triangles with no 0 on the diagonal. */
static void make_system(void)
{
    for (uint64_t r = 0; r < size; r++)
        for (uint64_t c = 0; c <= columns; c++) {
            uint8_t value = (uint8_t)(c < r ? 0 : c == r ? 1 : any() % field);
            uint8_t *entry = table + (r * (columns + 1) + c) * shares;
            values[r * (columns + 1) + c] = value;
            entry[0] = value;
            for (uint64_t s = 1; s < shares; s++) {
                entry[s] = (uint8_t)(any() % field);
                entry[0] ^= entry[s];
            }
        }
}

static void make_tapes(uint64_t masks, uint64_t nonzeros)
{
    mask_len = (size_t)masks;
    nonzero_len = (size_t)nonzeros;
    if (mask_len > sizeof mask || nonzero_len > sizeof nonzero)
        end(2);
    for (size_t i = 0; i < mask_len; i++)
        mask[i] = (uint8_t)any();
    for (size_t i = 0; i < nonzero_len; i++)
        nonzero[i] = (uint8_t)(1 + any() % 15);
}

static void by_steps(void (*wanted_call)(void), void (*step_call)(void), uint32_t paint)
{
    do {
        uint64_t at = record[HZ_STEP];
        note(row_of(wanted_call), paint, HZ_WANTED);
        make_tapes(answer[0], answer[1]);
        uint32_t depth = depth_of(step_call, paint);
        keep(row_of(step_call), depth);
        if (step_call == step)
            keep(&step_rows[at], depth);
    } while (code == HZ_MOVED || code == HZ_OPENED);
    if (code != HZ_DONE)
        end(1);
}

static void square(uint64_t m, uint32_t paint)
{
    size = columns = m;
    note(row_of(start), paint, HZ_FRESH);
    make_system();
    if (m < MOST)
        by_steps(wanted, step, paint);
    make_system();
    note(row_of(counts), paint, HZ_COUNTS);
    make_tapes(answer[1], answer[2]);
    note(row_of(solve), paint, HZ_SOLVED);
    make_system();
    note(row_of(plain), paint, HZ_SOLVED);
    make_tapes(m * (m + 1) * (shares - 1), 0);
    note(row_of(deal), paint, HZ_FILLED);
    note(row_of(gather), paint, HZ_FILLED);
    note(row_of(write), paint, HZ_FILLED);
    note(row_of(read), paint, HZ_SYSTEM);
    if (field == 256)
        return;
    table[m * (m + 1) * shares - 1] = values[m * (m + 1) - 1] = input[HZ_TABLE_AT + m * (m + 1) * shares - 1] = 16;
    static void (*const refused[])(void) = {solve, plain, deal, gather, write, read};
    for (size_t i = 0; i < sizeof refused / sizeof refused[0]; i++) {
        note(row_of(refused[i]), paint, HZ_REFUSED);
        if (answer[0] != 6)
            end(1);
    }
}

static void wide(uint64_t m, uint64_t more, uint32_t paint)
{
    size = m;
    columns = m + more;
    note(row_of(wide_start), paint, HZ_FRESH);
    make_system();
    if (m < MOST)
        by_steps(wide_wanted, wide_step, paint);
    make_system();
    note(row_of(wide_counts), paint, HZ_WANTED);
    if (answer[0] > MAX_MASK)
        return;
    make_tapes(answer[0], answer[1]);
    note(row_of(wide_solve), paint, HZ_SOLVED);
}

/* ---- The table ---- */

static void say_row(const row *r)
{
    say(r->name);
    for (int f = 0; f < FIELDS; f++)
        for (int n = 0; n < NUMBERS_OF_SHARES; n++) {
            say("\t");
            if (r->deepest[f][n] == 0)
                say("-");
            else
                say_number(r->deepest[f][n]);
        }
    say("\n");
}

int main(void)
{
    static const uint32_t paints[] = {0xa5c3e197, 0x5a3c1e68}; /* a call may write one of them itself, but not both */
    static const uint64_t sizes[] = {1, 2, 24, 96};
    for (int p = 0; p < 2; p++)
        for (int f = 0; f < FIELDS; f++)
            for (shares = 2; shares <= 4; shares++) {
                field = f == 0 ? 16 : 256;
                for (int m = 0; m < 4; m++)
                    square(sizes[m], paints[p]);
                for (int m = 0; m < 4 && field == 16; m++)
                    wide(sizes[m], sizes[m] == 1 ? 2 : sizes[m] == 96 ? 14 : 8, paints[p]);
            }
    say("call\tF16 n=2\tn=3\tn=4\tF256 n=2\tn=3\tn=4\n");
    for (size_t r = 0; r < ROWS; r++) {
        say_row(&rows[r]);
        for (int s = 0; s < STEPS && rows[r].call == step; s++)
            if (step_rows[s].name != NULL)
                say_row(&step_rows[s]);
    }
    return 0;
}
