/* Looks at the library's object code while it runs, one instruction at a time.
 *
 *     look PROGRAM LISTING [FIELD SHARES]
 *
 * PROGRAM holds hz_step, hz_solve, hz_wide_step and hz_wide_solve; it is emulated.
 * docs/OBJECT.md tells what is looked at. Exit status 0: nothing was found. */
#include "hostozaro.h"
#include "model.h"
#include "rules.h"
#include "span.h"
#include "trace.h"
#include "watch.h"

#include <inttypes.h>
#include <stdarg.h>
#include <stdio.h>
#include <stdlib.h>
#include <string.h>

/* What is run: one step, or a whole solve. */
#define WHOLE 100

typedef struct {
    uint64_t step, j, k;
    bool wide;
    uint64_t rows, columns;
    uint64_t pivots[4]; /* wide: those found so far, of a whole solve those it finds; zeros after them */
} scene;

#define SQUARE(m) false, m, m, {0}
#define WIDE(rows, columns, ...) true, rows, columns, {__VA_ARGS__}

/* In the wide ones no row is numbered as its column, and a row from column 2 of 144 on is
 * longer than the library joins in one part. */
static const scene scenes[] = {
    {HZ_MIX, 2, 4, SQUARE(4)},
    {HZ_CHECK, 2, 0, SQUARE(4)},
    {HZ_SCALE, 2, 0, SQUARE(4)},
    {HZ_CLEAR, 2, 3, SQUARE(4)},
    {HZ_OPEN, 3, 0, SQUARE(4)},
    {HZ_LIFT, 3, 0, SQUARE(4)},
    {HZ_MIX, 1, 2, SQUARE(35)},
    {HZ_SCALE, 1, 0, SQUARE(35)},
    {HZ_CLEAR, 1, 2, SQUARE(35)},
    {HZ_OPEN, 35, 0, SQUARE(35)},
    {HZ_LIFT, 35, 0, SQUARE(35)},
    {WHOLE, 0, 0, SQUARE(3)},
    {HZ_MIX, 3, 4, WIDE(4, 6, 1)},
    {HZ_CHECK, 3, 0, WIDE(4, 6, 1)},
    {HZ_SCALE, 3, 0, WIDE(4, 6, 1, 3)},
    {HZ_CLEAR, 3, 4, WIDE(4, 6, 1, 3)},
    {HZ_OPEN, 4, 0, WIDE(4, 6, 1, 3, 4, 6)},
    {HZ_LIFT, 4, 0, WIDE(4, 6, 1, 3, 4, 6)},
    {HZ_MIX, 2, 2, WIDE(2, 144, 0)},
    {HZ_SCALE, 2, 0, WIDE(2, 144, 2)},
    {HZ_CLEAR, 2, 2, WIDE(2, 144, 2)},
    {WHOLE, 0, 0, WIDE(3, 5, 1, 3, 4)},
};

static emulator *machine;
static sizes size;
static const scene *now;
static place here; /* where a scene of one step stands */
static unsigned passed, failed;

/* A record of either kind, and the place that it stands at. */
typedef struct {
    uint64_t word[HZ_WIDE_RECORD_WORDS];
} record;

static size_t record_words(void)
{
    return now->wide ? HZ_WIDE_RECORD_WORDS : HZ_RECORD_WORDS;
}

static place place_of(const record *r)
{
    const uint64_t *w = r->word;
    if (!now->wide)
        return (place){w[HZ_STEP], w[HZ_J], w[HZ_J], w[HZ_K]};
    place at = {w[HZ_WIDE_STEP], w[HZ_WIDE_FOUND] + 1, w[HZ_WIDE_J], w[HZ_WIDE_K]};
    if (at.step != HZ_MIX && at.step != HZ_CHECK)
        for (at.row = 1; w[HZ_WIDE_PIVOTS + at.row - 1] != at.j;)
            at.row++;
    return at;
}

/* ---- Inputs ---- */

#define ROOM 8192
#define MOST_COLUMNS 144

typedef struct {
    uint8_t values[ROOM / 2], table[ROOM], mask[ROOM], nonzero[16];
} input;

static input inputs[RUNS];
static size_t entries, table_len, mask_len, nonzero_len;

static uint8_t any(void)
{
    static uint64_t state;
    state = state * 6364136223846793005u + 1442695040888963407u;
    return (uint8_t)(state >> 56);
}

static uint8_t element(void)
{
    return (uint8_t)(any() % size.field);
}

static uint8_t not_zero(void)
{
    uint8_t e;
    do
        e = element();
    while (e == 0);
    return e;
}

static size_t entry_number(uint64_t row, uint64_t column)
{
    return (row - 1) * (size.columns + 1) + column - 1;
}

static void new_draws(input *in)
{
    for (size_t i = 0; i < mask_len; i++)
        in->mask[i] = any();
    for (size_t i = 0; i < nonzero_len; i++)
        in->nonzero[i] = not_zero();
}

static void deal(input *in)
{
    for (size_t e = 0; e < entries; e++) {
        uint8_t *share = in->table + e * size.n;
        share[0] = in->values[e];
        for (uint64_t s = 1; s < size.n; s++) {
            share[s] = element();
            share[0] ^= share[s];
        }
    }
}

/* The flag of a pivot is made of Ands of its bits. In a quarter of the runs all bits are
 * 0, in others one in eight, in four or in two is 1: so each And has all kinds of bits. */
static uint8_t some_pivot(void)
{
    unsigned kind = any() % 4;
    uint8_t v = kind == 0 ? 0 : element();
    for (unsigned i = 1; i < kind; i++)
        v &= element();
    return v;
}

/* Whether a system has the pivots that are wanted of it: those of the scene, or every
 * column of a square one, which then has one solution. */
static bool has_pivots(const input *in)
{
    uint64_t answer[4], found[96];
    uint8_t solution[MOST_COLUMNS];
    if (now->wide)
        return model_wide_plain(size.rows, size.columns, in->values, found, solution) == size.rows
               && memcmp(found, now->pivots, size.rows * sizeof *found) == 0;
    return model_plain(size.field, size.rows, in->values, entries, solution, size.rows, answer, 4) == HZ_SOLVED;
}

/* Each column before the last pivot that is to be passed over combines those before it. */
static void combine_columns(input *in)
{
    size_t p = 0;
    for (uint64_t c = 1; c < now->pivots[size.rows - 1]; c++) {
        if (c == now->pivots[p]) {
            p++;
            continue;
        }
        uint8_t factor[MOST_COLUMNS];
        for (uint64_t before = 1; before < c; before++)
            factor[before - 1] = element();
        for (uint64_t row = 1; row <= size.rows; row++) {
            uint8_t *of_row = in->values + entry_number(row, 1), sum = 0;
            for (uint64_t before = 1; before < c; before++)
                sum ^= model_times(size.field, factor[before - 1], of_row[before - 1]);
            of_row[c - 1] = sum;
        }
    }
}

/* Pivots of all kinds on the way of a whole solve. In half of the systems the second one is
 * 0 when it is sought: row 2 is a multiple of row 1 there, less row 3 in a wide system, where
 * Mix adds that at the column that is passed over. */
static void make_whole(input *in)
{
    uint64_t columns[2] = {1, now->wide ? now->pivots[1] : 2};
    in->values[entry_number(1, 1)] = some_pivot();
    in->values[entry_number(2, 1)] = some_pivot();
    uint8_t c = element();
    bool second_is_zero = any() % 2;
    for (size_t i = 0; i < 2 && second_is_zero; i++) {
        uint8_t multiple = model_times(size.field, c, in->values[entry_number(1, columns[i])]);
        in->values[entry_number(2, columns[i])] = multiple ^ (now->wide ? in->values[entry_number(3, columns[i])] : 0);
    }
    if (now->wide)
        combine_columns(in);
}

/* Values of all kinds; a whole system has the pivots that are wanted. */
static void new_values(input *in)
{
    do {
        for (size_t e = 0; e < entries; e++)
            in->values[e] = element();
        if (now->step == WHOLE)
            make_whole(in);
        else if (now->step == HZ_MIX || now->step == HZ_CHECK)
            in->values[entry_number(here.row, here.j)] = some_pivot();
        else if (now->step == HZ_SCALE)
            in->values[entry_number(here.row, here.j)] = not_zero();
    } while (now->step == WHOLE && !has_pivots(in));
    deal(in);
}

/* Everything new in each run. */
static void make_new(void)
{
    for (int r = 0; r < RUNS; r++) {
        new_draws(&inputs[r]);
        new_values(&inputs[r]);
    }
}

/* The pivot value that Scale opens to u. */
static uint8_t opening_to(uint8_t u, const input *in)
{
    uint8_t product = 1, v = 0;
    for (size_t i = 0; i < nonzero_len; i++)
        product = model_times(size.field, product, in->nonzero[i]);
    while (model_times(size.field, product, v) != u)
        v++;
    return v;
}

/* What is opened is the same in each run, and all else is new. Check opens this flag, and
 * a whole solve so much that its values and nonzero draws stay. */
static void make_same_opened(bool flag)
{
    make_new();
    bool whole = now->step == WHOLE;
    size_t pivot = whole ? 0 : entry_number(here.row, here.j);
    size_t last = whole ? 0 : entry_number(here.row, size.columns + 1);
    uint8_t u = not_zero();
    for (int r = 0; r < RUNS; r++) {
        input *in = &inputs[r];
        if (whole) {
            memcpy(in->nonzero, inputs[0].nonzero, nonzero_len);
            memcpy(in->values, inputs[0].values, entries);
        } else if (now->step == HZ_CHECK)
            in->values[pivot] = flag ? 0 : not_zero();
        else if (now->step == HZ_SCALE)
            in->values[pivot] = opening_to(u, in);
        else if (now->step == HZ_OPEN || now->step == HZ_LIFT)
            in->values[last] = inputs[0].values[last];
        deal(in);
    }
}

/* ---- Calls ---- */

/* A record at the scene's step, as the steps before it leave it. A whole solve has none. */
static record first_record(void)
{
    record r = {{0}};
    if (now->step == WHOLE)
        return r;
    if (!now->wide) {
        r = (record){{size.field, size.n, size.rows, now->step, now->j, now->k}};
        model_taken(size.field, size.n, size.rows, now->step, now->j, now->k, &r.word[HZ_MASK_TAKEN],
                    &r.word[HZ_NONZERO_TAKEN]);
        return r;
    }
    r = (record){{size.field, size.n, size.rows, size.columns, now->step, now->j, now->k}};
    memcpy(&r.word[HZ_WIDE_PIVOTS], now->pivots, sizeof now->pivots);
    while (r.word[HZ_WIDE_FOUND] < 4 && now->pivots[r.word[HZ_WIDE_FOUND]] != 0)
        r.word[HZ_WIDE_FOUND]++;
    model_wide_taken(r.word, &r.word[HZ_WIDE_MASK_TAKEN], &r.word[HZ_WIDE_NONZERO_TAKEN]);
    return r;
}

/* The solution likewise: Lift(j) is lent the x_j that Open(j) has written, which is the
 * value of column j's row in the last column. The other steps look at none of it. */
static void first_solution(const input *in, uint8_t solution[MOST_COLUMNS])
{
    memset(solution, 0, MOST_COLUMNS);
    if (now->step == HZ_LIFT)
        solution[now->j - 1] = in->values[entry_number(here.row, size.columns + 1)];
}

static uint64_t step_by_model(record *r, uint8_t *table, uint8_t *solution, const uint8_t *mask, uint64_t masks,
                              const uint8_t *nonzero, uint64_t nonzeros)
{
    uint64_t answer[4];
    return (now->wide ? model_wide_step : model_step)(r->word, record_words(), table, table_len, solution,
                                                      size.columns, mask, masks, nonzero, nonzeros, answer, 4);
}

static uint64_t model_outcome(const input *in, uint8_t *table, uint8_t *solution)
{
    uint64_t answer[4];
    record r = first_record();
    memcpy(table, in->table, table_len);
    first_solution(in, solution);
    if (now->step != WHOLE)
        return step_by_model(&r, table, solution, in->mask, mask_len, in->nonzero, nonzero_len);
    if (now->wide)
        return model_wide_solve(size.field, size.n, size.rows, size.columns, table, table_len, solution, size.columns,
                                in->mask, mask_len, in->nonzero, nonzero_len, answer, 4);
    return model_solve(size.field, size.n, size.rows, table, table_len, solution, size.columns, in->mask, mask_len,
                       in->nonzero, nonzero_len, answer, 4);
}

/* Runs the library on an input, and makes sure that it does what the model does. */
static void call(const input *in, bool values, trace *t)
{
    uint64_t code, empty[4] = {0};
    uint8_t table[ROOM], solution[MOST_COLUMNS], wanted_table[ROOM], wanted_solution[MOST_COLUMNS];
    record r = first_record();
    first_solution(in, solution);
    emulator_reset(machine);
    uint64_t at_record = emulator_lend(machine, r.word, record_words() * sizeof *r.word);
    uint64_t at_table = emulator_lend(machine, in->table, table_len);
    uint64_t at_solution = emulator_lend(machine, solution, size.columns);
    uint64_t at_mask = emulator_lend(machine, in->mask, mask_len);
    uint64_t at_nonzero = emulator_lend(machine, in->nonzero, nonzero_len);
    uint64_t at_answer = emulator_lend(machine, empty, sizeof empty);
    static const char *const names[2][2] = {{"hz_step", "hz_solve"}, {"hz_wide_step", "hz_wide_solve"}};
    uint64_t arguments[14] = {size.field, size.n, size.rows, size.columns};
    uint64_t buffers[12] = {at_record, record_words(), at_table, table_len, at_solution, size.columns,
                            at_mask, mask_len, at_nonzero, nonzero_len, at_answer, 4};
    size_t numbers = now->step != WHOLE ? 0 : now->wide ? 4 : 3, lent = now->step != WHOLE ? 12 : 10;
    memcpy(arguments + numbers, buffers + 12 - lent, lent * sizeof *buffers);
    code = trace_call(machine, names[now->wide][now->step == WHOLE], numbers, arguments, numbers + lent, values, t);
    emulator_take(machine, at_table, table, table_len);
    emulator_take(machine, at_solution, solution, size.columns);
    if (code != model_outcome(in, wanted_table, wanted_solution) || memcmp(table, wanted_table, table_len) != 0
        || memcmp(solution, wanted_solution, size.columns) != 0) {
        printf("the library differs from the model\n");
        exit(2);
    }
}

static trace traces[RUNS];

static void call_all(bool values)
{
    for (int r = 0; r < RUNS; r++)
        call(&inputs[r], values, &traces[r]);
}

/* How many instructions are the same in all runs, from the first on. */
static size_t common_length(void)
{
    size_t length = traces[0].length;
    for (int r = 1; r < RUNS; r++) {
        size_t i = 0;
        while (i < length && i < traces[r].length && (traces[r].pc[i] | NOT_DONE) == (traces[0].pc[i] | NOT_DONE))
            i++;
        length = i;
    }
    return length;
}

static bool all_alike(void)
{
    size_t length = common_length();
    for (int r = 0; r < RUNS; r++)
        if (traces[r].length != length)
            return false;
    return true;
}

/* ---- What is told ---- */

static const char *step_text(const place *at)
{
    static const char *const names[] = {[HZ_MIX] = "Mix",     [HZ_CHECK] = "Check", [HZ_SCALE] = "Scale",
                                        [HZ_CLEAR] = "Clear", [HZ_OPEN] = "Open",   [HZ_LIFT] = "Lift"};
    static char text[64];
    if (at->k != 0)
        snprintf(text, sizeof text, "%s(%" PRIu64 ",%" PRIu64 ")", names[at->step], at->j, at->k);
    else
        snprintf(text, sizeof text, "%s(%" PRIu64 ")", names[at->step], at->j);
    return text;
}

static const char *place_text(uint32_t pc)
{
    static char text[128];
    pc &= ~NOT_DONE;
    const symbol *f = emulator_function(machine, pc);
    snprintf(text, sizeof text, "%s+0x%" PRIx64, f->name, pc - f->address);
    return text;
}

/* The findings of one test: the first ones are told, the others counted. */
static unsigned findings;

__attribute__((format(printf, 1, 2))) static void finding(const char *format, ...)
{
    if (findings++ < 3) {
        va_list rest;
        va_start(rest, format);
        printf("    ");
        vprintf(format, rest);
        printf("\n");
        va_end(rest);
    }
}

/* Ends a test. */
__attribute__((format(printf, 1, 2))) static void verdict(const char *format, ...)
{
    va_list rest;
    va_start(rest, format);
    printf("%s F%" PRIu64 " n=%" PRIu64, findings == 0 ? "ok  " : "FAIL", size.field, size.n);
    if (now->wide)
        printf(" wide %" PRIu64 "x%" PRIu64, size.rows, size.columns);
    else
        printf(" m=%" PRIu64, size.rows);
    printf(" %s: ", now->step == WHOLE ? "whole solve" : step_text(&here));
    vprintf(format, rest);
    if (findings != 0)
        printf("; %u found", findings);
    printf("\n");
    fflush(stdout);
    va_end(rest);
    findings == 0 ? passed++ : failed++;
    findings = 0;
}

/* ---- The steps of a run ---- */

/* What is done with the rules of each step of a run: `at` is the number of the first
 * thing that is noted of them, and the number after the last is returned. */
typedef size_t visitor(int r, size_t at, const place *step, const rule *rules, size_t count);

static void walk(int r, visitor *visit)
{
    uint64_t answer[4], code;
    uint8_t table[ROOM], solution[MOST_COLUMNS];
    record rec = first_record();
    const uint8_t *mask = inputs[r].mask, *nonzero = inputs[r].nonzero;
    memcpy(table, inputs[r].table, table_len);
    first_solution(&inputs[r], solution);
    if (now->step == WHOLE && now->wide)
        model_wide_start(size.field, size.n, size.rows, size.columns, rec.word, record_words(), answer, 4);
    else if (now->step == WHOLE)
        model_start(size.field, size.n, size.rows, rec.word, record_words(), answer, 4);
    size_t at = 0;
    do {
        rule rules[MAX_RULES];
        place step = place_of(&rec);
        uint64_t masks = model_mask_draws(size.field, size.n, size.columns, step.step, step.j);
        uint64_t nonzeros = model_nonzero_draws(size.n, step.step);
        at = visit(r, at, &step, rules, rules_of(&size, &step, table, solution, mask, nonzero, rules));
        code = step_by_model(&rec, table, solution, mask, masks, nonzero, nonzeros);
        mask += masks;
        nonzero += nonzeros;
    } while (now->step == WHOLE && (code == HZ_MOVED || code == HZ_OPENED));
}

/* ---- The order of additions ---- */

static watch *watches;
static size_t watch_count;
static uint64_t different;

/* The first run makes the watches. */
static size_t watch_rules(int r, size_t at, const place *step, const rule *rules, size_t count)
{
    for (size_t i = 0; i < count; i++)
        for (unsigned bit = 0; bit < (rules[i].bits ? rules[i].bits : 1); bit++, at++) {
            if (r == 0) {
                watches = realloc(watches, ++watch_count * sizeof *watches);
                memset(&watches[at], 0, sizeof *watches);
                watches[at].at = *step;
                watches[at].bit = bit;
            }
            watches[at].in[r] = rules[i];
        }
    return at;
}

static bool is_constant(const series *v)
{
    for (int r = 1; r < RUNS; r++)
        if (v->run[r] != v->run[0])
            return false;
    return true;
}

/* Shows a series to the watches of elements, or to those of bits. */
static void show(const series *v, bool is_bit, uint32_t pc)
{
    if (is_constant(v))
        return;
    for (size_t i = 0; i < watch_count; i++) {
        watch *w = &watches[i];
        const char *fault = (w->in[0].bits != 0) == is_bit ? watch_see(w, v) : NULL;
        if (fault != NULL)
            finding("%s of %s, by %s (%s)", fault, step_text(&w->at), place_text(pc), trace_text(pc));
    }
}

/* A table of what was seen, so that nothing is looked at twice. */
#define SEEN (1u << 22)
static uint64_t seen[SEEN];

static bool is_new(const series *v)
{
    uint64_t hash = 0;
    for (int i = 0; i < RUNS / 8; i++)
        hash = (hash ^ v->word[i]) * 0x9e3779b97f4a7c15u, hash ^= hash >> 29;
    hash |= 1;
    for (size_t at = hash >> 40; ; at = (at + 1) % SEEN) {
        if (seen[at % SEEN] == hash)
            return false;
        if (seen[at % SEEN] == 0) {
            seen[at % SEEN] = hash;
            return true;
        }
    }
}

/* One byte of something, in all runs: looked at as an element (in F16 as two), and
 * bit by bit. */
static void look_at_byte(const series *v, uint32_t pc)
{
    if (is_constant(v) || !is_new(v))
        return;
    different++;
    series part;
    for (unsigned low = 0; low < 8; low += size.field == 16 ? 4 : 8) {
        for (int r = 0; r < RUNS; r++)
            part.run[r] = (uint8_t)(v->run[r] >> low) & (uint8_t)(size.field - 1);
        show(&part, false, pc);
    }
    for (unsigned bit = 0; bit < 8; bit++) {
        for (int r = 0; r < RUNS; r++)
            part.run[r] = v->run[r] >> bit & 1;
        show(&part, true, pc);
    }
}

/* Goes through the common part of the traces, and looks at each byte of each
 * register that is new in some run, and of each store. */
static void look_at_values(size_t length)
{
    static uint8_t file[RUNS][MAX_REGISTERS][16];
    static size_t next[RUNS];
    memset(file, 0, sizeof file);
    memset(next, 0, sizeof next);
    for (uint32_t at = 0; at < length; at++) {
        uint64_t changed = 0;
        uint8_t stored[RUNS][64];
        size_t stored_len = 0;
        for (int r = 0; r < RUNS; r++) {
            const trace *t = &traces[r];
            stored_len = 0;
            for (; next[r] < t->change_count && t->changes[next[r]].at == at; next[r]++) {
                const change *c = &t->changes[next[r]];
                if (c->where == STORE) {
                    memcpy(stored[r] + stored_len, c->bytes, c->len);
                    stored_len += c->len;
                } else {
                    memcpy(file[r][c->where], c->bytes, c->len);
                    changed |= (uint64_t)1 << c->where;
                }
            }
        }
        series v;
        for (size_t where = 0; where < machine->registers; where++)
            for (unsigned byte = 0; changed >> where & 1 && byte < machine->len[where]; byte++) {
                for (int r = 0; r < RUNS; r++)
                    v.run[r] = file[r][where][byte];
                look_at_byte(&v, traces[0].pc[at]);
            }
        for (size_t byte = 0; byte < stored_len; byte++) {
            for (int r = 0; r < RUNS; r++)
                v.run[r] = stored[r][byte];
            look_at_byte(&v, traces[0].pc[at]);
        }
    }
}

/* Where the runs part ways, what comes after is not looked at: in Check that is as it
 * should be, and elsewhere the test of branches fails. */
static void test_order(void)
{
    size_t left_out = 0;
    watch_count = 0;
    for (int r = 0; r < RUNS; r++)
        walk(r, watch_rules);
    for (size_t i = 0; i < watch_count; i++) {
        watch_open(&size, &watches[i]);
        left_out += !watches[i].independent;
    }
    memset(seen, 0, sizeof seen);
    different = 0;
    look_at_values(common_length());
    bool to_the_end = now->step == HZ_CHECK || all_alike();
    for (size_t i = 0; i < watch_count && to_the_end; i++) {
        const char *missed = watch_missed(&watches[i]);
        if (missed != NULL)
            finding("%s of %s", missed, step_text(&watches[i].at));
    }
    verdict("order of additions, %zu rules watched (%zu left out) among %" PRIu64 " different values",
            watch_count - left_out, left_out, different);
}

/* ---- Branches and addresses ---- */

/* What counts as one share: each that a rule works on. */
static series *shares;
static size_t share_count;

static size_t note_shares(int r, size_t at, const place *step, const rule *rules, size_t count)
{
    (void)step;
    if (r == 0) {
        share_count += 3 * size.n * count;
        shares = realloc(shares, share_count * sizeof *shares);
    }
    for (size_t i = 0; i < count; i++)
        for (size_t k = 0; k < size.n; k++) {
            shares[at++].run[r] = rules[i].a[k];
            shares[at++].run[r] = rules[i].b[k];
            shares[at++].run[r] = rules[i].target[k];
        }
    return at;
}

/* Whether equal shares mean equal addresses. */
static bool follows(const series *share, const uint64_t address[RUNS])
{
    int first[256];
    memset(first, -1, sizeof first);
    for (int r = 0; r < RUNS; r++) {
        int *f = &first[share->run[r]];
        if (*f < 0)
            *f = r;
        else if (address[*f] != address[r])
            return false;
    }
    return true;
}

static bool follows_one_share(const uint64_t address[RUNS])
{
    for (size_t i = 0; i < share_count; i++)
        if (follows(&shares[i], address))
            return true;
    return false;
}

/* What is allowed and told all the same, by instruction, over all tests. */
typedef struct {
    struct {
        uint32_t pc;
        uint64_t field, times;
    } at[4096];
    size_t count;
} told;

static told look_ups; /* those that a single share chooses */
static told choices;  /* instructions under a condition that is not the same in all runs */

static void note(told *of, uint32_t pc)
{
    size_t i = 0;
    while (i < of->count && (of->at[i].pc != pc || of->at[i].field != size.field))
        i++;
    if (i == of->count && of->count < 4095)
        of->count++;
    of->at[i].pc = pc;
    of->at[i].field = size.field;
    of->at[i].times++;
}

/* A Cortex-M4 is assumed to take one cycle for these, whether their condition holds or not. */
static bool takes_one_cycle(const char *text)
{
    static const char *const names[] = {"mov", "mvn", "and", "orr", "eor",  "bic",  "add", "sub",
                                        "rsb", "lsl", "lsr", "asr", "uxtb", "uxth", "ubfx"};
    for (size_t i = 0; i < sizeof names / sizeof *names; i++)
        if (strncmp(text, names[i], strlen(names[i])) == 0)
            return true;
    return false;
}

/* Whether an instruction is done in some of the runs only. */
static bool is_choice(size_t at)
{
    for (int r = 1; r < RUNS; r++)
        if (traces[r].pc[at] != traces[0].pc[at])
            return true;
    return false;
}

static void test_branches(const char *inputs_text)
{
    size_t length = common_length(), chosen = 0;
    for (size_t at = 0; at < length; at++) {
        uint32_t pc = traces[0].pc[at] & ~NOT_DONE;
        if (!is_choice(at))
            continue;
        chosen++;
        note(&choices, pc);
        if (!takes_one_cycle(trace_text(pc)))
            finding("%s (%s) is done in some runs only, and takes longer then", place_text(pc), trace_text(pc));
    }
    if (!all_alike())
        finding("what follows %s (%s) is not the same in all runs", place_text(traces[0].pc[length - 1]),
                trace_text(traces[0].pc[length - 1]));
    verdict("branches, %s (%zu instructions, %zu done or not by a condition)", inputs_text, length, chosen);
}

static void test_addresses(const char *inputs_text)
{
    size_t single = 0, length = common_length();
    share_count = 0;
    for (int r = 0; r < RUNS; r++)
        walk(r, note_shares);
    for (size_t i = 0; i < traces[0].touch_count && traces[0].touches[i].at < length; i++) {
        const touch *t = &traces[0].touches[i];
        uint64_t address[RUNS];
        bool same = true, in_all = true;
        for (int r = 0; r < RUNS; r++) {
            in_all = in_all && i < traces[r].touch_count && traces[r].touches[i].at == t->at;
            address[r] = in_all ? traces[r].touches[i].address : 0;
            same = same && address[r] == t->address;
        }
        uint32_t pc = traces[0].pc[t->at];
        if (!in_all) {
            finding("%s (%s) reads or writes in some runs only", place_text(pc), trace_text(pc));
            break;
        }
        if (same)
            continue;
        if (t->write)
            finding("%s (%s) writes at an address that depends on shares", place_text(pc), trace_text(pc));
        else if (!follows_one_share(address))
            finding("%s (%s) reads at an address that no single share decides", place_text(pc), trace_text(pc));
        else
            single++, note(&look_ups, pc);
    }
    verdict("addresses, %s (%zu look-ups by a single share)", inputs_text, single);
}

static void print(const char *what, const told *of)
{
    printf("%s, over all tests:%s\n", what, of->count == 0 ? " none" : "");
    for (size_t i = 0; i < of->count; i++)
        printf("    F%" PRIu64 " %s (%s): %" PRIu64 " times\n", of->at[i].field, place_text(of->at[i].pc),
               trace_text(of->at[i].pc), of->at[i].times);
}

/* ---- All of it ---- */

/* Some emulators tell of the first read or store of a page only. */
static void test_emulator(void)
{
    uint8_t ones[64], zeros[64] = {0};
    memset(ones, 1, sizeof ones);
    for (int turn = 0; turn < 2; turn++) {
        const trace *t = &traces[0];
        size_t read = 0, stored = 0, told = 0;
        emulator_reset(machine);
        uint64_t from = emulator_lend(machine, ones, sizeof ones), to = emulator_lend(machine, zeros, sizeof zeros);
        trace_call(machine, "copy_one_by_one", 0, (uint64_t[]){to, from, sizeof ones}, 3, true, &traces[0]);
        for (size_t i = 0; i < t->touch_count; i++) {
            read += !t->touches[i].write && t->touches[i].address - from < sizeof ones;
            stored += t->touches[i].write && t->touches[i].address - to < sizeof zeros;
        }
        for (size_t i = 0; i < t->change_count; i++)
            told += t->changes[i].where == STORE && t->changes[i].len == 1 && t->changes[i].bytes[0] == 1;
        if (read != sizeof ones || stored != sizeof ones || told != sizeof ones) {
            printf("this emulator does not tell of every read and store\n");
            exit(2);
        }
    }
}

static void test_same_opened(bool flag, const char *inputs_text)
{
    make_same_opened(flag);
    call_all(false);
    test_branches(inputs_text);
    test_addresses(inputs_text);
}

static void test_scene(const scene *s)
{
    now = s;
    size.rows = s->rows;
    size.columns = s->columns;
    entries = size.rows * (size.columns + 1);
    table_len = entries * size.n;
    if (s->step == WHOLE) {
        mask_len = s->wide ? model_wide_mask_draws(size.n, size.rows, size.columns)
                           : model_full_mask_draws(size.field, size.n, size.rows);
        nonzero_len = size.rows * (size.n - 1);
    } else {
        record r = first_record();
        here = place_of(&r);
        mask_len = model_mask_draws(size.field, size.n, size.columns, s->step, s->j);
        nonzero_len = model_nonzero_draws(size.n, s->step);
    }
    make_new();
    call_all(true);
    test_order();
    if (s->step == HZ_CHECK) { /* it opens which way to take, and then takes it */
        test_same_opened(false, "all new but the flag, which is 0");
        test_same_opened(true, "all new but the flag, which is 1");
        return;
    }
    test_branches("all new");
    if (size.field == 256) /* F16 has tables, which what is opened is looked up in */
        test_addresses("all new");
    test_same_opened(false, "all new but what is opened");
}

int main(int argc, char **argv)
{
    if (argc != 3 && argc != 5)
        return 2;
    machine = emulator_open(argv[1]);
    trace_open(machine, argv[2]);
    test_emulator();
    for (size.field = 16; size.field <= 256; size.field += 240)
        for (size.n = 2; size.n <= 4; size.n++)
            for (size_t i = 0; i < sizeof scenes / sizeof *scenes; i++)
                if ((argc == 3 || (size.field == strtoull(argv[3], NULL, 10) && size.n == strtoull(argv[4], NULL, 10)))
                    && (size.field == 16 || !scenes[i].wide))
                    test_scene(&scenes[i]);
    print("instructions done or not by a condition on a secret", &choices);
    print("look-ups in a table by a single share", &look_ups);
    printf("%u passed, %u failed\n", passed, failed);
    return failed != 0;
}
