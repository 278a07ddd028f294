/* Prints the rows of crates/starred/specs/Vectors.antt: for each a comment, the call of a definition, and the bytes that the model in
 * tests/host came to. The model's small rules are static, so its source is included and not linked. */
#include "../host/model.c"

#include <stdarg.h>
#include <stdio.h>

/* ---- What a row is given ---- */

static uint64_t state;

/* Any number below `below`. */
static unsigned some(unsigned below)
{
    state = state * 6364136223846793005u + 1442695040888963407u;
    return (unsigned)(state >> 33) % below;
}

static uint8_t mask[512], nonzero[9], table[48], given[48], solution[3];
static unsigned first; /* the mask tape is `draws first` of Vectors.antt */

/* Tapes and a table that the seed chooses, and a solution that nothing has written. */
static task made_up(uint64_t seed, uint64_t field, uint64_t n, uint64_t m)
{
    state = seed;
    unsigned x = first = 1 + some(240);
    for (size_t i = 0; i < sizeof mask; i++, x = x * 7 % 241)
        mask[i] = (uint8_t)(x + 15);
    for (size_t i = 0; i < sizeof nonzero; x = x * 7 % 241)
        if ((x + 15) % field > 1) /* times 1 would change nothing */
            nonzero[i++] = (uint8_t)(x + 15);
    for (size_t i = 0; i < sizeof table; i++)
        table[i] = (uint8_t)some((unsigned)field);
    memset(solution, 0xee, sizeof solution);
    return (task){field, n, m, m, table, {mask, 0}, {nonzero, 0}};
}

static size_t entries(const task *t)
{
    return t->rows * (t->columns + 1);
}

/* Gives entry e, from 0, the value v by its last share. */
static void set_value(const task *t, size_t e, uint8_t v)
{
    uint8_t *share = t->table + e * t->n;
    for (uint64_t s = 0; s + 1 < t->n; s++)
        v ^= share[s];
    share[t->n - 1] = v;
}

/* ---- The words of a row ---- */

/* Where a row begins: its comment, and the name of the definition. */
static void row(const task *t, const char *name, const char *format, ...)
{
    static bool later;
    va_list rest;
    va_start(rest, format);
    printf("    -- F%u, n = %u: ", (unsigned)t->field, (unsigned)t->n);
    vprintf(format, rest);
    va_end(rest);
    printf("\n    %srow (%s", later ? "∷ " : "", name);
    later = true;
}

/* `bytes` of Vectors.antt, with a _ between groups. */
static void bytes(const uint8_t *b, size_t len, size_t group)
{
    printf(" (bytes %zu 0x", len);
    for (size_t i = 0; i < len; i++)
        printf("%s%02x", i > 0 && i % group == 0 ? "_" : "", b[i]);
    printf(")");
}

static void whole(const task *t, const uint8_t *which)
{
    bytes(which, entries(t) * t->n, t->n);
}

/* The draws that were taken. */
static void mask_draws(const task *t)
{
    printf(" (draws %u %u)", first, (unsigned)t->mask.taken);
}

static void nonzero_draws(const task *t)
{
    if (t->nonzero.taken == 0)
        printf(" []");
    else
        bytes(nonzero, t->nonzero.taken, 1);
}

static void order(const task *t)
{
    printf(" (order %u %u %u)", (unsigned)t->field, (unsigned)t->n, (unsigned)t->rows);
}

/* ---- The small rules ---- */

static sharing a(const task *t)
{
    return get(t, 1, 1);
}

static sharing b(const task *t)
{
    return get(t, 1, 2);
}

/* A rule on a, or on a and b, after it took its draws. The name ends so that the field's number can follow. */
static void rule_row(const task *t, const char *what, const char *name, int inputs, const uint8_t *out, size_t len)
{
    row(t, name, "%s", what);
    printf("%u", (unsigned)t->field);
    if (t->nonzero.taken > 0)
        nonzero_draws(t);
    mask_draws(t);
    bytes(a(t).share, t->n, 1);
    if (inputs == 2)
        bytes(b(t).share, t->n, 1);
    printf(")");
    bytes(out, len, 1);
    printf("\n");
}

static void flag_row(uint64_t seed, uint64_t field, uint64_t n, const char *what, uint8_t value)
{
    task t = made_up(seed, field, n, 1);
    set_value(&t, 0, value);
    sharing out = zero_flag(&t, a(&t));
    rule_row(&t, what, "zero_flag ", 1, out.share, n);
}

static void small_rules(uint64_t seed, uint64_t flag_seed, uint64_t field, uint64_t n)
{
    task t = made_up(seed, field, n, 1);
    sharing out = refresh(&t, a(&t));
    rule_row(&t, "Refresh", "refresh F", 1, out.share, n);

    t = made_up(seed, field, n, 1);
    out = pair_refresh(&t, a(&t));
    rule_row(&t, "Opening, before the shares are summed", "pair_refresh F", 1, out.share, n);

    t = made_up(seed, field, n, 1);
    out = product(&t, a(&t), b(&t));
    rule_row(&t, "Product", "product F", 2, out.share, n);

    t = made_up(seed, field, n, 1);
    out = bit_and(&t, a(&t), b(&t));
    rule_row(&t, "And", "and_of F", 2, out.share, n);

    flag_row(flag_seed, field, n, "Zero flag of 0", 0);
    flag_row(flag_seed, field, n, "Zero flag of 8", 8);

    uint8_t record[1 + 4];
    t = made_up(seed, field, n, 1);
    set_value(&t, 0, 11);
    out = blinded(&t, a(&t), record);
    rule_row(&t, "Inversion of 11, before the Opening", "blinded F", 1, out.share, n);

    t = made_up(seed, field, n, 1);
    set_value(&t, 0, 11);
    inversion(&t, a(&t), record + 1);
    record[0] = inverse(field, record[n]);
    rule_row(&t, "Inversion of 11: u, and the n factors", "inversion F", 1, record, 1 + n);
}

/* ---- Deal and Gather ---- */

static void deal_row(uint64_t seed, uint64_t field, uint64_t n, uint64_t m)
{
    uint64_t answer[HZ_ANSWER_WORDS];
    uint8_t values[12];
    task t = made_up(seed, field, n, m);
    size_t k = entries(&t);
    t.mask.taken = k * (n - 1);
    for (size_t e = 0; e < k; e++)
        values[e] = (uint8_t)some((unsigned)field);
    row(&t, "dealt", "Deal, m = %u", (unsigned)m);
    printf(" %u %u %zu", (unsigned)field, (unsigned)n, k);
    bytes(values, k, 1);
    mask_draws(&t);
    whole(&t, table);
    printf(")\n   ");
    model_deal(field, n, m, values, k, table, k * n, mask, t.mask.taken, answer, HZ_ANSWER_WORDS);
    whole(&t, table);
    printf("\n");
}

static void gather_row(uint64_t seed, uint64_t field, uint64_t n, uint64_t m)
{
    uint64_t answer[HZ_ANSWER_WORDS];
    uint8_t values[12];
    task t = made_up(seed, field, n, m);
    size_t k = entries(&t);
    row(&t, "gathered", "Gather, m = %u", (unsigned)m);
    printf(" %u %u %zu", (unsigned)field, (unsigned)n, k);
    whole(&t, table);
    printf(")");
    model_gather(field, n, m, table, k * n, values, k, answer, HZ_ANSWER_WORDS);
    bytes(values, k, 1);
    printf("\n");
}

/* ---- Steps and whole solves ---- */

/* Where what is wanted begins, as `left` of Vectors.antt: numbers, then the table and the solution. */
static void left(const task *t, int count, const uint64_t *numbers)
{
    printf(")\n    (left (");
    for (int i = 0; i < count; i++)
        printf("%u ∷ ", (unsigned)numbers[i]);
    printf("[])");
    whole(t, table);
    bytes(solution, t->columns, 1);
    printf(")\n");
}

/* A step on a table whose entry in row j, column c has the value v. */
static void step_row(uint64_t seed, uint64_t field, uint64_t n, uint64_t m, uint64_t step, uint64_t j, uint64_t k, uint64_t c, uint8_t v)
{
    static const char *const names[] = {
        [HZ_MIX] = "Mix", [HZ_CHECK] = "Check", [HZ_SCALE] = "Scale", [HZ_CLEAR] = "Clear", [HZ_OPEN] = "Open"};
    uint64_t record[HZ_RECORD_WORDS] = {field, n, m, step, j, k}, answer[HZ_ANSWER_WORDS];
    model_taken(field, n, m, step, j, k, &record[HZ_MASK_TAKEN], &record[HZ_NONZERO_TAKEN]);
    task t = made_up(seed, field, n, m);
    set_value(&t, (j - 1) * (m + 1) + (c - 1), v);
    t.mask.taken = model_mask_draws(field, n, m, step, j);
    t.nonzero.taken = model_nonzero_draws(n, step);

    row(&t, "step", "%s where T[%u,%u] is %u", names[step], (unsigned)j, (unsigned)c, v);
    order(&t);
    printf(k ? " (%s %u %u)" : " (%s %u)", names[step], (unsigned)j, (unsigned)k);
    mask_draws(&t);
    nonzero_draws(&t);
    whole(&t, table);
    uint64_t code = model_step(record, HZ_RECORD_WORDS, table, entries(&t) * n, solution, m, mask, t.mask.taken, nonzero,
                               t.nonzero.taken, answer, HZ_ANSWER_WORDS);
    uint64_t opened = code == HZ_STOPPED ? 1 : code == HZ_OPENED ? answer[1] : code == HZ_DONE ? answer[0] : 0;
    left(&t, 1, &opened);
}

/* Lift(j) of this byte, in a solution whose other bytes nothing has written. It has no draws. */
static void lift_row(uint64_t seed, uint64_t field, uint64_t n, uint64_t m, uint64_t j, uint8_t x)
{
    uint64_t record[HZ_RECORD_WORDS] = {field, n, m, HZ_LIFT, j, 0}, answer[HZ_ANSWER_WORDS], none = 0;
    model_taken(field, n, m, HZ_LIFT, j, 0, &record[HZ_MASK_TAKEN], &record[HZ_NONZERO_TAKEN]);
    task t = made_up(seed, field, n, m);
    solution[j - 1] = x;
    row(&t, "lift", "Lift where x_%u is %u", (unsigned)j, x);
    order(&t);
    printf(" %u", (unsigned)j);
    whole(&t, table);
    bytes(solution, m, 1);
    model_step(record, HZ_RECORD_WORDS, table, entries(&t) * n, solution, m, mask, 0, nonzero, 0, answer, HZ_ANSWER_WORDS);
    left(&t, 1, &none);
}

static void solve_row(uint64_t seed, uint64_t field, uint64_t n, uint64_t m, const uint8_t *values)
{
    uint64_t answer[1 + HZ_ANSWER_WORDS] = {0};
    task t = made_up(seed, field, n, m);
    for (size_t e = 0; e < entries(&t); e++)
        set_value(&t, e, values[e]);
    memcpy(given, table, sizeof table);
    t.mask.taken = model_full_mask_draws(field, n, m);
    t.nonzero.taken = m * (n - 1);
    uint64_t code = model_solve(field, n, m, table, entries(&t) * n, solution, m, mask, t.mask.taken, nonzero, t.nonzero.taken,
                                answer + 1, HZ_ANSWER_WORDS);

    if (code == HZ_SOLVED)
        row(&t, "solve", "a whole solve, solved");
    else
        row(&t, "solve", "a whole solve, stopped at %u", (unsigned)answer[1]);
    order(&t);
    mask_draws(&t);
    nonzero_draws(&t);
    whole(&t, given);
    left(&t, 4, code == HZ_SOLVED ? answer : answer + 1);
}

/* The first number of each row is its seed, and the flags of the small rules have one of their own. Those of the small rules and of Mix were
 * chosen so that draws, shares and factors differ also modulo q; and at three and four shares so that each wrong flag of
 * tests/host/mutants.c is another flag. Those of F256 make inverses large numbers: the definition looks for an
 * inverse from 255 down, so a check takes no longer than it must. */
int main(void)
{
    small_rules(48, 48, 16, 2);
    small_rules(153, 12, 16, 3);
    small_rules(51, 1, 16, 4);
    small_rules(71, 71, 256, 2);
    small_rules(100, 18, 256, 3);
    small_rules(16, 18, 256, 4);

    deal_row(1, 16, 2, 2);
    deal_row(2, 256, 3, 1);
    deal_row(3, 16, 4, 1);
    gather_row(4, 16, 2, 2);
    gather_row(5, 256, 3, 1);
    gather_row(6, 16, 4, 1);

    step_row(25, 16, 2, 2, HZ_MIX, 1, 2, 1, 0);
    step_row(18, 256, 3, 2, HZ_MIX, 1, 2, 1, 0);
    step_row(1, 16, 4, 3, HZ_MIX, 2, 3, 2, 0);
    step_row(12, 16, 3, 3, HZ_MIX, 1, 3, 1, 12);
    step_row(5, 16, 2, 1, HZ_CHECK, 1, 0, 1, 0);
    step_row(6, 256, 3, 2, HZ_CHECK, 2, 0, 2, 0);
    step_row(7, 16, 4, 2, HZ_CHECK, 2, 0, 2, 2);
    step_row(8, 256, 2, 2, HZ_CHECK, 1, 0, 1, 128);
    step_row(9, 16, 2, 2, HZ_SCALE, 1, 0, 1, 7);
    step_row(5, 256, 3, 2, HZ_SCALE, 2, 0, 2, 77);
    step_row(10, 16, 4, 3, HZ_SCALE, 2, 0, 2, 13);
    step_row(11, 16, 2, 2, HZ_CLEAR, 1, 2, 1, 1);
    step_row(12, 256, 3, 2, HZ_CLEAR, 1, 2, 1, 1);
    step_row(13, 16, 4, 3, HZ_CLEAR, 2, 3, 2, 1);
    step_row(14, 16, 2, 2, HZ_OPEN, 2, 0, 3, 6);
    step_row(15, 256, 3, 3, HZ_OPEN, 3, 0, 4, 201);
    step_row(16, 16, 4, 3, HZ_OPEN, 2, 0, 4, 14);
    step_row(17, 16, 3, 2, HZ_OPEN, 1, 0, 3, 9);
    lift_row(18, 16, 2, 2, 2, 6);
    lift_row(19, 256, 3, 3, 3, 201);
    lift_row(20, 16, 4, 3, 2, 14);
    lift_row(21, 256, 2, 3, 3, 1);
    lift_row(22, 16, 3, 2, 2, 0);

    solve_row(1, 16, 2, 3, (uint8_t[]){0, 0, 3, 7, 2, 0, 1, 5, 1, 4, 9, 6});
    solve_row(2, 16, 2, 2, (uint8_t[]){1, 2, 1, 2, 4, 2});
    solve_row(3, 16, 3, 2, (uint8_t[]){0, 1, 5, 1, 0, 7});
    solve_row(4, 16, 3, 3, (uint8_t[]){0, 0, 3, 7, 2, 4, 1, 5, 1, 2, 2, 2});
    solve_row(5, 16, 4, 2, (uint8_t[]){0, 13, 5, 1, 6, 7});
    solve_row(6, 16, 4, 2, (uint8_t[]){0, 1, 1, 0, 3, 2});
    solve_row(208, 256, 2, 2, (uint8_t[]){0x00, 0x57, 0x83, 0xc1, 0x13, 0xfe});
    solve_row(2, 256, 2, 2, (uint8_t[]){0x57, 0xae, 0x13, 0x83, 0x1d, 0x11});
    solve_row(3, 256, 3, 1, (uint8_t[]){0x57, 0xc1});
    solve_row(7, 256, 3, 2, (uint8_t[]){0x00, 0x57, 0x13, 0x00, 0x83, 0xc1});
    solve_row(3, 256, 4, 1, (uint8_t[]){0x83, 0xfe});
    solve_row(8, 256, 4, 1, (uint8_t[]){0x00, 0xfe});
    return 0;
}
