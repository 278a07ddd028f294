/* The cases of wide systems, for host_test.c, which has all that they share with the
 * square ones: lent buffers, calls, tapes and faults.
 *
 * What a call must leave is known here in more ways than the model's. Each system is made
 * of known pivots and a known x; its places are written down as a list from the pivots;
 * and which places a record can have is told by the header's words, where the model walks
 * along the list. */

static uint8_t wide_first_table[MAX_WIDE_TABLE], wide_stepped_table[MAX_WIDE_TABLE];

/* ---- Systems ---- */

/* Of the system that was made last: its pivots, and the x that is 0 outside them. */
static uint64_t known_pivots[96], known_rank;
static uint8_t known_wide_x[144];

/* Plain value at row r, column c, both from 0; the last column is b. */
static uint8_t *wide_value(uint64_t r, uint64_t c)
{
    return values.lent + r * (columns + 1) + c;
}

/* The shares of T[r,c], both from 1, and their sum. */
static uint8_t *wide_cell(uint64_t r, uint64_t c)
{
    return table.lent + ((r - 1) * (columns + 1) + (c - 1)) * shares;
}

static uint8_t wide_cell_value(uint64_t r, uint64_t c)
{
    uint8_t sum = 0;
    for (uint64_t s = 0; s < shares; s++)
        sum ^= wide_cell(r, c)[s];
    return sum;
}

static void add_wide_row(uint64_t to, uint8_t factor, uint64_t from)
{
    for (uint64_t c = 0; factor != 0 && c <= columns; c++)
        *wide_value(to, c) ^= model_times(field, factor, *wide_value(from, c));
}

static void exchange_wide_rows(uint64_t one, uint64_t other)
{
    for (uint64_t c = 0; c <= columns; c++) {
        uint8_t kept = *wide_value(one, c);
        *wide_value(one, c) = *wide_value(other, c);
        *wide_value(other, c) = kept;
    }
}

static void choose_wide_sizes(uint64_t max_rows, uint64_t more_columns)
{
    field = 16;
    shares = 2 + below(3);
    rows = 1 + below(max_rows);
    columns = rows + below(more_columns + 1);
    if (columns > 144)
        columns = 144;
}

/* So many pivots, any columns from this one on; each set of them can come. */
static void choose_pivots_from(uint64_t first, uint64_t rank)
{
    known_rank = 0;
    for (uint64_t c = first; known_rank < rank; c++) /* each with the chance that the rest must have */
        if (below(columns - c + 1) < rank - known_rank)
            known_pivots[known_rank++] = c;
}

/* The same, or the first or the last columns. */
static void choose_pivots(uint64_t rank)
{
    choose_pivots_from(one_in(4) ? columns - rank + 1 : 1, rank);
    for (uint64_t i = 0, first = one_in(4); first && i < rank; i++)
        known_pivots[i] = i + 1;
}

/* As many pivots as rows, or mostly a few less. */
static void choose_rank(bool full)
{
    choose_pivots(full ? rows : one_in(2) ? rows - 1 : below(rows));
}

/* Values with exactly the known pivots: P·L·E, where E is in echelon form, L triangular
 * and P any order of the rows. Every such system is one of these. Where most of L and E
 * is 0, so are many entries at which a pivot is sought. b is that of the known x; where
 * rows have no pivot, it fits or is any. */
static void make_wide_values(void)
{
    uint64_t sparse = one_in(2) ? 4 : 1, before = 0;
    values.len = rows * (columns + 1);
    for (uint64_t c = 0; c < columns; c++) {
        bool pivot = before < known_rank && known_pivots[before] == c + 1;
        for (uint64_t r = 0; r < rows; r++)
            *wide_value(r, c) = pivot && r == before ? nonzero_element() : r < before && one_in(sparse) ? element() : 0;
        before += pivot;
        known_wide_x[c] = pivot ? element() : 0;
    }
    bool fits = known_rank == rows || one_in(2);
    for (uint64_t r = 0; r < rows; r++) {
        *wide_value(r, columns) = fits ? 0 : element();
        for (uint64_t c = 0; c < columns; c++)
            *wide_value(r, columns) ^= model_times(field, *wide_value(r, c), known_wide_x[c]);
    }
    for (uint64_t r = rows; r-- > 0;) /* from the last row up: those above it are E's still */
        for (uint64_t d = 0; d < r; d++)
            add_wide_row(r, one_in(sparse) ? element() : 0, d);
    for (uint64_t r = rows; r-- > 1;)
        exchange_wide_rows(r, below(r + 1));
}

/* Any bytes where no unknown is written; or elements, as Lift wants its byte. */
static void make_wide_solution(void)
{
    solution.len = columns;
    fill(solution.lent, columns);
    for (uint64_t i = 0, elements = below(2); elements && i < columns; i++)
        solution.lent[i] %= 16;
}

static void make_wide_system(void)
{
    make_wide_values();
    make_table();
    make_wide_solution();
}

/* ---- Places ---- */

typedef struct {
    uint64_t step, j, k;
    uint64_t row, found;    /* the row that stands for column j, and how many pivots its record has */
    uint64_t mask, nonzero; /* drawn by the steps before it */
} wide_place;

/* The places of the known pivots in their order, and at last short or done. */
static wide_place wide_list[2 * 96 * 144 + 2 * 96 + 1];
static size_t wide_list_len;
static uint64_t wide_mask_drawn, wide_nonzero_drawn; /* by the steps of the list so far */

static void add_wide_place(uint64_t step, uint64_t j, uint64_t k, uint64_t row, uint64_t found)
{
    wide_list[wide_list_len++] = (wide_place){step, j, k, row, found, wide_mask_drawn, wide_nonzero_drawn};
    if (!is_step(step))
        return;
    wide_mask_drawn += model_mask_draws(16, shares, columns, step, j);
    wide_nonzero_drawn += model_nonzero_draws(shares, step);
}

static void make_wide_list(void)
{
    uint64_t r = 1;
    wide_list_len = wide_mask_drawn = wide_nonzero_drawn = 0;
    for (uint64_t j = 1; j <= columns && r <= rows; j++) {
        for (uint64_t k = r + 1; k <= rows; k++)
            add_wide_place(HZ_MIX, j, k, r, r - 1);
        add_wide_place(HZ_CHECK, j, 0, r, r - 1);
        if (r > known_rank || known_pivots[r - 1] != j)
            continue;
        add_wide_place(HZ_SCALE, j, 0, r, r);
        for (uint64_t k = r + 1; k <= rows; k++)
            add_wide_place(HZ_CLEAR, j, k, r, r);
        r++;
    }
    for (uint64_t i = known_rank; known_rank == rows && i >= 1; i--) {
        add_wide_place(HZ_OPEN, known_pivots[i - 1], 0, i, rows);
        if (i > 1)
            add_wide_place(HZ_LIFT, known_pivots[i - 1], 0, i, rows);
    }
    add_wide_place(known_rank == rows ? HZ_AT_DONE : HZ_AT_SHORT, 0, 0, 0, known_rank);
}

/* Every number by which a wide record can tell its step. */
static const uint64_t wide_steps[] = {HZ_MIX, HZ_CHECK, HZ_SCALE, HZ_CLEAR, HZ_OPEN, HZ_LIFT, HZ_AT_SHORT, HZ_AT_DONE};
#define WIDE_STEPS (sizeof wide_steps / sizeof wide_steps[0])
#define LAST_WIDE_PLACE HZ_AT_SHORT

static bool is_wide_field(uint64_t number)
{
    return number == 16;
}

static bool is_number_of_columns(uint64_t number)
{
    return number >= rows && number <= 144;
}

/* Whether a record's pivots have its place, by the header's words; its numbers are right. */
static bool is_wide_place(const uint64_t *r)
{
    uint64_t j = r[HZ_WIDE_J], k = r[HZ_WIDE_K], found = r[HZ_WIDE_FOUND], last = 0;
    const uint64_t *pivots = r + HZ_WIDE_PIVOTS;
    bool among = false;
    if (found > r[HZ_WIDE_ROWS])
        return false;
    for (uint64_t i = 0; i < found; i++) {
        if (pivots[i] <= last || pivots[i] > r[HZ_WIDE_COLUMNS])
            return false;
        last = pivots[i];
        among = among || last == j;
    }
    for (uint64_t i = found; i < 96; i++)
        if (pivots[i] != 0)
            return false;
    bool full = found == r[HZ_WIDE_ROWS], sought = !full && j > last && j <= r[HZ_WIDE_COLUMNS];
    bool taken = found > 0 && j == last, row_below = k <= r[HZ_WIDE_ROWS];
    switch (r[HZ_WIDE_STEP]) {
    case HZ_MIX:
        return sought && k > found + 1 && row_below;
    case HZ_CHECK:
        return sought && k == 0;
    case HZ_SCALE:
        return taken && k == 0;
    case HZ_CLEAR:
        return taken && k > found && row_below;
    case HZ_OPEN:
        return full && among && k == 0;
    case HZ_LIFT:
        return full && among && j != pivots[0] && k == 0;
    case HZ_AT_SHORT:
        return !full && j == 0 && k == 0;
    case HZ_AT_DONE:
        return full && j == 0 && k == 0;
    default:
        return false;
    }
}

static void fresh_wide_words(void)
{
    fill(wide_record.lent, wide_record.capacity * wide_record.width);
    wide_record.len = HZ_WIDE_RECORD_WORDS;
    answer.len = HZ_ANSWER_WORDS;
}

/* The record's counters become those of its place. Where its pivots have no such place,
 * they become any of the list's, or 0. */
static void match_wide_counters(void)
{
    uint64_t *r = words(&wide_record), masks = 0, nonzeros = 0;
    if (is_wide_field(r[HZ_WIDE_FIELD]) && is_number_of_shares(r[HZ_WIDE_SHARES]) && is_size(r[HZ_WIDE_ROWS])
        && r[HZ_WIDE_COLUMNS] <= 144)
        model_wide_taken(r, &masks, &nonzeros);
    r[HZ_WIDE_MASK_TAKEN] = masks;
    r[HZ_WIDE_NONZERO_TAKEN] = nonzeros;
}

/* A record of the next call's numbers at this place, with these pivots. */
static void set_wide_record(uint64_t step, uint64_t j, uint64_t k, uint64_t found, const uint64_t *pivots)
{
    uint64_t *r = words(&wide_record), place[] = {field, shares, rows, columns, step, j, k, 0, 0, found};
    memset(r, 0, HZ_WIDE_RECORD_WORDS * sizeof *r);
    memcpy(r, place, sizeof place);
    memcpy(r + HZ_WIDE_PIVOTS, pivots, (found < 96 ? found : 96) * sizeof *pivots);
    match_wide_counters();
}

/* The record of a place of the list. Its counters are the list's sums. */
static void record_of(size_t at, uint64_t *r)
{
    const wide_place *p = &wide_list[at];
    uint64_t place[] = {16, shares, rows, columns, p->step, p->j, p->k, p->mask, p->nonzero, p->found};
    memset(r, 0, HZ_WIDE_RECORD_WORDS * sizeof *r);
    memcpy(r, place, sizeof place);
    memcpy(r + HZ_WIDE_PIVOTS, known_pivots, p->found * sizeof *r);
}

/* The last call left the record at this place of the list. */
static void demand_wide_place(size_t at)
{
    uint64_t wanted[HZ_WIDE_RECORD_WORDS];
    record_of(at, wanted);
    demand(memcmp(wide_record.lent, wanted, sizeof wanted) == 0, "another record than the next of the list");
}

/* Some place of this kind, or the list's length where there is none. */
static size_t any_wide_of(uint64_t step)
{
    size_t from = below(wide_list_len);
    for (size_t i = 0; i < wide_list_len; i++)
        if (wide_list[(from + i) % wide_list_len].step == step)
            return (from + i) % wide_list_len;
    return wide_list_len;
}

/* How often each kind of step was compared where it was accepted, by shares from 2; and of
 * these on columns that no square system has. */
static uint64_t wide_steps_made[LAST_WIDE_PLACE + 1][3], late_steps_made[LAST_WIDE_PLACE + 1][3];
static uint64_t wide_solves_made[2][3]; /* short ones first */

static uint64_t call_wide_step(void)
{
    uint64_t step = words(&wide_record)[HZ_WIDE_STEP], n = words(&wide_record)[HZ_WIDE_SHARES];
    bool late = words(&wide_record)[HZ_WIDE_J] > 97;
    uint64_t code = call_expecting(WIDE_STEP);
    if (refusal[0] == 0) {
        wide_steps_made[step][n - 2]++;
        late_steps_made[step][n - 2] += late;
    }
    return code;
}

/* ---- Faults ---- */

/* Kinds of wrong counters: those of `added`, but for its first, and these. */
enum {
    WIDE_EXCHANGED = sizeof added / sizeof added[0],
    WIDE_OF_NEXT,
    WIDE_OF_LAST,
    WIDE_OF_START,
    WIDE_OF_SQUARE,  /* of the place in a square system of so many rows */
    WIDE_ALL_PIVOTS, /* as if no column were passed over */
    WIDE_NO_PIVOTS,
    WIDE_HUGE,
    WIDE_ANY_MASK,
    WIDE_ANY_NONZERO,
    WIDE_COUNTER_KINDS,
};

static void set_wide_counters(uint64_t masks, uint64_t nonzeros)
{
    words(&wide_record)[HZ_WIDE_MASK_TAKEN] = masks;
    words(&wide_record)[HZ_WIDE_NONZERO_TAKEN] = nonzeros;
}

/* The draws before column j, where the first row, or none, takes the pivots of those before. */
static void set_other_pattern(uint64_t j, bool pivots)
{
    uint64_t masks = 0, nonzeros = 0;
    for (uint64_t c = 1; c < j; c++) {
        masks += (rows - 1) * model_mask_draws(16, shares, columns, HZ_MIX, c)
                 + model_mask_draws(16, shares, columns, HZ_CHECK, c);
        nonzeros += pivots ? shares - 1 : 0;
        if (pivots)
            masks += model_mask_draws(16, shares, columns, HZ_SCALE, c)
                     + (rows - 1) * model_mask_draws(16, shares, columns, HZ_CLEAR, c);
    }
    set_wide_counters(masks, nonzeros);
}

/* Counters of this kind for a record that stands at this place; false where they are right. */
static bool make_wide_counters(size_t at, int kind)
{
    const wide_place *p = &wide_list[at], *next = at + 1 < wide_list_len ? p + 1 : p;
    const wide_place *last = &wide_list[wide_list_len - 1];
    uint64_t masks, nonzeros, one = absurd();
    switch (kind) {
    case WIDE_EXCHANGED:
        set_wide_counters(p->nonzero, p->mask);
        break;
    case WIDE_OF_NEXT:
        set_wide_counters(next->mask, next->nonzero);
        break;
    case WIDE_OF_LAST:
        set_wide_counters(last->mask, last->nonzero);
        break;
    case WIDE_OF_START:
        set_wide_counters(0, 0);
        break;
    case WIDE_OF_SQUARE:
        model_taken(16, shares, rows, p->step, p->j, p->k, &masks, &nonzeros);
        set_wide_counters(masks, nonzeros);
        break;
    case WIDE_ALL_PIVOTS:
    case WIDE_NO_PIVOTS:
        set_other_pattern(p->j == 0 ? columns + 1 : p->j, kind == WIDE_ALL_PIVOTS);
        break;
    case WIDE_HUGE:
        set_wide_counters(UINT64_MAX, UINT64_MAX);
        break;
    case WIDE_ANY_MASK:
        set_wide_counters(one_in(2) ? one : below(wide_mask_drawn + 1), p->nonzero);
        break;
    case WIDE_ANY_NONZERO:
        set_wide_counters(p->mask, one_in(2) ? one : below(wide_nonzero_drawn + 1));
        break;
    default:
        set_wide_counters(p->mask + added[kind][0], p->nonzero + added[kind][1]);
    }
    return words(&wide_record)[HZ_WIDE_MASK_TAKEN] != p->mask
           || words(&wide_record)[HZ_WIDE_NONZERO_TAKEN] != p->nonzero;
}

/* Changes one word or two of a record's place or pivots. */
static void touch_wide_place(uint64_t *r)
{
    uint64_t found = r[HZ_WIDE_FOUND], *pivots = r + HZ_WIDE_PIVOTS;
    uint64_t slot = found == 0 || found > 96 ? 0 : below(found), free = found < 96 ? found + below(96 - found) : 95;
    switch (below(15)) {
    case 0:
        r[HZ_WIDE_STEP] = one_in(2) ? HZ_AT_STOPPED : below(LAST_WIDE_PLACE + 3);
        break;
    case 1:
        r[HZ_WIDE_STEP] += (uint64_t)1 << (8 + below(56));
        break;
    case 2:
        r[HZ_WIDE_J] = one_in(2) ? below(columns + 2) : absurd();
        break;
    case 3:
        r[HZ_WIDE_K] = one_in(2) ? below(rows + 2) : absurd();
        break;
    case 4: {
        uint64_t *word = r + (one_in(2) ? HZ_WIDE_J : HZ_WIDE_K);
        *word += (uint64_t)1 << (8 + below(56));
        break;
    }
    case 5:
        pivots[slot] = one_in(2) ? below(columns + 2) : absurd();
        break;
    case 6: /* another number with the same low byte, or half */
        pivots[slot] += (uint64_t)1 << (8 + below(56));
        break;
    case 7: { /* exchanged */
        uint64_t kept = pivots[slot], other = found < 2 || found > 96 ? 0 : below(found);
        pivots[slot] = pivots[other];
        pivots[other] = kept;
        break;
    }
    case 8: /* repeated */
        if (slot > 0)
            pivots[slot] = pivots[slot - 1];
        break;
    case 9:
        r[HZ_WIDE_FOUND] += one_in(2) ? 1 : UINT64_MAX;
        break;
    case 10:
        r[HZ_WIDE_FOUND] = one_in(2) ? absurd() : found + ((uint64_t)1 << (8 + below(56)));
        break;
    case 11: /* an unused slot that is not 0 */
        pivots[free] = one_in(2) ? 1 + below(columns) : one_in(2) ? (uint64_t)1 << below(64) : columns + 1;
        break;
    case 12:
        pivots[95] ^= one_in(2) ? 1 : (uint64_t)1 << 63;
        break;
    case 13: /* one more pivot than was found */
        if (found < 96)
            pivots[r[HZ_WIDE_FOUND]++] = one_in(2) ? columns : columns + 1;
        break;
    default: /* the last one forgotten */
        if (found >= 1 && found <= 96)
            pivots[--r[HZ_WIDE_FOUND]] = 0;
    }
}

/* The record's place becomes one that its pivots don't have. */
static void leave_wide_list(void)
{
    uint64_t *r = words(&wide_record), kept[HZ_WIDE_RECORD_WORDS];
    memcpy(kept, r, sizeof kept);
    do {
        memcpy(r, kept, sizeof kept);
        touch_wide_place(r);
    } while (is_wide_place(r));
}

#define WIDE_NUMBER_FAULTS (NUMBER_FAULTS | FAULT(21))

/* 10, 19 and 11, of a record at this place of the list. */
static void make_wide_place_faults(size_t at, uint32_t faults, int counters)
{
    if (!is_step(wide_list[at].step))
        expect(11, 0, 0, 0);
    if (faults & FAULT(19) && make_wide_counters(at, counters))
        expect(19, 0, 0, 0);
    if (faults & FAULT(10)) {
        leave_wide_list();
        expect(10, 0, 0, 0);
    }
}

/* 1, 2, 3 and 21 of these four numbers. */
static void make_wide_number_faults(uint64_t *field_given, uint64_t *shares_given, uint64_t *rows_given,
                                    uint64_t *columns_given, uint32_t faults)
{
    uint64_t *given[] = {columns_given, rows_given, shares_given, field_given};
    static bool (*const accepted[])(uint64_t) = {is_number_of_columns, is_size, is_number_of_shares, is_wide_field};
    static const uint64_t numbers[] = {21, 3, 2, 1};
    for (int i = 0; i < 4; i++)
        if (faults & FAULT(numbers[i])) {
            uint64_t wrong = refused_number(accepted[i]);
            if (i == 0 && one_in(2))
                wrong = one_in(2) ? rows - 1 : 145;
            *given[i] = wrong;
            expect(numbers[i], wrong, 0, 0);
        }
}

static void make_wide_record_faults(uint32_t faults)
{
    uint64_t *r = words(&wide_record);
    make_wide_number_faults(r + HZ_WIDE_FIELD, r + HZ_WIDE_SHARES, r + HZ_WIDE_ROWS, r + HZ_WIDE_COLUMNS, faults);
}

/* 5 and 4. */
static void make_wide_length_faults(uint32_t faults)
{
    if (faults & FAULT(5)) {
        expect(5, columns, 0, 0);
        make_wrong(&solution);
    }
    if (faults & FAULT(4)) {
        expect(4, rows * (columns + 1) * shares, 0, 0);
        make_wrong(&table);
    }
}

/* hz_wide_wanted at a place of the list with these faults. */
static void wide_wanted_at(size_t at, uint32_t faults, int counters)
{
    const wide_place *p = &wide_list[at];
    record_of(at, words(&wide_record));
    expect(0, 0, 0, 0);
    make_wide_place_faults(at, faults, counters);
    make_wide_record_faults(faults);
    uint64_t code = call_expecting(WIDE_WANTED);
    if (refusal[0] != 0)
        return;
    uint64_t told[HZ_ANSWER_WORDS] = {p[1].mask - p->mask, p[1].nonzero - p->nonzero};
    demand(code == HZ_WANTED && memcmp(answer.lent, told, sizeof told) == 0,
           "other draws than between two places of the list");
}

/* hz_wide_step likewise, on the first table. The pivot is 0 for 12, and else it is not. */
static void wide_step_at(size_t at, uint32_t faults, int counters)
{
    const wide_place *p = &wide_list[at];
    record_of(at, words(&wide_record));
    memcpy(table.lent, wide_first_table, table.len);
    make_tapes(WIDE_STEP);
    expect(0, 0, 0, 0);
    make_later_faults(columns + 1, p->step, p->row, p->j, faults);
    make_wide_place_faults(at, faults, counters);
    make_wide_length_faults(faults);
    make_wide_record_faults(faults);
    call_wide_step();
    solution.len = columns;
    table.len = rows * (columns + 1) * shares;
    if (refusal[0] == 0 && p->step != HZ_CHECK)
        demand_wide_place(at + 1);
}

/* ---- Runs ---- */

static const uint64_t wide_step_faults[] = {1, 2, 3, 21, 4, 5, 10, 19, 6, 7, 14, 8, 15, 9, 20, 12};
#define WIDE_STEP_FAULTS (sizeof wide_step_faults / sizeof wide_step_faults[0])

/* A call in the midst of a run that is refused, and so leaves the run as it was. The tapes
 * hold the step's draws. */
static void refused_in_wide_run(size_t at)
{
    const wide_place *p = &wide_list[at];
    uint64_t kept[HZ_WIDE_RECORD_WORDS];
    uint8_t kept_solution[144], kept_draws[3];
    size_t table_len = table.len, mask_len = mask.len, nonzero_len = nonzero.len;
    memcpy(kept, wide_record.lent, sizeof kept);
    memcpy(kept_solution, solution.lent, columns);
    memcpy(kept_draws, nonzero.lent, nonzero_len);
    memcpy(wide_stepped_table, table.lent, table.len);
    uint32_t faults = FAULT(ONE_OF(wide_step_faults));
    expect(0, 0, 0, 0);
    make_later_faults(columns + 1, p->step, p->row, p->j, faults);
    make_wide_place_faults(at, faults, 1 + (int)below(WIDE_COUNTER_KINDS - 1));
    make_wide_length_faults(faults);
    make_wide_record_faults(faults);
    if (refusal[0] != 0)
        call_expecting(WIDE_STEP);
    memcpy(wide_record.lent, kept, sizeof kept);
    table.len = table_len;
    mask.len = mask_len;
    nonzero.len = nonzero_len;
    solution.len = columns;
    memcpy(table.lent, wide_stepped_table, table.len);
    memcpy(solution.lent, kept_solution, columns);
    memcpy(nonzero.lent, kept_draws, nonzero_len);
}

/* The next part of the whole tapes, as long as hz_wide_wanted told. */
static void take_wide_part(const wide_place *p)
{
    mask.len = words(&answer)[0];
    nonzero.len = words(&answer)[1];
    memcpy(mask.lent, whole_mask + p->mask, mask.len);
    memcpy(nonzero.lent, whole_nonzero + p->nonzero, nonzero.len);
    if (one_in(2)) /* the high bits of a draw say nothing */
        for (size_t i = 0; i < mask.len; i++)
            mask.lent[i] ^= (uint8_t)(any() & 0xf0);
}

/* What the step at this place answered; of Open also what it opened. */
static void demand_wide_answer(const wide_place *p, uint64_t code)
{
    uint64_t told[HZ_ANSWER_WORDS] = {0}, wanted = p[1].step == HZ_AT_SHORT ? HZ_SHORT : HZ_MOVED;
    if (p->step == HZ_OPEN) {
        wanted = p->row == 1 ? HZ_DONE : HZ_OPENED;
        told[0] = p->j;
        told[1] = known_wide_x[p->j - 1];
    }
    demand(code == wanted && memcmp(answer.lent, told, sizeof told) == 0, "another answer than the list's");
}

/* Of whole solves, by shares from 2: the longest mask tape that there was room for and how
 * many there was none for. A board may have less room than the longest of all. */
static struct {
    uint64_t mask, rows, columns, left_out;
} longest[3];

static bool mask_has_room(void)
{
    uint64_t wanted = model_wide_mask_draws(shares, rows, columns);
    if (wanted > MAX_WIDE_MASK) {
        longest[shares - 2].left_out++;
        return false;
    }
    if (wanted > longest[shares - 2].mask) {
        longest[shares - 2].mask = wanted;
        longest[shares - 2].rows = rows;
        longest[shares - 2].columns = columns;
    }
    return true;
}

static void tell_left_out(void)
{
    for (int n = 2; n <= 4; n++)
        if (longest[n - 2].left_out > 0)
            printf("with %d shares %" PRIu64 " wide solves were left out, whose mask tapes have more than %d bytes\n",
                   n, longest[n - 2].left_out, MAX_WIDE_MASK);
}

static void tell_longest(void)
{
    for (int n = 2; n <= 4; n++)
        printf("the longest mask tape of a wide solve with %d shares had %" PRIu64 " bytes, of %" PRIu64 " by %" PRIu64
               "\n",
               n, longest[n - 2].mask, longest[n - 2].rows, longest[n - 2].columns);
}

/* The whole solve of the table as it stands: against the known pivots and x, the list, and
 * a basis of columns. */
static void solve_wide_and_check(void)
{
    uint64_t pivots[96];
    uint8_t x[144], zeros[144] = {0};
    bool full = known_rank == rows;
    uint64_t found = model_wide_plain(rows, columns, values.lent, pivots, x);
    demand(found == known_rank && memcmp(pivots, known_pivots, found * sizeof *pivots) == 0,
           "the basis of columns has other pivots than the system was made of");
    demand(!full || memcmp(x, known_wide_x, columns) == 0, "the basis of columns has another x");
    expect(0, 0, 0, 0);
    uint64_t code = call_expecting(WIDE_SOLVE);
    wide_solves_made[full][shares - 2]++;
    demand(code == (full ? HZ_SOLVED : HZ_SHORT), "solved though short, or the reverse");
    demand(memcmp(solution.lent, full ? x : zeros, columns) == 0, "another solution than that of the values");
    uint64_t counts[HZ_ANSWER_WORDS] = {wide_list_len - 1, wide_mask_drawn, wide_nonzero_drawn};
    demand(memcmp(answer.lent, counts, sizeof counts) == 0, "other counts than the list's");
}

/* A run of steps from a fresh record on a system of the known pivots, then the whole solve
 * of the same table with the same tapes. */
static void wide_trace(uint64_t refusals_one_in)
{
    uint8_t left[144];
    if (!mask_has_room())
        return;
    make_wide_system();
    make_wide_list();
    memcpy(wide_first_table, table.lent, table.len);
    memcpy(left, solution.lent, columns);
    make_tapes(WIDE_SOLVE);
    memcpy(whole_mask, mask.lent, mask.len);
    memcpy(whole_nonzero, nonzero.lent, nonzero.len);
    fresh_wide_words();
    demand(call(WIDE_START) == HZ_FRESH, "no fresh record");
    size_t at = 0;
    for (; at + 1 < wide_list_len; at++) {
        const wide_place *p = &wide_list[at];
        demand_wide_place(at);
        demand(call(WIDE_WANTED) == HZ_WANTED, "not told what the step wants");
        take_wide_part(p);
        if (one_in(refusals_one_in))
            refused_in_wide_run(at);
        expect(0, 0, 0, 0);
        demand_wide_answer(p, call_wide_step());
        if (p->step == HZ_OPEN)
            left[p->j - 1] = known_wide_x[p->j - 1];
        demand(memcmp(solution.lent, left, columns) == 0, "a step wrote elsewhere than its pivot's place");
    }
    demand_wide_place(at);
    expect(11, 0, 0, 0);
    call_expecting(WIDE_STEP);
    call_expecting(WIDE_WANTED);

    memcpy(wide_stepped_table, table.lent, table.len);
    memcpy(table.lent, wide_first_table, table.len);
    mask.len = model_wide_mask_draws(shares, rows, columns);
    nonzero.len = rows * (shares - 1);
    memcpy(mask.lent, whole_mask, mask.len);
    memcpy(nonzero.lent, whole_nonzero, nonzero.len);
    make_wide_solution();
    solve_wide_and_check();
    demand(memcmp(table.lent, wide_stepped_table, table.len) == 0, "another table than after the steps");
}

/* Every set of pivots of small systems. */
#define PATTERN_ROWS 3
#define PATTERN_COLUMNS 5
#define PATTERN_ROUNDS 6
#define ALL_PATTERNS (PATTERN_ROWS * PATTERN_COLUMNS * 3 * PATTERN_ROUNDS)
static void case_of_wide_patterns(uint64_t i)
{
    field = 16;
    rows = 1 + i % PATTERN_ROWS;
    columns = 1 + i / PATTERN_ROWS % PATTERN_COLUMNS;
    shares = 2 + i / (PATTERN_ROWS * PATTERN_COLUMNS) % 3;
    if (columns < rows)
        return;
    for (uint64_t set = 0; set < (uint64_t)1 << columns; set++) {
        known_rank = 0;
        for (uint64_t c = 0; c < columns && known_rank <= rows; c++)
            if (set >> c & 1)
                known_pivots[known_rank++] = c + 1;
        if (known_rank <= rows)
            wide_trace(4);
    }
}

static void case_of_wide_runs(uint64_t i)
{
    uint64_t max_rows = one_in(20) ? 20 : 7;
    choose_wide_sizes(max_rows, one_in(4) ? 30 : 6);
    choose_rank(i % 2 == 0);
    wide_trace(16);
}
#define ALL_WIDE_RUNS 480

/* A whole solve with tapes that are right or longer: what is too much is there, or is only
 * said to be. */
static void wide_solve_of(uint64_t rank)
{
    if (!mask_has_room())
        return;
    choose_pivots(rank);
    make_wide_system();
    make_wide_list();
    make_tapes(WIDE_SOLVE);
    fresh_wide_words();
    change_tape(&mask, (int)below(3) + 1, 7, 0);
    size_t right = nonzero.len;
    change_tape(&nonzero, (int)below(3) + 1, 8, 0);
    for (size_t at = right; at < nonzero.len; at++)
        nonzero.lent[at] = zero_draw();
    solve_wide_and_check();
    mask.more = nonzero.more = 0;
}

/* Random sizes up to the largest; most are small. */
#define ALL_WIDE_SOLVES 1500
static void case_of_wide_solves(uint64_t i)
{
    choose_wide_sizes(i % 50 == 0 ? 96 : i % 10 == 0 ? 24 : 8, i % 50 == 0 ? 143 : one_in(8) ? 40 : 8);
    wide_solve_of(one_in(2) ? rows : below(rows + 1));
}

/* On a square system the calls agree: short exactly where hz_solve stops, and else the same
 * x, table and counts from the same draws. */
#define ALL_WIDE_SQUARES 400
static void case_of_wide_squares(uint64_t i)
{
    uint8_t wide_x[96];
    uint64_t counts[3];
    choose_wide_sizes(i % 20 == 0 ? 40 : 8, 0);
    size = rows;
    choose_rank(i % 2 == 0);
    make_wide_system();
    make_wide_list();
    memcpy(wide_first_table, table.lent, table.len);
    make_tapes(WIDE_SOLVE);
    fresh_wide_words();
    solve_wide_and_check();
    bool solved = known_rank == rows;
    memcpy(wide_x, solution.lent, rows);
    memcpy(counts, answer.lent, sizeof counts);
    memcpy(wide_stepped_table, table.lent, table.len);
    memcpy(table.lent, wide_first_table, table.len);
    uint64_t code = call(SOLVE);
    demand(code == (solved ? HZ_SOLVED : HZ_STOPPED), "short where hz_solve has x, or the reverse");
    demand(memcmp(solution.lent, wide_x, rows) == 0, "another solution than hz_solve's");
    if (!solved)
        return;
    demand(memcmp(answer.lent, counts, sizeof counts) == 0, "other counts than hz_solve's");
    demand(memcmp(table.lent, wide_stepped_table, table.len) == 0, "another table than hz_solve's");
}

/* ---- Records that a host made up ---- */

/* Every step, j and k with every few slots filled, of small systems. */
static const uint64_t sizes_of_wide_places[][2] = {{1, 1}, {1, 3}, {2, 2}, {2, 3}, {3, 3}, {2, 4}, {3, 4}};
#define ALL_WIDE_PLACES (sizeof sizes_of_wide_places / sizeof sizes_of_wide_places[0])

static void calls_at_every_place(uint64_t found, const uint64_t *slots)
{
    for (uint64_t step = 0; step <= LAST_WIDE_PLACE + 1; step++)
        for (uint64_t j = 0; j <= columns + 1; j++)
            for (uint64_t k = 0; k <= rows + 1; k++) {
                set_wide_record(step, j, k, found, slots);
                bool there = is_wide_place(words(&wide_record));
                expect(!there ? 10 : is_step(step) ? 0 : 11, 0, 0, 0);
                call_expecting(WIDE_WANTED);
                make_tapes(WIDE_STEP);
                if (there && is_step(step)) /* 12 and 20 may come up */
                    call(WIDE_STEP);
                else
                    call_expecting(WIDE_STEP);
            }
}

static void case_of_wide_places(uint64_t i)
{
    field = 16;
    shares = 2 + i % 3;
    rows = sizes_of_wide_places[i][0];
    columns = sizes_of_wide_places[i][1];
    uint64_t most = rows < 3 && columns < 4 ? rows + 1 : rows, choices = columns + 2;
    choose_rank(true);
    make_wide_system();
    fresh_wide_words();
    for (uint64_t found = 0, lists = 1; found <= most; found++, lists *= choices)
        for (uint64_t list = 0; list < lists; list++) {
            uint64_t slots[4] = {0}, rest = list, last = 0;
            bool ascending = true;
            for (uint64_t slot = 0; slot < found; slot++, rest /= choices) {
                slots[slot] = rest % choices;
                ascending = ascending && slots[slot] > last;
                last = slots[slot];
            }
            if (ascending || found < 3 || one_in(8))
                calls_at_every_place(found, slots);
        }
}

/* Numbers of pivots and of places that are no small ones. Each record is right but for one
 * word, and a call that looked at its low byte alone, or its low half, would take it. */
static void case_of_wide_words(uint64_t i)
{
    static const uint64_t beyond[] = {256, 512, 65536, AT_32, 2 * AT_32, 256 * AT_32, AT_63};
    field = 16;
    shares = 2 + i % 3;
    rows = 1 + i / 3 % 4;
    columns = rows + i / 12 % 3;
    choose_rank(i / 36 % 2 == 0);
    make_wide_system();
    make_wide_list();
    fresh_wide_words();
    for (size_t at = 0; at < wide_list_len; at++)
        for (size_t word = HZ_WIDE_STEP; word < HZ_WIDE_RECORD_WORDS; word++) {
            if (word >= HZ_WIDE_PIVOTS + 5 && word < HZ_WIDE_RECORD_WORDS - 1 && !one_in(16))
                continue;
            record_of(at, words(&wide_record));
            make_tapes(WIDE_STEP);
            words(&wide_record)[word] += ONE_OF(beyond);
            bool counter = word == HZ_WIDE_MASK_TAKEN || word == HZ_WIDE_NONZERO_TAKEN;
            expect(counter ? 19 : 10, 0, 0, 0);
            call_expecting(WIDE_WANTED);
            call_expecting(WIDE_STEP);
        }
}
#define ALL_WIDE_WORDS (3 * 4 * 3 * 2)

/* Any pivots at any place that they have, on a table that a host made up, and a few steps
 * on from there: whether the run could have come there is not asked. */
static void case_of_made_up_wide(uint64_t i)
{
    choose_wide_sizes(i % 40 == 0 ? 24 : 6, i % 40 == 0 ? 60 : 8);
    choose_rank(one_in(2));
    uint64_t kept[96], rank = known_rank;
    memcpy(kept, known_pivots, sizeof kept);
    make_wide_list(); /* of pivots that are not those of the table */
    choose_rank(one_in(2));
    make_wide_system();
    memcpy(known_pivots, kept, sizeof kept);
    known_rank = rank;
    fresh_wide_words();
    size_t at = one_in(2) ? below(wide_list_len) : any_wide_of(ONE_OF(wide_steps));
    if (at == wide_list_len)
        return;
    if (one_in(2) && wide_list[at].j != 0) /* Scale is refused, Check passes over */
        wide_cell(wide_list[at].row, wide_list[at].j)[0] ^= wide_cell_value(wide_list[at].row, wide_list[at].j);
    record_of(at, words(&wide_record));
    for (int steps = 0; steps < 4; steps++) {
        if (one_in(8))
            touch_wide_place(words(&wide_record));
        if (one_in(8))
            match_wide_counters();
        bool told = call(WIDE_WANTED) == HZ_WANTED;
        uint64_t first = words(&answer)[0];
        make_mask(told ? first : below(9));
        make_nonzero(told ? words(&answer)[1] : below(3));
        if (one_in(8))
            plant_zero_draw();
        if (one_in(16))
            damage(&table);
        if (one_in(8))
            damage(&solution);
        bool refused = call(WIDE_STEP) == HZ_REFUSED;
        uint64_t number = refused ? words(&answer)[0] : 0;
        if (told)
            demand(number != 7 && number != 14 && number != 8 && number != 15,
                   "refused with just the draws that hz_wide_wanted told");
        else
            demand(number == first, "hz_wide_wanted was refused by another number");
        if (refused)
            break;
    }
}
#define ALL_MADE_UP_WIDE 12000

/* ---- Refusals ---- */

static const uint64_t sizes_of_wide_faults[][2] = {{1, 1}, {1, 3}, {2, 2}, {2, 3}, {3, 5}, {4, 7}};
#define WIDE_FAULT_SIZES (sizeof sizes_of_wide_faults / sizeof sizes_of_wide_faults[0])

static void set_wide_fault_sizes(uint64_t i)
{
    field = 16;
    shares = 2 + i % 3;
    rows = sizes_of_wide_faults[i / 3][0];
    columns = sizes_of_wide_faults[i / 3][1];
    fresh_wide_words();
}

/* A system, short or not, that has a place of this kind in its list, and that place. */
static size_t place_of_kind(uint64_t step)
{
    size_t at;
    do {
        choose_rank(one_in(2));
        make_wide_system();
        make_wide_list();
        at = any_wide_of(step);
    } while (at == wide_list_len);
    memcpy(wide_first_table, table.lent, table.len);
    return at;
}

static bool has_kind(uint64_t step)
{
    return rows > 1 || !(is_pair(step) || step == HZ_LIFT);
}

/* At every kind of place: every pair of the step's faults, counters of every kind, some
 * larger sets, and of hz_wide_wanted every set. */
static void case_of_wide_faults(uint64_t i)
{
    static const uint64_t faults_of_wanted[] = {1, 2, 3, 21, 10, 19};
    set_wide_fault_sizes(i % (3 * WIDE_FAULT_SIZES));
    for (size_t kind = 0; kind < WIDE_STEPS; kind++) {
        if (!has_kind(wide_steps[kind]))
            continue;
        size_t at = place_of_kind(wide_steps[kind]);
        wide_step_at(at, 0, 0);
        for (size_t one = 0; one < WIDE_STEP_FAULTS; one++)
            for (size_t other = one; other < WIDE_STEP_FAULTS; other++)
                wide_step_at(at, FAULT(wide_step_faults[one]) | FAULT(wide_step_faults[other]),
                             1 + (int)below(WIDE_COUNTER_KINDS - 1));
        for (int counters = 1; counters < WIDE_COUNTER_KINDS; counters++) {
            at = place_of_kind(wide_steps[kind]);
            wide_step_at(at, FAULT(19), counters);
            wide_wanted_at(at, FAULT(19), counters);
            wide_step_at(at, (uint32_t)any() & (STEP_FAULTS | FAULT(19) | FAULT(21)), counters);
            wide_step_at(at, (uint32_t)any() & LATER_THAN_11, counters);
        }
        for (uint64_t set = 0; set < SETS_OF(faults_of_wanted); set++)
            wide_wanted_at(at, fault_set(faults_of_wanted, set), 1 + (int)below(WIDE_COUNTER_KINDS - 1));
        for (uint64_t set = 0; set < SETS_OF(faults_of_scale); set++)
            wide_step_at(at, fault_set(faults_of_scale, set), 0);
    }
}
#define WIDE_FAULT_ROUNDS 2
#define ALL_WIDE_FAULTS (3 * WIDE_FAULT_SIZES * WIDE_FAULT_ROUNDS)

/* Every set of the faults of a whole solve, and of those of its numbers for the calls that
 * have no others. */
static const uint64_t faults_of_wide_solve[] = {1, 2, 3, 21, 4, 5, 6, 7, 8, 9};
#define WIDE_SOLVE_ROUNDS 8
#define ALL_WIDE_SOLVE_FAULTS (SETS_OF(faults_of_wide_solve) * 3 * WIDE_SOLVE_ROUNDS)
static void case_of_wide_solve_faults(uint64_t i)
{
    uint32_t faults = fault_set(faults_of_wide_solve, i % SETS_OF(faults_of_wide_solve));
    i /= SETS_OF(faults_of_wide_solve);
    choose_wide_sizes(5, 6);
    shares = 2 + i % 3;
    choose_rank(one_in(2));
    make_wide_system();
    make_tapes(WIDE_SOLVE);
    fresh_wide_words();
    size_t masks = mask.len, nonzeros = nonzero.len;
    expect(0, 0, 0, 0);
    if (faults & FAULT(9)) {
        size_t at = one_in(3) ? nonzeros - 1 : below(nonzeros);
        nonzero.lent[at] = zero_draw();
        expect(9, at, 0, 0);
    }
    if (faults & FAULT(8)) {
        nonzero.len = one_in(2) ? nonzeros - 1 : below(nonzeros);
        expect(8, nonzeros, 0, 0);
    }
    if (faults & FAULT(7)) {
        mask.len = one_in(2) ? masks - 1 : below(masks);
        expect(7, masks, 0, 0);
    }
    if (faults & FAULT(6))
        make_large_entry(columns + 1);
    make_wide_length_faults(faults);
    make_wide_number_faults(&field, &shares, &rows, &columns, faults);
    call_expecting(WIDE_SOLVE);
    if ((faults & ~WIDE_NUMBER_FAULTS) != 0)
        return;
    call_expecting(WIDE_START);
    call_expecting(WIDE_COUNTS);
}

/* What refuses these numbers: 1, 2, 3, 21, or nothing. */
static void expect_wide_numbers(void)
{
    if (!is_wide_field(field))
        expect(1, field, 0, 0);
    else if (!is_number_of_shares(shares))
        expect(2, shares, 0, 0);
    else if (!is_size(rows))
        expect(3, rows, 0, 0);
    else if (!is_number_of_columns(columns))
        expect(21, columns, 0, 0);
    else
        expect(0, 0, 0, 0);
}

/* Start and counts of each number of rows, with columns at both ends of the range; and all
 * calls where the lengths are what a wrong number of rows or columns would want. */
#define ALL_WIDE_NUMBERS (99 * 3)
static void case_of_wide_numbers(uint64_t i)
{
    uint64_t row_count = i / 3, share_count = 2 + i % 3;
    uint64_t counts[] = {row_count - 1, row_count, row_count + 1, 143, 144, 145, absurd(), row_count + AT_32, 0};
    for (size_t c = 0; c < sizeof counts / sizeof counts[0]; c++) {
        field = one_in(16) ? 256 : 16;
        shares = one_in(16) ? absurd() : share_count;
        rows = row_count;
        columns = counts[c];
        fresh_wide_words();
        expect_wide_numbers();
        if (call_expecting(WIDE_START) == HZ_FRESH)
            for (size_t word = HZ_WIDE_STEP; word < HZ_WIDE_RECORD_WORDS; word++) {
                uint64_t step = rows == 1 ? HZ_CHECK : HZ_MIX, k = rows == 1 ? 0 : 2;
                uint64_t wanted = word == HZ_WIDE_STEP ? step : word == HZ_WIDE_J ? 1 : word == HZ_WIDE_K ? k : 0;
                demand(words(&wide_record)[word] == wanted, "another fresh record than at the first step");
            }
        call_expecting(WIDE_COUNTS);
        if (refusal[0] == 0 || columns > 145 || rows > 97 || rows < 1 || !is_number_of_shares(shares))
            continue;
        uint64_t set[] = {field, shares, rows, columns, HZ_CHECK, 1, 0, 0, 0, 0};
        memset(wide_record.lent, 0, bytes_of(&wide_record));
        memcpy(wide_record.lent, set, sizeof set);
        table.len = rows * (columns + 1) * shares;
        memset(table.lent, 1, table.len);
        solution.len = columns;
        call_expecting(WIDE_WANTED);
        uint64_t given = field;
        field = 16; /* for the draws */
        make_mask(model_mask_draws(16, shares, columns, HZ_CHECK, 1));
        make_nonzero(0);
        call_expecting(WIDE_STEP);
        make_mask(rows < 4 ? model_wide_mask_draws(shares, rows, columns) : SPARE);
        make_nonzero(rows * (shares - 1));
        field = given;
        call_expecting(WIDE_SOLVE);
    }
}

/* Every other number of words of record and answer; also where nothing is there, and every
 * other fault beside. */
static void case_of_wide_lengths_of_words(uint64_t i)
{
    const size_t huge[] = {HALF_WORD, HALF_WORD + HZ_WIDE_RECORD_WORDS, HALF_WORD + HZ_ANSWER_WORDS, WORDS_WRAP + 4,
                           WORDS_WRAP + HZ_WIDE_RECORD_WORDS, SIZE_MAX};
    set_wide_fault_sizes(i);
    size_t at = place_of_kind(HZ_CHECK);
    record_of(at, words(&wide_record));
    make_tapes(WIDE_STEP);
    for (int kind = WIDE_START; kind < KINDS; kind++) {
        if (kind == WIDE_SOLVE)
            make_tapes(WIDE_SOLVE);
        buffer *both[] = {&wide_record, &answer};
        size_t right[] = {HZ_WIDE_RECORD_WORDS, HZ_ANSWER_WORDS};
        for (int b = kinds[kind].lent[0] == &wide_record ? 0 : 1; b < 2; b++) {
            for (size_t len = 0; len <= both[b]->capacity; len++) {
                both[b]->len = len;
                demand(len == right[b] || call(kind) == HZ_BAD_WORDS, "wrong words are not told");
            }
            for (size_t h = 0; h < sizeof huge / sizeof huge[0]; h++) {
                claim(both[b], huge[h], 0);
                demand(call(kind) == HZ_BAD_WORDS, "wrong words are not told");
            }
            claim(both[b], right[b], right[b]);
        }
    }
    field = 0; /* before everything else */
    words(&wide_record)[HZ_WIDE_FIELD] = 0;
    answer.len = 3;
    for (int kind = WIDE_START; kind < KINDS; kind++)
        demand(call(kind) == HZ_BAD_WORDS, "wrong words are not told");
}

/* Lengths that are not true, as with the square calls. */
static const length wide_lengths[] = {
    {WIDE_STEP, &table, 4, 4},  {WIDE_STEP, &solution, 5, 5},  {WIDE_STEP, &mask, 7, 14}, {WIDE_STEP, &nonzero, 8, 15},
    {WIDE_SOLVE, &table, 4, 4}, {WIDE_SOLVE, &solution, 5, 5}, {WIDE_SOLVE, &mask, 7, 0}, {WIDE_SOLVE, &nonzero, 8, 0},
};
#define WIDE_LENGTHS (sizeof wide_lengths / sizeof wide_lengths[0])

/* Right inputs for a call, where a step stands at any place of this kind. */
static void make_wide_right(int kind, uint64_t step)
{
    fresh_wide_words();
    size_t at = place_of_kind(step);
    record_of(at, words(&wide_record));
    make_tapes(kind);
    make_later_faults(columns + 1, step, wide_list[at].row, wide_list[at].j, 0);
}

static void case_of_wide_lengths(uint64_t i)
{
    set_wide_fault_sizes(i);
    for (size_t which = 0; which < WIDE_LENGTHS; which++)
        for (size_t s = 0; s < EVERY_STEP; s++) {
            uint64_t step = every_step[s];
            if (wide_lengths[which].kind == WIDE_STEP ? !has_kind(step) : step != HZ_CHECK)
                continue;
            one_wrong_length(&wide_lengths[which], step, make_wide_right);
            all_wrong_from(&wide_lengths[which], wide_lengths + WIDE_LENGTHS, step, make_wide_right);
        }
    make_wide_right(WIDE_STEP, HZ_CHECK); /* nothing is there, and the numbers are refused before any length */
    buffer *all[] = {&table, &solution, &mask, &nonzero};
    for (int b = 0; b < 4; b++)
        claim(all[b], absurd(), 0);
    for (uint64_t number = 1; number <= 4; number++) {
        make_wide_record_faults(FAULT(number == 4 ? 21 : number));
        call_expecting(WIDE_STEP);
        record_of(0, words(&wide_record));
        uint64_t kept[] = {field, shares, rows, columns};
        make_wide_number_faults(&field, &shares, &rows, &columns, FAULT(number == 4 ? 21 : number));
        call_expecting(WIDE_SOLVE);
        field = kept[0];
        shares = kept[1];
        rows = kept[2];
        columns = kept[3];
    }
    words(&wide_record)[HZ_WIDE_STEP] = HZ_AT_STOPPED; /* 10 comes before any byte of table and tapes is looked at */
    table.len = 0;
    claim(&table, rows * (columns + 1) * shares, 0);
    claim(&solution, columns, 0);
    expect(10, 0, 0, 0);
    call_expecting(WIDE_STEP);
    for (int b = 0; b < 4; b++)
        all[b]->more = 0;
}

/* Which cell: the first byte of 16 or more at each place of a table, or at some of a large
 * one. */
static void large_wide_byte(size_t at, uint64_t r, uint64_t c, uint64_t s)
{
    memcpy(table.lent, wide_first_table, table.len);
    plant_large(&table, at);
    expect(6, r, c, s);
    if (mask_has_room()) {
        make_tapes(WIDE_SOLVE);
        if (rows < 20) {
            stretch(&mask, wrong_length(mask.len));
            stretch(&nonzero, wrong_length(nonzero.len));
        }
        call_expecting(WIDE_SOLVE);
    }
    for (size_t kind = 0; kind < WIDE_STEPS; kind++) {
        size_t place = any_wide_of(wide_steps[kind]);
        if (place == wide_list_len || !is_step(wide_steps[kind]))
            continue;
        record_of(place, words(&wide_record));
        make_tapes(WIDE_STEP);
        if (one_in(2))
            stretch(&mask, wrong_length(mask.len));
        call_expecting(WIDE_STEP);
    }
}

static const uint64_t sizes_of_wide_cells[][2] = {{1, 1}, {1, 4}, {2, 3}, {3, 4}, {96, 144}};
#define ALL_WIDE_CELLS (3 * sizeof sizes_of_wide_cells / sizeof sizes_of_wide_cells[0])
static void case_of_wide_cells(uint64_t i)
{
    field = 16;
    shares = 2 + i % 3;
    rows = sizes_of_wide_cells[i / 3][0];
    columns = sizes_of_wide_cells[i / 3][1];
    fresh_wide_words();
    choose_rank(true);
    make_wide_system();
    make_wide_list();
    memcpy(wide_first_table, table.lent, table.len);
    size_t at = 0, count = rows * (columns + 1) * shares;
    for (uint64_t r = 1; r <= rows; r++)
        for (uint64_t c = 1; c <= columns + 1; c++)
            for (uint64_t s = 1; s <= shares; s++, at++)
                if (rows < 96 || at == 0 || at == count - 1 || one_in(count / 3))
                    large_wide_byte(at, r, c, s);
}

/* Every set of tapes at every place of a few lists, and of whole solves. */
#define ALL_WIDE_TAPES (3 * 4)
static void case_of_wide_tapes(uint64_t i)
{
    static const uint64_t sizes[][2] = {{1, 2}, {2, 2}, {2, 3}, {3, 4}};
    field = 16;
    shares = 2 + i % 3;
    rows = sizes[i / 3][0];
    columns = sizes[i / 3][1];
    fresh_wide_words();
    choose_rank(one_in(2));
    make_wide_system();
    make_wide_list();
    memcpy(wide_first_table, table.lent, table.len);
    for (size_t at = 0; at + 1 < wide_list_len; at++)
        for (uint64_t set = 0; set < 2 * TAPE_SETS; set++) {
            const wide_place *p = &wide_list[at];
            memcpy(table.lent, wide_first_table, table.len);
            record_of(at, words(&wide_record));
            mask.len = nonzero.len = 0;
            expect(0, 0, 0, 0);
            make_later_faults(columns + 1, p->step, p->row, p->j, set < TAPE_SETS ? 0 : FAULT(12) | FAULT(20));
            call_with_tapes(WIDE_STEP, set % TAPE_SETS);
        }
    for (uint64_t set = 0; set < TAPE_SETS; set++) {
        make_wide_system();
        expect(0, 0, 0, 0);
        call_with_tapes(WIDE_SOLVE, set);
    }
}

/* ---- Scale and Lift ---- */

/* Scale of a pivot that is 0 tells its row and its column, which are seldom the same. */
static void case_of_wide_pivots(uint64_t i)
{
    (void)i;
    choose_wide_sizes(one_in(8) ? 30 : 6, 12);
    size_t at = place_of_kind(HZ_SCALE);
    fresh_wide_words();
    for (size_t p = 0; p < wide_list_len; p++)
        if (p == at || (rows <= 6 && wide_list[p].step == HZ_SCALE)) {
            wide_step_at(p, FAULT(12), 0);
            wide_step_at(p, 0, 0);
        }
}
#define ALL_WIDE_PIVOTS 120

/* The table becomes what Lift of this byte leaves: row k of b takes x times the entry of
 * column j, in the rows above the pivot's. */
static void lift_wide_by_hand(const wide_place *p, uint8_t x)
{
    for (uint64_t k = 1; k < p->row; k++)
        for (uint64_t s = 0; s < shares; s++)
            wide_cell(k, columns + 1)[s] ^= model_times(field, x, wide_cell(k, p->j)[s]);
}

static uint64_t wide_lifts_tampered, wide_lifts_refused;

/* Lift at this place with this byte, where Open wrote another one, or none. */
static void wide_lift_of(size_t at, uint8_t byte)
{
    const wide_place *p = &wide_list[at];
    uint8_t kept[144];
    memcpy(table.lent, wide_first_table, table.len);
    lift_wide_by_hand(p, byte);
    memcpy(wide_stepped_table, table.lent, table.len);
    memcpy(table.lent, wide_first_table, table.len);
    for (uint64_t c = 0; c < columns; c++)
        solution.lent[c] = one_in(2) ? too_large() : (uint8_t)any();
    solution.lent[p->j - 1] = byte;
    memcpy(kept, solution.lent, columns);
    record_of(at, words(&wide_record));
    make_mask(0);
    make_nonzero(0);
    expect(byte >= 16 ? 20 : 0, byte >= 16 ? p->j : 0, 0, 0);
    uint64_t code = call_wide_step();
    demand(memcmp(solution.lent, kept, columns) == 0, "Lift wrote into the solution");
    wide_lifts_refused += byte >= 16;
    if (byte >= 16)
        return;
    wide_lifts_tampered++;
    demand(code == HZ_MOVED, "Lift does not answer moved");
    demand(memcmp(table.lent, wide_stepped_table, table.len) == 0, "another table than R-7's, by the pivot's row");
    demand_wide_place(at + 1);
}

#define ALL_WIDE_LIFTS (3 * 8)
static void case_of_wide_lifts(uint64_t i)
{
    choose_wide_sizes(i < 21 ? 5 : 40, i < 21 ? 6 : 60);
    shares = 2 + i % 3;
    rows += rows == 1;
    columns = columns < rows ? rows : columns;
    fresh_wide_words();
    choose_rank(true);
    make_wide_system();
    make_wide_list();
    memcpy(wide_first_table, table.lent, table.len);
    for (size_t at = 0; at < wide_list_len; at++)
        for (unsigned byte = 0; wide_list[at].step == HZ_LIFT && byte < 256; byte++)
            if (byte < 18 || byte % 16 == 0 || (rows < 6 && one_in(4)) || byte == 255)
                wide_lift_of(at, (uint8_t)byte);
}

/* Runs in which the host changes what Open wrote before Lift takes it: each unknown is then
 * that of the equations with the bytes lifted. */
#define ALL_WIDE_TAMPERED 60
static void case_of_wide_tampered(uint64_t i)
{
    uint8_t lifted_bytes[144];
    choose_wide_sizes(i % 10 == 0 ? 20 : 6, 8);
    choose_rank(true);
    make_wide_system();
    make_wide_list();
    fresh_wide_words();
    size_t at = 0;
    while (wide_list[at].step != HZ_OPEN)
        at++;
    for (uint64_t r = 1; r <= rows; r++) /* any table will do: what the columns say is asked at the end */
        for (uint64_t c = 1; c <= columns + 1; c++)
            *wide_value(r - 1, c - 1) = wide_cell_value(r, c);
    record_of(at, words(&wide_record));
    for (; at + 1 < wide_list_len; at++) {
        const wide_place *p = &wide_list[at];
        demand_wide_place(at);
        make_tapes(WIDE_STEP);
        expect(0, 0, 0, 0);
        if (p->step == HZ_LIFT)
            solution.lent[p->j - 1] = lifted_bytes[p->row - 1] = element();
        call_wide_step();
        if (p->step != HZ_OPEN)
            continue;
        uint8_t x = *wide_value(p->row - 1, columns);
        for (uint64_t later = p->row + 1; later <= rows; later++)
            x ^= model_times(16, *wide_value(p->row - 1, known_pivots[later - 1] - 1), lifted_bytes[later - 1]);
        demand(words(&answer)[1] == x && solution.lent[p->j - 1] == x, "another unknown than that of the bytes lifted");
    }
}

/* ---- Examples of R-8 ---- */

/* What a whole solve wants. */
static const struct {
    uint64_t shares, rows, columns, mask, nonzero;
} wide_count_vectors[] = {
    {2, 2, 3, 71, 2},
    {3, 2, 3, 216, 4},
    {4, 96, 144, 12528144, 288},
};
#define ALL_WIDE_COUNT_VECTORS (sizeof wide_count_vectors / sizeof wide_count_vectors[0])
static void case_of_wide_count_vectors(uint64_t i)
{
    uint64_t told[HZ_ANSWER_WORDS] = {wide_count_vectors[i].mask, wide_count_vectors[i].nonzero};
    field = 16;
    shares = wide_count_vectors[i].shares;
    rows = wide_count_vectors[i].rows;
    columns = wide_count_vectors[i].columns;
    fresh_wide_words();
    demand(call(WIDE_COUNTS) == HZ_WANTED && memcmp(answer.lent, told, sizeof told) == 0,
           "other draws wanted than R-8's");
}

/* What a solve of two rows and three columns in two shares takes, by its pivots. */
static const struct {
    uint64_t rank, pivots[2];
    uint64_t counts[3]; /* steps, mask, nonzero */
} wide_pattern_vectors[] = {
    {0, {0}, {6, 36, 0}},    {1, {1}, {6, 37, 1}},     {1, {2}, {7, 41, 1}},     {1, {3}, {8, 44, 1}},
    {2, {1, 2}, {9, 42, 2}}, {2, {1, 3}, {10, 45, 2}}, {2, {2, 3}, {11, 49, 2}},
};
#define ALL_WIDE_PATTERN_VECTORS (sizeof wide_pattern_vectors / sizeof wide_pattern_vectors[0])
static void case_of_wide_pattern_vectors(uint64_t i)
{
    field = 16;
    shares = rows = 2;
    columns = 3;
    known_rank = wide_pattern_vectors[i].rank;
    memcpy(known_pivots, wide_pattern_vectors[i].pivots, sizeof wide_pattern_vectors[i].pivots);
    make_wide_system();
    make_wide_list();
    make_tapes(WIDE_SOLVE);
    fresh_wide_words();
    solve_wide_and_check();
    demand(memcmp(answer.lent, wide_pattern_vectors[i].counts, sizeof wide_pattern_vectors[i].counts) == 0,
           "other counts than R-8's");
}

/* Systems with their answer, dealt with draws (3+5i) mod 16, and tapes as with R-7's. */
static const struct {
    uint64_t shares, rows, columns;
    uint8_t values[8];
    uint64_t code, rank, pivots[2];
    uint8_t x[3];
    uint64_t counts[3];
    const char *table;       /* in hex, after the solve, or NULL */
    uint64_t last_step;      /* that a run by steps does */
    uint64_t mask_taken[11]; /* by the record at each place, or none */
} wide_vectors[] = {
    {2, 1, 2, {0, 3, 5}, HZ_SOLVED, 1, {2}, {0, 3}, {4, 17, 1}, "030303020a09", HZ_OPEN, {0}},
    {2, 2, 3, {1, 2, 3, 4, 5, 6, 7, 8}, HZ_SOLVED, 2, {1, 2}, {15, 12, 0}, {9, 42, 2}, NULL, HZ_OPEN, {0}},
    {2, 2, 3, {1, 2, 1, 5, 2, 4, 3, 7}, HZ_SOLVED, 2, {1, 3}, {8, 0, 13}, {10, 45, 2},
     "0001090b0504070f03030c0c01000b06", HZ_OPEN, {0, 8, 13, 23, 27, 32, 37, 43, 44, 44, 45}},
    {2, 2, 3, {0, 0, 0, 1, 0, 0, 1, 1}, HZ_SHORT, 1, {3}, {0}, {8, 44, 1}, NULL, HZ_CLEAR, {0}},
    {3, 2, 3, {0, 1, 2, 3, 0, 2, 4, 6}, HZ_SHORT, 1, {2}, {0}, {7, 124, 2}, NULL, HZ_CHECK, {0}},
};
#define ALL_WIDE_VECTORS (sizeof wide_vectors / sizeof wide_vectors[0])

static void deal_wide_vector(uint64_t i)
{
    uint64_t drawn = 0;
    values.len = rows * (columns + 1);
    memcpy(values.lent, wide_vectors[i].values, values.len);
    table.len = values.len * shares;
    for (size_t e = 0; e < values.len; e++) {
        table.lent[e * shares] = values.lent[e];
        for (uint64_t s = 1; s < shares; s++) {
            table.lent[e * shares + s] = (uint8_t)((3 + 5 * drawn++) % 16);
            table.lent[e * shares] ^= table.lent[e * shares + s];
        }
    }
}

static void make_vector_tapes(uint64_t masks, uint64_t masks_before, uint64_t nonzeros, uint64_t nonzeros_before)
{
    mask.len = masks;
    nonzero.len = nonzeros;
    for (size_t b = 0; b < masks; b++)
        mask.lent[b] = (uint8_t)(7 + 9 * (masks_before + b));
    for (size_t b = 0; b < nonzeros; b++)
        nonzero.lent[b] = (uint8_t)(1 + (2 + 3 * (nonzeros_before + b)) % 15);
}

static void case_of_wide_vectors(uint64_t i)
{
    static const uint8_t untouched[] = {0xee, 0xee, 0xee};
    uint64_t last_step = 0, place = 0, code;
    field = 16;
    shares = wide_vectors[i].shares;
    rows = wide_vectors[i].rows;
    columns = wide_vectors[i].columns;
    known_rank = wide_vectors[i].rank;
    memcpy(known_pivots, wide_vectors[i].pivots, sizeof wide_vectors[i].pivots);
    memcpy(known_wide_x, wide_vectors[i].x, columns);
    deal_wide_vector(i);
    make_wide_list();
    fresh_wide_words();
    solution.len = columns;
    memcpy(solution.lent, untouched, columns);
    make_vector_tapes(model_wide_mask_draws(shares, rows, columns), 0, rows * (shares - 1), 0);
    solve_wide_and_check();
    demand(memcmp(answer.lent, wide_vectors[i].counts, sizeof wide_vectors[i].counts) == 0, "other counts than R-8's");
    if (wide_vectors[i].table != NULL)
        demand_table(wide_vectors[i].table, "another table than R-8's");
    memcpy(wide_stepped_table, table.lent, table.len);

    deal_wide_vector(i);
    memcpy(solution.lent, untouched, columns);
    demand(call(WIDE_START) == HZ_FRESH, "no fresh record");
    uint64_t *r = words(&wide_record);
    do {
        if (wide_vectors[i].mask_taken[10] != 0)
            demand(r[HZ_WIDE_MASK_TAKEN] == wide_vectors[i].mask_taken[place], "another mask counter than R-8's");
        demand_wide_place(place++);
        demand(call(WIDE_WANTED) == HZ_WANTED, "not told what the step wants");
        make_vector_tapes(words(&answer)[0], r[HZ_WIDE_MASK_TAKEN], words(&answer)[1], r[HZ_WIDE_NONZERO_TAKEN]);
        last_step = r[HZ_WIDE_STEP];
        expect(0, 0, 0, 0);
        code = call_wide_step();
    } while (code == HZ_MOVED || code == HZ_OPENED);
    demand(code == (known_rank == rows ? HZ_DONE : HZ_SHORT) && last_step == wide_vectors[i].last_step,
           "another end than R-8's");
    demand(r[HZ_WIDE_MASK_TAKEN] == wide_vectors[i].counts[1], "another mask counter than R-8's");
    demand(memcmp(table.lent, wide_stepped_table, table.len) == 0, "another table than after the whole solve");
    for (uint64_t c = 0; c < columns; c++) {
        bool written = false;
        for (uint64_t p = 0; p < known_rank && known_rank == rows; p++)
            written = written || known_pivots[p] == c + 1;
        demand(solution.lent[c] == (written ? known_wide_x[c] : 0xee), "another solution than R-8's");
    }
}

/* ---- Large systems ---- */

/* Runs by steps. */
static const struct {
    uint64_t shares, rows, columns;
    bool full;
} large_wide_runs[] = {
    {3, 40, 72, false}, {4, 33, 144, true}, {2, 96, 144, true},
};
#define ALL_LARGE_WIDE_RUNS (sizeof large_wide_runs / sizeof large_wide_runs[0])
static void case_of_large_wide_runs(uint64_t i)
{
    field = 16;
    shares = large_wide_runs[i].shares;
    rows = large_wide_runs[i].rows;
    columns = large_wide_runs[i].columns;
    choose_pivots(large_wide_runs[i].full ? rows : rows - 1);
    wide_trace(256);
}

/* Whole solves. */
static const struct {
    uint64_t shares, rows, columns;
    bool full;
} large_wide[] = {
    {2, 96, 144, true}, {3, 96, 144, true},  {4, 96, 144, true},  {2, 96, 144, false}, {3, 96, 144, false},
    {4, 96, 144, false}, {2, 96, 96, true},  {4, 96, 97, true},   {3, 95, 144, true},  {4, 1, 144, true},
    {2, 1, 144, false},  {3, 2, 144, true},  {2, 48, 144, true},  {3, 64, 81, false},  {4, 17, 144, false},
};
#define ALL_LARGE_WIDE (sizeof large_wide / sizeof large_wide[0])
static void case_of_large_wide(uint64_t i)
{
    field = 16;
    shares = large_wide[i].shares;
    rows = large_wide[i].rows;
    columns = large_wide[i].columns;
    wide_solve_of(large_wide[i].full ? rows : rows - 1);
}

/* Of the most rows some steps of every kind, on late columns if there are such, alone and
 * with faults. */
#define LARGE_STEP_ROUNDS 10
#define ALL_LARGE_WIDE_STEPS (3 * 2 * LARGE_STEP_ROUNDS)
static void case_of_large_wide_steps(uint64_t i)
{
    field = 16;
    shares = 2 + i % 3;
    rows = 96;
    columns = i / 6 == 0 ? 144 : 98 + below(47);
    bool full = i / 3 % 2 == 0;
    uint64_t rank = full ? rows : rows - 1 - below(3);
    choose_pivots_from(one_in(2) ? columns - rank + 1 : 1, rank);
    make_wide_system();
    make_wide_list();
    memcpy(wide_first_table, table.lent, table.len);
    fresh_wide_words();
    for (size_t kind = 0; kind < WIDE_STEPS; kind++)
        for (int round = 0; round < 3; round++) {
            size_t at = any_wide_of(wide_steps[kind]);
            for (int tries = 0; at != wide_list_len && wide_list[at].j < 98 && tries < 20; tries++)
                at = any_wide_of(wide_steps[kind]);
            if (at == wide_list_len)
                continue;
            wide_wanted_at(at, 0, 0);
            wide_step_at(at, 0, 0);
            wide_step_at(at, FAULT(12), 0);
            int counters = 1 + (int)below(WIDE_COUNTER_KINDS - 1);
            wide_step_at(at, FAULT(ONE_OF(wide_step_faults)), counters);
            wide_step_at(at, FAULT(10), 0);
            wide_wanted_at(at, FAULT(one_in(2) ? 10 : 19), counters);
        }
}

static void keep_least(uint64_t *least, uint64_t count)
{
    if (count < *least)
        *least = count;
}

/* How often the rarest of these refusals of a call came up, or fewer. */
static void least_refused(uint64_t *least, int kind, const uint64_t *numbers, size_t count)
{
    for (size_t i = 0; i < count; i++)
        keep_least(least, refused_by[kind][numbers[i]]);
}

/* What a run of all wide systems must have gone through. */
static void look_back_wide(void)
{
    static const uint64_t of_all[] = {1, 2, 3, 21}, of_records[] = {10, 19, 11};
    uint64_t sum = 0, steps = UINT64_MAX, late = UINT64_MAX, solves = UINT64_MAX, refused = UINT64_MAX;
    for (int kind = WIDE_START; kind < KINDS; kind++) {
        sum += calls_of[kind];
        least_refused(&refused, kind, of_all, sizeof of_all / sizeof of_all[0]);
    }
    least_refused(&refused, WIDE_WANTED, of_records, sizeof of_records / sizeof of_records[0]);
    least_refused(&refused, WIDE_STEP, of_records, sizeof of_records / sizeof of_records[0]);
    least_refused(&refused, WIDE_STEP, wide_step_faults, WIDE_STEP_FAULTS);
    least_refused(&refused, WIDE_SOLVE, faults_of_wide_solve, sizeof faults_of_wide_solve / sizeof(uint64_t));
    for (int n = 2; n <= 4; n++) {
        for (size_t s = 0; s < EVERY_STEP; s++) {
            keep_least(&steps, wide_steps_made[every_step[s]][n - 2]);
            keep_least(&late, late_steps_made[every_step[s]][n - 2]);
        }
        keep_least(&solves, wide_solves_made[false][n - 2]);
        keep_least(&solves, wide_solves_made[true][n - 2]);
    }
    printf("wide calls were compared %" PRIu64 " times: in each number of shares each kind of step at least %" PRIu64
           " times, on columns beyond 97 %" PRIu64 ", whole solves, solved and short, %" PRIu64
           "; each refusal of each call at least %" PRIu64 "; Lift took %" PRIu64
           " bytes that Open had not written, and refused %" PRIu64 "\n",
           sum, steps, late, solves, refused, wide_lifts_tampered, wide_lifts_refused);
    tell_left_out();
    if (sum >= 50000 && steps >= 1000 && late >= 30 && solves >= 400 && refused >= 100 && wide_lifts_tampered >= 1000
        && wide_lifts_refused >= 1000)
        return;
    printf("these are too few\n");
    printf("%" PRIu64 " passed, 1 failed\n", calls);
    exit(1);
}

/* The cases in the order of their numbers, which go on from those of square systems. */
static const kind_of_case wide_cases[] = {
    {ALL_WIDE_COUNT_VECTORS, case_of_wide_count_vectors},
    {ALL_WIDE_PATTERN_VECTORS, case_of_wide_pattern_vectors},
    {ALL_WIDE_VECTORS, case_of_wide_vectors},
    {ALL_WIDE_PLACES, case_of_wide_places},
    {ALL_WIDE_NUMBERS, case_of_wide_numbers},
    {3 * WIDE_FAULT_SIZES, case_of_wide_lengths_of_words},
    {3 * WIDE_FAULT_SIZES, case_of_wide_lengths},
    {ALL_PATTERNS, case_of_wide_patterns},
    {ALL_WIDE_WORDS, case_of_wide_words},
    {ALL_WIDE_FAULTS, case_of_wide_faults},
    {ALL_WIDE_SOLVE_FAULTS, case_of_wide_solve_faults},
    {ALL_WIDE_TAPES, case_of_wide_tapes},
    {ALL_WIDE_PIVOTS, case_of_wide_pivots},
    {ALL_WIDE_LIFTS, case_of_wide_lifts},
    {ALL_WIDE_TAMPERED, case_of_wide_tampered},
    {ALL_WIDE_SQUARES, case_of_wide_squares},
    {ALL_MADE_UP_WIDE, case_of_made_up_wide},
    {ALL_WIDE_RUNS, case_of_wide_runs},
    {ALL_WIDE_SOLVES, case_of_wide_solves},
    {ALL_WIDE_CELLS, case_of_wide_cells},
    {ALL_LARGE_WIDE_STEPS, case_of_large_wide_steps},
    {ALL_LARGE_WIDE_RUNS, case_of_large_wide_runs},
    {ALL_LARGE_WIDE, case_of_large_wide},
};
