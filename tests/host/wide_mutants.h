/* Wrong calls for wide systems, for mutants.c, which has what they share with the
 * others, `whole` and `past` too. MUTANT names, where CALL is a call by its name:
 *
 *     wide by steps          small whole solves are done by the library's steps, which is no fault
 *     LATER before SOONER CALL  of two numbers that apply the later one in the call's order is told
 *     also NUMBER NAME CALL  takes what is refused by 1, 3 or 21: field 256; rows 97; columns 145; fewer columns
 *     rows in 21 CALL        21 tells the rows
 *     offset CALL, column first CALL, share from 0 CALL  6 is told wrong, as with R-2
 *     width of rows CALL     6 is told of a table as wide as it has rows
 *
 * of hz_wide_start:
 *
 *     leaves slots, leaves found, leaves wide counters  words of the record stay as they were
 *     starts at Check        also where there are rows to mix; and starts at Mix, where there are none
 *     numbers exchanged      rows and columns of the record
 *
 * of hz_wide_counts:
 *
 *     wanted by rows CALL    of a square system of so many rows; hz_wide_solve takes such a tape
 *     without Open CALL      N mask draws a row are left out, likewise
 *     last row for row 1     the draws of a column as if the last row took its pivot
 *     nonzero by columns     n-1 nonzero draws a column
 *     wide exchanged         the nonzero draws first
 *
 * of hz_wide_solve:
 *
 *     leaves other bytes     does not write where no pivot is
 *     leaves the last byte   does not write there, where the last column is no pivot
 *     short leaves bytes     leaves the solution where it is short
 *     short leaves unknowns  and has written an unknown there
 *     short as solved, solved as short, short as stopped
 *     short at once          the first column that is passed over ends it
 *     tells what was wanted  counts the draws lent
 *     nonzero of every row   and of the nonzero ones M(n-1)
 *     steps without Lift, steps with all Lifts, steps of the base
 *     one step more          where a short system ends with Check
 *     9 of all lent          refuses a zero draw beyond those wanted
 *     9 of the taken         takes one that is not needed by these pivots
 *     longer refused mask, longer refused nonzero  tapes that are longer
 *     table as it was        leaves the table
 *     Lift of the first x    the table is lifted by it
 *
 * of hz_wide_step, and of hz_wide_wanted where CALL is said:
 *
 *     passed over is short   a Check that opens 1 answers short
 *     passed over stops      it answers stopped, and passed over opens: opened
 *     passed over is kept    as a pivot
 *     passed over not counted  its draws are not
 *     passed over at last    a Check of the last column that opens 1 answers moved
 *     kept before Check      the pivot is in the record that stands at its Check
 *     kept after Scale       it is not in the one that stands at Scale
 *     Lift of the first      Open of the first pivot leads to its Lift
 *     no Lift                Open leads to the next Open
 *     Open of the next column  Lift leads to the Open of column j-1
 *     Lift by the column     Lift takes the rows above row j
 *     Lift reads by the row  it takes the byte of its row; Open writes by the row: there
 *     Open tells the row     in place of the column
 *     done tells x alone     as hz_step does; done tells less: all 0
 *     done empties           the last Open writes 0 where no pivot is
 *     Open empties           every Open writes 0 in the byte before its own
 *     short at Check alone   a Clear that ends the run answers moved
 *     short opens            the record goes to Open; short stays: at its step
 *     short with j           the record at short keeps j
 *     short tells j          in the answer
 *     short empties          the solution
 *     short undoes           what the Clear did
 *     works on row j         Mix and Clear take row j for the pivot's row
 *     Clear from row 2       the place after Scale is Clear of row 2; Mix from row 2 likewise
 *     L of rows CALL         the draws are those of a square system of so many rows
 *     low byte WORD CALL     only the low byte of one word is looked at: step, j, k, found or pivot
 *     low half WORD CALL     only its low half is
 *     slots CALL             unused slots are not looked at; last slot CALL: the last one
 *     any order CALL         pivots need not be ascending
 *     outside CALL           the last may be C+1
 *     too many CALL          there may be one more than rows
 *     5 is stopped CALL      a record by that number is refused by 11
 *     full and short CALL    short may have M pivots; few and done CALL: done may have fewer
 *     Scale of any CALL      Scale of a pivot that is not the last; Clear of any CALL
 *     Check behind CALL      Check of a column before the last pivot
 *     Check of all CALL      Check where there are M pivots
 *     Mix of row 1 CALL      Mix with a row that has its pivot
 *     Open of any CALL       Open of a column that is no pivot; Lift of the first CALL
 *     short with j CALL      a record at short may have a j
 *     wide place alone, wide mask moved alone  the record's counters are not moved on
 *     wide forgets 19 CALL, wide mask read alone CALL, wide nonzero read alone CALL, wide sum alone CALL,
 *     wide modulo 2^32 CALL, wide more taken CALL
 *     counters of the base CALL  takes those of the place in a square system
 *     12 tells j twice, 12 tells the row twice, 12 tells a share
 *     12 moves               the record is moved on; 7 counts: the counters are
 *     wide 20 late           the table is lifted when Lift refuses; wide forgets 20; wide 20 of every byte
 *     20 tells the row       in place of the column
 *     5 of rows CALL, 4 of a square CALL  the length that is told
 *     mask above 15          a mask byte of 16 or more is refused
 *     wide longer mask, wide longer nonzero  tapes of a step that are too long are taken */

/* ---- What a call is lent ---- */

typedef struct {
    const char *call;
    uint64_t field, n, rows, columns;
    const uint64_t *record; /* and so on: NULL where the call has none */
    const uint8_t *table, *solution, *mask, *nonzero;
    size_t table_len, solution_len, mask_len, nonzero_len;
} lent;

static bool numbers_are_right(const lent *l)
{
    return l->field == 16 && l->n >= 2 && l->n <= 4 && l->rows >= 1 && l->rows <= 96 && l->columns >= l->rows
           && l->columns <= 144;
}

static uint64_t wide_table_len(const lent *l)
{
    return l->rows * (l->columns + 1) * l->n;
}

static bool wide_ended(const uint64_t *record)
{
    return record[HZ_WIDE_STEP] == HZ_AT_SHORT || record[HZ_WIDE_STEP] == HZ_AT_DONE;
}

/* The row that stands for a record's column, where its pivots have its place. */
static uint64_t wide_row(const uint64_t *record)
{
    uint64_t row = 1;
    if (record[HZ_WIDE_STEP] <= HZ_CHECK)
        return record[HZ_WIDE_FOUND] + 1;
    while (row <= 96 && record[HZ_WIDE_PIVOTS + row - 1] != record[HZ_WIDE_J])
        row++;
    return row;
}

static uint8_t *wide_cell(const lent *l, const uint8_t *table, uint64_t row, uint64_t column)
{
    return (uint8_t *)table + ((row - 1) * (l->columns + 1) + (column - 1)) * l->n;
}

static uint8_t wide_value(const lent *l, uint64_t row, uint64_t column)
{
    uint8_t sum = 0;
    for (uint64_t s = 0; s < l->n; s++)
        sum ^= wide_cell(l, l->table, row, column)[s];
    return sum;
}

/* What the tapes must be, of a step or a whole solve. */
static uint64_t masks_wanted(const lent *l)
{
    return l->record == NULL ? model_wide_mask_draws(l->n, l->rows, l->columns)
                             : model_mask_draws(16, l->n, l->columns, l->record[HZ_WIDE_STEP], l->record[HZ_WIDE_J]);
}

static uint64_t nonzeros_wanted(const lent *l)
{
    return l->record == NULL ? l->rows * (l->n - 1) : model_nonzero_draws(l->n, l->record[HZ_WIDE_STEP]);
}

static uint64_t first_zero(const lent *l, uint64_t len)
{
    uint64_t at = 0;
    while (at < len && l->nonzero[at] % 16 != 0)
        at++;
    return at;
}

static bool wrong_counters(const lent *l)
{
    uint64_t masks, nonzeros;
    return model_wide_taken(l->record, &masks, &nonzeros)
           && (l->record[HZ_WIDE_MASK_TAKEN] != masks || l->record[HZ_WIDE_NONZERO_TAKEN] != nonzeros);
}

static bool tell(uint64_t *answer, uint64_t number, uint64_t first, uint64_t second, uint64_t third)
{
    told(HZ_REFUSED, answer, number, first, second, third);
    return true;
}

/* Whether the call could be refused by this number too, and then it is told in answer. Those
 * before it in the call's order, but for one, are known not to apply. */
static bool could_tell(const lent *l, uint64_t number, uint64_t *answer)
{
    uint64_t masks, nonzeros, step = l->record == NULL ? 0 : l->record[HZ_WIDE_STEP], large;
    switch (number) {
    case 2:
        return (l->n < 2 || l->n > 4) && tell(answer, 2, l->n, 0, 0);
    case 3:
        return (l->rows < 1 || l->rows > 96) && tell(answer, 3, l->rows, 0, 0);
    case 21:
        return (l->columns < l->rows || l->columns > 144) && tell(answer, 21, l->columns, 0, 0);
    case 4:
        return l->table_len != wide_table_len(l) && tell(answer, 4, wide_table_len(l), 0, 0);
    case 5:
        return l->solution_len != l->columns && tell(answer, 5, l->columns, 0, 0);
    case 10:
        return (l->columns > 144 || !model_wide_taken(l->record, &masks, &nonzeros)) && tell(answer, 10, 0, 0, 0);
    case 19: /* which counters a place has that there is not, nobody can say */
        return (answer[0] == 10 || wrong_counters(l)) && tell(answer, 19, 0, 0, 0);
    case 11:
        return wide_ended(l->record) && tell(answer, 11, 0, 0, 0);
    case 6:
        large = first_large(l->table, wide_table_len(l));
        if (large < wide_table_len(l))
            told_byte(l->n, l->columns, large, answer);
        return large < wide_table_len(l);
    case 7:
        return l->mask_len < masks_wanted(l) && tell(answer, 7, masks_wanted(l), 0, 0);
    case 14:
        return l->mask_len > masks_wanted(l) && tell(answer, 14, masks_wanted(l), 0, 0);
    case 8:
        return l->nonzero_len < nonzeros_wanted(l) && tell(answer, 8, nonzeros_wanted(l), 0, 0);
    case 15:
        return l->nonzero_len > nonzeros_wanted(l) && tell(answer, 15, nonzeros_wanted(l), 0, 0);
    case 9:
        return l->nonzero_len == nonzeros_wanted(l) && first_zero(l, l->nonzero_len) < l->nonzero_len
               && tell(answer, 9, first_zero(l, l->nonzero_len), 0, 0);
    case 20:
        return step == HZ_LIFT && l->solution[l->record[HZ_WIDE_J] - 1] >= 16
               && tell(answer, 20, l->record[HZ_WIDE_J], 0, 0);
    default:
        return step == HZ_SCALE && wide_value(l, wide_row(l->record), l->record[HZ_WIDE_J]) == 0
               && tell(answer, 12, wide_row(l->record), l->record[HZ_WIDE_J], 0);
    }
}

/* Where the mutant is `LATER before SOONER CALL` and it is SOONER that the call is refused by. */
static void spoil_wide_order(const lent *l, uint64_t *answer)
{
    unsigned later, sooner;
    char call[32];
    if (sscanf(named(), "%u before %u %31s", &later, &sooner, call) == 3 && strcmp(call, l->call) == 0
        && answer[0] == sooner)
        could_tell(l, later, answer);
}

/* A refusal by a number, a length or a cell is told wrong. */
static void spoil_wide_details(const lent *l, uint64_t *answer)
{
    uint64_t number = answer[0], at;
    if (fault_at("rows in 21", l->call) && number == 21)
        answer[1] = l->rows;
    if (fault_at("4 of a square", l->call) && number == 4)
        answer[1] = l->rows * (l->rows + 1) * l->n;
    if (fault_at("5 of rows", l->call) && number == 5)
        answer[1] = l->rows;
    if (fault_at("width of rows", l->call) && number == 6) {
        at = first_large(l->table, l->table_len);
        told_byte(l->n, l->rows, at, answer);
    }
    spoil_cell(l->call, l->n, l->columns, answer);
}

/* Whether a call takes numbers that are refused. */
static bool also_taken(const lent *l, const uint64_t *answer)
{
    uint64_t number = answer[0];
    return (fault_at("also 1 field 256", l->call) && number == 1 && l->field == 256)
           || (fault_at("also 3 rows 97", l->call) && number == 3 && l->rows == 97)
           || (fault_at("also 21 columns 145", l->call) && number == 21 && l->columns == 145)
           || (fault_at("also 21 fewer columns", l->call) && number == 21 && l->columns + 1 == l->rows);
}

/* ---- Start and counts ---- */

uint64_t __real_hz_wide_start(uint64_t, uint64_t, uint64_t, uint64_t, uint64_t *, size_t, uint64_t *, size_t);
uint64_t __wrap_hz_wide_start(uint64_t field, uint64_t shares, uint64_t rows, uint64_t columns, uint64_t *record,
                              size_t record_len, uint64_t *answer, size_t answer_len)
{
    WORDS(hz_wide_start, record);
    WORDS(hz_wide_start, answer);
    const lent l = {.call = "hz_wide_start", .field = field, .n = shares, .rows = rows, .columns = columns};
    uint64_t kept[HZ_WIDE_RECORD_WORDS] = {0};
    if (record_len == HZ_WIDE_RECORD_WORDS)
        memcpy(kept, record, sizeof kept);
    uint64_t code = __real_hz_wide_start(field, shares, rows, columns, record, record_len, answer, answer_len);
    if (code == HZ_REFUSED) {
        if (also_taken(&l, answer))
            return told(HZ_FRESH, answer, 0, 0, 0, 0);
        spoil_wide_order(&l, answer);
        spoil_wide_details(&l, answer);
    }
    if (code != HZ_FRESH)
        return code;
    if (fault("leaves slots"))
        memcpy(record + HZ_WIDE_PIVOTS + rows, kept + HZ_WIDE_PIVOTS + rows, (96 - rows) * sizeof *record);
    if (fault("leaves found"))
        record[HZ_WIDE_FOUND] = kept[HZ_WIDE_FOUND];
    if (fault("leaves wide counters"))
        memcpy(record + HZ_WIDE_MASK_TAKEN, kept + HZ_WIDE_MASK_TAKEN, 2 * sizeof *record);
    if (fault("starts at Check")) {
        record[HZ_WIDE_STEP] = HZ_CHECK;
        record[HZ_WIDE_K] = 0;
    }
    if (fault("starts at Mix")) {
        record[HZ_WIDE_STEP] = HZ_MIX;
        record[HZ_WIDE_K] = 2;
    }
    if (fault("numbers exchanged")) {
        record[HZ_WIDE_ROWS] = columns;
        record[HZ_WIDE_COLUMNS] = rows;
    }
    return code;
}

/* The mask draws of all steps as if the last row took every pivot. */
static uint64_t draws_of_last_row(uint64_t n, uint64_t rows, uint64_t columns)
{
    uint64_t sum = rows * n * (n - 1) / 2;
    for (uint64_t j = 1; j <= columns; j++)
        sum += model_mask_draws(16, n, columns, HZ_CHECK, j) + model_mask_draws(16, n, columns, HZ_SCALE, j);
    return sum;
}

uint64_t __real_hz_wide_counts(uint64_t, uint64_t, uint64_t, uint64_t, uint64_t *, size_t);
uint64_t __wrap_hz_wide_counts(uint64_t field, uint64_t shares, uint64_t rows, uint64_t columns, uint64_t *answer,
                               size_t answer_len)
{
    WORDS(hz_wide_counts, answer);
    const lent l = {.call = "hz_wide_counts", .field = field, .n = shares, .rows = rows, .columns = columns};
    uint64_t code = __real_hz_wide_counts(field, shares, rows, columns, answer, answer_len);
    if (code == HZ_REFUSED) {
        if (also_taken(&l, answer))
            return told(HZ_WANTED, answer, 0, 0, 0, 0);
        spoil_wide_order(&l, answer);
        spoil_wide_details(&l, answer);
    }
    if (code != HZ_WANTED)
        return code;
    if (fault("wanted by rows hz_wide_counts"))
        answer[0] = model_wide_mask_draws(shares, rows, rows);
    if (fault("without Open hz_wide_counts"))
        answer[0] -= rows * shares * (shares - 1) / 2;
    if (fault("last row for row 1"))
        answer[0] = draws_of_last_row(shares, rows, columns);
    if (fault("nonzero by columns"))
        answer[1] = columns * (shares - 1);
    if (fault("wide exchanged"))
        told(HZ_WANTED, answer, answer[1], answer[0], 0, 0);
    return code;
}

/* ---- Places ---- */

/* Whether a mutant by this name is meant for this call and this word: WHICH WORD CALL. */
static bool fault_in(const char *which, const char *word, const char *call)
{
    char name[64];
    snprintf(name, sizeof name, "%s %s", which, word);
    return fault_at(name, call);
}

/* A word as a call sees it that looks at a part of it alone. */
static uint64_t part_of(const char *word, const char *call, uint64_t whole)
{
    if (whole <= 0xff)
        return whole; /* as of most slots */
    return fault_in("low byte", word, call) ? whole & 0xff : fault_in("low half", word, call) ? (uint32_t)whole : whole;
}

static void sort_words(uint64_t *first, uint64_t count)
{
    for (uint64_t i = 1; i < count; i++)
        for (uint64_t k = i; k > 0 && first[k - 1] > first[k]; k--) {
            uint64_t kept = first[k];
            first[k] = first[k - 1];
            first[k - 1] = kept;
        }
}

/* The record as a call sees it that does not look at it closely. */
static void seen_record(const char *call, uint64_t *r)
{
    uint64_t *pivots = r + HZ_WIDE_PIVOTS;
    r[HZ_WIDE_STEP] = part_of("step", call, r[HZ_WIDE_STEP]);
    r[HZ_WIDE_J] = part_of("j", call, r[HZ_WIDE_J]);
    r[HZ_WIDE_K] = part_of("k", call, r[HZ_WIDE_K]);
    r[HZ_WIDE_FOUND] = part_of("found", call, r[HZ_WIDE_FOUND]);
    for (uint64_t slot = 0; slot < 96; slot++) {
        pivots[slot] = part_of("pivot", call, pivots[slot]);
        if ((fault_at("slots", call) && slot >= r[HZ_WIDE_FOUND]) || (fault_at("last slot", call) && slot == 95))
            pivots[slot] = 0;
    }
    if (fault_at("any order", call) && r[HZ_WIDE_FOUND] <= 96)
        sort_words(pivots, r[HZ_WIDE_FOUND]);
    if (fault_at("short with j", call) && r[HZ_WIDE_STEP] == HZ_AT_SHORT)
        r[HZ_WIDE_J] = 0;
}

/* Whether a call takes a record that is refused by 10, at a step of the list. */
static bool place_taken(const lent *l)
{
    const uint64_t *r = l->record, *pivots = r + HZ_WIDE_PIVOTS;
    uint64_t step = r[HZ_WIDE_STEP], j = r[HZ_WIDE_J], k = r[HZ_WIDE_K], found = r[HZ_WIDE_FOUND];
    uint64_t last = 0, ascends = 0;
    bool among = false;
    while (ascends < found && ascends < 96 && pivots[ascends] > last && pivots[ascends] <= l->columns + 1) {
        last = pivots[ascends++];
        among = among || last == j;
    }
    bool unused = true;
    for (uint64_t slot = ascends; slot < 96; slot++)
        unused = unused && pivots[slot] == 0;
    if (ascends != found || !unused || found == 0)
        return false;
    bool outside = last > l->columns, many = found > l->rows;
    if (outside || many)
        return (fault_at("outside", l->call) && outside && !many && step == HZ_SCALE && j == last && k == 0)
               || (fault_at("too many", l->call) && many && !outside && step == HZ_SCALE && j == last && k == 0);
    bool full = found == l->rows, column = j >= 1 && j <= l->columns;
    return (fault_at("Scale of any", l->call) && step == HZ_SCALE && among && k == 0)
           || (fault_at("Clear of any", l->call) && step == HZ_CLEAR && among && k > found && k <= l->rows)
           || (fault_at("Check behind", l->call) && step == HZ_CHECK && !full && column && k == 0)
           || (fault_at("Check of all", l->call) && step == HZ_CHECK && full && column && j > last && k == 0)
           || (fault_at("Mix of row 1", l->call) && step == HZ_MIX && !full && column && j > last && k == 1)
           || (fault_at("Open of any", l->call) && step == HZ_OPEN && full && column && k == 0)
           || (fault_at("Lift of the first", l->call) && step == HZ_LIFT && full && j == pivots[0] && k == 0);
}

/* Whether a call takes counters that are refused by 19. */
static bool counters_taken(const lent *l)
{
    const uint64_t *r = l->record;
    uint64_t mask = r[HZ_WIDE_MASK_TAKEN], nonzero = r[HZ_WIDE_NONZERO_TAKEN], masks, nonzeros, of_base, of_base_too;
    model_wide_taken(r, &masks, &nonzeros);
    bool in_base = model_taken(16, l->n, l->rows, r[HZ_WIDE_STEP], r[HZ_WIDE_J], r[HZ_WIDE_K], &of_base, &of_base_too);
    return fault_at("wide forgets 19", l->call) || (fault_at("wide mask read alone", l->call) && mask == masks)
           || (fault_at("wide nonzero read alone", l->call) && nonzero == nonzeros)
           || (fault_at("wide sum alone", l->call) && mask + nonzero == masks + nonzeros)
           || (fault_at("wide modulo 2^32", l->call) && (uint32_t)mask == masks && (uint32_t)nonzero == nonzeros)
           || (fault_at("wide more taken", l->call) && mask >= masks && nonzero >= nonzeros)
           || (fault_at("counters of the base", l->call) && in_base && mask == of_base && nonzero == of_base_too);
}

/* A refusal by 10 becomes one by 11. */
static void spoil_wide_place(const lent *l, uint64_t *answer)
{
    uint64_t step = l->record[HZ_WIDE_STEP], found = l->record[HZ_WIDE_FOUND];
    bool ends = l->record[HZ_WIDE_J] == 0 && l->record[HZ_WIDE_K] == 0;
    if (answer[0] == 10
        && ((fault_at("5 is stopped", l->call) && step == HZ_AT_STOPPED)
            || (fault_at("full and short", l->call) && step == HZ_AT_SHORT && ends && found == l->rows)
            || (fault_at("few and done", l->call) && step == HZ_AT_DONE && ends && found < l->rows)))
        answer[0] = 11;
}

uint64_t __real_hz_wide_wanted(const uint64_t *, size_t, uint64_t *, size_t);
uint64_t __wrap_hz_wide_wanted(const uint64_t *record, size_t record_len, uint64_t *answer, size_t answer_len)
{
    WORDS(hz_wide_wanted, record);
    WORDS(hz_wide_wanted, answer);
    uint64_t code = __real_hz_wide_wanted(record, record_len, answer, answer_len);
    if (code == HZ_BAD_WORDS)
        return code;
    const lent l = {.call = "hz_wide_wanted", .field = record[HZ_WIDE_FIELD], .n = record[HZ_WIDE_SHARES],
                    .rows = record[HZ_WIDE_ROWS], .columns = record[HZ_WIDE_COLUMNS], .record = record};
    if (code == HZ_WANTED) {
        if (fault("L of rows hz_wide_wanted"))
            answer[0] = model_mask_draws(16, l.n, l.rows, record[HZ_WIDE_STEP], record[HZ_WIDE_J]);
        return code;
    }
    if (also_taken(&l, answer) || (answer[0] == 10 && place_taken(&l)) || (answer[0] == 19 && counters_taken(&l)))
        return told(HZ_WANTED, answer, 0, 0, 0, 0);
    if (answer[0] == 10) {
        uint64_t seen[HZ_WIDE_RECORD_WORDS], told_too[HZ_ANSWER_WORDS];
        memcpy(seen, record, sizeof seen);
        seen_record(l.call, seen);
        if (__real_hz_wide_wanted(seen, record_len, told_too, answer_len) == HZ_WANTED || told_too[0] == 11)
            return told(HZ_WANTED, answer, 0, 0, 0, 0);
        spoil_wide_place(&l, answer);
    }
    spoil_wide_order(&l, answer);
    spoil_wide_details(&l, answer);
    return code;
}

/* ---- Steps ---- */

/* The record of a place whose pivots, or their number, are other ones. */
static void go_to(uint64_t *record, uint64_t step, uint64_t j, uint64_t k)
{
    record[HZ_WIDE_STEP] = step;
    record[HZ_WIDE_J] = j;
    record[HZ_WIDE_K] = k;
}

/* Takes x times T[k,j] from T[k,C+1] in the rows before this one. */
static void wide_lift(const lent *l, uint8_t *table, uint64_t before, uint64_t j, uint8_t x)
{
    for (uint64_t k = 1; k < before && k <= l->rows; k++)
        for (uint64_t s = 0; s < l->n; s++)
            wide_cell(l, table, k, l->columns + 1)[s] ^= model_times(16, x, wide_cell(l, table, k, j)[s]);
}

static void exchange_rows(const lent *l, uint8_t *table, uint64_t one, uint64_t other)
{
    for (uint64_t at = 0; at < (l->columns + 1) * l->n; at++) {
        uint8_t *first = wide_cell(l, table, one, 1) + at, *second = wide_cell(l, table, other, 1) + at, kept = *first;
        *first = *second;
        *second = kept;
    }
}

static bool is_pivot(const uint64_t *record, uint64_t column)
{
    for (uint64_t i = 0; i < record[HZ_WIDE_FOUND]; i++)
        if (record[HZ_WIDE_PIVOTS + i] == column)
            return true;
    return false;
}

/* What a Check left, which kept its column or passed it over. */
static uint64_t spoil_check(uint64_t code, const uint64_t *before, uint64_t *record, uint64_t *answer)
{
    uint64_t j = before[HZ_WIDE_J], found = before[HZ_WIDE_FOUND];
    bool passed_over = record[HZ_WIDE_FOUND] == found;
    if (fault("kept after Scale") && !passed_over)
        record[HZ_WIDE_PIVOTS + --record[HZ_WIDE_FOUND]] = 0;
    if (!passed_over)
        return code;
    if (fault("passed over is kept"))
        record[HZ_WIDE_PIVOTS + record[HZ_WIDE_FOUND]++] = j;
    if (fault("passed over not counted"))
        record[HZ_WIDE_MASK_TAKEN] = before[HZ_WIDE_MASK_TAKEN];
    if (fault("passed over is short") && code == HZ_MOVED)
        return told(HZ_SHORT, answer, 0, 0, 0, 0);
    if (fault("passed over stops") && code == HZ_MOVED)
        return told(HZ_STOPPED, answer, j, 0, 0, 0);
    if (fault("passed over opens") && code == HZ_MOVED)
        return told(HZ_OPENED, answer, j, 0, 0, 0);
    return fault("passed over at last") ? HZ_MOVED : code;
}

/* What an Open left. */
static uint64_t spoil_open(uint64_t code, const lent *l, const uint64_t *before, uint64_t *record, uint8_t *solution,
                           const uint8_t *solution_before, uint64_t *answer)
{
    uint64_t row = wide_row(before), j = before[HZ_WIDE_J];
    uint8_t x = solution[j - 1];
    if (fault("Open writes by the row")) {
        solution[j - 1] = solution_before[j - 1];
        solution[row - 1] = x;
    }
    if (fault("Open tells the row"))
        answer[0] = row;
    if (fault("Open empties") && j > 1)
        solution[j - 2] = 0;
    if (fault("no Lift") && code == HZ_OPENED)
        go_to(record, HZ_OPEN, before[HZ_WIDE_PIVOTS + row - 2], 0);
    if (code != HZ_DONE)
        return code;
    for (uint64_t c = 1; c <= l->columns; c++)
        if (fault("done empties") && !is_pivot(before, c))
            solution[c - 1] = 0;
    if (fault("done tells x alone"))
        told(code, answer, x, 0, 0, 0);
    if (fault("done tells less"))
        told(code, answer, 0, 0, 0, 0);
    if (!fault("Lift of the first"))
        return code;
    go_to(record, HZ_LIFT, j, 0);
    return HZ_OPENED;
}

/* What the last step of a short run left. */
static uint64_t spoil_short(const lent *l, const uint64_t *before, uint64_t *record, uint8_t *table,
                            const uint8_t *table_before, uint8_t *solution, uint64_t *answer)
{
    if (fault("short opens") && before[HZ_WIDE_FOUND] > 0)
        go_to(record, HZ_OPEN, before[HZ_WIDE_PIVOTS + before[HZ_WIDE_FOUND] - 1], 0);
    if (fault("short stays"))
        go_to(record, before[HZ_WIDE_STEP], before[HZ_WIDE_J], before[HZ_WIDE_K]);
    if (fault("short with j"))
        record[HZ_WIDE_J] = l->columns;
    if (fault("short tells j"))
        answer[0] = l->columns;
    if (fault("short empties"))
        memset(solution, 0, l->solution_len);
    if (fault("short undoes"))
        memcpy(table, table_before, l->table_len);
    return fault("short at Check alone") && before[HZ_WIDE_STEP] == HZ_CLEAR ? HZ_MOVED : HZ_SHORT;
}

/* What an accepted step left becomes wrong. */
static uint64_t spoil_wide_step(uint64_t code, const lent *l, const uint64_t *before, uint64_t *record, uint8_t *table,
                                const uint8_t *table_before, uint8_t *solution, const uint8_t *solution_before,
                                uint64_t *answer)
{
    uint64_t step = before[HZ_WIDE_STEP], j = before[HZ_WIDE_J], row = wide_row(before);
    if (step == HZ_LIFT && (fault("Lift by the column") || fault("Lift reads by the row"))) {
        memcpy(table, table_before, l->table_len);
        wide_lift(l, table, fault("Lift by the column") ? j : row, j,
                  fault("Lift by the column") ? solution[j - 1] : solution[row - 1] % 16);
    }
    if (fault("Open of the next column") && step == HZ_LIFT)
        record[HZ_WIDE_J] = j - 1;
    if (fault("kept before Check") && record[HZ_WIDE_STEP] == HZ_CHECK)
        record[HZ_WIDE_PIVOTS + record[HZ_WIDE_FOUND]++] = record[HZ_WIDE_J];
    if (fault("Clear from row 2") && step == HZ_SCALE && record[HZ_WIDE_STEP] == HZ_CLEAR)
        record[HZ_WIDE_K] = 2;
    if (fault("Mix from row 2") && record[HZ_WIDE_J] != j && record[HZ_WIDE_STEP] == HZ_MIX)
        record[HZ_WIDE_K] = 2;
    if (fault("wide place alone"))
        record[HZ_WIDE_MASK_TAKEN] = before[HZ_WIDE_MASK_TAKEN];
    if (fault("wide place alone") || fault("wide mask moved alone"))
        record[HZ_WIDE_NONZERO_TAKEN] = before[HZ_WIDE_NONZERO_TAKEN];
    for (size_t i = 0; fault("mask above 15") && i < l->mask_len; i++)
        if (l->mask[i] >= 16)
            return told(HZ_REFUSED, answer, 6, 0, 0, 0);
    if (code == HZ_SHORT)
        code = spoil_short(l, before, record, table, table_before, solution, answer);
    if (step == HZ_CHECK)
        code = spoil_check(code, before, record, answer);
    if (step == HZ_OPEN)
        code = spoil_open(code, l, before, record, solution, solution_before, answer);
    for (uint64_t c = 0; fault("wide 20 of every byte") && step == HZ_LIFT && c < l->columns; c++)
        if (solution[c] >= 16)
            return told(HZ_REFUSED, answer, 20, j, 0, 0);
    return code;
}

/* What a refused step told becomes wrong, or changes something. */
static void spoil_wide_refusal(const lent *l, uint64_t *record, uint8_t *table, uint64_t *answer)
{
    uint64_t number = answer[0], j = record[HZ_WIDE_J];
    spoil_wide_place(l, answer);
    if (fault("12 tells j twice") && number == 12)
        answer[1] = j;
    if (fault("12 tells the row twice") && number == 12)
        answer[2] = answer[1];
    if (fault("12 tells a share") && number == 12)
        answer[3] = 1;
    if (fault("20 tells the row") && number == 20)
        answer[1] = wide_row(record);
    if (fault("wide 20 late") && number == 20)
        wide_lift(l, table, wide_row(record), j, l->solution[j - 1] % 16);
    if (fault("12 moves") && number == 12)
        record[HZ_WIDE_STEP] = HZ_CLEAR;
    if (fault("7 counts") && number == 7)
        record[HZ_WIDE_MASK_TAKEN] += l->mask_len;
    spoil_wide_order(l, answer);
    spoil_wide_details(l, answer);
}

uint64_t __real_hz_wide_step(uint64_t *, size_t, uint8_t *, size_t, uint8_t *, size_t, const uint8_t *, size_t,
                             const uint8_t *, size_t, uint64_t *, size_t);

/* Whether hz_wide_step does what it must refuse. */
static bool step_taken(const lent *l, const uint64_t *answer)
{
    uint64_t number = answer[0], masks, nonzeros;
    bool place = number == 10 && place_taken(l);
    if (number == 10) {
        uint64_t seen[HZ_WIDE_RECORD_WORDS];
        memcpy(seen, l->record, sizeof seen);
        seen_record(l->call, seen);
        place = place || model_wide_taken(seen, &masks, &nonzeros);
    }
    return place || also_taken(l, answer) || (number == 19 && counters_taken(l))
           || (fault("wide forgets 20") && number == 20) || (fault("wide longer mask") && number == 14)
           || (fault("wide longer nonzero") && number == 15)
           || (fault("L of rows hz_wide_step") && (number == 7 || number == 14)
               && l->mask_len
                      == model_mask_draws(16, l->n, l->rows, l->record[HZ_WIDE_STEP], l->record[HZ_WIDE_J]));
}

uint64_t __wrap_hz_wide_step(uint64_t *record, size_t record_len, uint8_t *table, size_t table_len, uint8_t *solution,
                             size_t solution_len, const uint8_t *mask, size_t mask_len, const uint8_t *nonzero,
                             size_t nonzero_len, uint64_t *answer, size_t answer_len)
{
    WORDS(hz_wide_step, record);
    BYTES(hz_wide_step, table);
    BYTES(hz_wide_step, solution);
    BYTES(hz_wide_step, mask);
    BYTES(hz_wide_step, nonzero);
    WORDS(hz_wide_step, answer);
    static uint8_t table_before[96 * 145 * 4];
    uint8_t solution_before[144];
    uint64_t before[HZ_WIDE_RECORD_WORDS] = {0}, masks, nonzeros;
    if (record_len == HZ_WIDE_RECORD_WORDS)
        memcpy(before, record, sizeof before);
    const lent l = {"hz_wide_step", before[HZ_WIDE_FIELD], before[HZ_WIDE_SHARES], before[HZ_WIDE_ROWS],
                    before[HZ_WIDE_COLUMNS], before, table, solution, mask, nonzero, table_len, solution_len, mask_len,
                    nonzero_len};
    bool there = numbers_are_right(&l) && table_len == wide_table_len(&l) && solution_len == l.columns
                 && model_wide_taken(before, &masks, &nonzeros) && !wide_ended(before);
    if (there) {
        memcpy(table_before, table, table_len);
        memcpy(solution_before, solution, solution_len);
    }
    uint64_t row = there ? wide_row(before) : 0, other = before[HZ_WIDE_J] < l.rows ? before[HZ_WIDE_J] : l.rows;
    bool exchanged = there && fault("works on row j") && before[HZ_WIDE_K] != other
                     && (before[HZ_WIDE_STEP] == HZ_MIX || before[HZ_WIDE_STEP] == HZ_CLEAR);
    if (exchanged)
        exchange_rows(&l, table, row, other);
    uint64_t code = __real_hz_wide_step(record, record_len, table, table_len, solution, solution_len, mask, mask_len,
                                        nonzero, nonzero_len, answer, answer_len);
    if (exchanged)
        exchange_rows(&l, table, row, other);
    if (code == HZ_BAD_WORDS)
        return code;
    if (code != HZ_REFUSED)
        return spoil_wide_step(code, &l, before, record, table, table_before, solution, solution_before, answer);
    if (step_taken(&l, answer))
        return told(HZ_MOVED, answer, 0, 0, 0, 0);
    spoil_wide_refusal(&l, record, table, answer);
    return code;
}

/* ---- Whole solves ---- */

/* The steps of a whole solve one by one, with the parts of its tapes, on copies of table and
 * solution; and the record that it ends with. */
static void run_aside(const lent *l, uint64_t *record, uint8_t *table, uint8_t *solution)
{
    uint64_t answer[HZ_ANSWER_WORDS], code;
    __real_hz_wide_start(16, l->n, l->rows, l->columns, record, HZ_WIDE_RECORD_WORDS, answer, HZ_ANSWER_WORDS);
    do {
        const uint8_t *mask = l->mask + record[HZ_WIDE_MASK_TAKEN];
        const uint8_t *nonzero = l->nonzero + record[HZ_WIDE_NONZERO_TAKEN];
        __real_hz_wide_wanted(record, HZ_WIDE_RECORD_WORDS, answer, HZ_ANSWER_WORDS);
        code = __real_hz_wide_step(record, HZ_WIDE_RECORD_WORDS, table, l->table_len, solution, l->solution_len, mask,
                                   answer[0], nonzero, answer[1], answer, HZ_ANSWER_WORDS);
    } while (code == HZ_MOVED || code == HZ_OPENED);
}

/* What a short solve left becomes wrong. */
static uint64_t spoil_short_solve(const lent *l, const uint64_t *end, uint8_t *solution, const uint8_t *solution_before,
                                  uint64_t *answer)
{
    bool last_kept = is_pivot(end, l->columns);
    if (fault("short leaves bytes"))
        memcpy(solution, solution_before, l->solution_len);
    if (fault("short leaves unknowns") && end[HZ_WIDE_FOUND] > 0)
        solution[end[HZ_WIDE_PIVOTS] - 1] = 1;
    if (fault("one step more") && !last_kept)
        answer[0]++;
    if (fault("short as stopped"))
        return HZ_STOPPED;
    return fault("short as solved") ? HZ_SOLVED : HZ_SHORT;
}

/* What a solved one left. */
static uint64_t spoil_solved(const lent *l, const uint64_t *end, uint8_t *table, uint8_t *solution,
                             const uint8_t *solution_before, uint64_t *answer)
{
    uint64_t first = end[HZ_WIDE_PIVOTS], c = 1;
    while (c < l->columns && is_pivot(end, c))
        c++;
    if (fault("short at once") && c < end[HZ_WIDE_PIVOTS + l->rows - 1])
        return told(HZ_SHORT, answer, 0, 0, 0, 0);
    for (c = 1; c <= l->columns; c++)
        if (!is_pivot(end, c) && (fault("leaves other bytes") || (fault("leaves the last byte") && c == l->columns)))
            solution[c - 1] = solution_before[c - 1];
    if (fault("steps without Lift"))
        answer[0] -= l->rows - 1;
    if (fault("steps with all Lifts"))
        answer[0]++;
    if (fault("steps of the base"))
        answer[0] = l->rows * l->rows + 3 * l->rows - 1;
    if (fault("Lift of the first x"))
        wide_lift(l, table, l->rows + 1, first, solution[first - 1]);
    return fault("solved as short") ? HZ_SHORT : HZ_SOLVED;
}

/* What an accepted solve left becomes wrong. */
static uint64_t spoil_wide_solve(uint64_t code, const lent *l, const uint64_t *end, uint8_t *table,
                                 const uint8_t *table_before, uint8_t *solution, const uint8_t *solution_before,
                                 uint64_t *answer)
{
    if (fault("tells what was wanted"))
        answer[1] = masks_wanted(l);
    if (fault("nonzero of every row"))
        answer[2] = nonzeros_wanted(l);
    if (fault("table as it was"))
        memcpy(table, table_before, l->table_len);
    if (fault("longer refused mask") && l->mask_len > masks_wanted(l))
        return told(HZ_REFUSED, answer, 14, masks_wanted(l), 0, 0);
    if (fault("longer refused nonzero") && l->nonzero_len > nonzeros_wanted(l))
        return told(HZ_REFUSED, answer, 15, nonzeros_wanted(l), 0, 0);
    if (fault("9 of all lent") && l->nonzero_len > nonzeros_wanted(l) && l->nonzero_len < 10000
        && first_zero(l, l->nonzero_len) < l->nonzero_len)
        return told(HZ_REFUSED, answer, 9, first_zero(l, l->nonzero_len), 0, 0);
    return code == HZ_SHORT ? spoil_short_solve(l, end, solution, solution_before, answer)
                            : spoil_solved(l, end, table, solution, solution_before, answer);
}

/* Whether hz_wide_solve does what it must refuse. */
static bool solve_taken(const lent *l, const uint64_t *answer)
{
    uint64_t number = answer[0], of_open = l->rows * l->n * (l->n - 1) / 2;
    return also_taken(l, answer)
           || (fault("wanted by rows hz_wide_solve") && number == 7
               && l->mask_len >= model_wide_mask_draws(l->n, l->rows, l->rows))
           || (fault("without Open hz_wide_solve") && number == 7 && l->mask_len + of_open >= answer[1])
           || (fault("9 of the taken") && number == 9 && answer[1] + 1 == nonzeros_wanted(l));
}

uint64_t __real_hz_wide_solve(uint64_t, uint64_t, uint64_t, uint64_t, uint8_t *, size_t, uint8_t *, size_t,
                              const uint8_t *, size_t, const uint8_t *, size_t, uint64_t *, size_t);
uint64_t __wrap_hz_wide_solve(uint64_t field, uint64_t shares, uint64_t rows, uint64_t columns, uint8_t *table,
                              size_t table_len, uint8_t *solution, size_t solution_len, const uint8_t *mask,
                              size_t mask_len, const uint8_t *nonzero, size_t nonzero_len, uint64_t *answer,
                              size_t answer_len)
{
    BYTES(hz_wide_solve, table);
    BYTES(hz_wide_solve, solution);
    BYTES(hz_wide_solve, mask);
    BYTES(hz_wide_solve, nonzero);
    WORDS(hz_wide_solve, answer);
    static uint8_t table_before[96 * 145 * 4], table_aside[96 * 145 * 4];
    uint8_t solution_before[144], solution_aside[144];
    uint64_t end[HZ_WIDE_RECORD_WORDS] = {0};
    const lent l = {"hz_wide_solve", field, shares, rows, columns, NULL, table, solution, mask, nonzero,
                    table_len, solution_len, mask_len, nonzero_len};
    if (numbers_are_right(&l) && table_len == wide_table_len(&l) && solution_len == columns) {
        memcpy(table_before, table, table_len);
        memcpy(solution_before, solution, solution_len);
    }
    uint64_t code = __real_hz_wide_solve(field, shares, rows, columns, table, table_len, solution, solution_len, mask,
                                         mask_len, nonzero, nonzero_len, answer, answer_len);
    if (code == HZ_BAD_WORDS)
        return code;
    if (code != HZ_REFUSED && rows >= 20)
        return code; /* by steps it takes long, and a small one is met first */
    if (code != HZ_REFUSED) {
        memcpy(table_aside, table_before, table_len);
        memcpy(solution_aside, solution_before, solution_len);
        run_aside(&l, end, table_aside, solution_aside);
        if (fault("wide by steps")) {
            memcpy(table, table_aside, table_len);
            for (uint64_t c = 1; c <= columns; c++)
                solution[c - 1] = code == HZ_SOLVED && is_pivot(end, c) ? solution_aside[c - 1] : 0;
        }
        return spoil_wide_solve(code, &l, end, table, table_before, solution, solution_before, answer);
    }
    if (solve_taken(&l, answer))
        return told(HZ_SOLVED, answer, 0, 0, 0, 0);
    spoil_wide_order(&l, answer);
    spoil_wide_details(&l, answer);
    return code;
}
