/* Wrong calls, to see that host_test finds them. Each goes on to the library's own
 * call, and does beside it the wrong thing that MUTANT in the environment names:
 *
 *     whole CALL BUFFER     reads all that is said to be there, before its length is looked at
 *     past CALL BUFFER      reads the byte behind its end
 *     exchanged             hz_wanted tells the nonzero draws first
 *     ended                 hz_wanted has an answer for a run that has ended
 *
 * and of hz_plain:
 *
 *     own engine            answers by the elimination in this file, which is no fault
 *     looks above           this one looks for a row to exchange above row j too
 *     forgets b             this one exchanges A's part of two rows only
 *     leaves a byte         does not empty the last byte of the solution where it stops
 *     b fits                finds x = 0 where b is 0, though the system is singular
 *     counts                tells a step beside x
 *     spoils values         leaves its work in them
 *     refuses late          has emptied the solution when it refuses by 6
 *     3 before 1, 5 before 4, 6 before 5
 *     details               4 wants the solution's length, and 5 that of the values
 *     last place            6 tells the last byte that is too large
 *     A alone               looks for such bytes in A and not in b
 *
 * and of R-2:
 *
 *     column first CALL     6 tells the column before the row
 *     offset CALL           6 tells the place from 0, as before R-2
 *     share from 0 CALL     6 counts the shares of a table from 0
 *     share 1 CALL          6 tells a share of values, which have none
 *     pivot's share         12 tells share 1
 *     j alone               12 tells j once, as before R-2
 *     14 as 7, 15 as 8      a tape of a step that is too long is told by the number for too short
 *     14 after 8, 14 after 15, 14 before 6, 9 before 15
 *     longer mask           hz_step takes a mask tape that is too long
 *     longer nonzero        and a nonzero tape
 *     14 CALL               a call refuses a longer mask tape that it must take
 *     15 hz_solve           and a longer nonzero tape
 *
 * and of R-3:
 *
 *     low first length CALL   a length is low byte first
 *     low first field CALL    the field's number is low byte first
 *     table at 15 CALL        the table is one byte too early
 *     spoils CALL             changes a byte of the table or of the input
 *     2 before 1 CALL, 3 before 2, 4 before 3, and 5 before 4, 6 before 5 hz_write, 6 before 4 hz_read
 *     refuses late hz_write   has written the first field when it refuses by 6
 *     leaves the end          hz_write leaves the last byte of the target as it was
 *     longer target           hz_write takes a target that is too long
 *     5 of the table          5 tells the length that the table must have
 *     own reader              hz_read answers by the reader in this file, which is no fault
 *     any order               this one takes the fields in any order
 *     any length              this one does not look whether a length suits its tag
 *     longer input            hz_read takes bytes after the end
 *     longer table            hz_read tells one byte too many of the table
 *     shorter table           and one too few
 *     17 for 16               where the input ends after a wrong tag
 *     16 for 17               where it ends after a right one
 *     16 for none             where it ends before the tag
 *     17 for 4                where the table is not as long as the size wants
 *     detail 0                16 and 17 tell offset 0
 *     detail end              16 and 17 tell where the reading ended
 *     18 at the last          18 tells the last byte
 *     18 one later            18 tells the second byte after the end
 *     1 before 16, 1 before 17, 1 before 18
 *
 * and of R-5, where CALL is hz_wanted or hz_step:
 *
 *     leaves counters         hz_start leaves the counters' words as they were
 *     leaves nonzero          and the last one alone
 *     place alone             hz_step moves the place on and not the counters
 *     mask moved alone        and the mask counter
 *     stop without Check      hz_step does not count the Check that stops
 *     done without Open       nor the last Open
 *     refused adds            hz_step counts the draws lent where it refuses
 *     12 adds                 and only where it finds the pivot 0
 *     19 after 11 CALL, 19 before 10 CALL, 19 before 5, 19 after 6, 19 after 7, 19 after 12
 *     19 and detail CALL      19 tells the mask draws that it wants
 *     forgets 19 CALL         does not look at the counters
 *     mask read alone CALL    looks at the mask counter and not at the other
 *     nonzero read alone CALL likewise
 *     sum alone CALL          looks at the sum of the two
 *     modulo 2^32 CALL        looks at the low halves
 *     modulo 2^63 CALL        looks at all but the highest bits
 *     more taken CALL         takes counters that are larger
 *     stop without Check CALL wants of a stop what was drawn before its Check
 *
 * and of R-6, where a wrong flag comes of other draws than were lent:
 *
 *     own tapes                hz_step and hz_solve go on with copies of the mask tape, which is no fault
 *     01's flag CALL           the first f(n-1+N) draws are taken as 01 had it, and the others left
 *     one Refresh CALL         each fold refreshes as 01 had it, with n-1 of its first N draws
 *     first fold alone CALL    each fold but the first does
 *     And first CALL           each fold takes the And's draws before those of its refresh
 *     draws twice CALL         the And takes those of its refresh again
 *     one list CALL            each fold takes those of the first
 *     pairs by the second CALL the pairs are (1,2), (1,3), (2,3), (1,4) and so on
 *     01's draws CALL          hz_wanted and hz_counts tell f(n-1+N) for a flag, and the others take such a tape
 *     01's sum                 hz_solve tells that it took so many
 *     01's counters CALL       takes a record that counts so many for right
 *     adds 01's draws          hz_step counts so many
 *
 * and of R-7:
 *
 *     Open lifts               Open carries x_j into the rows above, as before R-7; Lift does it once more
 *     own lift                 Lift is done by this file, which is no fault
 *     lifts nothing            this one leaves the table
 *     lifts all rows           this one takes row j too
 *     not row 1                this one leaves the first row
 *     below the diagonal       this one takes T[j,k] for T[k,j]
 *     first share alone        this one puts all that is to be added into share 1
 *     lifts the table's value  it takes T[j,m+1] for x_j, and not the lent byte
 *     lifts what Open told     it remembers x_j from the call before
 *     lifts the next byte      it takes the byte of x_(j+1), of x_1 for the last
 *     Lift writes              it changes its byte of the solution
 *     Lift writes ahead        it empties the byte of x_(j-1)
 *     Lift opens               it answers opened
 *     Lift draws               it wants N mask draws, as Open does
 *     Lift draws hz_wanted     this one tells so
 *     skips Open               Lift(j) leads to Lift(j-1)
 *     skips Lift               Open(j) leads to Open(j-1), as before R-7
 *     Lift at last             Open(1) leads to Lift(1)
 *     Lift is 5                the record's number for Lift is 5
 *     counts at Lift           Lift adds N to the mask counter
 *     counts late              Open does not, and Lift would
 *     Lift(1) CALL             hz_wanted or hz_step takes Lift(1) for a place
 *     Lift(m+1) CALL           and Lift(m+1)
 *     Lift with k CALL         and Lift(j) with a k
 *     forgets 20               Lift takes a byte of 16 or more, modulo 16
 *     20 from 17               and only 16 itself
 *     20 in F256               Lift refuses such a byte there too
 *     20 of every byte         it looks at all bytes of the solution
 *     20 of the next byte      it looks at the byte of x_(j+1), of x_1 for the last
 *     20 at Open               Open refuses such a byte too
 *     detail j-1               20 tells the byte's place
 *     20 and the byte          it tells the byte too
 *     20 late                  the table is lifted when it refuses
 *     20 before 14, 20 before 15, 20 before 6, 20 before 19, 20 before 10
 *     20 before 9              20 is told of Scale's byte, where it is 9's turn
 *     old list CALL            hz_counts or hz_solve tells the steps without those of Lift
 *
 * Those for wide systems are in wide_mutants.h. Linked with --wrap for every call. */
#include "hostozaro.h"
#include "model.h"

#include <stdbool.h>
#include <stdio.h>
#include <stdlib.h>
#include <string.h>

/* What MUTANT names. It is asked for many times in each call, the environment once. */
static const char *named(void)
{
    static const char *name;
    if (name == NULL)
        name = getenv("MUTANT");
    if (name == NULL)
        name = "";
    return name;
}

static bool fault(const char *which)
{
    return strcmp(named(), which) == 0;
}

/* A fault that is named for one call, or one buffer of it. */
static bool fault_at(const char *which, const char *at)
{
    size_t len = strlen(which);
    return strncmp(named(), which, len) == 0 && named()[len] == ' ' && strcmp(named() + len + 1, at) == 0;
}

static void look(const char *at, const void *buffer, size_t bytes)
{
    static volatile uint8_t seen;
    const uint8_t *byte = buffer;
    bool whole = fault_at("whole", at);
    for (size_t i = 0; whole && i < bytes; i++)
        seen = byte[i];
    if (fault_at("past", at))
        seen = byte[bytes];
    (void)seen;
}

#define BYTES(call, buffer) look(#call " " #buffer, buffer, buffer##_len)
#define WORDS(call, buffer) look(#call " " #buffer, buffer, buffer##_len * sizeof(uint64_t))

static void exchange_bytes(uint8_t *first)
{
    uint8_t kept = first[0];
    first[0] = first[1];
    first[1] = kept;
}

static uint64_t told(uint64_t code, uint64_t *answer, uint64_t first, uint64_t second, uint64_t third, uint64_t fourth)
{
    answer[0] = first;
    answer[1] = second;
    answer[2] = third;
    answer[3] = fourth;
    return code;
}

/* A refusal by 6 is told wrong. An entry has `depth` bytes: one of values, which have
 * no shares. */
static void spoil_cell(const char *call, uint64_t depth, uint64_t m, uint64_t *answer)
{
    uint64_t row = answer[1], column = answer[2], share = answer[3];
    if (answer[0] != 6)
        return;
    if (fault_at("column first", call))
        told(HZ_REFUSED, answer, 6, column, row, share);
    if (fault_at("offset", call))
        told(HZ_REFUSED, answer, 6, ((row - 1) * (m + 1) + (column - 1)) * depth + (share == 0 ? 0 : share - 1), 0, 0);
    if (fault_at("share from 0", call))
        answer[3] = share - 1;
    if (fault_at("share 1", call))
        answer[3] = 1;
}

/* A refusal by 6 that tells this place of a table. */
static uint64_t told_byte(uint64_t n, uint64_t m, size_t at, uint64_t *answer)
{
    return told(HZ_REFUSED, answer, 6, at / n / (m + 1) + 1, at / n % (m + 1) + 1, at % n + 1);
}

/* The first byte of 16 or more, or len. */
static size_t first_large(const uint8_t *bytes, size_t len)
{
    size_t at = 0;
    while (at < len && bytes[at] < 16)
        at++;
    return at;
}

/* The draws of a flag become those that a wrong flag would take in their places. Where all
 * but the first n-1 of a refresh are 0 it is 01's Refresh, since (1,2) to (1,n) are the
 * first pairs. */
static void spoil_flag(const char *call, uint64_t field, uint64_t n, uint8_t *draws)
{
    uint64_t folds = field == 16 ? 2 : 3, pairs = n * (n - 1) / 2;
    uint8_t lent[3 * 2 * 6];
    memcpy(lent, draws, folds * 2 * pairs);
    for (uint64_t fold = 0; fold < folds; fold++) {
        const uint8_t *own = lent + fold * 2 * pairs, *by_01 = lent + fold * (n - 1 + pairs);
        uint8_t *of_refresh = draws + fold * 2 * pairs, *of_and = of_refresh + pairs;
        if (fault_at("01's flag", call)) {
            memcpy(of_refresh, by_01, n - 1);
            memcpy(of_and, by_01 + (n - 1), pairs);
        }
        if (fault_at("01's flag", call) || fault_at("one Refresh", call)
            || (fault_at("first fold alone", call) && fold > 0))
            memset(of_refresh + (n - 1), 0, pairs - (n - 1));
        if (fault_at("And first", call))
            memcpy(of_refresh, own + pairs, pairs);
        if (fault_at("And first", call) || fault_at("draws twice", call))
            memcpy(of_and, own, pairs);
        if (fault_at("one list", call))
            memcpy(of_refresh, lent, 2 * pairs);
        if (fault_at("pairs by the second", call) && n == 4)
            exchange_bytes(of_refresh + 2);
    }
}

static bool wrong_flag(const char *call)
{
    static const char *const which[] = {"01's flag",   "one Refresh", "first fold alone",   "And first",
                                        "draws twice", "one list",    "pairs by the second"};
    for (size_t i = 0; i < sizeof which / sizeof which[0]; i++)
        if (fault_at(which[i], call))
            return true;
    return fault("own tapes");
}

static bool right_numbers(uint64_t field, uint64_t n, uint64_t m)
{
    return (field == 16 || field == 256) && n >= 2 && n <= 4 && m >= 1 && m <= 96;
}

static bool ended(const uint64_t *record)
{
    return record[HZ_STEP] == HZ_AT_STOPPED || record[HZ_STEP] == HZ_AT_DONE;
}

/* The mask tape that hz_step goes on with. */
static const uint8_t *step_tape(const uint64_t *record, const uint8_t *mask, size_t mask_len)
{
    static uint8_t other[3 * 2 * 6 + 97 * 6]; /* of Mix(1,k) in F256, n = 4, m = 96 */
    uint64_t field = record[HZ_FIELD], n = record[HZ_SHARES], m = record[HZ_SIZE], step = record[HZ_STEP];
    uint64_t j = record[HZ_J];
    if (!wrong_flag("hz_step") || !right_numbers(field, n, m) || step > HZ_CHECK || j < 1 || j > m
        || mask_len != model_mask_draws(field, n, m, step, j))
        return mask;
    memcpy(other, mask, mask_len);
    spoil_flag("hz_step", field, n, other);
    return other;
}

/* The mask tape that hz_solve goes on with. */
static const uint8_t *solve_tape(uint64_t field, uint64_t n, uint64_t m, const uint8_t *mask, size_t mask_len)
{
    static uint8_t other[3820512]; /* F256, n = 4, m = 96 */
    if (!wrong_flag("hz_solve") || !right_numbers(field, n, m) || mask_len < model_full_mask_draws(field, n, m))
        return mask;
    uint8_t *at = other;
    memcpy(other, mask, model_full_mask_draws(field, n, m));
    for (uint64_t j = 1; j <= m; j++) {
        for (uint64_t k = j + 1; k <= m; k++, at += model_mask_draws(field, n, m, HZ_MIX, j))
            spoil_flag("hz_solve", field, n, at);
        spoil_flag("hz_solve", field, n, at);
        at += model_mask_draws(field, n, m, HZ_CHECK, j) + model_mask_draws(field, n, m, HZ_SCALE, j)
              + (m - j) * model_mask_draws(field, n, m, HZ_CLEAR, j);
    }
    return other;
}

/* How many draws R-6 has a flag take more than 01. */
static uint64_t more_in_flag(uint64_t field, uint64_t n)
{
    uint64_t f = field == 16 ? 2 : 3, pairs = n * (n - 1) / 2;
    return f * 2 * pairs - f * (n - 1 + pairs);
}

static uint64_t more_in_step(const uint64_t *record)
{
    return record[HZ_STEP] <= HZ_CHECK ? more_in_flag(record[HZ_FIELD], record[HZ_SHARES]) : 0;
}

/* The same of all steps before a record's place. A flag of F256 has a fold more than one of
 * F16, and the draws of the two fields differ by that alone. */
static uint64_t more_before(const uint64_t *record)
{
    uint64_t n = record[HZ_SHARES], m = record[HZ_SIZE], step = record[HZ_STEP], j = record[HZ_J], k = record[HZ_K];
    uint64_t in_f16, in_f256, nonzero, fold = n * (n - 1);
    model_taken(16, n, m, step, j, k, &in_f16, &nonzero);
    model_taken(256, n, m, step, j, k, &in_f256, &nonzero);
    return (in_f256 - in_f16) / fold * more_in_flag(record[HZ_FIELD], n);
}

/* The counters of a record whose place is in the list, as they must be. */
static void right_counters(const uint64_t *record, uint64_t right[2])
{
    model_taken(record[HZ_FIELD], record[HZ_SHARES], record[HZ_SIZE], record[HZ_STEP], record[HZ_J], record[HZ_K],
                &right[0], &right[1]);
}

/* Whether a call takes these counters of a record, which are refused by 19, for right. */
static bool overlooked(const char *call, const uint64_t *record)
{
    uint64_t mask = record[HZ_MASK_TAKEN], nonzero = record[HZ_NONZERO_TAKEN], right[2], low = UINT64_MAX >> 1;
    right_counters(record, right);
    return fault_at("forgets 19", call) || (fault_at("19 after 11", call) && ended(record))
           || (fault_at("mask read alone", call) && mask == right[0])
           || (fault_at("nonzero read alone", call) && nonzero == right[1])
           || (fault_at("sum alone", call) && mask + nonzero == right[0] + right[1])
           || (fault_at("modulo 2^32", call) && (uint32_t)mask == right[0] && (uint32_t)nonzero == right[1])
           || (fault_at("modulo 2^63", call) && (mask & low) == right[0] && (nonzero & low) == right[1])
           || (fault_at("more taken", call) && mask >= right[0] && nonzero >= right[1])
           || (fault_at("01's counters", call) && mask == right[0] - more_before(record) && nonzero == right[1]);
}

/* A refusal by 10, 19 or 11 is told wrong, in what hz_wanted and hz_step have in common. */
static void spoil_place(const char *call, const uint64_t *record, uint64_t *answer)
{
    uint64_t number = answer[0], right[2];
    if (fault_at("19 before 10", call) && number == 10)
        answer[0] = 19;
    if (number != 19 && number != 11)
        return;
    right_counters(record, right);
    if (fault_at("19 and detail", call) && number == 19)
        answer[1] = right[0];
    if (fault_at("stop without Check", call) && record[HZ_STEP] == HZ_AT_STOPPED) {
        uint64_t check = model_mask_draws(record[HZ_FIELD], record[HZ_SHARES], record[HZ_SIZE], HZ_CHECK, record[HZ_J]);
        bool same = record[HZ_MASK_TAKEN] == right[0] - check && record[HZ_NONZERO_TAKEN] == right[1];
        answer[0] = same ? 11 : 19;
    }
}

uint64_t __real_hz_start(uint64_t, uint64_t, uint64_t, uint64_t *, size_t, uint64_t *, size_t);
uint64_t __wrap_hz_start(uint64_t field, uint64_t shares, uint64_t size, uint64_t *record, size_t record_len,
                         uint64_t *answer, size_t answer_len)
{
    WORDS(hz_start, record);
    WORDS(hz_start, answer);
    uint64_t kept[HZ_RECORD_WORDS] = {0};
    if (record_len == HZ_RECORD_WORDS)
        memcpy(kept, record, sizeof kept);
    uint64_t code = __real_hz_start(field, shares, size, record, record_len, answer, answer_len);
    if (fault("leaves counters") && code == HZ_FRESH)
        record[HZ_MASK_TAKEN] = kept[HZ_MASK_TAKEN];
    if ((fault("leaves counters") || fault("leaves nonzero")) && code == HZ_FRESH)
        record[HZ_NONZERO_TAKEN] = kept[HZ_NONZERO_TAKEN];
    return code;
}

/* Whether a call takes a record that is refused by 10 for one at Lift. */
static bool taken_for_lift(const char *call, const uint64_t *record)
{
    uint64_t m = record[HZ_SIZE], j = record[HZ_J], k = record[HZ_K];
    if (record[HZ_STEP] != HZ_LIFT)
        return false;
    return (fault_at("Lift(1)", call) && j == 1 && k == 0) || (fault_at("Lift(m+1)", call) && j == m + 1 && k == 0)
           || (fault_at("Lift with k", call) && j >= 2 && j <= m && k != 0);
}

/* Whether a record stands at this step, of the numbers that table and solution have. */
static bool stands_at(uint64_t step, const uint64_t *record, size_t table_len, size_t solution_len)
{
    uint64_t n = record[HZ_SHARES], m = record[HZ_SIZE], j = record[HZ_J];
    return right_numbers(record[HZ_FIELD], n, m) && record[HZ_STEP] == step && j >= 1 && j <= m
           && table_len == m * (m + 1) * n && solution_len == m;
}

static uint8_t *cell(const uint64_t *record, uint8_t *table, uint64_t row, uint64_t column)
{
    return table + ((row - 1) * (record[HZ_SIZE] + 1) + (column - 1)) * record[HZ_SHARES];
}

/* Takes x times T[k,j] from T[k,m+1] in the rows above, or does it wrong. */
static void lift(const uint64_t *record, uint8_t *table, uint8_t x)
{
    uint64_t field = record[HZ_FIELD], n = record[HZ_SHARES], m = record[HZ_SIZE], j = record[HZ_J];
    uint64_t first = fault("not row 1") ? 2 : 1, last = fault("lifts all rows") ? j : j - 1;
    for (uint64_t k = first; k <= last && !fault("lifts nothing"); k++)
        for (uint64_t s = 0; s < n; s++) {
            uint8_t factor = fault("below the diagonal") ? cell(record, table, j, k)[s] : cell(record, table, k, j)[s];
            cell(record, table, k, m + 1)[fault("first share alone") ? 0 : s] ^= model_times(field, x, factor);
        }
}

static bool wrong_lift(void)
{
    return fault("own lift") || fault("lifts nothing") || fault("lifts all rows") || fault("not row 1")
           || fault("below the diagonal") || fault("first share alone");
}

/* What stands in the byte of the next unknown, or of x_1 behind the last. */
static uint8_t next_byte(const uint64_t *record, const uint8_t *solution)
{
    return solution[record[HZ_J] % record[HZ_SIZE]];
}

/* What the last call of hz_step opened, and of which unknown; 0 where it was no Open. */
static uint64_t remembered_j;
static uint8_t remembered;

/* The byte that Lift goes on with in place of the lent one; that is left where it is one to be refused. */
static uint8_t byte_for_lift(const uint64_t *record, uint8_t *table, const uint8_t *solution)
{
    uint64_t field = record[HZ_FIELD], m = record[HZ_SIZE], j = record[HZ_J];
    uint8_t lent = solution[j - 1], value = 0;
    if (field == 16 && lent >= 16)
        return fault("forgets 20") || (fault("20 from 17") && lent == 16) ? lent % 16 : lent;
    for (uint64_t s = 0; s < record[HZ_SHARES]; s++)
        value ^= cell(record, table, j, m + 1)[s];
    if (fault("lifts the table's value"))
        return (uint8_t)(value % field);
    if (fault("lifts what Open told") && remembered_j == j)
        return remembered;
    if (fault("lifts the next byte"))
        return (uint8_t)(next_byte(record, solution) % field);
    return lent;
}

/* An accepted Lift becomes refused, or answers otherwise. Record and solution are as they were before. */
static uint64_t spoil_lift(uint64_t code, const uint64_t *record, const uint8_t *solution, uint64_t *answer)
{
    uint64_t n = record[HZ_SHARES], m = record[HZ_SIZE], j = record[HZ_J];
    bool large = fault("20 in F256") && record[HZ_FIELD] == 256 && solution[j - 1] >= 16;
    for (uint64_t i = 0; i < m && record[HZ_FIELD] == 16; i++)
        large = large || (fault("20 of every byte") && solution[i] >= 16);
    if (fault("20 of the next byte") && record[HZ_FIELD] == 16 && next_byte(record, solution) >= 16)
        large = true;
    if (large)
        return told(HZ_REFUSED, answer, 20, j, 0, 0);
    if (fault("Lift draws"))
        return told(HZ_REFUSED, answer, 7, n * (n - 1) / 2, 0, 0);
    if (fault("Lift opens"))
        return told(HZ_OPENED, answer, j, solution[j - 1], 0, 0);
    return code;
}

/* The record that an accepted Open or Lift leaves becomes wrong. */
static void spoil_next(const uint64_t *before, uint64_t *record)
{
    uint64_t pairs = before[HZ_SHARES] * (before[HZ_SHARES] - 1) / 2, j = before[HZ_J];
    bool from_open = before[HZ_STEP] == HZ_OPEN, from_lift = before[HZ_STEP] == HZ_LIFT;
    if (fault("skips Open") && from_lift)
        record[HZ_STEP] = HZ_LIFT;
    if (fault("skips Lift") && from_open && j > 1) {
        record[HZ_STEP] = HZ_OPEN;
        record[HZ_J] = j - 1;
    }
    if (fault("Lift at last") && from_open && j == 1) {
        record[HZ_STEP] = HZ_LIFT;
        record[HZ_J] = 1;
    }
    if (fault("Lift is 5") && record[HZ_STEP] == HZ_LIFT)
        record[HZ_STEP] = 5;
    if (fault("counts at Lift") && from_lift)
        record[HZ_MASK_TAKEN] += pairs;
    if (fault("counts late") && from_open && j > 1)
        record[HZ_MASK_TAKEN] -= pairs;
}

/* A refusal by 20 is told wrong, or one by a number before it becomes 20. */
static void spoil_20(const uint64_t *record, size_t table_len, const uint8_t *solution, size_t solution_len,
                     uint64_t *answer)
{
    uint64_t number = answer[0], j = record[HZ_J];
    bool at_lift = stands_at(HZ_LIFT, record, table_len, solution_len);
    bool at_scale = stands_at(HZ_SCALE, record, table_len, solution_len);
    if ((!at_lift && !at_scale) || record[HZ_FIELD] != 16 || solution[j - 1] < 16)
        return;
    if (fault("detail j-1") && number == 20)
        answer[1] = j - 1;
    if (fault("20 and the byte") && number == 20)
        answer[2] = solution[j - 1];
    bool sooner = (fault("20 before 14") && number == 14) || (fault("20 before 15") && number == 15)
                  || (fault("20 before 6") && number == 6) || (fault("20 before 19") && number == 19)
                  || (fault("20 before 10") && number == 10);
    if ((at_lift && sooner) || (at_scale && fault("20 before 9") && number == 9))
        told(HZ_REFUSED, answer, 20, j, 0, 0);
}

uint64_t __real_hz_wanted(const uint64_t *, size_t, uint64_t *, size_t);
uint64_t __wrap_hz_wanted(const uint64_t *record, size_t record_len, uint64_t *answer, size_t answer_len)
{
    WORDS(hz_wanted, record);
    WORDS(hz_wanted, answer);
    uint64_t code = __real_hz_wanted(record, record_len, answer, answer_len);
    if (fault("exchanged") && code == HZ_WANTED) {
        uint64_t first = answer[0];
        answer[0] = answer[1];
        answer[1] = first;
    }
    if (fault("ended") && code == HZ_REFUSED && answer[0] == 11) {
        answer[0] = 0;
        return HZ_WANTED;
    }
    if (fault("01's draws hz_wanted") && code == HZ_WANTED)
        answer[0] -= more_in_step(record);
    if (fault("Lift draws hz_wanted") && code == HZ_WANTED && record[HZ_STEP] == HZ_LIFT)
        answer[0] = record[HZ_SHARES] * (record[HZ_SHARES] - 1) / 2;
    if (code == HZ_REFUSED && answer[0] == 10 && taken_for_lift("hz_wanted", record))
        return told(HZ_WANTED, answer, 0, 0, 0, 0);
    if (code == HZ_REFUSED && answer[0] == 19 && overlooked("hz_wanted", record)) {
        uint64_t other[HZ_RECORD_WORDS];
        memcpy(other, record, sizeof other);
        right_counters(record, other + HZ_MASK_TAKEN);
        return __real_hz_wanted(other, record_len, answer, answer_len);
    }
    if (code == HZ_REFUSED)
        spoil_place("hz_wanted", record, answer);
    return code;
}

/* A refusal of hz_step that R-2 is about is told wrong. */
static void spoil_step(const uint64_t *record, size_t mask_len, size_t nonzero_len, uint64_t *answer)
{
    uint64_t number = answer[0], step = record[HZ_STEP], j = record[HZ_J];
    uint64_t mask = model_mask_draws(record[HZ_FIELD], record[HZ_SHARES], record[HZ_SIZE], step, j);
    uint64_t nonzero = model_nonzero_draws(record[HZ_SHARES], step);
    spoil_cell("hz_step", record[HZ_SHARES], record[HZ_SIZE], answer);
    if (fault("pivot's share") && number == 12)
        answer[3] = 1;
    if (fault("j alone") && number == 12)
        answer[2] = 0;
    if (fault("14 as 7") && number == 14)
        answer[0] = 7;
    if (fault("15 as 8") && number == 15)
        answer[0] = 8;
    if (fault("14 after 8") && number == 14 && nonzero_len < nonzero)
        told(HZ_REFUSED, answer, 8, nonzero, 0, 0);
    if (fault("14 after 15") && number == 14 && nonzero_len > nonzero)
        told(HZ_REFUSED, answer, 15, nonzero, 0, 0);
    if (fault("14 before 6") && number == 6 && mask_len > mask)
        told(HZ_REFUSED, answer, 14, mask, 0, 0);
}

/* The first zero draw among those that the step needs, or their number. */
static uint64_t zero_draw(const uint64_t *record, const uint8_t *nonzero)
{
    uint64_t wanted = model_nonzero_draws(record[HZ_SHARES], record[HZ_STEP]), at = 0;
    while (at < wanted && nonzero[at] % record[HZ_FIELD] != 0)
        at++;
    return at;
}

/* The counters that an accepted step leaves become wrong. */
static void spoil_counters(uint64_t code, const uint64_t *before, uint64_t *record)
{
    bool all = fault("place alone"), nonzero = fault("mask moved alone");
    bool mask = (fault("stop without Check") && code == HZ_STOPPED) || (fault("done without Open") && code == HZ_DONE);
    if (all || mask)
        record[HZ_MASK_TAKEN] = before[HZ_MASK_TAKEN];
    if (fault("adds 01's draws"))
        record[HZ_MASK_TAKEN] -= more_in_step(before);
    if (all || nonzero)
        record[HZ_NONZERO_TAKEN] = before[HZ_NONZERO_TAKEN];
}

/* The value of T[j,j]. */
static uint8_t pivot(const uint64_t *record, const uint8_t *table)
{
    uint64_t n = record[HZ_SHARES], m = record[HZ_SIZE], j = record[HZ_J];
    uint8_t sum = 0;
    for (uint64_t s = 0; s < n; s++)
        sum ^= table[((j - 1) * (m + 1) + (j - 1)) * n + s];
    return sum;
}

/* A refusal of hz_step by 19, or one that comes before it, becomes another one. */
static void spoil_order(const uint64_t *record, const uint8_t *table, size_t table_len, size_t mask_len,
                        uint64_t *answer)
{
    uint64_t number = answer[0], step = record[HZ_STEP], j = record[HZ_J], right[2];
    if (number != 5 && number != 19)
        return;
    right_counters(record, right);
    bool wrong = record[HZ_MASK_TAKEN] != right[0] || record[HZ_NONZERO_TAKEN] != right[1];
    if (fault("19 before 5") && number == 5 && wrong)
        told(HZ_REFUSED, answer, 19, 0, 0, 0);
    if (number == 5 || ended(record))
        return;
    uint64_t mask = model_mask_draws(record[HZ_FIELD], record[HZ_SHARES], record[HZ_SIZE], step, j);
    if (fault("19 after 6") && record[HZ_FIELD] == 16 && first_large(table, table_len) < table_len)
        told_byte(record[HZ_SHARES], record[HZ_SIZE], first_large(table, table_len), answer);
    if (fault("19 after 7") && mask_len < mask)
        told(HZ_REFUSED, answer, 7, mask, 0, 0);
    if (fault("19 after 12") && step == HZ_SCALE && pivot(record, table) == 0)
        told(HZ_REFUSED, answer, 12, j, j, 0);
}

uint64_t __real_hz_step(uint64_t *, size_t, uint8_t *, size_t, uint8_t *, size_t, const uint8_t *, size_t,
                        const uint8_t *, size_t, uint64_t *, size_t);
uint64_t __wrap_hz_step(uint64_t *record, size_t record_len, uint8_t *table, size_t table_len, uint8_t *solution,
                        size_t solution_len, const uint8_t *mask, size_t mask_len, const uint8_t *nonzero,
                        size_t nonzero_len, uint64_t *answer, size_t answer_len)
{
    WORDS(hz_step, record);
    BYTES(hz_step, table);
    BYTES(hz_step, solution);
    BYTES(hz_step, mask);
    BYTES(hz_step, nonzero);
    WORDS(hz_step, answer);
    uint64_t before[HZ_RECORD_WORDS] = {0};
    if (record_len == HZ_RECORD_WORDS)
        memcpy(before, record, sizeof before);
    if (record_len == HZ_RECORD_WORDS && answer_len == HZ_ANSWER_WORDS)
        mask = step_tape(record, mask, mask_len);
    static uint8_t table_before[96 * 97 * 4];
    uint8_t solution_before[96], *byte = NULL; /* Open's or Lift's in the solution */
    bool at_lift = stands_at(HZ_LIFT, before, table_len, solution_len);
    bool at_open = stands_at(HZ_OPEN, before, table_len, solution_len);
    if (at_lift || at_open) {
        byte = solution + (before[HZ_J] - 1);
        memcpy(solution_before, solution, solution_len);
        memcpy(table_before, table, table_len);
    }
    bool other_byte = at_lift && byte_for_lift(before, table, solution) != *byte;
    if (other_byte)
        *byte = byte_for_lift(before, table, solution);
    uint64_t code = __real_hz_step(record, record_len, table, table_len, solution, solution_len, mask, mask_len,
                                   nonzero, nonzero_len, answer, answer_len);
    if (other_byte)
        *byte = solution_before[before[HZ_J] - 1];
    if (code == HZ_BAD_WORDS)
        return code;
    remembered_j = code != HZ_REFUSED && at_open ? before[HZ_J] : 0;
    if (code != HZ_REFUSED && at_open) {
        remembered = *byte;
        if (fault("Open lifts"))
            lift(before, table, *byte);
        if (fault("20 at Open") && before[HZ_FIELD] == 16 && solution_before[before[HZ_J] - 1] >= 16)
            return told(HZ_REFUSED, answer, 20, before[HZ_J], 0, 0);
    }
    if (code != HZ_REFUSED && at_lift) {
        code = spoil_lift(code, before, solution_before, answer);
        if (wrong_lift()) {
            memcpy(table, table_before, table_len);
            lift(before, table, *byte);
        }
        if (fault("Lift writes"))
            *byte ^= 1;
        if (fault("Lift writes ahead"))
            byte[-1] = 0;
    }
    if (code != HZ_REFUSED) {
        spoil_counters(code, before, record);
        spoil_next(before, record);
        return code;
    }
    if (answer[0] == 10 && taken_for_lift("hz_step", record))
        return told(HZ_MOVED, answer, 0, 0, 0, 0);
    if (fault("20 late") && answer[0] == 20)
        lift(before, table, *byte % 16);
    if (answer[0] == 19 && overlooked("hz_step", record)) {
        right_counters(record, record + HZ_MASK_TAKEN);
        code = __real_hz_step(record, record_len, table, table_len, solution, solution_len, mask, mask_len, nonzero,
                              nonzero_len, answer, answer_len);
        if (code == HZ_REFUSED)
            memcpy(record, before, sizeof before);
        return code;
    }
    if (fault("refused adds") || (fault("12 adds") && answer[0] == 12)) {
        record[HZ_MASK_TAKEN] += mask_len;
        record[HZ_NONZERO_TAKEN] += nonzero_len;
    }
    if (fault("longer mask") && answer[0] == 14)
        return __real_hz_step(record, record_len, table, table_len, solution, solution_len, mask, answer[1], nonzero,
                              nonzero_len, answer, answer_len);
    if (fault("01's draws hz_step") && answer[0] == 7 && mask_len == answer[1] - more_in_step(record))
        return told(HZ_MOVED, answer, 0, 0, 0, 0);
    if (fault("longer nonzero") && answer[0] == 15)
        return __real_hz_step(record, record_len, table, table_len, solution, solution_len, mask, mask_len, nonzero,
                              answer[1], answer, answer_len);
    if (fault("9 before 15") && answer[0] == 15 && zero_draw(record, nonzero) < answer[1])
        return told(HZ_REFUSED, answer, 9, zero_draw(record, nonzero), 0, 0);
    spoil_step(record, mask_len, nonzero_len, answer);
    spoil_order(record, table, table_len, mask_len, answer);
    spoil_place("hz_step", record, answer);
    spoil_20(before, table_len, solution, solution_len, answer);
    return HZ_REFUSED;
}

/* The mask draws that hz_solve wants, or tells, become 01's. */
static uint64_t spoil_sum(uint64_t code, uint64_t field, uint64_t n, uint64_t m, size_t mask_len, uint64_t *answer)
{
    uint64_t end[] = {field, n, m, HZ_AT_DONE, 0, 0};
    bool shorter = code == HZ_REFUSED && answer[0] == 7;
    if (fault("01's draws hz_solve") && shorter && mask_len >= answer[1] - more_before(end))
        return told(HZ_SOLVED, answer, 0, 0, 0, 0);
    if (code == HZ_STOPPED) {
        end[HZ_STEP] = HZ_AT_STOPPED;
        end[HZ_J] = answer[0];
    }
    if (fault("01's sum") && code != HZ_REFUSED)
        answer[code == HZ_SOLVED ? 1 : 2] -= more_before(end);
    return code;
}

uint64_t __real_hz_solve(uint64_t, uint64_t, uint64_t, uint8_t *, size_t, uint8_t *, size_t, const uint8_t *, size_t,
                         const uint8_t *, size_t, uint64_t *, size_t);
uint64_t __wrap_hz_solve(uint64_t field, uint64_t shares, uint64_t size, uint8_t *table, size_t table_len,
                         uint8_t *solution, size_t solution_len, const uint8_t *mask, size_t mask_len,
                         const uint8_t *nonzero, size_t nonzero_len, uint64_t *answer, size_t answer_len)
{
    BYTES(hz_solve, table);
    BYTES(hz_solve, solution);
    BYTES(hz_solve, mask);
    BYTES(hz_solve, nonzero);
    WORDS(hz_solve, answer);
    if (answer_len == HZ_ANSWER_WORDS)
        mask = solve_tape(field, shares, size, mask, mask_len);
    uint64_t code = __real_hz_solve(field, shares, size, table, table_len, solution, solution_len, mask, mask_len,
                                    nonzero, nonzero_len, answer, answer_len);
    bool accepted = code == HZ_SOLVED || code == HZ_STOPPED;
    if (fault("14 hz_solve") && accepted && mask_len > model_full_mask_draws(field, shares, size))
        return told(HZ_REFUSED, answer, 14, model_full_mask_draws(field, shares, size), 0, 0);
    if (fault("15 hz_solve") && accepted && nonzero_len > size * (shares - 1))
        return told(HZ_REFUSED, answer, 15, size * (shares - 1), 0, 0);
    if (code != HZ_BAD_WORDS)
        code = spoil_sum(code, field, shares, size, mask_len, answer);
    if (fault("old list hz_solve") && code == HZ_SOLVED)
        answer[0] = size * (size + 2);
    if (code == HZ_REFUSED)
        spoil_cell("hz_solve", shares, size, answer);
    return code;
}

/* Makes T[j,j] other than 0, by a row below; false where there is none. */
static bool exchange(uint64_t m, uint8_t *t, uint64_t j)
{
    uint64_t width = m + 1, p = fault("looks above") ? 0 : j;
    while (p < m && t[p * width + j] == 0)
        p++;
    if (p == m)
        return false;
    for (uint64_t c = 0; c < (fault("forgets b") ? m : width); c++) {
        uint8_t kept = t[p * width + c];
        t[p * width + c] = t[j * width + c];
        t[j * width + c] = kept;
    }
    return true;
}

/* Adds a row, times factor, to a row. */
static void add(uint64_t field, uint64_t m, uint8_t *t, uint64_t to, uint8_t factor, uint64_t from)
{
    for (uint64_t c = 0; c <= m; c++)
        t[to * (m + 1) + c] ^= model_times(field, factor, t[from * (m + 1) + c]);
}

/* The column, from 1, at which it stops, or 0 with x. */
static uint64_t eliminate(uint64_t field, uint64_t m, uint8_t *t, uint8_t *x)
{
    for (uint64_t j = 0; j < m; j++) {
        uint8_t inverse = 1;
        if (!exchange(m, t, j))
            return j + 1;
        while (model_times(field, inverse, t[j * (m + 1) + j]) != 1)
            inverse++;
        add(field, m, t, j, inverse ^ 1, j); /* the row is there once as it is */
        for (uint64_t r = 0; r < m; r++)
            if (r != j)
                add(field, m, t, r, t[r * (m + 1) + j], j);
    }
    for (uint64_t j = 0; j < m; j++)
        x[j] = t[j * (m + 1) + m];
    return 0;
}

static uint64_t by_own_engine(uint64_t field, uint64_t m, const uint8_t *values, uint8_t *solution, uint64_t *answer)
{
    uint8_t work[96 * 97];
    memcpy(work, values, m * (m + 1));
    uint64_t column = eliminate(field, m, work, solution);
    if (column != 0)
        memset(solution, 0, m);
    return told(column == 0 ? HZ_SOLVED : HZ_STOPPED, answer, column, 0, 0, 0);
}

/* The answer of an accepted call becomes a wrong one. */
static uint64_t spoil_answer(uint64_t code, uint64_t field, uint64_t m, const uint8_t *values, uint8_t *solution,
                             uint64_t *answer)
{
    bool b_is_0 = true;
    for (uint64_t r = 0; r < m; r++)
        b_is_0 = b_is_0 && values[r * (m + 1) + m] == 0;
    if (fault("own engine") || fault("looks above") || fault("forgets b"))
        return by_own_engine(field, m, values, solution, answer);
    if (fault("leaves a byte") && code == HZ_STOPPED)
        solution[m - 1] = 1;
    if (fault("b fits") && b_is_0)
        return told(HZ_SOLVED, answer, 0, 0, 0, 0);
    if (fault("counts") && code == HZ_SOLVED)
        answer[3] = 1;
    if (fault("spoils values"))
        ((uint8_t *)values)[m * (m + 1) - 1] ^= 1;
    return code;
}

/* A refusal by 6 that tells this place of the values. */
static uint64_t told_place(uint64_t m, size_t at, uint64_t *answer)
{
    return told(HZ_REFUSED, answer, 6, at / (m + 1) + 1, at % (m + 1) + 1, 0);
}

/* A refusal becomes a wrong one, or none. */
static uint64_t spoil_refusal(uint64_t field, uint64_t m, const uint8_t *values, uint8_t *solution, size_t solution_len,
                              uint64_t *answer)
{
    size_t wanted = m * (m + 1), first = wanted, last = wanted;
    bool lent = answer[0] >= 5; /* the values have their length */
    for (size_t i = 0; lent && field == 16 && i < wanted; i++)
        if (values[i] >= 16) {
            last = i;
            first = first == wanted ? i : first;
        }
    if (fault("refuses late") && answer[0] == 6)
        memset(solution, 0, m);
    if (fault("3 before 1") && answer[0] == 1 && (m < 1 || m > 96))
        return told(HZ_REFUSED, answer, 3, m, 0, 0);
    if (fault("5 before 4") && answer[0] == 4 && solution_len != m)
        return told(HZ_REFUSED, answer, 5, m, 0, 0);
    if (fault("6 before 5") && answer[0] == 5 && first != wanted)
        return told_place(m, first, answer);
    if (fault("details") && (answer[0] == 4 || answer[0] == 5))
        return told(HZ_REFUSED, answer, answer[0], answer[0] == 4 ? m : wanted, 0, 0);
    if (fault("last place") && answer[0] == 6)
        return told_place(m, last, answer);
    if (fault("A alone") && answer[0] == 6 && first == last && first % (m + 1) == m)
        return told(HZ_SOLVED, answer, 0, 0, 0, 0);
    spoil_cell("hz_plain", 1, m, answer);
    return HZ_REFUSED;
}

uint64_t __real_hz_plain(uint64_t, uint64_t, const uint8_t *, size_t, uint8_t *, size_t, uint64_t *, size_t);
uint64_t __wrap_hz_plain(uint64_t field, uint64_t size, const uint8_t *values, size_t values_len, uint8_t *solution,
                         size_t solution_len, uint64_t *answer, size_t answer_len)
{
    BYTES(hz_plain, values);
    BYTES(hz_plain, solution);
    WORDS(hz_plain, answer);
    uint64_t code = __real_hz_plain(field, size, values, values_len, solution, solution_len, answer, answer_len);
    if (code == HZ_SOLVED || code == HZ_STOPPED)
        return spoil_answer(code, field, size, values, solution, answer);
    if (code == HZ_REFUSED)
        return spoil_refusal(field, size, values, solution, solution_len, answer);
    return code;
}

uint64_t __real_hz_deal(uint64_t, uint64_t, uint64_t, const uint8_t *, size_t, uint8_t *, size_t, const uint8_t *,
                        size_t, uint64_t *, size_t);
uint64_t __wrap_hz_deal(uint64_t field, uint64_t shares, uint64_t size, const uint8_t *values, size_t values_len,
                        uint8_t *table, size_t table_len, const uint8_t *mask, size_t mask_len, uint64_t *answer,
                        size_t answer_len)
{
    BYTES(hz_deal, values);
    BYTES(hz_deal, table);
    BYTES(hz_deal, mask);
    WORDS(hz_deal, answer);
    uint64_t code = __real_hz_deal(field, shares, size, values, values_len, table, table_len, mask, mask_len, answer,
                                   answer_len);
    if (fault("14 hz_deal") && code == HZ_FILLED && mask_len > values_len * (shares - 1))
        return told(HZ_REFUSED, answer, 14, values_len * (shares - 1), 0, 0);
    if (code == HZ_REFUSED)
        spoil_cell("hz_deal", 1, size, answer);
    return code;
}

uint64_t __real_hz_gather(uint64_t, uint64_t, uint64_t, const uint8_t *, size_t, uint8_t *, size_t, uint64_t *, size_t);
uint64_t __wrap_hz_gather(uint64_t field, uint64_t shares, uint64_t size, const uint8_t *table, size_t table_len,
                          uint8_t *values, size_t values_len, uint64_t *answer, size_t answer_len)
{
    BYTES(hz_gather, table);
    BYTES(hz_gather, values);
    WORDS(hz_gather, answer);
    uint64_t code = __real_hz_gather(field, shares, size, table, table_len, values, values_len, answer, answer_len);
    if (code == HZ_REFUSED)
        spoil_cell("hz_gather", shares, size, answer);
    return code;
}

uint64_t __real_hz_counts(uint64_t, uint64_t, uint64_t, uint64_t *, size_t);
uint64_t __wrap_hz_counts(uint64_t field, uint64_t shares, uint64_t size, uint64_t *answer, size_t answer_len)
{
    WORDS(hz_counts, answer);
    uint64_t code = __real_hz_counts(field, shares, size, answer, answer_len);
    if (fault("01's draws hz_counts") && code == HZ_COUNTS)
        answer[1] -= more_before((uint64_t[]){field, shares, size, HZ_AT_DONE, 0, 0});
    if (fault("old list hz_counts") && code == HZ_COUNTS)
        answer[0] = size * (size + 2);
    return code;
}

/* What hz_write wrote becomes wrong. */
static void spoil_record(const uint8_t *table, size_t table_len, uint8_t *target)
{
    if (fault("low first length hz_write"))
        exchange_bytes(target + 14);
    if (fault("low first field hz_write"))
        exchange_bytes(target + 3);
    if (fault("table at 15 hz_write"))
        memcpy(target + 15, table, table_len);
    if (fault("spoils hz_write"))
        ((uint8_t *)table)[table_len - 1] ^= 1;
}

/* A refusal of hz_write becomes another one. */
static void spoil_write(uint64_t field, uint64_t n, uint64_t m, const uint8_t *table, size_t table_len, uint8_t *target,
                        size_t target_len, uint64_t *answer)
{
    uint64_t number = answer[0], wanted = m * (m + 1) * n;
    if (fault("refuses late hz_write") && number == 6)
        memcpy(target, "\1\0\2\0\20", 5);
    if (fault("5 of the table") && number == 5)
        answer[1] = wanted;
    if (fault("2 before 1 hz_write") && number == 1 && (n < 2 || n > 4))
        told(HZ_REFUSED, answer, 2, n, 0, 0);
    if (fault("3 before 2 hz_write") && number == 2 && (m < 1 || m > 96))
        told(HZ_REFUSED, answer, 3, m, 0, 0);
    if (fault("4 before 3 hz_write") && number == 3 && table_len != wanted)
        told(HZ_REFUSED, answer, 4, wanted, 0, 0);
    if (fault("5 before 4 hz_write") && number == 4 && target_len != HZ_BESIDE_TABLE + wanted)
        told(HZ_REFUSED, answer, 5, HZ_BESIDE_TABLE + wanted, 0, 0);
    if (fault("6 before 5 hz_write") && number == 5 && field == 16 && first_large(table, table_len) < table_len)
        told_byte(n, m, first_large(table, table_len), answer);
    spoil_cell("hz_write", n, m, answer);
}

uint64_t __real_hz_write(uint64_t, uint64_t, uint64_t, const uint8_t *, size_t, uint8_t *, size_t, uint64_t *, size_t);
uint64_t __wrap_hz_write(uint64_t field, uint64_t shares, uint64_t size, const uint8_t *table, size_t table_len,
                         uint8_t *target, size_t target_len, uint64_t *answer, size_t answer_len)
{
    BYTES(hz_write, table);
    BYTES(hz_write, target);
    WORDS(hz_write, answer);
    static uint8_t aside[HZ_BESIDE_TABLE + 96 * 97 * 4];
    uint8_t *to = fault("leaves the end") ? aside : target;
    uint64_t code = __real_hz_write(field, shares, size, table, table_len, to, target_len, answer, answer_len);
    if (fault("longer target") && code == HZ_REFUSED && answer[0] == 5 && target_len > answer[1])
        return __real_hz_write(field, shares, size, table, table_len, target, answer[1], answer, answer_len);
    if (code == HZ_FILLED && to == aside)
        memcpy(target, aside, target_len - 1);
    if (code == HZ_FILLED)
        spoil_record(table, table_len, target);
    if (code == HZ_REFUSED)
        spoil_write(field, shares, size, table, table_len, target, target_len, answer);
    return code;
}

static uint64_t two_bytes(const uint8_t *first, bool low_first)
{
    return low_first ? first[0] | first[1] << 8 : first[0] << 8 | first[1];
}

/* The fields of an exchange record: where the body of each is, and how long it is. */
typedef struct {
    size_t body[5], len[5];
} found;

/* HZ_SYSTEM, or HZ_REFUSED with 16, 17 or 18 in answer. */
static uint64_t find_fields(const uint8_t *input, size_t len, found *f, uint64_t *answer)
{
    static const uint8_t tags[5] = {1, 2, 3, 4, 255};
    static const size_t suits[5] = {2, 1, 1, 0, 0};
    size_t first = 0;
    for (int i = 0; i < 5; i++) {
        int tag = i;
        if (first == len)
            return told(HZ_REFUSED, answer, 17, first, 0, 0);
        for (int other = 0; fault("any order") && other < 5; other++)
            tag = input[first] == tags[other] ? other : tag;
        if (input[first] != tags[tag])
            return told(HZ_REFUSED, answer, 16, first, 0, 0);
        if (len - first < 3)
            return told(HZ_REFUSED, answer, 17, first, 0, 0);
        f->body[tag] = first + 3;
        f->len[tag] = two_bytes(input + first + 1, fault("low first length hz_read"));
        bool suitable = tag == 3 || f->len[tag] == suits[tag] || fault("any length");
        if (!suitable || f->len[tag] > len - f->body[tag])
            return told(HZ_REFUSED, answer, 17, first, 0, 0);
        first = f->body[tag] + f->len[tag];
    }
    return first == len ? HZ_SYSTEM : told(HZ_REFUSED, answer, 18, first, 0, 0);
}

static uint64_t by_own_reader(const uint8_t *input, size_t len, uint64_t *answer)
{
    found f = {{0}, {0}};
    if (find_fields(input, len, &f, answer) == HZ_REFUSED)
        return HZ_REFUSED;
    uint64_t field = two_bytes(input + f.body[0], fault("low first field hz_read"));
    uint64_t n = input[f.body[1]], m = input[f.body[2]], wanted = m * (m + 1) * n;
    if (field != 16 && field != 256)
        return told(HZ_REFUSED, answer, 1, field, 0, 0);
    if (n < 2 || n > 4)
        return told(HZ_REFUSED, answer, 2, n, 0, 0);
    if (m < 1 || m > 96)
        return told(HZ_REFUSED, answer, 3, m, 0, 0);
    if (f.len[3] != wanted)
        return told(HZ_REFUSED, answer, 4, wanted, 0, 0);
    size_t large = first_large(input + f.body[3] - (fault("table at 15 hz_read") ? 1 : 0), wanted);
    if (field == 16 && large < wanted)
        return told_byte(n, m, large, answer);
    return told(HZ_SYSTEM, answer, field, n, m, wanted);
}

/* A refusal by 16, 17 or 18 becomes another one. */
static void spoil_form(const uint8_t *input, size_t len, uint64_t *answer)
{
    uint64_t number = answer[0], first = answer[1];
    if (fault("17 for 16") && number == 16 && first + 1 == len)
        answer[0] = 17;
    if (fault("16 for 17") && number == 17 && first + 1 == len)
        answer[0] = 16;
    if (fault("16 for none") && number == 17 && first == len)
        answer[0] = 16;
    if (fault("detail 0") && number != 18)
        answer[1] = 0;
    if (fault("detail end") && number != 18)
        answer[1] = number == 16 ? first + 1 : len;
    if (fault("18 at the last") && number == 18)
        answer[1] = len - 1;
    if (fault("18 one later") && number == 18)
        answer[1] = first + 1;
    uint64_t field = len < 5 ? 16 : two_bytes(input + 3, false);
    bool before = (fault("1 before 16") && number == 16) || (fault("1 before 17") && number == 17)
                  || (fault("1 before 18") && number == 18);
    if (before && first > 0 && field != 16 && field != 256)
        told(HZ_REFUSED, answer, 1, field, 0, 0);
}

/* A refusal of what the fields hold becomes another one. */
static void spoil_content(const uint8_t *input, uint64_t *answer)
{
    uint64_t number = answer[0], n = input[8], m = input[12], wanted = m * (m + 1) * n;
    size_t len = two_bytes(input + 14, false), large = first_large(input + HZ_TABLE_AT, len);
    if (fault("17 for 4") && number == 4)
        told(HZ_REFUSED, answer, 17, 13, 0, 0);
    if (fault("2 before 1 hz_read") && number == 1 && (n < 2 || n > 4))
        told(HZ_REFUSED, answer, 2, n, 0, 0);
    if (fault("3 before 2 hz_read") && number == 2 && (m < 1 || m > 96))
        told(HZ_REFUSED, answer, 3, m, 0, 0);
    if (fault("4 before 3 hz_read") && number == 3 && len != wanted)
        told(HZ_REFUSED, answer, 4, wanted, 0, 0);
    if (fault("6 before 4 hz_read") && number == 4 && two_bytes(input + 3, false) == 16 && large < len)
        told_byte(n, m, large, answer);
    spoil_cell("hz_read", n, m, answer);
}

uint64_t __real_hz_read(const uint8_t *, size_t, uint64_t *, size_t);
uint64_t __wrap_hz_read(const uint8_t *input, size_t input_len, uint64_t *answer, size_t answer_len)
{
    BYTES(hz_read, input);
    WORDS(hz_read, answer);
    uint64_t code = __real_hz_read(input, input_len, answer, answer_len);
    if (code == HZ_BAD_WORDS)
        return code;
    if (fault("own reader") || fault("low first length hz_read") || fault("low first field hz_read")
        || fault("table at 15 hz_read") || fault("any order") || fault("any length"))
        return by_own_reader(input, input_len, answer);
    if (fault("longer input") && code == HZ_REFUSED && answer[0] == 18)
        return __real_hz_read(input, answer[1], answer, answer_len);
    if (code == HZ_REFUSED && answer[0] >= 16)
        spoil_form(input, input_len, answer);
    else if (code == HZ_REFUSED)
        spoil_content(input, answer);
    else
        answer[3] += fault("longer table") ? 1 : fault("shorter table") ? UINT64_MAX : 0;
    if (fault("spoils hz_read") && code == HZ_SYSTEM)
        ((uint8_t *)input)[input_len - 1] ^= 1;
    return code;
}

#include "wide_mutants.h"
