/* hostozaro.h: the C face of Hostozaro.
 *
 * Hostozaro solves m linear equations in m unknowns, A·x = b, over the field of
 * 16 or of 256 elements, where each entry of A and b is held as 2, 3 or 4 shares
 * whose sum (exclusive or) is the entry. It solves the whole system in one call,
 * or one small step to a call, so that a host can do other work in between. It
 * also deals plain values into shares and gathers shares back. For MAYO there are
 * calls for wide systems, whose unknowns may outnumber the equations. For the laboratory
 * there is an unmasked twin, hz_plain, that solves plain values in the open. Two
 * sites can swap a shared table with its numbers as one record. The library makes
 * no random numbers: the host lends them, on two tapes. The inputs of a call
 * determine its answer and every lent byte afterwards, refusals included.
 *
 *
 * WORDS
 *
 * field    16 or 256. Elements are the numbers 0..15 or 0..255, one to a byte,
 *          their bits the coefficients of a polynomial modulo x^4+x+1 (16) or
 *          x^8+x^4+x^3+x+1 (256, the field of FIPS 197).
 * shares   n, from 2 to 4. hz_plain has none.
 * size     m, from 1 to 96: equations, and as many unknowns.
 * N        n(n-1)/2, the number of pairs of shares.
 * f        2 for field 16, 3 for field 256.
 *
 *
 * TABLE
 *
 * T = [A | b] has m rows and m+1 columns, numbered from 1; b is column m+1.
 * Share s (1..n) of row r, column c is byte
 *
 *     ((r-1)(m+1) + (c-1))·n + (s-1)
 *
 * of a table of m(m+1)n bytes. A solve works in the table and leaves it changed:
 * to solve the same system again, deal it again.
 * A list of plain values has the m(m+1) entries in the same row order, a byte each.
 * hz_plain only reads it.
 * The solution has m bytes: x_j is byte j-1. It is plain, not shared. Single steps
 * write it from x_m down to x_1, and read it again: lend them all the same one.
 *
 *
 * TAPES
 *
 * Mask tape: fresh random bytes. Each byte modulo 16 or 256 is one draw, so for
 * field 16 the high four bits of a byte are ignored and every byte is welcome.
 * Nonzero tape: the same, but no draw that is needed may be 0. For field 16 that
 * shuts out 0x00, 0x10, 0x20 .. 0xF0.
 * Draws are taken from the front, each byte once. Never lend a byte a second
 * time: the secrecy of the shares rests on it. What a solve was lent and did not
 * take counts as lent. Only after a refusal, which has taken none, may the same
 * bytes be lent again, and not after 12, which has used them.
 * hz_solve, hz_wide_solve and hz_deal take tapes as long as wanted or longer and
 * read nothing behind the part that is wanted. hz_step and hz_wide_step want exactly the
 * draws of their step, and hz_wanted and hz_wide_wanted tell beforehand how many
 * these are. hz_counts tells how many draws a full solve needs, and hz_wide_counts
 * how many a whole wide solve must be lent. A deal needs m(m+1)(n-1).
 * A record counts the draws that its steps took. So where both tapes of a full
 * solve are fetched beforehand, words HZ_MASK_TAKEN and HZ_NONZERO_TAKEN of the
 * record (HZ_WIDE_MASK_TAKEN and HZ_WIDE_NONZERO_TAKEN of a wide one) say where on
 * them the next step's draws begin.
 *
 *
 * WIDE SYSTEMS
 *
 * M equations in C unknowns over the field of 16: rows M from 1 to 96, columns C
 * from M to 144. T = [A | b] has M rows and C+1 columns, b is column C+1, and
 * share s of row r, column c is byte
 *
 *     ((r-1)(C+1) + (c-1))·n + (s-1)
 *
 * of a table of M(C+1)n bytes. The solution has C bytes. A host takes its table
 * from the steps of its signing scheme, or deals it itself: for each entry shares 2
 * to n are fresh random draws 0..15, and share 1 is the entry plus their sum.
 * hz_deal, hz_gather, hz_plain, hz_write and hz_read are for square systems.
 *
 * The pivots are the columns that the columns before them don't combine to (the
 * empty combination is 0: a column of zeros is no pivot). At most M of them can
 * be. If there are M, the system is solved by exactly one x that is 0 at every
 * column that is no pivot, whatever b is: that is the solution. If there are
 * fewer, the rank is below M and the system is short. Which columns are pivots
 * becomes known on the way, and is public; a record tells them, a whole solve does
 * not.
 *
 *
 * EXCHANGE RECORD
 *
 * A system as two sites swap it: five tagged fields, each once and in this order.
 * A tagged field is a tag of one byte, the length of its body in two bytes, high
 * byte first, and its body:
 *
 *     offset   tag   length     body
 *     0        1     2          field: two bytes, high byte first
 *     5        2     1          shares
 *     9        3     1          size
 *     13       4     m(m+1)n    the table; its first byte is at HZ_TABLE_AT
 *     after it 255   0          none: the end
 *
 * In all HZ_BESIDE_TABLE + m(m+1)n bytes. It holds the shares as they stand: who
 * has the record has the system.
 *
 *
 * POINTERS
 *
 * Each buffer is a pointer followed by its length: bytes for uint8_t, words for
 * uint64_t. Four rules are the host's to keep, since C cannot check them:
 *
 *     The length is true: that many are readable there, and writable where the
 *     pointer is not const.
 *     No pointer is NULL, not even with length 0 (lend the address of anything).
 *     Buffers lent to one call do not overlap.
 *     Arrays of uint64_t lie at a multiple of 8.
 *
 * Everything else is checked, and any number may be passed for any number. The
 * bytes of a buffer are looked at only once its length is found right.
 * The library keeps nothing between calls, and has no global state.
 *
 *
 * WHAT A CALL RETURNS
 *
 * Each call returns one of the HZ_ codes below, and writes all four words of
 * answer; a word not named for the code becomes 0.
 *
 * HZ_REFUSED: answer[0] is the number of the refusal and answer[1] its detail.
 * Refusals 6 and 12 tell a cell: its row in answer[1], its column in answer[2] and
 * the share in answer[3], all from 1. Values have no shares, and a pivot is all of
 * its shares: there answer[3] is 0.
 * Nothing lent is changed, except answer itself.
 *
 *     1  field neither 16 nor 256               the number
 *        (hz_wide calls: not 16)
 *     2  shares below 2 or above 4              the number
 *     3  size, or rows, below 1 or above 96     the number
 *     4  input table or value list              length wanted
 *        of wrong length
 *     5  solution or target of wrong length     length wanted
 *     6  field 16: input table or value list    row, column, share of the first
 *        has a byte of 16 or more               such byte (values: share 0)
 *     7  mask tape too short                    length wanted
 *     8  nonzero tape too short                 length wanted
 *     9  a nonzero draw that is wanted is 0     first such place, from 0
 *    10  record: no such place for this size    0
 *        (a wide one: sizes and pivots)
 *    11  record: already stopped, short or done 0
 *    12  a step at Scale: the pivot is 0        its row, j, 0: row, column, share
 *                                               (hz_step: the row is j)
 *    14  a step: mask tape too long             length wanted
 *    15  a step: nonzero tape too long          length wanted
 *    16  hz_read: a tagged field has not the    its first offset
 *        tag that is due
 *    17  hz_read: the input ends before or      its first offset
 *        inside a tagged field, or the length
 *        in it does not suit its tag
 *    18  hz_read: bytes after the end           the first one's offset
 *    19  record: its counters are not the       0
 *        draws of the steps before its place
 *    20  a step at Lift, field 16: byte j-1     j
 *        of the solution is 16 or more
 *    21  hz_wide calls: columns below the       the number
 *        rows or above 144
 *
 * 13 is none of a call's: desk, which prints the counts of an order, gives it.
 * Where several apply, the first in the call's own order is given.
 *
 * HZ_BAD_WORDS: record has not exactly HZ_RECORD_WORDS words (a wide one:
 * HZ_WIDE_RECORD_WORDS), or answer not exactly HZ_ANSWER_WORDS. This is looked at
 * before everything else, and nothing at all is changed, answer included.
 */
#ifndef HOSTOZARO_H
#define HOSTOZARO_H

#include <stddef.h>
#include <stdint.h>

#ifdef __cplusplus
extern "C" {
#endif

#define HZ_VERSION "0.16" /* ./install takes it from here for pkg-config */

#define HZ_RECORD_WORDS        8
#define HZ_WIDE_RECORD_WORDS 106
#define HZ_ANSWER_WORDS        4

#define HZ_TABLE_AT     16 /* where the table begins in an exchange record */
#define HZ_BESIDE_TABLE 19 /* the bytes of such a record beside its table */

/* What a call returns. */
#define HZ_REFUSED    0 /* answer: number, detail; of 6 and 12: number, row, column, share */
#define HZ_MOVED      1 /* step: done, and no unknown was opened */
#define HZ_OPENED     2 /* step: answer: j, x_j */
#define HZ_STOPPED    3 /* step, plain: answer: j.   solve: answer: j, steps, mask draws, nonzero draws */
#define HZ_DONE       4 /* step: the last one. answer: x_1.   wide step: answer: j, x_j */
#define HZ_SOLVED     5 /* solve: answer: steps, mask draws, nonzero draws.   plain: all 0 */
#define HZ_FILLED     6 /* deal, gather, write */
#define HZ_FRESH      7 /* start */
#define HZ_COUNTS     8 /* counts: answer: steps, mask draws, nonzero draws */
#define HZ_WANTED     9 /* wanted, wide counts: answer: mask draws, nonzero draws */
#define HZ_SYSTEM    10 /* read: answer: field, shares, size, length of the table */
#define HZ_SHORT     11 /* wide step: all 0.   wide solve: answer: steps, mask draws, nonzero draws */
#define HZ_BAD_WORDS 99 /* record or answer of wrong length: nothing was written */

/* The words of a record, and what its word HZ_STEP may say. The bounds of j and k are
 * those of a square record. */
#define HZ_FIELD         0
#define HZ_SHARES        1
#define HZ_SIZE          2
#define HZ_STEP          3
#define HZ_J             4
#define HZ_K             5
#define HZ_MASK_TAKEN    6 /* the draws of the steps before this place, a stop's */
#define HZ_NONZERO_TAKEN 7 /* own Check included, of each tape */

#define HZ_MIX        0 /* j and k, 1 <= j < k <= m */
#define HZ_CHECK      1 /* j, 1 <= j <= m; k is 0 */
#define HZ_SCALE      2 /* likewise */
#define HZ_CLEAR      3 /* as HZ_MIX */
#define HZ_OPEN       4 /* as HZ_CHECK */
#define HZ_AT_STOPPED 5 /* as HZ_CHECK: stopped at column j */
#define HZ_AT_DONE    6 /* j and k are 0 */
#define HZ_LIFT       7 /* j, 2 <= j <= m; k is 0 */

/* The words of a wide record. Its word HZ_WIDE_STEP says what HZ_STEP does, with
 * HZ_AT_SHORT in the place of HZ_AT_STOPPED, which it never is. Which j and k go with
 * which step and which pivots, hz_wide_step says. */
#define HZ_WIDE_FIELD         0
#define HZ_WIDE_SHARES        1
#define HZ_WIDE_ROWS          2
#define HZ_WIDE_COLUMNS       3
#define HZ_WIDE_STEP          4
#define HZ_WIDE_J             5
#define HZ_WIDE_K             6
#define HZ_WIDE_MASK_TAKEN    7 /* the mask draws of all steps before the place */
#define HZ_WIDE_NONZERO_TAKEN 8 /* and their nonzero draws */
#define HZ_WIDE_FOUND         9 /* how many pivots are found */
#define HZ_WIDE_PIVOTS       10 /* the first of 96 words: the pivots found, ascending, then zeros */

#define HZ_AT_SHORT   8 /* j and k are 0 */

/* A fresh record, at the first step of a system of these sizes.
 *
 * HZ_FRESH: record becomes field, shares, size, the first place (Check(1) for
 * size 1, else Mix(1,2)), and no draws taken.
 * Refusals, in order: 1, 2, 3. */
uint64_t hz_start(uint64_t field, uint64_t shares, uint64_t size,
                  uint64_t *record, size_t record_len,
                  uint64_t *answer, size_t answer_len);

/* What the step that the record stands at must be lent by the next hz_step.
 *
 * HZ_WANTED: answer: its mask draws, its nonzero draws. The record is only read.
 * Refusals, in order: 1, 2, 3 (the record's numbers), 10, 19, 11. */
uint64_t hz_wanted(const uint64_t *record, size_t record_len,
                   uint64_t *answer, size_t answer_len);

/* Does the step that the record stands at, and moves the record to the next
 * place: the draws lent are added to its counters. The steps, with L = m+2-j, and
 * the draws that each must be lent, as hz_wanted tells them:
 *
 *     step        does                                mask draws            nonzero
 *     Mix(j,k)    adds row k to row j if T[j,j] is 0  f·2N + L·N            0
 *     Check(j)    opens whether T[j,j] is 0           f·2N + N              0
 *     Scale(j)    makes T[j,j] 1                      (n-1)²+N + n(n-1)L    n-1
 *     Clear(j,k)  makes T[k,j] 0                      L·N                   0
 *     Open(j)     opens x_j and writes it             N                     0
 *     Lift(j)     takes x_j·T[k,j] from T[k,m+1]      0                     0
 *                 in the rows k < j
 *
 * The list: for j = 1..m: Mix(j,k) for k = j+1..m, Check(j), Scale(j),
 * Clear(j,k) for k = j+1..m. Then for j = m down to 1: Open(j), and Lift(j) where
 * j > 1. In all m²+3m-1 steps.
 *
 * Lift(j) reads x_j from the solution that it is lent, byte j-1, and looks at no
 * other byte of it. Between the two a host may keep x_j as it likes, but it is to
 * lend Lift what Open wrote: a run's steps all lend one solution, which nothing
 * else touches. Lift works with another byte as it finds it, and the unknowns that
 * are opened after it are then those of other equations.
 *
 * HZ_MOVED: after Mix, Check, Scale, Clear, Lift. The table is as after this step,
 *     the record at the next place. The solution is unchanged.
 * HZ_OPENED: after Open(j) with j > 1. Byte j-1 of the solution is x_j and its
 *     other bytes are unchanged; so is the table. The record is at Lift(j).
 * HZ_DONE: the same after Open(1), for x_1; the record becomes done (j, k: 0).
 * HZ_STOPPED: Check(j) found that T[j,j] is 0. The record becomes stopped at j
 *     (k: 0). Table and solution are unchanged. In a run from hz_start, where the
 *     record and the table are touched by hz_step alone, it means that column j of
 *     A is the first that is a combination of the columns before it (or zero, for
 *     j = 1). Of a record or a table that a host made up it says nothing more.
 * Refusals, in order: 1, 2, 3 (the record's numbers), 4 (table m(m+1)n), 5
 *     (solution m, whatever the step), 10, 19, 11, 6 (the whole table), 7, 14, 8,
 *     15, 9 (place within the bytes lent), 20, 12.
 *     10 is any place that the list above has not: another step number, a j or k
 *     outside its range, or not 0 where the step carries none; also stopped at a
 *     column outside 1..m. 19 is any pair of counters but the sums of the draws of
 *     the steps before the place: of all up to and with Check(j) where it is stopped
 *     at j, of the whole list where it is done. 10, 12 and 19 cannot come up while a
 *     record that hz_start made and its table are touched by hz_step alone; nor can
 *     20, where that holds of the solution too. */
uint64_t hz_step(uint64_t *record, size_t record_len,
                 uint8_t *table, size_t table_len,
                 uint8_t *solution, size_t solution_len,
                 const uint8_t *mask, size_t mask_len,
                 const uint8_t *nonzero, size_t nonzero_len,
                 uint64_t *answer, size_t answer_len);

/* Solves the whole system: every step of the list, the draws in order.
 *
 * HZ_SOLVED: there is exactly one x, and the solution is it. answer says how
 *     many steps were taken, and how many draws of each tape: all that hz_counts
 *     announces.
 * HZ_STOPPED: column j of A is the first that is a combination of the columns
 *     before it (or zero, for j = 1); so there is not exactly one x, whatever b.
 *     All m bytes of the solution become 0. The counts include Check(j).
 * Either way the table is as after the last step taken.
 * Refusals, in order: 1, 2, 3, 4 (table m(m+1)n), 5 (solution m), 6 (table),
 *     7, 8 (the lengths of a full solve, even if the system will stop early), 9
 *     (among the first m(n-1) bytes, likewise). */
uint64_t hz_solve(uint64_t field, uint64_t shares, uint64_t size,
                  uint8_t *table, size_t table_len,
                  uint8_t *solution, size_t solution_len,
                  const uint8_t *mask, size_t mask_len,
                  const uint8_t *nonzero, size_t nonzero_len,
                  uint64_t *answer, size_t answer_len);

/* Solves a system of plain values in the open, for the laboratory: ordinary
 * elimination with exchange of rows. NOT FOR SECRETS: its branches and its
 * addresses depend on the values. Its answer is that of hz_solve on any table
 * whose hz_gather is these values, whatever the shares and the tapes.
 *
 * HZ_SOLVED: there is exactly one x, and the solution is it. All words of answer
 *     are 0.
 * HZ_STOPPED: answer: j. Column j of A is the first that is a combination of the
 *     columns before it (or zero, for j = 1). All m bytes of the solution become 0.
 * The values are only read.
 * Refusals, in order: 1, 3, 4 (values m(m+1)), 5 (solution m), 6 (values). */
uint64_t hz_plain(uint64_t field, uint64_t size,
                  const uint8_t *values, size_t values_len,
                  uint8_t *solution, size_t solution_len,
                  uint64_t *answer, size_t answer_len);

/* Deals m(m+1) plain values into shares: for each, shares 2..n are the next
 * draws and share 1 is the value plus their sum.
 *
 * HZ_FILLED: every byte of the table is written.
 * Refusals, in order: 1, 2, 3, 4 (values m(m+1)), 5 (table m(m+1)n), 6 (values),
 *     7 (mask, m(m+1)(n-1)). */
uint64_t hz_deal(uint64_t field, uint64_t shares, uint64_t size,
                 const uint8_t *values, size_t values_len,
                 uint8_t *table, size_t table_len,
                 const uint8_t *mask, size_t mask_len,
                 uint64_t *answer, size_t answer_len);

/* Gathers the values of a table: each is the sum of its shares.
 *
 * HZ_FILLED: every byte of values is written.
 * Refusals, in order: 1, 2, 3, 4 (table m(m+1)n), 5 (values m(m+1)), 6 (table). */
uint64_t hz_gather(uint64_t field, uint64_t shares, uint64_t size,
                   const uint8_t *table, size_t table_len,
                   uint8_t *values, size_t values_len,
                   uint64_t *answer, size_t answer_len);

/* What a full solve takes.
 *
 * HZ_COUNTS: answer: m²+3m-1 steps, the mask draws summed over the list of steps,
 *     m(n-1) nonzero draws. What a record's counters have not reached of these is
 *     what is still to come, where the system does not stop.
 * Refusals, in order: 1, 2, 3. */
uint64_t hz_counts(uint64_t field, uint64_t shares, uint64_t size,
                   uint64_t *answer, size_t answer_len);

/* A fresh wide record, at the first step of a wide system of these sizes.
 *
 * HZ_FRESH: all words of record are written: field, shares, rows, columns, the first
 * place (Check(1) for one row, else Mix(1,2)), no draws taken, no pivots found.
 * Refusals, in order: 1, 2, 3, 21. */
uint64_t hz_wide_start(uint64_t field, uint64_t shares, uint64_t rows, uint64_t columns,
                       uint64_t *record, size_t record_len,
                       uint64_t *answer, size_t answer_len);

/* What hz_wide_solve must be lent.
 *
 * HZ_WANTED: answer: mask draws, nonzero draws, and no steps, which depend on the
 *     pivots. They are N mask draws a row and, for every column, the mask draws of its
 *     steps as if row 1 took its pivot; and n-1 nonzero draws a row. That is enough
 *     whichever columns are pivots; how many are taken depends on these, and
 *     hz_wide_solve tells it.
 * Refusals, in order: 1, 2, 3, 21. */
uint64_t hz_wide_counts(uint64_t field, uint64_t shares, uint64_t rows, uint64_t columns,
                        uint64_t *answer, size_t answer_len);

/* What the step that the wide record stands at must be lent by the next hz_wide_step.
 *
 * HZ_WANTED: answer: its mask draws, its nonzero draws. The record is only read.
 * Refusals, in order: 1, 2, 3, 21 (the record's numbers), 10, 19, 11. */
uint64_t hz_wide_wanted(const uint64_t *record, size_t record_len,
                        uint64_t *answer, size_t answer_len);

/* Does the step that the wide record stands at, and moves the record to the next
 * place: the draws lent are added to its counters.
 *
 * The list, as the pivots come up: r = 1; for j = 1..C, while r <= M: Mix(j,k) for
 * k = r+1..M, Check(j); if Check(j) opened 1, column j is passed over; if it opened
 * 0, column j is a pivot, and row r its row: Scale(j), Clear(j,k) for k = r+1..M, and
 * r becomes r+1. Then, if there are M pivots, from the last back: Open(j), and Lift(j)
 * where j is not the first pivot.
 * The steps are those of hz_step, with L = C+2-j, and draws as there; the row of
 * column j stands where row j does: row r while the column is sought, and the pivot's
 * own row later. So k is a row, and Lift(j) takes x_j·T[k,j] from T[k,C+1] in the
 * rows k above the pivot's row.
 *
 * HZ_MOVED: after Mix, Check, Scale, Clear, Lift, also after a Check that passed its
 *     column over, unless the answer is HZ_SHORT. The table is as after this step, the
 *     record at the next place. A Check that opened 0 has added column j to the
 *     record's pivots, so its word HZ_WIDE_FOUND is 1 more; where a column is passed
 *     over it is not. The solution is unchanged.
 * HZ_OPENED: after Open(j), where j is not the first pivot. Byte j-1 of the solution is
 *     x_j and its other bytes are unchanged; so is the table. The record is at Lift(j).
 * HZ_DONE: the same after Open of the first pivot; the record becomes done (j, k: 0).
 *     The bytes of columns that are no pivots were never written: they hold what the
 *     host put there. Where it put zeros before the first step, the solution is now
 *     that of hz_wide_solve.
 * HZ_SHORT: the last column was done, and a row has no pivot. The record becomes short
 *     (j, k: 0). The step itself, a Check or a Clear, was done on the table as ever;
 *     the solution is unchanged.
 * In a run from hz_wide_start, where record, table and solution are touched by
 *     hz_wide_step alone, short means that the rank is below M, the record's pivots are
 *     the system's, and at done the bytes of the pivots are those of its solution. Of a
 *     record or a table that a host made up they say nothing more.
 * Refusals, in order: 1, 2, 3, 21 (the record's numbers), 4 (table M(C+1)n), 5
 *     (solution C, whatever the step), 10, 19, 11, 6 (the whole table), 7, 14, 8, 15,
 *     9 (place within the bytes lent), 20, 12.
 *     10 is any place that its pivots can't have, and any pivots that no place has:
 *     more than rows, not rising from one to the next in 1..C, a slot beyond those
 *     found that is not 0; another step number, a j or k that the list has not at these
 *     pivots, or not 0 where the step carries none. Before column j has its pivot (Mix,
 *     Check) all pivots found are below j <= C and fewer than M, and Mix has k from 2
 *     more than these to M; from its Scale on (Scale, Clear) the last one is j, and
 *     Clear has k from 1 more than those found to M; Open and Lift have M pivots, j
 *     among them, and for Lift not the first; short has fewer than M and done has M.
 *     19 is any pair of counters but the sums of the draws of the steps before the
 *     place, by its pivots: a short place's are those of every column, and a done one's
 *     of the whole list. 10, 12 and 19 cannot come up while a record that
 *     hz_wide_start made and its table are touched by hz_wide_step alone; nor can 20,
 *     where that holds of the solution too. */
uint64_t hz_wide_step(uint64_t *record, size_t record_len,
                      uint8_t *table, size_t table_len,
                      uint8_t *solution, size_t solution_len,
                      const uint8_t *mask, size_t mask_len,
                      const uint8_t *nonzero, size_t nonzero_len,
                      uint64_t *answer, size_t answer_len);

/* Solves a whole wide system: every step of its list, the draws in order.
 *
 * HZ_SOLVED: there are M pivots. The solution is the one x that solves the system and
 *     is 0 at every column that is no pivot. answer says how many steps were taken, and
 *     how many draws of each tape.
 * HZ_SHORT: there are fewer than M pivots. All C bytes of the solution become 0. answer
 *     counts the same.
 * Either way the table is as after the last step taken.
 * Refusals, in order: 1, 2, 3, 21, 4 (table M(C+1)n), 5 (solution C), 6 (table), 7, 8
 *     (the lengths that hz_wide_counts tells, whatever the pivots), 9 (among the first
 *     M(n-1) bytes, likewise). */
uint64_t hz_wide_solve(uint64_t field, uint64_t shares, uint64_t rows, uint64_t columns,
                       uint8_t *table, size_t table_len,
                       uint8_t *solution, size_t solution_len,
                       const uint8_t *mask, size_t mask_len,
                       const uint8_t *nonzero, size_t nonzero_len,
                       uint64_t *answer, size_t answer_len);

/* Writes the exchange record of a system into target.
 *
 * HZ_FILLED: every byte of target is written. The table is only read.
 * Refusals, in order: 1, 2, 3, 4 (table m(m+1)n), 5 (target, exactly
 *     HZ_BESIDE_TABLE + m(m+1)n), 6 (table). */
uint64_t hz_write(uint64_t field, uint64_t shares, uint64_t size,
                  const uint8_t *table, size_t table_len,
                  uint8_t *target, size_t target_len,
                  uint64_t *answer, size_t answer_len);

/* Reads an exchange record. The table is not copied: it is the stretch of
 * `length` bytes of input that begins at input + HZ_TABLE_AT.
 *
 * HZ_SYSTEM: answer: field, shares, size, length. Input is only read, and is, byte
 *     for byte, what hz_write makes of these numbers and this table.
 * Refusals, in order: 16 and 17, of one tagged field after the other: 17 (the input
 *     ends before it), 16, 17 (the input ends inside its length, the length does not
 *     suit its tag, or the input ends inside its body; any length suits tag 4); 18;
 *     and then, of what they hold, 1, 2, 3, 4 (table m(m+1)n), 6 (table). */
uint64_t hz_read(const uint8_t *input, size_t input_len,
                 uint64_t *answer, size_t answer_len);

#ifdef __cplusplus
}
#endif

#endif

/* A whole example: 2x + y = 1, x + y = 0 over the field of 16, in two shares.
 * `fill_random` is the host's own; `fill_nonzero` likewise, each byte 1..15.
 *
 *     uint8_t values[6] = {2, 1, 1,   1, 1, 0};
 *     uint8_t table[12], x[2], deal_tape[6], mask[36], nonzero[2];
 *     uint64_t answer[HZ_ANSWER_WORDS];
 *
 *     fill_random(deal_tape, 6);
 *     fill_random(mask, 36);              // hz_counts(16, 2, 2, ..): 9 36 2
 *     fill_nonzero(nonzero, 2);
 *     if (hz_deal(16, 2, 2, values, 6, table, 12, deal_tape, 6, answer, 4) != HZ_FILLED)
 *         refused(answer);                // its number, and its detail
 *     switch (hz_solve(16, 2, 2, table, 12, x, 2, mask, 36, nonzero, 2, answer, 4)) {
 *     case HZ_SOLVED:  use(x[0], x[1]); break;                 // 14 and 14
 *     case HZ_STOPPED: no_single_solution(answer[0]); break;   // the column
 *     default:         refused(answer);
 *     }
 *
 * host_example/solve.c is a program of this kind, and drives single steps too;
 * host_example/ahead.c drives them from long tapes that are fetched ahead, and
 * host_example/mayo.c solves wide systems of MAYO's sizes at levels I and III. */
