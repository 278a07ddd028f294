/* Solves a system of 44 equations over the field of 256, in three shares, on a board without an operating system: no
 * heap, and no tape.
 *
 * It goes by single steps. Before each step it fetches that step's random bytes into a small window, and after it
 * overwrites them. So beside the table it holds the draws of one step, where a whole solve in one call would want two
 * tapes. */
#include "board.h"
#include "hostozaro.h"

enum { FIELD = 256, SHARES = 3, SIZE = 44, ENTRIES = SIZE * (SIZE + 1) };

/* The windows are as long as the dearest step wants, by the list in hostozaro.h, whose N, f and L these are. L falls
 * from column to column, so that is Mix, Check or Scale of the first. */
enum {
    N = SHARES * (SHARES - 1) / 2,
    F = FIELD == 16 ? 2 : 3,
    L = SIZE + 1,
    MIX = SIZE > 1 ? F * 2 * N + L * N : 0,
    CHECK = F * 2 * N + N,
    SCALE = (SHARES - 1) * (SHARES - 1) + N + SHARES * (SHARES - 1) * L,
    MIX_OR_CHECK = MIX > CHECK ? MIX : CHECK,
    MASK_WINDOW = SCALE > MIX_OR_CHECK ? SCALE : MIX_OR_CHECK,
    NONZERO_WINDOW = SHARES - 1,
};

static uint8_t table[ENTRIES * SHARES], x[SIZE];
static uint8_t mask[MASK_WINDOW], nonzero[NONZERO_WINDOW];
static uint64_t record[HZ_RECORD_WORDS], answer[HZ_ANSWER_WORDS];

/* ---- Random bytes ---- */

/* A STAND-IN, AND NOT RANDOM: the same bytes at each start. PUT THE BOARD'S RANDOM SOURCE IN ITS PLACE. The secrecy
 * of the shares rests on bytes that nobody can foretell; with these, whoever has this file has the key. */
static uint8_t stand_in_for_random_byte(void)
{
    static uint32_t state = 0x2545f491;
    state ^= state << 13;
    state ^= state >> 17;
    state ^= state << 5;
    return (uint8_t)(state >> 24);
}

static void fetch_mask(uint64_t len)
{
    for (uint64_t i = 0; i < len; i++)
        mask[i] = stand_in_for_random_byte();
}

static void fetch_nonzero(uint64_t len)
{
    for (uint64_t i = 0; i < len; i++)
        do
            nonzero[i] = stand_in_for_random_byte();
        while (nonzero[i] % FIELD == 0);
}

/* The compiler may not leave this out, though nothing reads these bytes again. */
static void overwrite(uint8_t *bytes, uint32_t len)
{
    for (volatile uint8_t *byte = bytes; byte < bytes + len; byte++)
        *byte = 0;
}

/* ---- The system ---- */

/* The product in the field of 256. */
static uint8_t times(uint8_t a, uint8_t b)
{
    uint32_t product = 0;
    for (int bit = 7; bit >= 0; bit--) {
        product = product << 1 ^ (product & 0x80 ? 0x11b : 0);
        product ^= b >> bit & 1 ? a : 0;
    }
    return (uint8_t)product;
}

/* One entry into its shares. hz_deal would want the draws of all entries at once. A board that is handed shares
 * places those. */
static void deal(uint32_t row, uint32_t column, uint8_t value)
{
    uint8_t *entry = table + (row * (SIZE + 1) + column) * SHARES;
    fetch_mask(SHARES - 1);
    entry[0] = value;
    for (uint32_t s = 1; s < SHARES; s++) {
        entry[s] = mask[s - 1] % FIELD;
        entry[0] ^= entry[s];
    }
    overwrite(mask, SHARES - 1);
}

/* The polynomial of fewer than SIZE coefficients whose values at the points 0, 1, 2 and so on are those of 1 + 2t +
 * 3t^2 + 4t^3 ..: its coefficients are the unknowns, so x is 1, 2, 3 and so on. Row r is 1, r, r^2 .. and the value
 * at r. */
static void deal_system(void)
{
    for (uint32_t row = 0; row < SIZE; row++) {
        uint8_t power = 1, sum = 0;
        for (uint32_t column = 0; column < SIZE; column++) {
            deal(row, column, power);
            sum ^= times(power, (uint8_t)(column + 1));
            power = times(power, (uint8_t)row);
        }
        deal(row, SIZE, sum);
    }
}

/* ---- The solve ---- */

/* Ends the program unless the call answered what it must. */
static void must(uint64_t code, uint64_t wanted)
{
    if (code == wanted)
        return;
    say(code == HZ_REFUSED ? "refused by " : "another answer: ");
    say_number(code == HZ_REFUSED ? answer[0] : code);
    say("\n");
    end(1);
}

static void say_drawn(const char *tape, uint64_t drawn, uint64_t counted, uint64_t at_most, uint64_t window)
{
    say(tape);
    say(": drew ");
    say_number(drawn);
    say(" bytes, hz_counts tells ");
    say_number(counted);
    say("; a step wanted ");
    say_number(at_most);
    say(" at most, and the window has ");
    say_number(window);
    say("\n");
}

int main(void)
{
    uint64_t masks = 0, nonzeros = 0, most_masks = 0, most_nonzeros = 0, steps = 0, code;
    deal_system();
    must(hz_start(FIELD, SHARES, SIZE, record, HZ_RECORD_WORDS, answer, HZ_ANSWER_WORDS), HZ_FRESH);
    do {
        must(hz_wanted(record, HZ_RECORD_WORDS, answer, HZ_ANSWER_WORDS), HZ_WANTED);
        uint64_t mask_len = answer[0], nonzero_len = answer[1];
        if (mask_len > MASK_WINDOW || nonzero_len > NONZERO_WINDOW) {
            say("a step wants more than the window has\n");
            end(1);
        }
        fetch_mask(mask_len);
        fetch_nonzero(nonzero_len);
        code = hz_step(record, HZ_RECORD_WORDS, table, sizeof table, x, SIZE, mask, mask_len, nonzero, nonzero_len,
                       answer, HZ_ANSWER_WORDS);
        overwrite(mask, sizeof mask);
        overwrite(nonzero, sizeof nonzero);
        steps++;
        masks += mask_len;
        nonzeros += nonzero_len;
        most_masks = mask_len > most_masks ? mask_len : most_masks;
        most_nonzeros = nonzero_len > most_nonzeros ? nonzero_len : most_nonzeros;
        /* the board's other work goes here */
    } while (code == HZ_MOVED || code == HZ_OPENED);
    must(code, HZ_DONE);

    int right = 1;
    say("x =");
    for (uint32_t j = 0; j < SIZE; j++) {
        say(" ");
        say_number(x[j]);
        right &= x[j] == j + 1;
    }
    say("\n");
    must(hz_counts(FIELD, SHARES, SIZE, answer, HZ_ANSWER_WORDS), HZ_COUNTS);
    say_number(steps);
    say(" steps\n");
    say_drawn("mask", masks, answer[1], most_masks, MASK_WINDOW);
    say_drawn("nonzero", nonzeros, answer[2], most_nonzeros, NONZERO_WINDOW);
    right &= steps == answer[0] && masks == answer[1] && nonzeros == answer[2];
    right &= most_masks == MASK_WINDOW && most_nonzeros == NONZERO_WINDOW;
    say("these bytes are a stand-in's, for this example alone\n");
    if (!right)
        say("that is not what was to come\n");
    return right ? 0 : 1;
}
