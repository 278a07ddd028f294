/* What the programs behind ./solve and ./exchange share: numbers and rows as people
 * type them, what is said of wrong ones, and the wiping of it all at the end. */
#ifndef TYPED_H
#define TYPED_H

#include "hostozaro.h"

#include <stdbool.h>

enum { MOST = 96, MOST_SHARES = 4 }; /* 01's largest size and number of shares */
enum { ANSWERED = 0, REFUSED = 1, BAD_INPUT = 2, TROUBLE = 3, WRONG = 4 }; /* exit status */

extern uint64_t field, shares, size;
extern uint64_t answer[HZ_ANSWER_WORDS];

/* What messages call the program and its input, and what is to be wiped at the program's
 * end, with all that was read. */
void begin(const char *program_name, const char *input, void *to_wipe, size_t length);

/* Goes over what a call has left on the stack below its caller. */
void wipe_stack(void);

/* ---- What the library refuses ---- */

/* Ends the program unless the call answered as it should. */
void must(uint64_t code, uint64_t wanted);

/* The program's own: the words for the refusal in answer, up to the end of the line. */
void say_refused(void);

/* The number that a word of the command holds, 0 where it is blank. What is no number
 * becomes one that the library refuses. */
uint64_t number_typed(const char *word);

/* What the number of refusal 1, 2 or 3 may be. */
void say_may_be(void);

/* What such a word holds. */
void say_word(const char *which, const char *word);

/* Share 0 is no single share. */
void say_cell(uint64_t at_row, uint64_t at_column, uint64_t at_share);

/* Refusals 4 to 6 of a buffer that the program lent, and the detail of any other. */
void say_buffer(void);

/* ---- Reading the input ---- */

extern uint64_t line;   /* of the input */
extern uint64_t row;    /* that is being read */
extern uint64_t column; /* that was read last in this row, 0 for none */
extern uint64_t share;  /* that was read last in this entry, 0 for none */

/* One line on wrong input, and the end. It begins with the input's name. */
_Noreturn void bad_input(const char *what, ...) __attribute__((format(printf, 1, 2)));

/* The same, with the place in the rows. */
_Noreturn void bad(uint64_t at_line, uint64_t at_column, const char *what, ...) __attribute__((format(printf, 3, 4)));

/* Trouble that is not the input's, with the system's reason, and the end. */
_Noreturn void trouble(const char *what);

/* A text as it can be shown in a line: not too long, and without what a terminal
 * would act on. */
const char *shown(const char *text, size_t length);

/* The next byte of the input, or EOF. */
int next_byte(void);

/* The same of a text, where from # to the end of a line is comment. */
int next_character(void);

/* Reads the rows of a text to its end, and returns the line of the last one. take_word is
 * called for each word and counts columns and shares; end_row, at the end of each line,
 * counts rows. In shares a comma ends a word as well, which is then not the last of its
 * entry; a word of length 0 is one that is missing beside a comma. */
uint64_t read_rows(bool in_shares, void (*take_word)(size_t length, bool last), void (*end_row)(void));

/* The element of the field that the word just read stands for. */
uint8_t element(size_t length);

#endif
