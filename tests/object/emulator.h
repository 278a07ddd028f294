/* An emulated machine that calls the functions of a program one by one: an x86-64, an
 * AArch64 or a Cortex-M4, as the program's file says. The program is linked with
 * -static -nostdlib between CODE and CODE_END and never started. */
#ifndef EMULATOR_H
#define EMULATOR_H

#include <stdbool.h>
#include <stddef.h>
#include <stdint.h>
#include <unicorn/unicorn.h>

#define CODE 0x400000u
#define CODE_END 0x800000u

typedef struct {
    uint64_t address;
    const char *name;
} symbol;

#define MAX_REGISTERS 64

typedef struct kind_of_machine kind_of_machine;

typedef struct {
    uc_engine *uc;
    const kind_of_machine *kind;
    size_t registers;           /* how many values can stand in */
    int number[MAX_REGISTERS];  /* of each, as Unicorn has it */
    uint8_t len[MAX_REGISTERS]; /* in bytes */
    char *file;       /* the program, as it stands on disk */
    symbol *symbols;  /* its functions */
    size_t symbol_count;
    uint64_t lent;    /* up to where memory is lent */
    uint64_t counted; /* instructions of the last call, its return included */
    uint64_t last;
} emulator;

/* Any fault ends the program with a message. */
emulator *emulator_open(const char *program);

/* Lends bytes to the functions that are called: copies them into the machine and
 * tells the address. emulator_take copies them back; emulator_reset ends every loan. */
uint64_t emulator_lend(emulator *e, const void *bytes, size_t len);
void emulator_take(emulator *e, uint64_t address, void *bytes, size_t len);
void emulator_reset(emulator *e);

/* The first `numbers` arguments are uint64_t, the others pointers and size_t. Every
 * register and the stack are 0 at the call, but for the arguments. */
uint64_t emulator_call(emulator *e, const char *name, size_t numbers, const uint64_t *arguments, size_t count);

/* The function that an instruction belongs to. */
const symbol *emulator_function(const emulator *e, uint64_t address);

#endif
