/* What one call does in the machine, instruction by instruction. */
#ifndef TRACE_H
#define TRACE_H

#include "emulator.h"

#include <stdbool.h>

#define STORE MAX_REGISTERS

/* A register that is new, or bytes stored, by instruction number `at`. */
typedef struct {
    uint32_t at;
    uint8_t where; /* the register, or STORE */
    uint8_t len;
    uint8_t bytes[16];
} change;

/* A read or a write by instruction number `at`. */
typedef struct {
    uint32_t at;
    bool write;
    uint64_t address;
} touch;

/* Beside an instruction that a condition kept from being carried out. */
#define NOT_DONE 0x80000000u

typedef struct {
    uint32_t *pc; /* of each instruction */
    size_t length, pc_room;
    touch *touches;
    size_t touch_count, touch_room;
    change *changes; /* only where values are wanted */
    size_t change_count, change_room;
} trace;

/* Once, before the calls. The listing is what objdump -d tells of the program. */
void trace_open(emulator *e, const char *listing);

/* The text of an instruction. */
const char *trace_text(uint32_t pc);

/* Calls a function, as emulator_call does, and fills the trace, which may hold an
 * earlier one. */
uint64_t trace_call(emulator *e, const char *function, size_t numbers, const uint64_t *arguments, size_t count,
                    bool values, trace *t);

#endif
