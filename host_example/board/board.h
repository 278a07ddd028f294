/* What a program without an operating system has on this board: start.c brings it. It begins at `main`. */
#ifndef BOARD_H
#define BOARD_H

#include <stdint.h>

/* Text and the end go to the debugger (semihosting), which QEMU is here. A board in the field has none: put its own
 * in their place. */
void say(const char *text);
void say_number(uint64_t number);
_Noreturn void end(int status);

/* The words that the debugger has for the program, after its name; empty where there are none. */
const char *command_line(void);

/* Called at every fault, with what the processor kept of the place. It is start.c's, which tells the fault and ends,
 * unless the program has one of its own; where that returns, the program goes on at kept->pc. */
struct kept {
    uint32_t r0, r1, r2, r3, r12, lr, pc, psr;
};
void fault(struct kept *kept);

/* The processor's words about faults, by the names that Arm has for them. */
#define CCR (*(volatile uint32_t *)0xe000ed14)   /* what is trapped */
#define SHCSR (*(volatile uint32_t *)0xe000ed24) /* which faults have a vector of their own */
#define CFSR (*(volatile uint32_t *)0xe000ed28)  /* what the fault was; a bit that is written is cleared */
#define HFSR (*(volatile uint32_t *)0xe000ed2c)
#define MMFAR (*(volatile uint32_t *)0xe000ed34) /* the address, where CFSR says that one of these has it */
#define BFAR (*(volatile uint32_t *)0xe000ed38)

#define TRAP_UNALIGNED (1u << 3) /* in CCR */
#define TRAP_DIVISION (1u << 4)
#define WAS_UNALIGNED (1u << 24) /* in CFSR */
#define WAS_DIVISION (1u << 25)
#define NO_ACCESS (1u << 1)      /* the MPU forbids it */
#define MMFAR_HOLDS (1u << 7)
#define BFAR_HOLDS (1u << 15)

#endif
