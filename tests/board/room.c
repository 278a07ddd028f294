/* Guarded room, crashes and what newlib asks for, on the mps2-an386: a board with a Cortex-M4 and no operating
 * system. Behind each room is a stretch that the processor's memory protection unit (MPU) shuts. Before any room is
 * used, this sees that the stretch is shut, and that an access that is not aligned and a division by zero are
 * trapped. */
#include "board.h"
#include "room.h"

#include <errno.h>
#include <stdio.h>
#include <stdlib.h>
#include <string.h>
#include <sys/stat.h>

/* ---- Faults ---- */

static void (*tell_crash)(const char *how);
static volatile uint32_t awaited; /* the bit of CFSR of a fault that is made on purpose, until it comes */

/* How long the instruction at a place is: longer ones begin with one of three patterns of bits. */
static uint32_t length_at(uint32_t pc)
{
    return *(const uint16_t *)pc >> 11 >= 0x1d ? 4 : 2;
}

void fault(struct kept *kept)
{
    uint32_t what = CFSR, memory = MMFAR, bus = BFAR;
    CFSR = what;
    if (awaited != 0 && (what & awaited) != 0) {
        awaited = 0;
        kept->pc += length_at(kept->pc);
        return;
    }
    char how[96];
    const char *name = what & WAS_UNALIGNED  ? "an access that is not aligned"
                       : what & WAS_DIVISION ? "a division by zero"
                       : what & NO_ACCESS    ? "an access to shut memory"
                                             : "a fault";
    uint32_t address = what & MMFAR_HOLDS ? memory : what & BFAR_HOLDS ? bus : 0;
    snprintf(how, sizeof how, "%s, CFSR 0x%08x, address 0x%08x, at 0x%08x", name, (unsigned)what, (unsigned)address,
             (unsigned)kept->pc);
    if (tell_crash != NULL)
        tell_crash(how);
    say(how);
    say("\n0 passed, 1 failed\n");
    end(1);
}

/* Ends the run unless the last access was the fault that was awaited. */
static void must_have_come(const char *what)
{
    if (awaited == 0)
        return;
    say("there is no fault at ");
    say(what);
    say("\n0 passed, 1 failed\n");
    end(2);
}

static void try_traps(void)
{
    static uint32_t words[2];
    uint32_t odd = (uint32_t)words + 1, taken, zero = 0;
    awaited = WAS_UNALIGNED;
    __asm__ volatile("ldr %0, [%1]" : "=r"(taken) : "r"(odd) : "memory");
    must_have_come("a load that is not aligned");
    awaited = WAS_UNALIGNED;
    __asm__ volatile("strh %0, [%1]" : : "r"(zero), "r"(odd) : "memory");
    must_have_come("a store that is not aligned");
    awaited = WAS_DIVISION;
    __asm__ volatile("udiv %0, %1, %2" : "=r"(taken) : "r"(odd), "r"(zero) : "memory");
    must_have_come("a division by zero");
}

void tell_crashes(void (*tell)(const char *how))
{
    try_traps();
    say("trapped here: loads and stores that are not aligned, and divisions by zero\n");
    tell_crash = tell;
}

/* ---- Guarded room ---- */

extern uint8_t code_to[], stack_from[], stack_to[], heap_from[], heap_to[];

#define MPU_CTRL (*(volatile uint32_t *)0xe000ed94)
#define MPU_RNR (*(volatile uint32_t *)0xe000ed98)
#define MPU_RBAR (*(volatile uint32_t *)0xe000ed9c)
#define MPU_RASR (*(volatile uint32_t *)0xe000eda0)

/* A region of the MPU has eight equal parts, each of which can be left open. So one region of 1 MB is four open
 * stretches, each with a shut one behind it. These lie in the memory behind the code. */
#define STRETCH 0x20000
#define SMALL_FROM ((uint32_t)code_to)
#define SMALL_REGIONS 3
#define SMALL_ROOMS (4 * SMALL_REGIONS)

/* The mask tape alone is longer. Its room lies behind the stack and ends with the memory. */
#define LARGE_FROM ((uint32_t)stack_to)
#define LARGE_TO 0x20400000

#define NEVER (1u << 28) /* no access, and no instruction either */
#define OTHER_PARTS 0x55 /* the parts 0, 2, 4 and 6 are open */

static void shut(uint32_t region, uint32_t from, uint32_t bits, uint32_t open_parts)
{
    MPU_RNR = region;
    MPU_RBAR = from;
    MPU_RASR = NEVER | open_parts << 8 | (bits - 1) << 1 | 1;
}

static void shut_all(void)
{
    for (uint32_t i = 0; i < SMALL_REGIONS; i++)
        shut(i, SMALL_FROM + i * 8 * STRETCH, 20, OTHER_PARTS);
    shut(SMALL_REGIONS, LARGE_TO, 17, 0);
    shut(SMALL_REGIONS + 1, (uint32_t)stack_from - STRETCH, 17, 0); /* where a stack that is too small would go on */
    MPU_CTRL = 5; /* on, and all else is open */
    __asm__ volatile("dsb\n\tisb" ::: "memory");
}

/* Reads the first byte behind a room and writes the last one before the next. */
static void try_guard(uint8_t *end_of_room)
{
    awaited = NO_ACCESS;
    (void)*(volatile uint8_t *)end_of_room;
    must_have_come("a read behind a room");
    awaited = NO_ACCESS;
    *(volatile uint8_t *)(end_of_room + STRETCH - 1) = 0;
    must_have_come("a write behind a room");
}

uint8_t *guarded_room(size_t bytes)
{
    static uint32_t small, large;
    uint8_t *to = NULL;
    if (small == 0 && large == 0)
        shut_all();
    if (bytes <= STRETCH && small < SMALL_ROOMS)
        to = (uint8_t *)(SMALL_FROM + 2 * STRETCH * small++ + STRETCH);
    else if (bytes <= LARGE_TO - LARGE_FROM && large++ == 0)
        to = (uint8_t *)LARGE_TO;
    if (to != NULL)
        try_guard(to);
    return to;
}

/* ---- What newlib asks for ---- */

int _write(int file, const char *bytes, int len)
{
    char text[129];
    (void)file;
    for (int done = 0, part; done < len; done += part) {
        part = len - done < 128 ? len - done : 128;
        memcpy(text, bytes + done, (size_t)part);
        text[part] = 0;
        say(text);
    }
    return len;
}

void *_sbrk(ptrdiff_t more)
{
    static uint8_t *top = heap_from;
    if (more > heap_to - top) {
        errno = ENOMEM;
        return (void *)-1;
    }
    top += more;
    return top - more;
}

_Noreturn void _exit(int status)
{
    end(status);
}

int _fstat(int file, struct stat *told)
{
    (void)file;
    told->st_mode = S_IFCHR;
    return 0;
}

int _isatty(int file)
{
    (void)file;
    return 1;
}

int _close(int file)
{
    (void)file;
    return -1;
}

int _lseek(int file, int at, int from)
{
    (void)file, (void)at, (void)from;
    return 0;
}

int _read(int file, char *bytes, int len)
{
    (void)file, (void)bytes, (void)len;
    return 0;
}

int _getpid(void)
{
    return 1;
}

int _kill(int process, int signal_number)
{
    (void)process, (void)signal_number;
    end(2);
}

/* ---- The beginning ---- */

int test_main(int argc, char **argv);

/* The fault that the mutants ask for stands last among the words, behind its name. */
static char *mutant = "";

char *getenv(const char *name)
{
    return strcmp(name, "MUTANT") == 0 ? mutant : NULL;
}

int main(void)
{
    static char words[256];
    char *argv[4] = {"host_test"};
    int argc = 1;
    strncpy(words, command_line(), sizeof words - 1);
    char *asked = strstr(words, "MUTANT=");
    if (asked != NULL) {
        *asked = 0;
        mutant = asked + strlen("MUTANT=");
    }
    for (char *word = strtok(words, " "); word != NULL && argc < 4; word = strtok(NULL, " "))
        argv[argc++] = word;
    exit(test_main(argc, argv));
}
