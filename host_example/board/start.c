/* Start-up of a Cortex-M4 without an operating system: its vectors, what stands before main, and what it says. */
#include "board.h"

extern uint32_t data_from[], data_to[], data_stored[], zeros_from[], zeros_to[], stack_to[];

int main(void);

/* ---- Saying ---- */

enum { SYS_WRITE0 = 4, SYS_GET_CMDLINE = 0x15, SYS_EXIT_EXTENDED = 0x20, APPLICATION_EXIT = 0x20026 };

static uint32_t ask_debugger(uint32_t what, const void *with)
{
    register uint32_t r0 __asm__("r0") = what;
    register const void *r1 __asm__("r1") = with;
    __asm__ volatile("bkpt 0xab" : "+r"(r0) : "r"(r1) : "memory");
    return r0;
}

void say(const char *text)
{
    ask_debugger(SYS_WRITE0, text);
}

void say_number(uint64_t number)
{
    char digits[21], *first = digits + 20;
    *first = 0;
    do
        *--first = (char)('0' + number % 10);
    while ((number /= 10) != 0);
    say(first);
}

_Noreturn void end(int status)
{
    uint32_t told[] = {APPLICATION_EXIT, (uint32_t)status};
    for (;;)
        ask_debugger(SYS_EXIT_EXTENDED, told);
}

const char *command_line(void)
{
    static char words[256];
    struct {
        char *at;
        uint32_t len;
    } room = {words, sizeof words};
    if (ask_debugger(SYS_GET_CMDLINE, &room) != 0)
        return "";
    const char *rest = words;
    while (*rest != 0 && *rest != ' ')
        rest++;
    return *rest == 0 ? rest : rest + 1;
}

/* ---- Faults ---- */

static void say_word(const char *name, uint32_t word)
{
    char digits[] = "00000000";
    for (int i = 7; i >= 0; i--, word >>= 4)
        digits[i] = "0123456789abcdef"[word & 15];
    say(name);
    say(digits);
}

__attribute__((weak)) void fault(struct kept *kept)
{
    say_word("fault: CFSR 0x", CFSR);
    say_word(", HFSR 0x", HFSR);
    say_word(", at 0x", kept->pc);
    say("\n");
    end(1);
}

/* Only the main stack is used, so what the processor kept is on it. */
__attribute__((naked)) static void any_fault(void)
{
    __asm__ volatile("mov r0, sp\n\tpush {r3, lr}\n\tbl fault\n\tpop {r3, pc}");
}

/* ---- The beginning ---- */

_Noreturn void reset(void);

static const struct {
    void *stack;
    void (*handler[15])(void);
} vectors __attribute__((section(".vectors"), used)) = {
    stack_to,
    {(void (*)(void))reset, any_fault, any_fault, any_fault, any_fault, any_fault, any_fault, any_fault, any_fault,
     any_fault, any_fault, any_fault, any_fault, any_fault, any_fault},
};

_Noreturn void reset(void)
{
    for (uint32_t *to = data_from, *from = data_stored; to < data_to;)
        *to++ = *from++;
    for (uint32_t *to = zeros_from; to < zeros_to;)
        *to++ = 0;
    SHCSR |= 7u << 16; /* faults of memory, bus and usage are told apart */
    CCR |= TRAP_UNALIGNED | TRAP_DIVISION;
    __asm__ volatile("dsb\n\tisb" ::: "memory");
    end(main());
}
