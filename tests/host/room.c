/* Guarded room and crashes on Linux. */
#define _DEFAULT_SOURCE /* for mmap */
#include "room.h"

#include <signal.h>
#include <stdio.h>
#include <sys/mman.h>

#define PAGE 65536 /* a multiple of every machine's page */

uint8_t *guarded_room(size_t bytes)
{
    size_t room = (bytes + PAGE - 1) / PAGE * PAGE;
    uint8_t *block = mmap(NULL, room + PAGE, PROT_READ | PROT_WRITE, MAP_PRIVATE | MAP_ANONYMOUS, -1, 0);
    if (block == MAP_FAILED || mprotect(block + room, PAGE, PROT_NONE) != 0)
        return NULL;
    return block + room;
}

static void (*tell_crash)(const char *how);

static void crashed(int signal_number)
{
    char how[32];
    snprintf(how, sizeof how, "signal %d", signal_number);
    tell_crash(how);
}

void tell_crashes(void (*tell)(const char *how))
{
    static const int signals[] = {SIGSEGV, SIGBUS, SIGILL, SIGFPE, SIGABRT};
    tell_crash = tell;
    for (size_t i = 0; i < sizeof signals / sizeof signals[0]; i++)
        signal(signals[i], crashed);
}
