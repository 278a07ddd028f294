/* What the test needs of the system that it runs on: room.c here has it on Linux,
 * tests/board/room.c on a board without an operating system. */
#ifndef ROOM_H
#define ROOM_H

#include <stddef.h>
#include <stdint.h>

/* The end of room for so many bytes. What lies behind it can be neither read nor written. NULL where there is none. */
uint8_t *guarded_room(size_t bytes);

/* From now on each crash is told by `tell`, which is handed what the system calls it and ends the run. */
void tell_crashes(void (*tell)(const char *how));

#endif
