/* Rooms for bytes that are lent: a read or write too far ends the program. */
#ifndef ROOMS_H
#define ROOMS_H

#include "cases.h"

#include <string.h>
#include <sys/mman.h>
#include <unistd.h>

/* ROOM bytes between two pages that may not be touched. */
static uint8_t *guarded_room(void)
{
    size_t page = (size_t)sysconf(_SC_PAGESIZE);
    uint8_t *all = mmap(NULL, ROOM + 2 * page, PROT_NONE, MAP_PRIVATE | MAP_ANONYMOUS, -1, 0);
    require(all != MAP_FAILED, "no memory");
    return all + page;
}

static void protect(uint8_t *room, size_t length, int protection)
{
    require(mprotect(room, length, protection) == 0, "pages cannot be changed");
}

/* Puts the bytes into the room, at its start or at its end, and closes it for writing. */
static struct bytes lend(uint8_t *room, struct bytes from, bool at_end)
{
    struct bytes lent = {at_end ? room + ROOM - from.length : room, from.length};
    protect(room, ROOM, PROT_READ | PROT_WRITE);
    memcpy(lent.at, from.at, from.length);
    protect(room, ROOM, PROT_READ);
    return lent;
}

#endif
