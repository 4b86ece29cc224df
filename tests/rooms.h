/* Buffers beside pages that nobody may touch: a read or a write past one ends the program, in whatever library it is made. (The
 * compiler's checks see what C code does, and not what the proved libraries do.)
 *
 *   PAGE         the bytes of a page
 *   struct room  pages that may be touched, between two that may not
 *   room_for     a room for so many bytes
 *   placed       a buffer of a length, at the end of a room's pages or at their beginning
 */
#ifndef ROOMS_H
#define ROOMS_H

#include <stdint.h>
#include <stdio.h>
#include <stdlib.h>
#include <sys/mman.h>

enum { PAGE = 4096 };

struct room {
    uint8_t *bytes;
    size_t size;
};

/* A room for so many bytes. */
static inline struct room room_for(size_t most)
{
    size_t size = (most / PAGE + 1) * PAGE;
    uint8_t *whole = mmap(NULL, size + 2 * PAGE, PROT_NONE, MAP_PRIVATE | MAP_ANONYMOUS, -1, 0);
    if (whole == MAP_FAILED || mprotect(whole + PAGE, size, PROT_READ | PROT_WRITE) != 0) {
        perror("mmap");
        exit(1);
    }
    return (struct room){whole + PAGE, size};
}

/* A buffer of a length; ends the program where the room is too small. */
static inline void *placed(struct room room, size_t length, int at_end)
{
    if (length > room.size) {
        fprintf(stderr, "no room for %zu bytes\n", length);
        exit(1);
    }
    return at_end ? room.bytes + room.size - length : room.bytes;
}

#endif
