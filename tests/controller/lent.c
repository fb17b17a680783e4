/* Lent buffers on a machine without pages: each lies in a room of its own, at an address that is shifted from one place to the other,
 * and the bytes around it are compared after the call. */
#include "shift.h"

#include <string.h>

#define MARGIN 32

static struct {
    _Alignas(8) uint8_t room[MARGIN + 8 + MOST_BYTES + MARGIN];
    size_t at, length, shift, most;
    uint8_t fill;
} lent[BUFFERS];

void shift_buffer(int which, size_t shift, size_t most) { lent[which].shift = shift, lent[which].most = most; }

void *lend(int which, place where, const void *content, size_t length)
{
    lent[which].at = MARGIN + (where == FIRST ? lent[which].shift : lent[which].most - lent[which].shift);
    lent[which].length = length;
    lent[which].fill = where == FIRST ? 0xc5 : 0x3a;
    memset(lent[which].room, lent[which].fill, lent[which].at + length + MARGIN);
    if (content != NULL && length > 0)
        memcpy(lent[which].room + lent[which].at, content, length);
    return length == 0 && where == FIRST ? NULL : lent[which].room + lent[which].at;
}

/* Whether the bytes from one place of the room up to another are the fill. */
static int all_fill(int which, size_t from, size_t to)
{
    for (; from < to; from++)
        if (lent[which].room[from] != lent[which].fill)
            return 0;
    return 1;
}

int surroundings_kept(int which)
{
    size_t end = lent[which].at + lent[which].length;
    return all_fill(which, 0, lent[which].at) && all_fill(which, end, end + MARGIN);
}

int fill_kept(int which, size_t from) { return all_fill(which, lent[which].at + from, lent[which].at + lent[which].length); }
