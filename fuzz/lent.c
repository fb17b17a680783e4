/* for MAP_ANONYMOUS, which ISO C does not have */
#define _DEFAULT_SOURCE
#include "lent.h"

#include <stdio.h>
#include <stdlib.h>
#include <string.h>
#include <sys/mman.h>
#include <unistd.h>

static struct {
    uint8_t *pages;
    uint8_t *buffer;
    size_t length;
    uint8_t fill;
} lent[BUFFERS];

static size_t size;

/* Another fill at each place, so that a written byte that happens to be the one differs from the other. */
static uint8_t fill_at(place where) { return where == FIRST ? 0xc5 : 0x3a; }

void get_pages(void)
{
    size_t page = (size_t)sysconf(_SC_PAGESIZE);
    size = (MOST_BYTES / page + 1) * page;
    for (int i = 0; i < BUFFERS; i++) {
        uint8_t *whole = mmap(NULL, size + 2 * page, PROT_NONE, MAP_PRIVATE | MAP_ANONYMOUS, -1, 0);
        if (whole == MAP_FAILED || mprotect(whole + page, size, PROT_READ | PROT_WRITE) != 0) {
            perror("pages for the buffers");
            exit(2);
        }
        lent[i].pages = whole + page;
    }
}

void *lend(int which, place where, const void *content, size_t length)
{
    uint8_t *pages = lent[which].pages;
    uint8_t *buffer = where == FIRST ? pages : pages + size - length;
    lent[which].buffer = buffer;
    lent[which].length = length;
    lent[which].fill = fill_at(where);
    memset(pages, lent[which].fill, size);
    if (content != NULL && length > 0)
        memcpy(buffer, content, length);
    return length == 0 && where == FIRST ? NULL : buffer;
}

/* Whether the bytes from one address up to another are the fill. */
static int all_fill(int which, const uint8_t *from, const uint8_t *to)
{
    static const size_t step = 64;
    uint8_t row[64];
    memset(row, lent[which].fill, step);
    for (; from < to; from += step)
        if (memcmp(from, row, (size_t)(to - from) < step ? (size_t)(to - from) : step) != 0)
            return 0;
    return 1;
}

int surroundings_kept(int which)
{
    const uint8_t *pages = lent[which].pages, *buffer = lent[which].buffer;
    return all_fill(which, pages, buffer) && all_fill(which, buffer + lent[which].length, pages + size);
}

int fill_kept(int which, size_t from)
{
    const uint8_t *buffer = lent[which].buffer;
    return all_fill(which, buffer + from, buffer + lent[which].length);
}
