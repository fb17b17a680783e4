/* What hostap asks of its system, on a bare core: a heap for its round keys, where what is asked for is laid end to end and all is free
 * again once nothing is in use, and a memset that the compiler may not drop. */
#include <stddef.h>
#include <stdint.h>
#include <string.h>

static _Alignas(8) uint8_t room[4096];
static size_t used, live;

void *malloc(size_t n)
{
    n = (n + 7) & ~(size_t)7;
    if (n > sizeof room - used)
        return 0;
    used += n;
    live++;
    return room + used - n;
}

void free(void *p)
{
    if (p && !--live)
        used = 0;
}

void forced_memzero(void *p, size_t n)
{
    memset(p, 0, n);
    __asm__ volatile("" : : "r"(p) : "memory");
}
