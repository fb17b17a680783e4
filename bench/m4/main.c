/* Measures the jobs on a bare core under qemu with -icount shift=8, where an instruction takes 256 ns of its clock. Prints each job's whole
   answer, and for each 'cost NAME INSTRUCTIONS STACK'. Start-up and output are those of tests/controller. */
#include "jobs.h"
#include "port.h"

#define PAINT 0xa5c3f00d
#define PAINTED 16384 /* bytes of the stack */

static void put_number(uint32_t n)
{
    char text[12], *at = text + sizeof text;
    *--at = 0;
    do
        *--at = (char)('0' + n % 10);
    while (n /= 10);
    put(at);
}

#ifdef __riscv
/* qemu counts in the nanoseconds of its clock here. */
static uint64_t clock(void)
{
    uint32_t high, low;
    __asm__ volatile(".option push\n.option arch, +zicsr\ncsrr %0, minstreth\ncsrr %1, minstret\n.option pop" : "=r"(high), "=r"(low) : : "memory");
    return (uint64_t)high << 32 | low;
}
static uint32_t instructions(void (*call)(void))
{
    uint64_t before = clock();
    call();
    return (uint32_t)((clock() - before) >> 8);
}
#else
/* The board's first timer counts down at 25 MHz: 6.4 ticks to an instruction. */
static volatile uint32_t *const timer = (volatile uint32_t *)0x40000000; /* control, value, reload */

static uint32_t instructions(void (*call)(void))
{
    timer[0] = 0;
    timer[2] = timer[1] = 0xffffffff;
    timer[0] = 1;
    call();
    return (uint32_t)((uint64_t)(0xffffffff - timer[1]) * 5 >> 5);
}
#endif

/* Paints the stack below this function, all but the eight words below its own frame. */
static __attribute__((noinline)) void paint(void)
{
    uint32_t *here = __builtin_frame_address(0);
    for (volatile uint32_t *p = here - PAINTED / 4; p < here - 8; p++)
        *p = PAINT;
}

static __attribute__((noinline)) uint32_t deepest(void (*call)(void))
{
    uint32_t *here = __builtin_frame_address(0);
    volatile uint32_t *at = here - PAINTED / 4 + 256;
    paint();
    call();
    while (*at == PAINT)
        at++;
    return (uint32_t)((uint8_t *)here - (uint8_t *)at);
}

int program(void)
{
    prepare_jobs();
    for (int i = 0; i < JOBS; i++)
        show_job(&jobs[i], put);
    uint32_t measuring = instructions(jobs[0].call);
    for (int i = 1; i < JOBS; i++) {
        put("cost ");
        put(jobs[i].name);
        put(" ");
        put_number(instructions(jobs[i].call) - measuring);
        put(" ");
        put_number(deepest(jobs[i].call));
        put("\n");
    }
    return 0;
}
