/* Start-up and semihosting on qemu's boards with a Cortex-M. RAM is zero at the start. */
#include "port.h"

#include <stdint.h>

extern uint32_t stack_top[];

static int semihosting(int operation, const void *argument)
{
    register int r0 __asm__("r0") = operation;
    register const void *r1 __asm__("r1") = argument;
    __asm__ volatile("bkpt 0xab" : "+r"(r0) : "r"(r1) : "memory");
    return r0;
}

void put(const char *text) { semihosting(4, text); }

_Noreturn void leave(int status)
{
    semihosting(0x20, (const uint32_t[2]){ 0x20026, (uint32_t)status });
    for (;;)
        ;
}

static void reset(void)
{
#ifdef TRAP_UNALIGNED
    *(volatile uint32_t *)0xe000ed14 |= 8; /* CCR.UNALIGN_TRP */
    __asm__ volatile("dsb\n isb");
#endif
#ifdef COUNT
    *(volatile uint32_t *)0x40000008 = *(volatile uint32_t *)0x40000004 = 0xffffffff; /* the board's first timer: reload, value, control */
    *(volatile uint32_t *)0x40000000 = 1;
#endif
    leave(program());
}

static void fault(void)
{
    put("FAULT\n");
    leave(9);
}

__attribute__((section(".vectors"), used)) void *const vectors[16] = { stack_top,     (void *)reset, (void *)fault, (void *)fault,
                                                                              (void *)fault, (void *)fault, (void *)fault };
