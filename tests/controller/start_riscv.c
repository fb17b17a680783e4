/* Start-up and semihosting on qemu's RISC-V board. RAM is zero at the start. */
#include "port.h"

#include <stdint.h>

int semihosting(int operation, const void *argument);
void start(void);
void fault(void);

__asm__(".section .vectors,\"ax\"\n"
        ".globl _start\n"
        "_start:\n"
        "    la sp, stack_top\n"
        "    la t0, trap\n"
        "    .option push\n"
        "    .option arch, +zicsr\n"
        "    csrw mtvec, t0\n"
        "    .option pop\n"
        "    call start\n"
        "    .p2align 2\n"
        "trap:\n"
        "    j fault\n"
        "    .text\n"
        "    .globl semihosting\n"
        "    .option push\n"
        "    .option norvc\n"
        "    .p2align 4\n"
        "semihosting:\n"
        "    slli x0, x0, 0x1f\n"
        "    ebreak\n"
        "    srai x0, x0, 7\n"
        "    ret\n"
        "    .option pop\n");

void put(const char *text) { semihosting(4, text); }

_Noreturn void leave(int status)
{
    semihosting(0x20, (const uint32_t[2]){ 0x20026, (uint32_t)status });
    for (;;)
        ;
}

void start(void) { leave(program()); }

void fault(void)
{
    put("FAULT\n");
    leave(9);
}
