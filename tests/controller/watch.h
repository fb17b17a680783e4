/* Looks at the stack under a call. A program that is linked with --wrap for each call reaches it through one of the functions that
 * watch_arm.S and its kin make. They paint WATCHED bytes of the stack below the caller, let the call run on the caller's own stack,
 * keep the registers that a call may change, wipe the stack where that is asked for, and copy it to watch_image. */
#define WATCHED 8192
#define PAINT 0xa5c3f00d

/* The words of the registers that a call may leave changed, but for those of its result: on Arm r1 to r3 and ip; on RISC-V t0 to t6 and a2 to a7; on x86-64
 * rcx, rsi, rdi, r8 to r11 and the sixteen vectors. */
#if defined(__riscv)
#define REGISTERS 13
#elif defined(__x86_64__)
#define REGISTERS 78
#else
#define REGISTERS 4
#endif

#ifndef __ASSEMBLER__
#include <stdint.h>

/* The stack as the last call left it. Its last byte is the one right below the caller; on x86-64 the return address is the call's. */
extern uint32_t watch_image[WATCHED / 4];

/* The registers as the last call left them. */
extern uint32_t watch_registers[REGISTERS];

/* Whether kv_wipe_stack is called after a call. */
extern uint32_t watch_wipes;

/* What the machine counts, before the last call and after it, where qemu runs with -icount shift=8: on Arm the board's first timer, which
 * counts down by 6.4 an instruction; on RISC-V 256 an instruction; on x86-64 nothing. */
extern uint64_t watch_before, watch_after;

void watch_wipe(void);
#endif
