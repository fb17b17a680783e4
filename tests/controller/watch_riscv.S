/* See watch.h. */
#include "watch.h"
    .option arch, +zicsr

    .macro watched name
    .section .text.watch.\name, "ax", @progbits
    .globl __wrap_\name
__wrap_\name:
    la t1, __real_\name
    la t0, watch_start
    jr t0
    .endm

    .section .text.watch, "ax", @progbits
watch_start:
    la t0, watch_saved
    sw ra, 0(t0)
    li t2, WATCHED
    sub t0, sp, t2
    li t2, PAINT
1:  sw t2, 0(t0)
    addi t0, t0, 4
    bltu t0, sp, 1b
    la ra, watch_end
    la t0, watch_before
    csrr t2, minstreth
    sw t2, 4(t0)
    csrr t2, minstret
    sw t2, 0(t0)
    jr t1

    .p2align 2
watch_end:
    csrr ra, minstret
    csrw mscratch, t0
    la t0, watch_registers
    .set at, 4
    .irp name, t1, t2, t3, t4, t5, t6, a2, a3, a4, a5, a6, a7
    sw \name, at(t0)
    .set at, at + 4
    .endr
    csrr t1, mscratch
    sw t1, 0(t0)
    la t0, watch_after
    sw ra, 0(t0)
    csrr t2, minstreth
    sw t2, 4(t0)
    la t0, watch_result
    sw a0, 0(t0)
    sw a1, 4(t0)
    la t0, watch_wipes
    lw t0, 0(t0)
    beqz t0, 2f
    call watch_wipe
2:  la t0, watch_image
    li t1, WATCHED
    sub t1, sp, t1
3:  lw t2, 0(t1)
    sw t2, 0(t0)
    addi t0, t0, 4
    addi t1, t1, 4
    bltu t1, sp, 3b
    la t0, watch_result
    lw a0, 0(t0)
    lw a1, 4(t0)
    la t0, watch_saved
    lw ra, 0(t0)
    ret

    .bss
    .p2align 3
watch_before: .space 8
watch_after: .space 8
watch_saved: .space 4    /* ra */
watch_result: .space 8   /* a0, a1 */
    .globl watch_image, watch_wipes, watch_before, watch_after, watch_registers
watch_registers: .space 4 * REGISTERS
watch_image: .space WATCHED
watch_wipes: .space 4

#include "watched.inc"
