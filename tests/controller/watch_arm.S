/* See watch.h. The caller's registers are kept in memory, so that nothing but the call uses its stack. */
#include "watch.h"
    .syntax unified
    .thumb

    .macro watched name
    .section .text.watch.\name, "ax", %progbits
    .globl __wrap_\name
    .type __wrap_\name, %function
    .thumb_func
__wrap_\name:
    mov ip, r0
    ldr r0, =watch_saved
    stmia r0!, {r1-r7}
    mov r1, ip
    str r1, [r0]
    ldr r1, =__real_\name
    str r1, [r0, #8]
    ldr r1, =watch_start
    bx r1
    .ltorg
    .endm

    .section .text.watch, "ax", %progbits
    .type watch_start, %function
    .thumb_func
watch_start:
    mov r1, lr
    str r1, [r0, #4]
    mov r1, sp
    ldr r2, =WATCHED
    subs r2, r1, r2
    ldr r3, =PAINT
1:  stmia r2!, {r3}
    cmp r2, r1
    blo 1b
    ldr r1, =watch_end
    mov lr, r1
    ldr r1, [r0, #8]
    mov ip, r1
    ldr r1, =0x40000004
    ldr r1, [r1]
    ldr r2, =watch_before
    str r1, [r2]
    subs r0, #28
    ldmia r0!, {r1-r7}
    ldr r0, [r0]
    bx ip

    .type watch_end, %function
    .thumb_func
watch_end:
    mov lr, r0
    ldr r0, =watch_registers
    stmia r0!, {r1-r3}
    mov r1, ip
    str r1, [r0]
    ldr r1, =0x40000004
    ldr r1, [r1]
    ldr r2, =watch_after
    str r1, [r2]
    ldr r0, =watch_result
    mov r1, lr
    str r1, [r0]
    ldr r1, =watch_wipes
    ldr r1, [r1]
    cmp r1, #0
    beq 2f
    bl watch_wipe
2:  ldr r0, =watch_image
    mov r2, sp
    ldr r1, =WATCHED
    subs r1, r2, r1
3:  ldmia r1!, {r3}
    stmia r0!, {r3}
    cmp r1, r2
    blo 3b
    ldr r0, =watch_saved
    ldr r1, [r0, #32]
    mov lr, r1
    ldr r0, =watch_registers
    ldmia r0!, {r1-r3}
    ldr r0, =watch_result
    ldr r0, [r0]
    bx lr
    .ltorg

    .bss
    .p2align 3
watch_before: .space 8
watch_after: .space 8
watch_saved: .space 40   /* r1 to r7, r0, lr, the call */
watch_result: .space 4   /* r0 */
    .globl watch_image, watch_wipes, watch_before, watch_after, watch_registers
watch_registers: .space 4 * REGISTERS  /* r1 to r3, ip */
watch_image: .space WATCHED
watch_wipes: .space 4

#include "watched.inc"
