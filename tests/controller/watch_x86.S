/* See watch.h. The return address is exchanged in its place, so that arguments on the stack stay where the call expects them. */
#include "watch.h"

    .macro watched name
    .section .text.watch.\name, "ax", @progbits
    .globl __wrap_\name
__wrap_\name:
    lea __real_\name(%rip), %r11
    jmp watch_start
    .endm

    .section .text.watch, "ax", @progbits
watch_start:
    mov (%rsp), %rax
    mov %rax, watch_saved(%rip)
    lea watch_end(%rip), %rax
    mov %rax, (%rsp)
    lea -WATCHED(%rsp), %r10
1:  movl $PAINT, (%r10)
    add $4, %r10
    cmp %rsp, %r10
    jb 1b
    jmp *%r11

watch_end:
    mov %rax, watch_result(%rip)
    mov %rdx, watch_result+8(%rip)
    lea watch_registers(%rip), %rdx
    mov %rcx, (%rdx)
    mov %rsi, 8(%rdx)
    mov %rdi, 16(%rdx)
    mov %r8, 24(%rdx)
    mov %r9, 32(%rdx)
    mov %r10, 40(%rdx)
    mov %r11, 48(%rdx)
    .irp i, 0, 1, 2, 3, 4, 5, 6, 7, 8, 9, 10, 11, 12, 13, 14, 15
    movups %xmm\i, 56+16*\i(%rdx)
    .endr
    cmpl $0, watch_wipes(%rip)
    je 2f
    call watch_wipe
2:  lea watch_image(%rip), %rdi
    lea -WATCHED(%rsp), %rsi
    mov $(WATCHED / 8), %ecx
    rep movsq
    mov watch_result(%rip), %rax
    mov watch_result+8(%rip), %rdx
    jmp *watch_saved(%rip)

    .bss
    .p2align 3
watch_before: .space 8
watch_after: .space 8
watch_saved: .space 8     /* the return address */
watch_result: .space 16   /* rax, rdx */
    .globl watch_image, watch_wipes, watch_before, watch_after, watch_registers
    .p2align 4            /* as C aligns arrays of that size */
watch_image: .space WATCHED
watch_registers: .space 4 * REGISTERS
watch_wipes: .space 4

#include "watched.inc"
