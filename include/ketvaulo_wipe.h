/* Wipes secrets from memory, beside ketvaulo.h.
 *
 * This is C and not proved. It is tested (tests/secrets.sh), on x86-64 and on the cores of controllers, by comparing what is left
 * on the stack for several secrets: after a call and kv_wipe_stack no byte below the caller tells of the secret. Without it
 * hundreds do: after kv_read_key_attribute the whole key and the KEK, after kv_sign_packet the MAC key, after a derived key
 * what is as good as its root key. Registers are not wiped, nor what an interrupt saved. */
#ifndef KETVAULO_WIPE_H
#define KETVAULO_WIPE_H

#include <stddef.h>
#include <stdint.h>

#if defined(__GNUC__)
#define KV_NOT_INLINED static __attribute__((noinline, unused))
#define KV_INLINED static inline __attribute__((always_inline, unused))
/* keeps what stands before it from being the last thing that a function does, and so from being reached by a jump */
#define KV_STAYS __asm__ volatile("" : : : "memory")
#elif defined(__ICCARM__) || defined(__ICCRISCV__)
#define KV_NOT_INLINED _Pragma("inline=never") static
#define KV_INLINED _Pragma("inline=forced") static
#define KV_STAYS __asm volatile("" : : : "memory")
#else
#error "ketvaulo_wipe.h: say here how this compiler is told not to inline a function, and to inline one"
#endif

#if defined(__has_attribute)
#if __has_attribute(no_stack_protector)
#define KV_NO_CANARY __attribute__((no_stack_protector))
#endif
#endif
#ifndef KV_NO_CANARY
#define KV_NO_CANARY
#endif

/* At least the stack that any call of the library takes on any core; tests/stack.sh holds it against the measured figures. A
 * project may define it as less, by the figures of its own core and calls in docs/CONTROLLER.md. */
#ifndef KV_STACK_BYTES
#define KV_STACK_BYTES 1536
#endif

/* For kv_wipe_stack alone. A canary would leave a gap above the array, so there is none. */
KV_NO_CANARY KV_NOT_INLINED void kv_wipe_below(void)
{
    uint32_t room[KV_STACK_BYTES / 4];
    volatile uint32_t *words = room;
    for (size_t i = 0; i < KV_STACK_BYTES / 4; i++)
        words[i] = 0;
}

/* Zeroes the stack that a call may have used. To be called right after it, by the function that made it, on the same stack:
 * there have to be KV_STACK_BYTES and some 32 more. It may be the last thing that the function does. */
KV_INLINED void kv_wipe_stack(void)
{
    kv_wipe_below();
    KV_STAYS;
}

/* Zeroes a secret that is no longer wanted. The compiler may not leave this out. */
KV_NOT_INLINED void kv_wipe(void *secret, size_t len)
{
    volatile uint8_t *bytes = (volatile uint8_t *)secret;
    for (size_t i = 0; i < len; i++)
        bytes[i] = 0;
}

#endif
