/* Makes each request of a file like fuzz/seeds. Prints for each: the call, its refusal, the bytes of stack that it took, and its instructions (where the
 * machine counts them, watch.h). The first line has how many bytes in a row of a key that a function had in its frame are left on the stack, without
 * kv_wipe and with it. The last lines are of functions that make calls, with what the calls take: a handover inside a key delivery, and calls that take the
 * slots by value. */
#include "delivery.h"
#include "ketvaulo_wipe.h"
#include "port.h"
#include "requests.h"
#include "seeds.h"
#include "shift.h"
#include "watch.h"

#include <stdio.h>

void watch_wipe(void) {}

/* The bytes of stack from the caller down to the deepest word that is not paint. */
static uint32_t depth(void)
{
    uint32_t lowest = 0;
    while (lowest < WATCHED / 4 && watch_image[lowest] == PAINT)
        lowest++;
    return WATCHED - 4 * lowest;
}

/* The instructions of the last call, and about a dozen of watching it. */
static uint32_t instructions(void)
{
#ifdef __riscv
    return (uint32_t)((watch_after - watch_before) >> 8);
#else
    return (uint32_t)((watch_before - watch_after) * 5 >> 5);
#endif
}

/* How many bytes in a row of this text stand in the stack, of its first and its last 300; zeros at the start of a row do not count. */
static uint32_t left_of(const uint8_t *bytes, size_t n)
{
    const uint8_t *image = (const uint8_t *)watch_image;
    uint32_t most = 0;
    for (size_t i = 0; i < n; i++) {
        if (i == 300 && n > 600)
            i = n - 300;
        if (bytes[i] == 0)
            continue;
        for (uint32_t at = 0; at < WATCHED; at++) {
            uint32_t row = 0;
            while (i + row < n && at + row < WATCHED && image[at + row] == bytes[i + row])
                row++;
            if (row > most)
                most = row;
        }
    }
    return most;
}

/* A function that has a key in its frame, and wipes it or not. */
static const uint8_t key[] = "a key that stands in the frame of a function";

static __attribute__((noinline)) void hold_key(int wipe)
{
    uint8_t held[sizeof key];
    for (size_t i = 0; i < sizeof held; i++)
        held[i] = key[i];
    __asm__ volatile("" : : "r"(held) : "memory");
    if (wipe)
        kv_wipe(held, sizeof held);
}

/* How much of it is left. Copies the stack below this function as watching a call does. */
static __attribute__((noinline)) uint32_t left_of_key(int wipe)
{
    hold_key(wipe);
    const volatile uint32_t *from = (const uint32_t *)__builtin_frame_address(0) - WATCHED / 4;
    for (size_t i = 0; i < WATCHED / 4; i++)
        watch_image[i] = from[i];
    return left_of(key, sizeof key);
}

/* The line of a function that was watched, and its status. */
static void tell(const char *name, uint32_t refusal)
{
    uint32_t bytes = depth();
    printf("%s %u %u %u\n", name, refusal, bytes, instructions());
}

int program(void)
{
    static answer given;
    static kv_slots slots;
    uint32_t unwiped = left_of_key(0);
    printf("kv_wipe %u %u 0\n", unwiped, left_of_key(1));
    for (size_t i = 0; i < seed_count; i++) {
        request asked = read_request(seeds[i].bytes, seeds[i].size);
        perform(&asked, &given);
        tell(shapes[asked.call].name, given.refusal);
        free_request(&asked);
    }
    size_t arrived = send_r0_key();
    tell("deliver", deliver(arrived));
    tell("put_one", put_one(&slots));
    tell("drop_one", drop_one(&slots));
    tell("count_live", count_live(&slots));
    return 0;
}
