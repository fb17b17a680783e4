/* Runs each caller (callers.c) with several secrets, and prints how many bytes of the stack below it and of its frame differ between them. */
#include "callers.h"
#include "port.h"
#include "watch.h"

#include <stdio.h>

#define CALLER(name) void name(const uint8_t *secret);
#include "callers.inc"
#undef CALLER

static const struct {
    const char *name;
    void (*run)(const uint8_t *secret);
} callers[] = {
#define CALLER(name) { #name, name },
#include "callers.inc"
};

volatile uint32_t refused;
uintptr_t __stack_chk_guard;
void __stack_chk_fail(void);
void __stack_chk_fail(void) { leave(8); }
void watch_wipe(void) {}

static uint8_t secret[128];
static uint32_t first[WATCHED / 4], seen[WATCHED / 4];

/* In memory, so that no register that a caller saves on the stack tells the secrets apart. */
static volatile uint32_t set;

static __attribute__((noinline)) void pick_secret(void)
{
    for (size_t i = 0; i < sizeof secret; i++)
        secret[i] = (uint8_t)(set * 85 + i * 7 * (set > 1));
}

static __attribute__((noinline)) void look(void)
{
    for (size_t i = 0; i < WATCHED / 4; i++) {
        if (set == 0)
            first[i] = watch_image[i];
        seen[i] |= first[i] ^ watch_image[i];
    }
}

int program(void)
{
    for (size_t c = 0; c < sizeof callers / sizeof *callers; c++) {
        uint32_t left = 0;
        for (size_t i = 0; i < WATCHED / 4; i++)
            seen[i] = 0;
        for (set = 0; set < 4; set = set + 1) {
            pick_secret();
            callers[c].run(secret);
            look();
        }
        for (size_t i = 0; i < WATCHED / 4; i++)
            for (int byte = 0; byte < 32; byte += 8)
                left += (seen[i] >> byte & 255) != 0;
        printf("%s %u\n", callers[c].name, left);
    }
    if (refused != 0)
        printf("refused %u\n", refused);
    return refused != 0;
}
