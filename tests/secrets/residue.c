/* Makes each case with every set of secrets and compares what the calls leave: a byte of the stack or of a register that differs between two sets tells of
 * the secret. Prints for each case: the call, its refusal, the bytes of stack that differ, the registers that do, and the bytes of stack after
 * kv_wipe_stack. */
#include "cases.h"
#include "ketvaulo_wipe.h"
#include "port.h"
#include "watch.h"

#include <stdio.h>

/* The wipe reaches from right below the caller, as it does where the caller calls it: so nothing stands between. */
void watch_wipe(void) { kv_wipe_below(); }

void secret_is(void *bytes, size_t n) { (void)bytes, (void)n; }
void public_is(void *bytes, size_t n) { (void)bytes, (void)n; }

static uint32_t first_image[WATCHED / 4], first_registers[REGISTERS];

/* How many bytes of the words differ between the sets, or how many words where `whole` is 1; `first` has those of the first set. */
static uint32_t differing(const uint32_t *words, const uint32_t *first, uint32_t *seen, size_t n, int whole)
{
    uint32_t count = 0;
    for (size_t i = 0; i < n; i++) {
        seen[i] |= words[i] ^ first[i];
        for (int byte = 0; byte < 32; byte += 8)
            count += (seen[i] >> byte & 255) != 0 && (!whole || byte == 0 || (seen[i] & ((1u << byte) - 1)) == 0);
    }
    return count;
}

static uint32_t seen_image[WATCHED / 4], seen_registers[REGISTERS];

int program(void)
{
    for (size_t c = 0; c < case_count; c++) {
        uint32_t stack[2] = { 0, 0 }, registers = 0;
        for (watch_wipes = 0; watch_wipes < 2; watch_wipes++) {
            for (size_t i = 0; i < WATCHED / 4; i++)
                seen_image[i] = 0;
            for (size_t i = 0; i < REGISTERS; i++)
                seen_registers[i] = 0;
            for (int set = 0; set < SETS; set++) {
                if (make_case(c, set) != case_refusal(c)) {
                    printf("%s: not %u\n", case_name(c), case_refusal(c));
                    return 1;
                }
                for (size_t i = 0; set == 0 && i < WATCHED / 4; i++)
                    first_image[i] = watch_image[i];
                for (size_t i = 0; set == 0 && i < REGISTERS; i++)
                    first_registers[i] = watch_registers[i];
                stack[watch_wipes] = differing(watch_image, first_image, seen_image, WATCHED / 4, 0);
                if (watch_wipes == 0)
                    registers = differing(watch_registers, first_registers, seen_registers, REGISTERS, 1);
            }
        }
        printf("%s %u %u %u %u\n", case_name(c), case_refusal(c), stack[0], registers, stack[1]);
    }
    return 0;
}
