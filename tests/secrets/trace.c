/* Makes each case with one set of secrets, under qemu, which logs the blocks of instructions that run. The number of the set is data, so that the program is the
 * same for every set. */
#include "cases.h"
#include "port.h"

#ifndef SET
#define SET 0
#endif
static const volatile int set = SET;

void secret_is(void *bytes, size_t n) { (void)bytes, (void)n; }
void public_is(void *bytes, size_t n) { (void)bytes, (void)n; }

int program(void)
{
    for (size_t c = 0; c < case_count; c++)
        if (make_case(c, set) != case_refusal(c)) {
            put(case_name(c));
            return 1;
        }
    return 0;
}
