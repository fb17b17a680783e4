/* Makes each case under valgrind with its secrets marked undefined: memcheck then tells of every branch and every address that depends on one. */
#include "cases.h"

#include <stdio.h>
#include <valgrind/memcheck.h>

void secret_is(void *bytes, size_t n) { (void)VALGRIND_MAKE_MEM_UNDEFINED(bytes, n); }
void public_is(void *bytes, size_t n) { (void)VALGRIND_MAKE_MEM_DEFINED(bytes, n); }

int main(void)
{
    for (size_t c = 0; c < case_count; c++)
        for (int set = 0; set < SETS; set++)
            if (make_case(c, set) != case_refusal(c)) {
                printf("%s: not %u\n", case_name(c), case_refusal(c));
                return 1;
            }
    puts("done");
    return 0;
}
