/* Every call that takes a secret, accepted and refused, in many sizes. A case is one call; the same case can be made with several sets of secrets,
 * and everything else of it is then equal. */
#ifndef CASES_H
#define CASES_H

#include "ketvaulo.h"

/* The sets: all zeros, all ones, and bytes without a pattern. */
#define SETS 5

extern const size_t case_count;

/* What is told of a secret right before the call that takes it, and of what the call wrote, right after it. */
void secret_is(void *bytes, size_t n);
void public_is(void *bytes, size_t n);

/* Makes a case with a set of secrets. Returns the refusal, which is the same for every set. */
uint32_t make_case(size_t which, int set);

/* The call of a case, and the refusal that it must give. */
const char *case_name(size_t which);
uint32_t case_refusal(size_t which);

#endif
