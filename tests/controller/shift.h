/* Where the lent buffers of fuzz/lent.h lie. */
#ifndef SHIFT_H
#define SHIFT_H

#include "lent.h"

/* Buffer `which` is lent `shift` bytes after an address that 8 divides at FIRST, and `most` - `shift` bytes after it at LAST. */
void shift_buffer(int which, size_t shift, size_t most);

#endif
