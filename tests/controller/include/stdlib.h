/* For a program on a bare core. */
#ifndef STDLIB_H
#define STDLIB_H

#include <stddef.h>

void *malloc(size_t size);
void free(void *block);
_Noreturn void abort(void);
_Noreturn void exit(int status);

#endif
