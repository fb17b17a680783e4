#ifndef CALLERS_H
#define CALLERS_H

#include <stddef.h>
#include <stdint.h>

/* The refusals that the callers met. */
extern volatile uint32_t refused;

#endif
