/* Requests in the form of fuzz/requests.h, which tests/controller.sh makes of a file like fuzz/seeds. */
#ifndef SEEDS_H
#define SEEDS_H

#include <stddef.h>
#include <stdint.h>

typedef struct {
    const uint8_t *bytes;
    size_t size;
} seed;

extern const seed seeds[];
extern const size_t seed_count;

#endif
