#ifndef COMPLETE_H
#define COMPLETE_H

#include "requests.h"

/* Completes a request that was changed, so that it gets past the tests that a change nearly always breaks: gives labels, IDs and offers values that are
 * admitted, signs a packet, wraps a key, packs attributes, makes bundles of them, renews a list. What was changed stays in what is left free; `seed` picks. */
void complete_request(request *asked, unsigned seed);

#endif
