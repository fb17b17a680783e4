/* Requests as bytes, which is what libFuzzer makes.
 *
 * A request is a byte that picks the call, the call's numbers, the room of `out`, the count of values of each slice, and then the values,
 * slice after slice. A slice that the call changes is the last. Room and counts have two bytes; all numbers are high byte first. A number
 * that the bytes do not have is 0, and a byte of a slice that they do not have is 'a', which labels, server IDs and domains admit. */
#ifndef REQUESTS_H
#define REQUESTS_H

#include "calls.h"

/* The request that the bytes are; its slices are heap blocks of exactly their length. Any bytes are a request. */
request read_request(const uint8_t *bytes, size_t size);

/* The bytes of a request, of which at most `most` are written; returns how many. */
size_t write_request(const request *asked, uint8_t *bytes, size_t most);

/* Repeats or takes out a piece of a slice, or brings lengths to or within the limits of the call; `seed` picks. */
void change_request(request *asked, unsigned seed);

/* Brings every count within what the call accepts, and gives `out` room enough. */
void accept_counts(request *asked);

void free_request(request *asked);

#endif
