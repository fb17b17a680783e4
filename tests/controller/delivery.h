/* Functions that make calls, as a firmware has them. */
#ifndef DELIVERY_H
#define DELIVERY_H

#include "ketvaulo.h"

/* Wraps an R0-Key for the delivery; returns the length of its Key attribute. */
size_t send_r0_key(void);

/* A handover inside a key delivery (delivery.c): opens that attribute, derives an R1-Key and wraps it; returns a refusal, which is 0. */
uint32_t deliver(size_t len);

/* One call on slots (by_value.c); returns a refusal, or the count, each 0. */
uint32_t put_one(kv_slots *slots);
uint32_t drop_one(kv_slots *slots);
uint32_t count_live(const kv_slots *slots);

#endif
