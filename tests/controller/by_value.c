/* The least functions that make a call which takes the slots by value. They are watched as a call is, so the calls that they make are the library's own. */
#define kv_put_slot __real_kv_put_slot
#define kv_drop_slot __real_kv_drop_slot
#define kv_live_slots __real_kv_live_slots
#include "ketvaulo.h"

#include "delivery.h"

uint32_t put_one(kv_slots *slots)
{
    const kv_name name = { { 1 } };
    kv_slots_outcome r = kv_put_slot(*slots, name, KV_NO_PARENT);
    *slots = r.slots;
    return r.refusal;
}

uint32_t drop_one(kv_slots *slots)
{
    kv_slots_outcome r = kv_drop_slot(*slots, 0);
    *slots = r.slots;
    return r.refusal;
}

uint32_t count_live(const kv_slots *slots) { return kv_live_slots(*slots); }
