/* Every call of ketvaulo.h in one form: a request, which is made of lent buffers, and the answer to it. */
#ifndef CALLS_H
#define CALLS_H

#include "lent.h"

#include "ketvaulo.h"

/* In the header's order. */
enum call {
    SHA256,
    HMAC_SHA256,
    AKA_KEYS,
    USAGE_KEY,
    VISITED_ROOT_KEY,
    VISITED_MASTER_KEY,
    VISITED_REAUTH_KEY,
    DOMAIN_ROOT_KEY,
    DOMAIN_REAUTH_KEY,
    KEY_NAME,
    R0_KEY,
    R1_KEY,
    R0_NAME,
    CHOOSE_OFFER,
    ANSWER_OFFER,
    CHECK_RENEWED,
    READ_AREA,
    READ_AREA_LENIENT,
    WRITE_KEY_ATTRIBUTE,
    READ_KEY_ATTRIBUTE,
    SIGN_PACKET,
    CHECK_PACKET,
    WRITE_BUNDLE,
    READ_BUNDLE,
    COMPARE_BUNDLES,
    PUT_SLOT,
    DROP_SLOT,
    LIVE_SLOTS,
    CALLS
};

/* The most slices that a call is lent besides `out`: six inputs and one that it reads and writes. */
#define SLICES 7
#define NUMBERS 3

/* The last number that a refusal has. The refusals of a call are a set of bits. */
#define LAST_REFUSAL KV_KEY_ID_UNLIKE_CONTENTS
typedef uint64_t refusal_set;
_Static_assert(LAST_REFUSAL < 64, "a set of refusals has 64 bits");

/* The counts that a call accepts of a slice. */
typedef struct {
    size_t least, most;
} range;

/* What a call takes and may answer, as the header says it. */
typedef struct {
    const char *name;
    int slices;             /* how many it is lent besides `out` */
    size_t width;           /* bytes of a value in them */
    range counts[SLICES];   /* how many values each may have */
    int numbers[NUMBERS];   /* bytes of each number that it takes, 0 for none */
    size_t out_width;       /* bytes of a value in `out`, 0 where it has no `out` */
    size_t room;            /* values in `out` that are always enough */
    refusal_set refusals;   /* those that it may give */
    int changes;            /* 1 where it also writes the last of its slices, 0 where it only reads them */
} shape;

extern const shape shapes[CALLS];

/* Values that a call is lent: bytes, or numbers of two bytes. */
typedef struct {
    const void *values;
    size_t count;
} slice;

typedef struct {
    enum call call;
    uint64_t numbers[NUMBERS];  /* in the order of the call's parameters */
    slice in[SLICES];
    size_t room;                /* values that `out` has room for */
} request;

typedef struct {
    uint32_t refusal;
    uint64_t place;                 /* that a refusal carries */
    uint64_t fields[5];             /* what else the call returned, in the order of its struct */
    uint8_t kek_id[16], key_id[16]; /* of kv_read_key_attribute */
    kv_slots slots;                 /* of kv_put_slot and kv_drop_slot */
    size_t written;                 /* values written to `out` */
    size_t changed_at, changed;     /* the values that it may have altered in the slice that it changes: from where, how many */
    uint16_t out[MOST_BYTES / 2];   /* what was written to `out` */
    uint16_t after[MOST_BYTES / 2]; /* the slice that the call changes, after the call */
} answer;

/* The slots that a slice has the bytes of, as they lie in memory; those that it does not have are 0. */
kv_slots slots_of(slice bytes);

/* A name with the bytes of a number, the high byte first. */
kv_name name_of(uint64_t number);

/* Tells what went wrong and stops the program, so that libFuzzer keeps the input. */
_Noreturn void fail(const request *asked, const char *what);

/* Stops the program unless the condition holds. */
static inline void expect(int holds, const request *asked, const char *what)
{
    if (!holds)
        fail(asked, what);
}

/* The answer to a request. Checks everything that holds of every call:
 * - The answer is the same at both places of the buffers.
 * - No input is altered, and no byte around a buffer.
 * - A refusal is one of the call's own, carries the place that it should and no other, has zeros in every other field, and leaves every
 *   buffer as it was.
 * - An accepted call was lent slices within its limits. It leaves every byte of `out` after those that it says it wrote, and every byte
 *   of the slice that it changes outside the part that it says it changed. */
void perform(const request *asked, answer *given);

#endif
