/* Functions like those of a firmware: each makes a call, has a large frame, and wipes the stack as the last thing that it does. tests/secrets.sh compiles
 * them by several compilers and at every level, each time under names of their own, BUILD_sign and so on. */
#include "callers.h"
#include "ketvaulo.h"
#ifdef WRONG_WIPE
/* What must be seen to fail: a wipe that a compiler may reach by a jump, after the caller's frame is gone. */
#define kv_wipe_stack kv_wipe_inlined
#endif
#include "ketvaulo_wipe.h"
#ifdef WRONG_WIPE
#undef kv_wipe_stack
#define kv_wipe_stack kv_wipe_below
#endif

#define JOIN(a, b) a##_##b
#define NAMED(a, b) JOIN(a, b)

static const uint8_t id[16] = "an-id-000000001", spa[KV_SPA_LEN] = "\2\1\1\1\1";
static uint8_t out[KV_KEY_ATTRIBUTE_MAX];

void NAMED(BUILD, sign)(const uint8_t *secret)
{
    uint8_t packet[2048];
    for (size_t i = 0; i < 72; i++)
        packet[i] = 0;
    packet[3] = 72, packet[20] = 26, packet[21] = 52, packet[23] = 2;
    refused |= kv_sign_packet(secret, 64, 26, packet, 72).refusal;
    kv_wipe(packet + 40, 32); /* the MAC is no secret, but tells the secrets apart */
    kv_wipe_stack();
}

void NAMED(BUILD, usage)(const uint8_t *secret)
{
    uint8_t data[1000];
    for (size_t i = 0; i < sizeof data; i++)
        data[i] = 7;
    refused |= kv_usage_key(secret, 128, id, 3, data, sizeof data, 64, out, 64).refusal;
    kv_wipe_stack();
}

void NAMED(BUILD, login)(const uint8_t *secret)
{
    uint8_t keys[KV_AKA_KEYS_LEN];
    refused |= kv_aka_keys(secret, 16, secret + 16, 16, id, 4, spa, 6, id, 16, keys, sizeof keys).refusal;
    kv_wipe(keys, sizeof keys);
    kv_wipe_stack();
}

void NAMED(BUILD, wrap)(const uint8_t *secret)
{
    uint8_t attribute[KV_KEY_ATTRIBUTE_MAX];
    refused |= kv_write_key_attribute(1, 2, id, 16, id, 16, 3, secret, 16, secret + 16, 64, attribute, sizeof attribute).refusal;
    kv_wipe(attribute, sizeof attribute);
    kv_wipe_stack();
}

void NAMED(BUILD, handover)(const uint8_t *secret)
{
    refused |= kv_r1_key(secret, 32, id, 16, id, 16, spa, 6, out, 32).refusal;
    kv_wipe_stack();
}
