/* A handover inside a key delivery, as document 02's request 3 has it: the controller of an access domain opens the Key attribute that
 * brings it an R0-Key, derives the R1-Key of an access node from that, and writes the Key attribute that takes it to the node. The function
 * is watched as a call is, so the calls that it makes are the library's own. */
#define kv_read_key_attribute __real_kv_read_key_attribute
#define kv_write_key_attribute __real_kv_write_key_attribute
#define kv_r1_key __real_kv_r1_key
#include "ketvaulo.h"

#include "delivery.h"

static const uint8_t kek[KV_KEK_LEN] = "kek of the yard", kek_id[KV_ID_LEN] = "kek id 00000001", key_id[KV_ID_LEN] = "key id 00000001";
static const uint8_t ad_id[KV_HANDOVER_ID_LEN] = "domain 00000001", an_id[KV_HANDOVER_ID_LEN] = "node 0000000001", spa[KV_SPA_LEN] = "\2\1\1\1\1";

static uint8_t arrived[KV_KEY_ATTRIBUTE_MAX];

static kv_outcome wrap(const uint8_t key[KV_HANDOVER_KEY_LEN], uint8_t attribute[KV_KEY_ATTRIBUTE_MAX])
{
    return kv_write_key_attribute(26, 7, kek_id, sizeof kek_id, key_id, sizeof key_id, 3600, kek, sizeof kek, key, KV_HANDOVER_KEY_LEN, attribute,
                                  KV_KEY_ATTRIBUTE_MAX);
}

size_t send_r0_key(void)
{
    static const uint8_t r0_key[KV_HANDOVER_KEY_LEN] = "an R0-Key that comes by RADIUS.";
    return (size_t)wrap(r0_key, arrived).value;
}

uint32_t deliver(size_t len)
{
    uint8_t r0_key[KV_HANDOVER_KEY_LEN], r1_key[KV_HANDOVER_KEY_LEN], attribute[KV_KEY_ATTRIBUTE_MAX];
    uint32_t refusal = kv_read_key_attribute(kek, sizeof kek, arrived, len, r0_key, sizeof r0_key).refusal;
    if (refusal == KV_ACCEPTED)
        refusal = kv_r1_key(r0_key, sizeof r0_key, ad_id, sizeof ad_id, an_id, sizeof an_id, spa, sizeof spa, r1_key, sizeof r1_key).refusal;
    if (refusal == KV_ACCEPTED)
        refusal = wrap(r1_key, attribute).refusal;
    return refusal;
}
