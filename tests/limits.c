/* Asks the library whether the sizes and limits of the header are its own: at a limit a call is accepted, and past it the call gives the
 * limit's refusal. Prints what is not so. */
#include "ketvaulo.h"
#include "ketvaulo_text.h"

#include <stdio.h>
#include <string.h>

static int wrong;

static void expect(uint32_t given, uint32_t wanted, const char *what)
{
    if (given == wanted)
        return;
    printf("%s: \"%s\" and not \"%s\"\n", what, kv_refusal_text(given), kv_refusal_text(wanted));
    wrong = 1;
}

#define IS(call, wanted) expect((call).refusal, wanted, #call)
#define GIVES(call, count) expect((uint32_t)(call).value, count, #call)

static uint8_t bytes[KV_USAGE_KEY_MAX + 1], out[KV_USAGE_KEY_MAX + 1];

static kv_outcome aka(size_t key, size_t name, size_t sqn, size_t identity, size_t room)
{
    return kv_aka_keys(bytes, key, bytes, key, bytes, name, bytes, sqn, bytes, identity, out, room);
}

static kv_outcome usage(size_t root, size_t label, size_t data, uint64_t n)
{
    return kv_usage_key(bytes, root, bytes, label, bytes, data, n, out, sizeof out);
}

static kv_outcome master(size_t server, size_t domain)
{
    return kv_visited_master_key(bytes, KV_ROOT_KEY_MIN, bytes, server, bytes, domain, out, KV_VISITED_KEY_LEN);
}

static kv_outcome name(size_t session, size_t label) { return kv_key_name(bytes, session, bytes, label, out, KV_KEY_NAME_LEN); }

static kv_outcome r0_key(size_t rrk, size_t id, size_t spa, size_t room) { return kv_r0_key(bytes, rrk, bytes, id, bytes, spa, out, room); }

static kv_outcome r1_key(size_t r0, size_t ad, size_t an, size_t spa)
{
    return kv_r1_key(bytes, r0, bytes, ad, bytes, an, bytes, spa, out, KV_HANDOVER_KEY_LEN);
}

static kv_outcome r0_name(size_t r0, size_t room) { return kv_r0_name(bytes, r0, bytes, KV_HANDOVER_ID_LEN, bytes, KV_SPA_LEN, out, room); }

static kv_outcome wrap(size_t id, size_t kek, size_t key, size_t room)
{
    return kv_write_key_attribute(1, 2, bytes, id, bytes, id, 3, bytes, kek, bytes, key, out, room);
}

int main(void)
{
    uint16_t offers[KV_OFFERS_MAX + 1], renewed[KV_OFFERS_ROOM];
    memset(bytes, 'a', sizeof bytes);
    for (size_t i = 0; i < KV_OFFERS_MAX + 1; i++)
        offers[i] = (uint16_t)(i + 1);

    GIVES(kv_sha256(bytes, 1, out, KV_DIGEST_LEN), KV_DIGEST_LEN);
    IS(kv_sha256(bytes, 1, out, KV_DIGEST_LEN - 1), KV_ROOM);
    GIVES(aka(KV_AKA_KEY_LEN, KV_NETWORK_NAME_MAX, KV_SQN_LEN, KV_IDENTITY_MAX, KV_AKA_KEYS_LEN), KV_AKA_KEYS_LEN);
    IS(aka(KV_AKA_KEY_LEN + 1, 0, KV_SQN_LEN, 1, KV_AKA_KEYS_LEN), KV_AKA_INPUT_LENGTH);
    IS(aka(KV_AKA_KEY_LEN, 0, KV_SQN_LEN + 1, 1, KV_AKA_KEYS_LEN), KV_AKA_INPUT_LENGTH);
    IS(aka(KV_AKA_KEY_LEN, KV_NETWORK_NAME_MAX + 1, KV_SQN_LEN, 1, KV_AKA_KEYS_LEN), KV_NETWORK_NAME_LENGTH);
    IS(aka(KV_AKA_KEY_LEN, 0, KV_SQN_LEN, KV_IDENTITY_MAX + 1, KV_AKA_KEYS_LEN), KV_IDENTITY_LENGTH);
    IS(aka(KV_AKA_KEY_LEN, 0, KV_SQN_LEN, 1, KV_AKA_KEYS_LEN - 1), KV_ROOM);
    IS(usage(KV_ROOT_KEY_MIN, KV_LABEL_PLAIN_MAX, KV_DATA_MAX, KV_USAGE_KEY_MAX), KV_ACCEPTED);
    IS(usage(KV_ROOT_KEY_MIN, KV_LABEL_PLAIN_MAX + 1, 0, 1), KV_LABEL_SYNTAX);
    bytes[1] = '@';
    IS(usage(KV_ROOT_KEY_MIN, KV_LABEL_MAX, KV_DATA_MAX, KV_USAGE_KEY_MAX), KV_ACCEPTED);
    IS(usage(KV_ROOT_KEY_MAX, 1, 0, 1), KV_ACCEPTED);
    IS(usage(KV_ROOT_KEY_MIN - 1, 1, 0, 1), KV_ROOT_KEY_LENGTH);
    IS(usage(KV_ROOT_KEY_MAX + 1, 1, 0, 1), KV_ROOT_KEY_LENGTH);
    IS(usage(KV_ROOT_KEY_MIN, KV_LABEL_MAX + 1, 0, 1), KV_LABEL_LENGTH);
    IS(usage(KV_ROOT_KEY_MIN, 1, KV_DATA_MAX + 1, 1), KV_DATA_LENGTH);
    IS(usage(KV_ROOT_KEY_MIN, 1, 0, KV_USAGE_KEY_MAX + 1), KV_KEY_LENGTH);
    bytes[1] = 'a';
    GIVES(kv_visited_root_key(bytes, KV_ROOT_KEY_MIN, out, KV_VISITED_KEY_LEN), KV_VISITED_KEY_LEN);
    IS(master(KV_SERVER_ID_MAX, KV_DOMAIN_MAX), KV_ACCEPTED);
    IS(master(KV_SERVER_ID_MAX + 1, 1), KV_SERVER_ID);
    IS(master(1, KV_DOMAIN_MAX + 1), KV_DOMAIN);
    GIVES(kv_domain_root_key(bytes, KV_ROOT_KEY_MIN, bytes, KV_DOMAIN_MAX, out, KV_DOMAIN_KEY_LEN), KV_DOMAIN_KEY_LEN);
    IS(kv_domain_root_key(bytes, KV_ROOT_KEY_MIN, bytes, KV_DOMAIN_MAX + 1, out, KV_DOMAIN_KEY_LEN), KV_DOMAIN);
    IS(kv_domain_root_key(bytes, KV_ROOT_KEY_MIN, bytes, KV_DOMAIN_MAX, out, KV_DOMAIN_KEY_LEN - 1), KV_ROOM);
    GIVES(kv_domain_reauth_key(bytes, KV_DOMAIN_KEY_LEN, out, KV_DOMAIN_KEY_LEN), KV_DOMAIN_KEY_LEN);
    IS(kv_domain_reauth_key(bytes, KV_DOMAIN_KEY_LEN + 1, out, KV_DOMAIN_KEY_LEN), KV_ROOT_KEY_LENGTH);
    GIVES(name(KV_SESSION_ID_MAX, 1), KV_KEY_NAME_LEN);
    IS(name(KV_SESSION_ID_MAX + 1, 1), KV_SESSION_ID);
    GIVES(r0_key(KV_RRK_LEN, KV_HANDOVER_ID_LEN, KV_SPA_LEN, KV_HANDOVER_KEY_LEN), KV_HANDOVER_KEY_LEN);
    IS(r0_key(KV_RRK_LEN - 1, KV_HANDOVER_ID_LEN, KV_SPA_LEN, KV_HANDOVER_KEY_LEN), KV_HANDOVER_KEY_LENGTH);
    IS(r0_key(KV_RRK_LEN, KV_HANDOVER_ID_LEN + 1, KV_SPA_LEN, KV_HANDOVER_KEY_LEN), KV_IDENTIFIER_LENGTH);
    IS(r0_key(KV_RRK_LEN, KV_HANDOVER_ID_LEN, KV_SPA_LEN, KV_HANDOVER_KEY_LEN - 1), KV_ROOM);
    GIVES(r1_key(KV_HANDOVER_KEY_LEN, KV_HANDOVER_ID_LEN, KV_HANDOVER_ID_LEN, KV_SPA_LEN), KV_HANDOVER_KEY_LEN);
    IS(r1_key(KV_HANDOVER_KEY_LEN, KV_HANDOVER_ID_LEN, KV_HANDOVER_ID_LEN - 1, KV_SPA_LEN), KV_IDENTIFIER_LENGTH);
    IS(r1_key(KV_HANDOVER_KEY_LEN, KV_HANDOVER_ID_LEN, KV_HANDOVER_ID_LEN, KV_SPA_LEN + 1), KV_IDENTIFIER_LENGTH);
    GIVES(r0_name(KV_HANDOVER_KEY_LEN, KV_R0_NAME_LEN), KV_R0_NAME_LEN);
    IS(r0_name(KV_HANDOVER_KEY_LEN, KV_R0_NAME_LEN - 1), KV_ROOM);
    GIVES(kv_answer_offer(offers, KV_OFFERS_MAX, 2, renewed, KV_OFFERS_ROOM), KV_OFFERS_ROOM);
    IS(kv_answer_offer(offers, KV_OFFERS_MAX + 1, 2, renewed, KV_OFFERS_ROOM), KV_OFFER_COUNT);
    GIVES(wrap(KV_ID_LEN, KV_KEK_LEN, KV_WRAPPED_KEY_MAX, KV_KEY_ATTRIBUTE_MAX), KV_KEY_ATTRIBUTE_MAX);
    GIVES(wrap(KV_ID_LEN, KV_KEK_LEN, KV_WRAPPED_KEY_MIN, sizeof out), KV_WRAPPED_KEY_MIN + KV_KEY_ATTRIBUTE_MORE);
    IS(wrap(KV_ID_LEN + 1, KV_KEK_LEN, KV_WRAPPED_KEY_MIN, sizeof out), KV_ID_LENGTH);
    IS(wrap(KV_ID_LEN, KV_KEK_LEN + 1, KV_WRAPPED_KEY_MIN, sizeof out), KV_KEK_LENGTH);
    IS(wrap(KV_ID_LEN, KV_KEK_LEN, KV_WRAPPED_KEY_MIN - 8, sizeof out), KV_KEY_TO_WRAP_LENGTH);
    IS(wrap(KV_ID_LEN, KV_KEK_LEN, KV_WRAPPED_KEY_MAX + 8, sizeof out), KV_KEY_TO_WRAP_LENGTH);

    static uint8_t packet[KV_PACKET_MAX + 1];
    memset(packet, 2, sizeof packet);
    packet[20] = 90, packet[21] = KV_MAC_ATTRIBUTE_LEN, packet[22] = 0;
    packet[2] = KV_PACKET_MAX >> 8, packet[3] = KV_PACKET_MAX & 255;
    GIVES(kv_sign_packet(bytes, KV_ROOT_KEY_MIN, 90, packet, KV_PACKET_MAX), KV_MAC_LEN);
    IS(kv_check_packet(bytes, KV_ROOT_KEY_MIN, 90, packet, KV_PACKET_MAX), KV_ACCEPTED);
    packet[3] = 1;
    IS(kv_check_packet(bytes, KV_ROOT_KEY_MIN, 90, packet, KV_PACKET_MAX + 1), KV_PACKET_LENGTH);
    packet[2] = 0, packet[3] = KV_PACKET_MIN;
    IS(kv_check_packet(bytes, KV_ROOT_KEY_MIN, 90, packet, KV_PACKET_MIN), KV_MAC_ATTRIBUTE);
    packet[3] = KV_PACKET_MIN - 1;
    IS(kv_check_packet(bytes, KV_ROOT_KEY_MIN, 90, packet, KV_PACKET_MIN - 1), KV_PACKET_LENGTH);

    static uint8_t attributes[(KV_BUNDLE_KEYS_MAX + 1) * KV_KEY_ATTRIBUTE_MAX], file[KV_BUNDLE_MAX + KV_KEY_ATTRIBUTE_MAX + 20];
    for (size_t i = 0; i < KV_BUNDLE_KEYS_MAX + 1; i++) {
        uint8_t *attribute = attributes + i * KV_KEY_ATTRIBUTE_MAX;
        attribute[0] = 1, attribute[1] = KV_KEY_ATTRIBUTE_MAX, attribute[24] = (uint8_t)i;
        memset(attribute + 44, 0xa6, 8);
    }
    GIVES(kv_write_bundle(attributes, KV_BUNDLE_BODIES_MAX, file, KV_BUNDLE_MAX), KV_BUNDLE_MAX);
    IS(kv_write_bundle(attributes, sizeof attributes, file, sizeof file), KV_BUNDLE_COUNT);
    GIVES(kv_read_bundle(file, KV_BUNDLE_MAX, attributes, KV_BUNDLE_BODIES_MAX), KV_BUNDLE_BODIES_MAX);
    IS(kv_read_bundle(file, KV_BUNDLE_MAX, attributes, KV_BUNDLE_BODIES_MAX - 1), KV_ROOM);

    /* a bundle with none of these Key IDs, and then one that has the first of them, with another type */
    static uint8_t other[KV_BUNDLE_MAX], changes[KV_CHANGES_MAX];
    for (size_t i = 0; i < KV_BUNDLE_KEYS_MAX; i++)
        attributes[i * KV_KEY_ATTRIBUTE_MAX + 25] = 1;
    IS(kv_write_bundle(attributes, KV_BUNDLE_BODIES_MAX, other, sizeof other), KV_ACCEPTED);
    kv_comparison compared = kv_compare_bundles(file, KV_BUNDLE_MAX, other, sizeof other, changes, sizeof changes);
    expect(KV_CHANGE_LEN * (compared.only_first + compared.only_second), KV_CHANGES_MAX, "KV_CHANGES_MAX");
    expect(changes[0], KV_ONLY_FIRST, "KV_ONLY_FIRST");
    expect(changes[sizeof changes - KV_CHANGE_LEN], KV_ONLY_SECOND, "KV_ONLY_SECOND");
    IS(kv_compare_bundles(file, KV_BUNDLE_MAX, other, sizeof other, changes, sizeof changes - 1), KV_ROOM);
    attributes[0] = 2, attributes[25] = 0;
    IS(kv_write_bundle(attributes, KV_BUNDLE_BODIES_MAX, other, sizeof other), KV_ACCEPTED);
    expect(kv_compare_bundles(file, KV_BUNDLE_MAX, other, sizeof other, changes, sizeof changes).changed, 1, "changed");
    expect(changes[0], KV_CHANGED, "KV_CHANGED");

    kv_slots slots = { 0 };
    kv_name named = { { 'a' } };
    for (int i = 0; i < KV_SLOTS; i++) {
        IS(kv_put_slot(slots, named, KV_NO_PARENT), KV_ACCEPTED);
        slots = kv_put_slot(slots, named, KV_NO_PARENT).slots;
    }
    expect(kv_live_slots(slots), KV_SLOTS, "kv_live_slots");
    IS(kv_put_slot(slots, named, KV_NO_PARENT), KV_SLOTS_FULL);
    IS(kv_drop_slot(slots, KV_SLOTS - 1), KV_ACCEPTED);
    IS(kv_drop_slot(slots, KV_SLOTS), KV_NO_SUCH_SLOT);
    IS(kv_put_slot(slots, named, KV_SLOTS), KV_PARENT_NOT_LIVE);
    IS(kv_put_slot(slots, named, KV_NO_PARENT - 1), KV_PARENT_NOT_LIVE);

    /* the labels: each key as prf+ of its text, which for one block is the HMAC of the text and the byte 1 */
    uint8_t first[KV_DIGEST_LEN], text[] = KV_V_RRK_LABEL "\1", key[KV_VISITED_KEY_LEN], same[KV_VISITED_KEY_LEN];
    IS(kv_usage_key(bytes, 64, (const uint8_t *)KV_VRK_LABEL, sizeof KV_VRK_LABEL - 1, NULL, 0, sizeof same, same, sizeof same), KV_ACCEPTED);
    IS(kv_visited_root_key(bytes, 64, key, sizeof key), KV_ACCEPTED);
    expect(memcmp(key, same, sizeof key) == 0, 1, "KV_VRK_LABEL");
    IS(kv_hmac_sha256(bytes, 64, text, sizeof text - 1, first, sizeof first), KV_ACCEPTED);
    IS(kv_visited_reauth_key(bytes, 64, key, sizeof key), KV_ACCEPTED);
    expect(memcmp(key, first, sizeof first) == 0, 1, "KV_V_RRK_LABEL");
    uint8_t of_domain[] = KV_DSRK_LABEL "\0a.b\0\100\1", below[] = KV_RRK_LABEL "\0\0\100\1";
    IS(kv_hmac_sha256(bytes, 64, of_domain, sizeof of_domain - 1, first, sizeof first), KV_ACCEPTED);
    IS(kv_domain_root_key(bytes, 64, (const uint8_t *)"a.b", 3, key, sizeof key), KV_ACCEPTED);
    expect(memcmp(key, first, sizeof first) == 0, 1, "KV_DSRK_LABEL");
    IS(kv_hmac_sha256(bytes, 64, below, sizeof below - 1, first, sizeof first), KV_ACCEPTED);
    IS(kv_domain_reauth_key(bytes, 64, key, sizeof key), KV_ACCEPTED);
    expect(memcmp(key, first, sizeof first) == 0, 1, "KV_RRK_LABEL");
    IS(kv_usage_key(bytes, 64, (const uint8_t *)KV_DSRK_LABEL, sizeof KV_DSRK_LABEL - 1, NULL, 0, 64, out, sizeof out), KV_DOMAIN_LABEL);
    return wrong;
}
