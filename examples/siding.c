/* What a yard controller does, call by call. It makes an EMSK from a SIM, derives a siding's key, the keys of two domains and
 * the keys of a handheld that moves to another access node, agrees with a handheld on a key derivation function, reads the
 * attribute area that carried the offers, and sends the siding's key to a neighbour as a RADIUS Key attribute, which the
 * neighbour opens: first alone, then in a packet that is signed and checked. It packs the keys of a box that moves in one
 * bundle, lists what changed since last month's, and keeps the names of the keys of a visited domain in slots until their EMSK
 * expires. Each step prints its result; examples/siding.expected has what must be printed. */
#include "ketvaulo.h"
#include "ketvaulo_text.h"

#include <stdio.h>
#include <stdlib.h>
#include <string.h>

static void print_bytes(const char *name, const uint8_t *bytes, size_t count)
{
    printf("%s ", name);
    for (size_t i = 0; i < count; i++)
        printf("%02x", bytes[i]);
    printf("\n");
}

/* Every call returns a number: 0 is acceptance, and any other says what was wrong with the input. */
static void expect_accepted(const char *call, uint32_t refusal)
{
    if (refusal != KV_ACCEPTED) {
        printf("%s refused %u: %s\n", call, (unsigned)refusal, kv_refusal_text(refusal));
        exit(1);
    }
}

/* A login with EAP-AKA': from CK and IK of a handheld's SIM to the five keys, the EMSK among them, and under that EMSK to a siding's key.
 * The inputs are those of RFC 5448, appendix C, case 1. */
static void log_in_by_sim(void)
{
    static const uint8_t ck[KV_AKA_KEY_LEN] = { 0x53, 0x49, 0xfb, 0xe0, 0x98, 0x64, 0x9f, 0x94, 0x8f, 0x5d, 0x2e, 0x97, 0x3a, 0x81, 0xc0, 0x0f };
    static const uint8_t ik[KV_AKA_KEY_LEN] = { 0x97, 0x44, 0x87, 0x1a, 0xd3, 0x2b, 0xf9, 0xbb, 0xd1, 0xdd, 0x5c, 0xe5, 0x4e, 0x3e, 0x2e, 0x5a };
    static const uint8_t sqn_xor_ak[KV_SQN_LEN] = { 0xbb, 0x52, 0xe9, 0x1c, 0x74, 0x7a };
    static const uint8_t name[] = "WLAN", identity[] = "0555444333222111", label[] = "gate", data[] = "12";
    uint8_t keys[KV_AKA_KEYS_LEN], key[32];
    kv_outcome r = kv_aka_keys(ck, sizeof ck, ik, sizeof ik, name, 4, sqn_xor_ak, sizeof sqn_xor_ak, identity, 16, keys, sizeof keys);
    expect_accepted("kv_aka_keys", r.refusal);
    print_bytes("EMSK by SIM", keys + KV_AKA_EMSK_AT, 64);
    r = kv_usage_key(keys + KV_AKA_EMSK_AT, 64, label, 4, data, 2, sizeof key, key, sizeof key);
    expect_accepted("kv_usage_key", r.refusal);
    print_bytes("key under it", key, sizeof key);
}

/* Derives the siding's key under the EMSK of a login. Label and data keep the sidings apart. */
static void derive_key(const uint8_t emsk[64], uint8_t key[32])
{
    static const uint8_t label[] = "gate", data[] = "12";
    kv_outcome r = kv_usage_key(emsk, 64, label, 4, data, 2, 32, key, 32);
    expect_accepted("kv_usage_key", r.refusal);
    printf("usage key of %u bytes\n", (unsigned)r.value);
    print_bytes("key", key, 32);
}

/* Derives the root key of a domain that a handheld visits, and the key below it with which the handheld logs in there again. Another
 * domain has another key. (Use the keys of the visited domain, kv_visited_root_key and on, for peers that know no others.) */
static void derive_domain_keys(const uint8_t emsk[64])
{
    static const char domains[2][10] = { "2.example", ".example" };
    static const size_t lengths[2] = { 9, 8 };
    for (size_t i = 0; i < 2; i++) {
        uint8_t root[KV_DOMAIN_KEY_LEN], reauth[KV_DOMAIN_KEY_LEN];
        kv_outcome r = kv_domain_root_key(emsk, 64, (const uint8_t *)domains[i], lengths[i], root, sizeof root);
        expect_accepted("kv_domain_root_key", r.refusal);
        print_bytes(domains[i], root, sizeof root);
        r = kv_domain_reauth_key(root, sizeof root, reauth, sizeof reauth);
        expect_accepted("kv_domain_reauth_key", r.refusal);
        print_bytes("re-authentication", reauth, sizeof reauth);
    }
}

/* A label with a zero byte is refused with the position of that byte, and `out` keeps every byte. */
static void refused_label(const uint8_t emsk[64])
{
    static const uint8_t label[] = { 'g', 'a', 't', 'e', 0 };
    uint8_t out[4] = { 1, 2, 3, 4 };
    kv_outcome r = kv_usage_key(emsk, 64, label, 5, NULL, 0, 4, out, 4);
    printf("label with a zero byte: refused %u at %u\n", (unsigned)r.refusal, (unsigned)r.value);
    print_bytes("out", out, 4);
}

/* A handheld moves to another access node. The rRK is a usage key of the login; the server and the handheld hold it. The server
 * derives the R0-Key of the access domain from it, and the domain's controller the R1-Key of the node from that. */
static void hand_over(const uint8_t emsk[64])
{
    static const char label[] = "EAP Re-authentication Root Key@ietf.org";
    static const uint8_t ad_id[] = "yard north 00001", an_id[] = "node dock 000001";
    static const uint8_t spa[KV_SPA_LEN] = { 0x02, 0x11, 0x22, 0x33, 0x44, 0x55 };
    uint8_t rrk[KV_RRK_LEN], r0_key[KV_HANDOVER_KEY_LEN], r0_name[KV_R0_NAME_LEN], r1_key[KV_HANDOVER_KEY_LEN];
    kv_outcome r = kv_usage_key(emsk, 64, (const uint8_t *)label, sizeof label - 1, NULL, 0, KV_RRK_LEN, rrk, sizeof rrk);
    expect_accepted("kv_usage_key", r.refusal);

    r = kv_r0_key(rrk, sizeof rrk, ad_id, KV_HANDOVER_ID_LEN, spa, sizeof spa, r0_key, sizeof r0_key);
    expect_accepted("kv_r0_key", r.refusal);
    print_bytes("R0-Key", r0_key, (size_t)r.value);

    r = kv_r0_name(r0_key, sizeof r0_key, ad_id, KV_HANDOVER_ID_LEN, spa, sizeof spa, r0_name, sizeof r0_name);
    expect_accepted("kv_r0_name", r.refusal);
    print_bytes("R0Name", r0_name, (size_t)r.value);

    r = kv_r1_key(r0_key, sizeof r0_key, ad_id, KV_HANDOVER_ID_LEN, an_id, KV_HANDOVER_ID_LEN, spa, sizeof spa, r1_key, sizeof r1_key);
    expect_accepted("kv_r1_key", r.refusal);
    print_bytes("R1-Key", r1_key, (size_t)r.value);

    r = kv_r1_key(rrk, sizeof rrk, ad_id, KV_HANDOVER_ID_LEN, an_id, KV_HANDOVER_ID_LEN, spa, sizeof spa, r1_key, sizeof r1_key);
    printf("an rRK for an R0-Key: refused %u\n", (unsigned)r.refusal);
}

/* The server offers 2 and 1. The handheld supports 1 alone, so it asks for that and checks what the server answers. */
static void negotiate(void)
{
    static const uint16_t offers[] = { 2, 1 }, supported[] = { 1 };
    kv_first_round first = kv_choose_offer(offers, 2, supported, 1);
    expect_accepted("kv_choose_offer", first.refusal);
    if (!first.ask) { /* Carry On: the first offer is used, and nothing is sent */
        printf("carry on with %u\n", (unsigned)first.value);
        return;
    }
    printf("ask %u at %u\n", (unsigned)first.value, (unsigned)first.position);

    uint16_t renewed[KV_OFFERS_ROOM];
    kv_outcome server = kv_answer_offer(offers, 2, (uint16_t)first.value, renewed, KV_OFFERS_ROOM);
    expect_accepted("kv_answer_offer", server.refusal);
    printf("server sends");
    for (size_t i = 0; i < server.value; i++)
        printf(" %u", (unsigned)renewed[i]);
    printf("\n");

    kv_outcome peer = kv_check_renewed(offers, 2, (uint16_t)first.value, renewed, (size_t)server.value);
    expect_accepted("kv_check_renewed", peer.refusal);
    printf("agreed on %u\n", (unsigned)peer.value);
}

/* Reads two AT_KDF and the network's name, as they stand in an EAP-AKA' message. */
static void read_area(void)
{
    static const uint8_t area[] = { 0x18, 1, 0, 2, 0x18, 1, 0, 1, 0x17, 2, 0, 3, 'W', 'L', 'N', 0 };
    uint16_t offers[KV_OFFERS_ROOM];
    kv_area r = kv_read_area(area, sizeof area, (const uint8_t *)"WLN", 3, offers, KV_OFFERS_ROOM);
    expect_accepted("kv_read_area", r.refusal);
    printf("offers");
    for (size_t i = 0; i < r.offers; i++)
        printf(" %u", (unsigned)offers[i]);
    printf("\nname %.*s, %s\n", (int)r.name_len, (const char *)area + r.name_at, r.same_name ? "our own" : "another");
}

/* Sends the key wrapped under a KEK that both ends hold, and opens it there. Only the key is authenticated by the unwrapping:
 * the receiver may rely on the other fields where the whole packet is authenticated. */
static void send_key(const uint8_t key[32])
{
    static const uint8_t kek[KV_KEK_LEN] = { 0, 1, 2, 3, 4, 5, 6, 7, 8, 9, 10, 11, 12, 13, 14, 15 };
    static const uint8_t kek_id[] = "yard kek 0000001", key_id[] = "siding gate/0012";
    uint8_t attribute[KV_KEY_ATTRIBUTE_MAX];
    kv_outcome sent = kv_write_key_attribute(26, 7, kek_id, KV_ID_LEN, key_id, KV_ID_LEN, 3600, kek, sizeof kek, key, 32,
                                             attribute, sizeof attribute);
    expect_accepted("kv_write_key_attribute", sent.refusal);
    print_bytes("attribute", attribute, (size_t)sent.value);

    uint8_t opened[KV_WRAPPED_KEY_MAX];
    kv_key_attribute got = kv_read_key_attribute(kek, sizeof kek, attribute, (size_t)sent.value, opened, sizeof opened);
    expect_accepted("kv_read_key_attribute", got.refusal);
    printf("type %u, App ID %u, lifetime %u, Key ID %.16s\n", (unsigned)got.type, (unsigned)got.app_id,
           (unsigned)got.lifetime, (const char *)got.key_id);
    print_bytes("opened", opened, got.key_len);

    attribute[60] ^= 1;
    got = kv_read_key_attribute(kek, sizeof kek, attribute, (size_t)sent.value, opened, sizeof opened);
    printf("spoilt on the way: refused %u\n", (unsigned)got.refusal);
}

/* Delivers the key safely: the Key attribute goes into a RADIUS packet that has a place for a Message-Authentication-Code, and the packet is
 * signed last. The receiver checks the packet first, and reads the attribute only if that was accepted. Then the lifetime is the sender's
 * too: with another one on the way the packet is refused. */
static void deliver_key(const uint8_t key[32])
{
    static const uint8_t kek[KV_KEK_LEN] = { 0, 1, 2, 3, 4, 5, 6, 7, 8, 9, 10, 11, 12, 13, 14, 15 };
    static const uint8_t kek_id[] = "yard kek 0000001", key_id[] = "siding gate/0012", mac_key_id[] = "yard mac 0000001";
    enum { KEY_AT = 20, MAC_AT = KEY_AT + 32 + KV_KEY_ATTRIBUTE_MORE, LENGTH = MAC_AT + KV_MAC_ATTRIBUTE_LEN };
    uint8_t packet[LENGTH] = { 2, 7, LENGTH >> 8, LENGTH & 255 }, mac_key[64], opened[KV_WRAPPED_KEY_MAX];
    for (size_t i = 0; i < sizeof mac_key; i++)
        mac_key[i] = (uint8_t)(64 + i);

    /* the sender; bytes 4 to 19 are the authenticator that this kind of packet has while it is signed, here zeros */
    kv_outcome r = kv_write_key_attribute(26, 7, kek_id, KV_ID_LEN, key_id, KV_ID_LEN, 3600, kek, sizeof kek, key, 32, packet + KEY_AT,
                                          MAC_AT - KEY_AT);
    expect_accepted("kv_write_key_attribute", r.refusal);
    packet[MAC_AT] = 27;
    packet[MAC_AT + 1] = KV_MAC_ATTRIBUTE_LEN;
    packet[MAC_AT + 3] = 2;
    memcpy(packet + MAC_AT + 4, mac_key_id, KV_ID_LEN);
    r = kv_sign_packet(mac_key, sizeof mac_key, 27, packet, sizeof packet);
    expect_accepted("kv_sign_packet", r.refusal);
    print_bytes("MAC", packet + MAC_AT + 20, KV_MAC_LEN);

    /* the receiver */
    r = kv_check_packet(mac_key, sizeof mac_key, 27, packet, sizeof packet);
    expect_accepted("kv_check_packet", r.refusal);
    kv_key_attribute got = kv_read_key_attribute(kek, sizeof kek, packet + KEY_AT, MAC_AT - KEY_AT, opened, sizeof opened);
    expect_accepted("kv_read_key_attribute", got.refusal);
    printf("delivered a key of %u bytes for %u seconds\n", (unsigned)got.key_len, (unsigned)got.lifetime);

    packet[KEY_AT + 40] ^= 1; /* a lifetime that is longer by 2^24 seconds */
    got = kv_read_key_attribute(kek, sizeof kek, packet + KEY_AT, MAC_AT - KEY_AT, opened, sizeof opened);
    r = kv_check_packet(mac_key, sizeof mac_key, 27, packet, sizeof packet);
    printf("another lifetime on the way: the attribute %u, the packet %u\n", (unsigned)got.refusal, (unsigned)r.refusal);
}

enum { ONE = 32 + KV_KEY_ATTRIBUTE_MORE, BODIES = 2 * ONE, CONTENTS = 2 + 2 * 20, BUNDLE = CONTENTS + BODIES };

/* The Key attributes of two keys, packed end to end. */
static void pack_keys(const uint8_t key[32], const uint8_t key_ids[2][KV_ID_LEN + 1], uint32_t lifetime, uint8_t attributes[BODIES])
{
    static const uint8_t kek[KV_KEK_LEN] = { 0, 1, 2, 3, 4, 5, 6, 7, 8, 9, 10, 11, 12, 13, 14, 15 };
    static const uint8_t kek_id[] = "yard kek 0000001";
    for (size_t i = 0; i < 2; i++) {
        kv_outcome w = kv_write_key_attribute(26, 7, kek_id, KV_ID_LEN, key_ids[i], KV_ID_LEN, lifetime, kek, sizeof kek, key, 32,
                                              attributes + i * ONE, ONE);
        expect_accepted("kv_write_key_attribute", w.refusal);
    }
}

/* Lists what changed since last month: what is only in the first bundle is gone, and what is only in the second is new. */
static void list_changes(const uint8_t last_month[BUNDLE], const uint8_t file[BUNDLE])
{
    static const char words[4][8] = { [KV_ONLY_FIRST] = "gone", [KV_CHANGED] = "changed", [KV_ONLY_SECOND] = "new" };
    uint8_t changes[4 * KV_CHANGE_LEN]; /* two bundles of two have four Key IDs at most; KV_CHANGES_MAX is enough for any two */
    kv_comparison r = kv_compare_bundles(last_month, BUNDLE, file, BUNDLE, changes, sizeof changes);
    expect_accepted("kv_compare_bundles", r.refusal);
    for (size_t i = 0; i < r.only_first + r.changed + r.only_second; i++) {
        const uint8_t *entry = changes + i * KV_CHANGE_LEN;
        printf("%s: Key ID %.16s\n", words[entry[0]], (const char *)entry + 1);
    }
    printf("since last month %u gone, %u changed, %u new\n", (unsigned)r.only_first, (unsigned)r.changed, (unsigned)r.only_second);
}

/* When a box moves, the Key attributes of its keys travel in one file, a bundle. No Key ID may stand twice in it. Before the box goes out it
 * is compared with last month's bundle. */
static void move_box(const uint8_t key[32])
{
    static const uint8_t key_ids[2][KV_ID_LEN + 1] = { "siding gate/0012", "siding ramp/0007" };
    static const uint8_t old_key_ids[2][KV_ID_LEN + 1] = { "siding dock/0003", "siding gate/0012" };
    uint8_t attributes[BODIES], file[BUNDLE], last_month[BUNDLE], back[BODIES];
    pack_keys(key, old_key_ids, 1800, attributes);
    kv_outcome r = kv_write_bundle(attributes, sizeof attributes, last_month, sizeof last_month);
    expect_accepted("kv_write_bundle", r.refusal);
    pack_keys(key, key_ids, 3600, attributes);
    r = kv_write_bundle(attributes, sizeof attributes, file, sizeof file);
    expect_accepted("kv_write_bundle", r.refusal);
    printf("bundle of %u bytes\n", (unsigned)r.value);
    print_bytes("contents", file, CONTENTS);

    r = kv_read_bundle(file, sizeof file, back, sizeof back);
    expect_accepted("kv_read_bundle", r.refusal);
    unsigned differ = 0;
    for (size_t i = 0; i < sizeof back; i++)
        differ += back[i] != attributes[i];
    printf("read back: %u bytes, %u differ\n", (unsigned)r.value, differ);
    list_changes(last_month, file);

    memcpy(attributes + ONE + 24, key_ids[0], KV_ID_LEN);
    r = kv_write_bundle(attributes, sizeof attributes, file, sizeof file);
    printf("a Key ID that stands twice: refused %u\n", (unsigned)r.refusal);
}

/* Keeps the name of a key in a slot, below the slot of the key that it was derived from. Returns its slot. */
static uint64_t keep_key(kv_slots *slots, const char *key, const char *label, size_t label_len, uint64_t parent)
{
    static const uint8_t session_id[] = "login 0001";
    kv_name name;
    kv_outcome named = kv_key_name(session_id, sizeof session_id - 1, (const uint8_t *)label, label_len, name.bytes, sizeof name.bytes);
    expect_accepted("kv_key_name", named.refusal);
    kv_slots_outcome kept = kv_put_slot(*slots, name, parent);
    expect_accepted("kv_put_slot", kept.refusal);
    *slots = kept.slots;
    printf("slot %u: %s, ", (unsigned)kept.value, key);
    print_bytes("name", name.bytes, sizeof name.bytes);
    return kept.value;
}

/* The keys of a visited domain hang below their EMSK: when that expires, one drop takes the names of all. The firmware wipes the keys
 * themselves. A key below the V-rRK would be four steps from the EMSK, which is too deep. */
static void keep_keys(void)
{
    static const char server[] = "server1" "yard.example";
    kv_slots slots = { 0 };
    uint64_t emsk = keep_key(&slots, "EMSK", "EMSK", 4, KV_NO_PARENT);
    uint64_t vrk = keep_key(&slots, "VRK", KV_VRK_LABEL, sizeof KV_VRK_LABEL - 1, emsk);
    uint64_t vmsk = keep_key(&slots, "VMSK", server, sizeof server - 1, vrk);
    uint64_t v_rrk = keep_key(&slots, "V-rRK", KV_V_RRK_LABEL, sizeof KV_V_RRK_LABEL - 1, vmsk);
    kv_name deeper = { { 0 } };
    printf("below the V-rRK: refused %u\n", (unsigned)kv_put_slot(slots, deeper, v_rrk).refusal);

    kv_slots_outcome dropped = kv_drop_slot(slots, emsk);
    expect_accepted("kv_drop_slot", dropped.refusal);
    printf("the EMSK expires: %u went, %u left\n", (unsigned)dropped.value, (unsigned)kv_live_slots(dropped.slots));
}

int main(void)
{
    uint8_t emsk[64], key[32];
    for (size_t i = 0; i < sizeof emsk; i++)
        emsk[i] = (uint8_t)i;
    log_in_by_sim();
    derive_key(emsk, key);
    refused_label(emsk);
    hand_over(emsk);
    derive_domain_keys(emsk);
    negotiate();
    read_area();
    send_key(key);
    deliver_key(key);
    move_box(key);
    keep_keys();
    return 0;
}
