/* The calls of include/ketvaulo.h that are measured, in C over another library's hash, expansion and key wrap (peer.h): the same tests
 * in the same order, the layout of the Key attribute and, over no library at all, the reader of the attribute area, written by hand as
 * eap_sim_parse_attr of wpa_supplicant is, the bundles and their comparison. */
#include "ketvaulo.h"
#include "peer.h"
#include <string.h>

static kv_outcome refused(uint32_t number) { return (kv_outcome){number, 0}; }
static kv_outcome wrote(uint64_t count) { return (kv_outcome){KV_ACCEPTED, count}; }

kv_outcome kv_sha256(const uint8_t *message, size_t message_len, uint8_t *out, size_t out_len)
{
    if (out_len < 32)
        return refused(KV_ROOM);
    peer_sha256(message, message_len, out);
    return wrote(32);
}

/* Where the MAC's attribute stands in a packet, or the refusal. */
static uint32_t find_mac(size_t mac_key_len, uint8_t type, const uint8_t *packet, size_t packet_len, size_t *place)
{
    size_t found = 0;
    if (mac_key_len < 64 || mac_key_len > 128)
        return KV_ROOT_KEY_LENGTH;
    if (type == 0)
        return KV_ATTRIBUTE_TYPE;
    if (packet_len < 20 || packet_len > 4096 || (size_t)packet[2] * 256 + packet[3] != packet_len)
        return KV_PACKET_LENGTH;
    for (size_t at = 20; at < packet_len; at += packet[at + 1]) {
        if (packet_len - at < 2 || packet[at + 1] < 2 || packet[at + 1] > packet_len - at)
            return KV_PACKET_ATTRIBUTE_BOUNDS;
        if (packet[at] == type) {
            found++;
            *place = at;
        }
    }
    if (found != 1 || packet[*place + 1] != 52 || packet[*place + 2] != 0 || packet[*place + 3] != 2)
        return KV_MAC_ATTRIBUTE;
    return KV_ACCEPTED;
}

static void mac_of_packet(const uint8_t *mac_key, size_t mac_key_len, const uint8_t *packet, size_t packet_len, size_t at, uint8_t mac[32])
{
    static const uint8_t zeros[32];
    const part parts[] = {{packet, at + 20}, {zeros, 32}, {packet + at + 52, packet_len - at - 52}};
    peer_hmac(mac_key, mac_key_len, parts, 3, mac);
}

kv_outcome kv_sign_packet(const uint8_t *mac_key, size_t mac_key_len, uint8_t type, uint8_t *packet, size_t packet_len)
{
    size_t at = 0;
    uint8_t mac[32];
    const uint32_t number = find_mac(mac_key_len, type, packet, packet_len, &at);
    if (number)
        return refused(number);
    mac_of_packet(mac_key, mac_key_len, packet, packet_len, at, mac);
    memcpy(packet + at + 20, mac, 32);
    return wrote(32);
}

kv_outcome kv_check_packet(const uint8_t *mac_key, size_t mac_key_len, uint8_t type, const uint8_t *packet, size_t packet_len)
{
    size_t at = 0;
    uint8_t mac[32], differ = 0;
    const uint32_t number = find_mac(mac_key_len, type, packet, packet_len, &at);
    if (number)
        return refused(number);
    mac_of_packet(mac_key, mac_key_len, packet, packet_len, at, mac);
    for (int i = 0; i < 32; i++)
        differ |= mac[i] ^ packet[at + 20 + i];
    return differ ? refused(KV_MAC_DIFFERS) : wrote(0);
}

static int is_label(const uint8_t *label, size_t len, const char *text) { return len == strlen(text) && !memcmp(label, text, len); }

static int label_breaches(const uint8_t *label, size_t len)
{
    size_t at_signs = 0, others = 0;
    for (size_t i = 0; i < len; i++) {
        at_signs += label[i] == '@';
        others += label[i] == ' ' || label[i] == ',';
    }
    if (!others && at_signs < 2 && (at_signs || len <= 64) && label[0] != '@' && label[len - 1] != '@')
        return 0;
    return !is_label(label, len, KV_VRK_LABEL) && !is_label(label, len, KV_V_RRK_LABEL) && !is_label(label, len, KV_RRK_LABEL);
}

/* As eap_aka_prime_derive_keys of hostap: the HMAC of each block is keyed anew. */
kv_outcome kv_aka_keys(const uint8_t *ck, size_t ck_len, const uint8_t *ik, size_t ik_len, const uint8_t *name, size_t name_len,
                       const uint8_t *sqn_xor_ak, size_t sqn_xor_ak_len, const uint8_t *identity, size_t identity_len, uint8_t *out,
                       size_t out_len)
{
    static const uint8_t fc = 0x20, sqn_length[2] = {0, 6};
    const uint8_t name_length[2] = {(uint8_t)(name_len >> 8), (uint8_t)name_len};
    uint8_t key[32], primes[32], t[32], i = 0;
    if (ck_len != 16 || ik_len != 16 || sqn_xor_ak_len != 6)
        return refused(KV_AKA_INPUT_LENGTH);
    if (name_len > 1016)
        return refused(KV_NETWORK_NAME_LENGTH);
    if (identity_len < 1 || identity_len > 255)
        return refused(KV_IDENTITY_LENGTH);
    if (out_len < 208)
        return refused(KV_ROOM);
    memcpy(key, ck, 16);
    memcpy(key + 16, ik, 16);
    const part text[] = {{&fc, 1}, {name, name_len}, {name_length, 2}, {sqn_xor_ak, 6}, {sqn_length, 2}};
    peer_hmac(key, 32, text, 5, primes);
    memcpy(key, primes + 16, 16);
    memcpy(key + 16, primes, 16);
    for (size_t done = 0; done < 208; done += 32) {
        const part block[] = {{t, i ? 32 : 0}, {(const uint8_t *)"EAP-AKA'", 8}, {identity, identity_len}, {&i, 1}};
        i++;
        peer_hmac(key, 32, block, 4, t);
        memcpy(out + done, t, 208 - done < 32 ? 208 - done : 32);
    }
    return wrote(208);
}

kv_outcome kv_usage_key(const uint8_t *emsk, size_t emsk_len, const uint8_t *label, size_t label_len, const uint8_t *data,
                        size_t data_len, uint64_t n, uint8_t *out, size_t out_len)
{
    if (emsk_len < 64 || emsk_len > 128)
        return refused(KV_ROOT_KEY_LENGTH);
    if (label_len < 1 || label_len > 255)
        return refused(KV_LABEL_LENGTH);
    for (size_t i = 0; i < label_len; i++)
        if (label[i] < 32 || label[i] > 126)
            return (kv_outcome){KV_LABEL_BYTE, i};
    if (label_breaches(label, label_len))
        return refused(KV_LABEL_SYNTAX);
    if (label_len == 13 && !memcmp(label, KV_DSRK_LABEL, 13))
        return refused(KV_DOMAIN_LABEL);
    if (data_len > 2048)
        return refused(KV_DATA_LENGTH);
    if (n < 1 || n > 8160)
        return refused(KV_KEY_LENGTH);
    if (out_len < n)
        return refused(KV_ROOM);
    peer_expand(emsk, emsk_len, label, label_len, data, data_len, n, out);
    return wrote(n);
}

/* the text of an R0-Key or R1-Key: number, label, 0, identifiers, 256 in two bytes; the AN-ID may have no bytes */
static void derive(const uint8_t *key, char digit, const uint8_t *ad_id, const uint8_t *an_id, size_t an_id_len, const uint8_t *spa,
                   uint8_t *out)
{
    uint8_t text[60] = "\1\0R? Key derivation";
    text[3] = (uint8_t)digit;
    memcpy(text + 20, ad_id, 16);
    memcpy(text + 36, an_id, an_id_len);
    memcpy(text + 36 + an_id_len, spa, 6);
    text[43 + an_id_len] = 1;
    peer_kdf(key, text, 44 + an_id_len, out);
}

kv_outcome kv_r0_key(const uint8_t *rrk, size_t rrk_len, const uint8_t *ad_id, size_t ad_id_len, const uint8_t *spa, size_t spa_len,
                     uint8_t *out, size_t out_len)
{
    if (rrk_len != 64)
        return refused(KV_HANDOVER_KEY_LENGTH);
    if (ad_id_len != 16 || spa_len != 6)
        return refused(KV_IDENTIFIER_LENGTH);
    if (out_len < 32)
        return refused(KV_ROOM);
    derive(rrk, '0', ad_id, ad_id, 0, spa, out);
    return wrote(32);
}

kv_outcome kv_r1_key(const uint8_t *r0_key, size_t r0_key_len, const uint8_t *ad_id, size_t ad_id_len, const uint8_t *an_id,
                     size_t an_id_len, const uint8_t *spa, size_t spa_len, uint8_t *out, size_t out_len)
{
    if (r0_key_len != 32)
        return refused(KV_HANDOVER_KEY_LENGTH);
    if (ad_id_len != 16 || an_id_len != 16 || spa_len != 6)
        return refused(KV_IDENTIFIER_LENGTH);
    if (out_len < 32)
        return refused(KV_ROOM);
    derive(r0_key, '1', ad_id, an_id, 16, spa, out);
    return wrote(32);
}

static int in_domain(uint8_t byte)
{
    return (byte >= 'A' && byte <= 'Z') || (byte >= 'a' && byte <= 'z') || (byte >= '0' && byte <= '9') || byte == '-' || byte == '.';
}

kv_outcome kv_domain_root_key(const uint8_t *emsk, size_t emsk_len, const uint8_t *domain, size_t domain_len, uint8_t *out, size_t out_len)
{
    if (emsk_len < 64 || emsk_len > 128)
        return refused(KV_ROOT_KEY_LENGTH);
    if (domain_len < 1 || domain_len > 253)
        return refused(KV_DOMAIN);
    for (size_t i = 0; i < domain_len; i++)
        if (!in_domain(domain[i]))
            return refused(KV_DOMAIN);
    if (out_len < 64)
        return refused(KV_ROOM);
    peer_expand(emsk, emsk_len, (const uint8_t *)KV_DSRK_LABEL, 13, domain, domain_len, 64, out);
    return wrote(64);
}

kv_outcome kv_domain_reauth_key(const uint8_t *dsrk, size_t dsrk_len, uint8_t *out, size_t out_len)
{
    if (dsrk_len != 64)
        return refused(KV_ROOT_KEY_LENGTH);
    if (out_len < 64)
        return refused(KV_ROOM);
    peer_expand(dsrk, dsrk_len, (const uint8_t *)KV_RRK_LABEL, 39, NULL, 0, 64, out);
    return wrote(64);
}

static void put32(uint8_t *at, uint32_t x)
{
    at[0] = (uint8_t)(x >> 24), at[1] = (uint8_t)(x >> 16), at[2] = (uint8_t)(x >> 8), at[3] = (uint8_t)x;
}

static uint32_t get32(const uint8_t *at) { return (uint32_t)at[0] << 24 | (uint32_t)at[1] << 16 | (uint32_t)at[2] << 8 | at[3]; }

kv_outcome kv_write_key_attribute(uint8_t type, uint32_t app_id, const uint8_t *kek_id, size_t kek_id_len, const uint8_t *key_id,
                                  size_t key_id_len, uint32_t lifetime, const uint8_t *kek, size_t kek_len, const uint8_t *key,
                                  size_t key_len, uint8_t *out, size_t out_len)
{
    if (type == 0)
        return refused(KV_ATTRIBUTE_TYPE);
    if (kek_id_len != 16 || key_id_len != 16)
        return refused(KV_ID_LENGTH);
    if (kek_len != 16)
        return refused(KV_KEK_LENGTH);
    if (key_len % 8 || key_len < 16 || key_len > 192)
        return refused(KV_KEY_TO_WRAP_LENGTH);
    if (out_len < 60 + key_len)
        return refused(KV_ROOM);
    out[0] = type;
    out[1] = (uint8_t)(60 + key_len);
    out[2] = out[3] = 0;
    put32(out + 4, app_id);
    memcpy(out + 8, kek_id, 16);
    memcpy(out + 24, key_id, 16);
    put32(out + 40, lifetime);
    memset(out + 44, 0xa6, 8);
    peer_wrap(kek, key, key_len, out + 52);
    return wrote(60 + key_len);
}

/* The tests of a Key attribute that need no KEK. */
static uint32_t frame_refusal(const uint8_t *attribute, size_t attribute_len)
{
    if (attribute_len < 76 || attribute_len > 252 || (attribute_len - 60) % 8 || attribute[1] != attribute_len)
        return KV_KEY_ATTRIBUTE_LENGTH;
    if (attribute[0] == 0)
        return KV_ATTRIBUTE_TYPE;
    if (attribute[2])
        return KV_RESERVED_BYTE;
    if (attribute[3])
        return KV_ENC_TYPE;
    if (memcmp(attribute + 44, "\xa6\xa6\xa6\xa6\xa6\xa6\xa6\xa6", 8))
        return KV_IV_FIELD;
    return KV_ACCEPTED;
}

static uint32_t attribute_refusal(size_t kek_len, const uint8_t *attribute, size_t attribute_len, size_t out_len)
{
    if (kek_len != 16)
        return KV_KEK_LENGTH;
    uint32_t refusal = frame_refusal(attribute, attribute_len);
    return refusal ? refusal : out_len < attribute_len - 60 ? KV_ROOM : KV_ACCEPTED;
}

kv_key_attribute kv_read_key_attribute(const uint8_t *kek, size_t kek_len, const uint8_t *attribute, size_t attribute_len, uint8_t *out,
                                       size_t out_len)
{
    uint32_t refusal = attribute_refusal(kek_len, attribute, attribute_len, out_len);
    size_t key_len = attribute_len - 60;
    if (!refusal) {
        uint8_t key[192]; /* nothing of a key may be written before it is known to be whole */
        if (peer_unwrap(kek, attribute + 52, key_len, key))
            memcpy(out, key, key_len);
        else
            refusal = KV_INTEGRITY;
    }
    kv_key_attribute found = {.refusal = refusal};
    if (!refusal) {
        found.app_id = get32(attribute + 4);
        found.lifetime = get32(attribute + 40);
        found.key_len = (uint32_t)key_len;
        found.type = attribute[0];
        memcpy(found.kek_id, attribute + 8, 16);
        memcpy(found.key_id, attribute + 24, 16);
    }
    return found;
}

/* Whether two names agree: the bytes of the shorter, and in the longer a colon after them. */
static int names_agree(const uint8_t *a, size_t a_len, const uint8_t *b, size_t b_len)
{
    size_t len = a_len < b_len ? a_len : b_len;
    return memcmp(a, b, len) == 0 && (a_len == len || a[len] == ':') && (b_len == len || b[len] == ':');
}

/* Fills all of found but the refusal, which it returns. */
static uint32_t walk(const uint8_t *area, size_t area_len, const uint8_t *own_name, size_t own_name_len, uint16_t *out, size_t out_len, int strict,
                     kv_area *found)
{
    *found = (kv_area){0};
    const uint8_t *pos = area, *end = area + area_len, *name = NULL;
    uint16_t offers[17];
    size_t count = 0, name_len = 0;

    if (out_len < 17)
        return KV_ROOM;
    while (pos < end) {
        if (end - pos < 2 || pos[1] == 0 || end - pos < pos[1] * 4) {
            found->at = (uint64_t)(pos - area);
            return KV_ATTRIBUTE_BOUNDS;
        }
        switch (pos[0]) {
        case 24: /* AT_KDF */
            if (pos[1] != 1)
                return KV_KDF_LENGTH;
            if (count == 17)
                return KV_OFFER_COUNT;
            offers[count++] = (uint16_t)(pos[2] << 8 | pos[3]);
            break;
        case 23: { /* AT_KDF_INPUT */
            size_t len = (size_t)(pos[2] << 8 | pos[3]);
            if (pos[1] != 1 + (len + 3) / 4)
                return KV_KDF_INPUT;
            for (const uint8_t *p = pos + 4 + len; p < pos + pos[1] * 4; p++)
                if (*p)
                    return KV_KDF_INPUT_PADDING;
            if (name)
                return KV_NETWORK_NAME;
            name = pos + 4;
            name_len = len;
            break;
        }
        default:
            break;
        }
        pos += pos[1] * 4;
    }
    if (!name)
        return KV_NETWORK_NAME;
    if (!count)
        return KV_OFFER_COUNT;
    int same = names_agree(name, name_len, own_name, own_name_len);
    if (strict && !same)
        return KV_NETWORK_NAME_DIFFERS;
    memcpy(out, offers, count * sizeof offers[0]);
    found->offers = (uint32_t)count;
    found->name_at = (uint64_t)(name - area);
    found->name_len = name_len;
    found->same_name = (uint32_t)same;
    return KV_ACCEPTED;
}

static kv_area read_area(const uint8_t *area, size_t area_len, const uint8_t *own_name, size_t own_name_len, uint16_t *out, size_t out_len, int strict)
{
    kv_area found;
    uint32_t refusal = walk(area, area_len, own_name, own_name_len, out, out_len, strict, &found);
    found.refusal = refusal;
    return found;
}

kv_area kv_read_area(const uint8_t *area, size_t area_len, const uint8_t *own_name, size_t own_name_len, uint16_t *out, size_t out_len)
{
    return read_area(area, area_len, own_name, own_name_len, out, out_len, 1);
}

kv_area kv_read_area_lenient(const uint8_t *area, size_t area_len, const uint8_t *own_name, size_t own_name_len, uint16_t *out, size_t out_len)
{
    return read_area(area, area_len, own_name, own_name_len, out, out_len, 0);
}

/* ---- bundles, over no library at all */
static size_t get16(const uint8_t *at) { return (size_t)at[0] << 8 | at[1]; }
static void put16(uint8_t *at, size_t x) { at[0] = (uint8_t)(x >> 8), at[1] = (uint8_t)x; }

kv_outcome kv_write_bundle(const uint8_t *attributes, size_t attributes_len, uint8_t *out, size_t out_len)
{
    const uint8_t *end = attributes + attributes_len, *a, *b;
    size_t count = 0;
    uint32_t refusal;
    for (a = attributes; a < end; a += a[1], count++) {
        size_t left = (size_t)(end - a);
        if (left < 2 || a[1] > left)
            return refused(KV_KEY_ATTRIBUTE_LENGTH);
        if ((refusal = frame_refusal(a, a[1])))
            return refused(refusal);
    }
    if (count < 1 || count > 64)
        return refused(KV_BUNDLE_COUNT);
    for (a = attributes; a < end; a += a[1])
        for (b = a + a[1]; b < end; b += b[1])
            if (memcmp(a + 24, b + 24, 16) == 0)
                return refused(KV_REPEATED_KEY_ID);
    size_t contents = 2 + 20 * count;
    if (out_len < contents + attributes_len)
        return refused(KV_ROOM);
    put16(out, count);
    uint8_t *line = out + 2;
    for (a = attributes; a < end; a += a[1], line += 20) {
        memcpy(line, a + 24, 16);
        put16(line + 16, contents + (size_t)(a - attributes));
        put16(line + 18, a[1]);
    }
    memcpy(out + contents, attributes, attributes_len);
    return wrote(contents + attributes_len);
}
static uint32_t bundle_refusal(const uint8_t *file, size_t file_len)
{
    if (file_len < 2 || get16(file) < 1 || get16(file) > 64)
        return KV_BUNDLE_COUNT;
    size_t count = get16(file), end = 2 + 20 * count;
    if (file_len < end)
        return KV_BUNDLE_CONTENTS;
    const uint8_t *last = file + end, *a, *b;
    for (a = file + 2; a < last; a += 20) {
        if (get16(a + 16) != end)
            return KV_BUNDLE_CONTENTS;
        end += get16(a + 18);
    }
    if (end != file_len)
        return KV_BUNDLE_END;
    for (a = file + 2; a < last; a += 20)
        for (b = a + 20; b < last; b += 20)
            if (memcmp(a, b, 16) == 0)
                return KV_REPEATED_KEY_ID;
    for (a = file + 2; a < last; a += 20) {
        const uint8_t *body = file + get16(a + 16);
        uint32_t refusal = frame_refusal(body, get16(a + 18));
        if (refusal)
            return refusal;
        if (memcmp(body + 24, a, 16))
            return KV_KEY_ID_UNLIKE_CONTENTS;
    }
    return KV_ACCEPTED;
}
kv_outcome kv_read_bundle(const uint8_t *file, size_t file_len, uint8_t *out, size_t out_len)
{
    uint32_t refusal = bundle_refusal(file, file_len);
    if (refusal)
        return refused(refusal);
    size_t contents = 2 + 20 * get16(file);
    if (out_len < file_len - contents)
        return refused(KV_ROOM);
    memcpy(out, file + contents, file_len - contents);
    return wrote(file_len - contents);
}

/* The line of a bundle with a Key ID, or past its last line. */
static const uint8_t *line_of(const uint8_t *file, const uint8_t *id)
{
    const uint8_t *line = file + 2, *last = line + 20 * get16(file);
    while (line < last && memcmp(line, id, 16))
        line += 20;
    return line;
}

/* Whether the attributes of two lines are the same bytes. */
static int same_body(const uint8_t *first, const uint8_t *a, const uint8_t *second, const uint8_t *b)
{
    size_t len = get16(a + 18);
    return len == get16(b + 18) && !memcmp(first + get16(a + 16), second + get16(b + 16), len);
}

static uint8_t *put_entry(uint8_t *at, uint8_t kind, const uint8_t *id)
{
    *at = kind;
    memcpy(at + 1, id, 16);
    return at + 17;
}

kv_comparison kv_compare_bundles(const uint8_t *first, size_t first_len, const uint8_t *second, size_t second_len, uint8_t *out,
                                 size_t out_len)
{
    kv_comparison r = {.refusal = bundle_refusal(first, first_len)};
    if (!r.refusal)
        r.refusal = bundle_refusal(second, second_len);
    if (r.refusal)
        return r;
    size_t first_count = get16(first), second_count = get16(second);
    uint8_t kinds[64], met[64] = {0}; /* the kind of each line of the first; which lines of the second stand in the first */
    for (size_t i = 0; i < first_count; i++) {
        const uint8_t *a = first + 2 + 20 * i, *b = line_of(second, a);
        size_t place = (size_t)(b - second - 2) / 20;
        kinds[i] = 0;
        if (place == second_count) {
            kinds[i] = KV_ONLY_FIRST;
            r.only_first++;
            continue;
        }
        met[place] = 1;
        if (!same_body(first, a, second, b)) {
            kinds[i] = KV_CHANGED;
            r.changed++;
        }
    }
    for (size_t i = 0; i < second_count; i++)
        r.only_second += !met[i];
    if (out_len < 17 * (size_t)(r.only_first + r.changed + r.only_second))
        return (kv_comparison){.refusal = KV_ROOM};
    for (size_t i = 0; i < first_count; i++)
        if (kinds[i])
            out = put_entry(out, kinds[i], first + 2 + 20 * i);
    for (size_t i = 0; i < second_count; i++)
        if (!met[i])
            out = put_entry(out, KV_ONLY_SECOND, second + 2 + 20 * i);
    return r;
}

/* ---- slots */
static int is_live(const kv_slots *slots, uint64_t number) { return number < KV_SLOTS && (slots->taken >> number & 1) != 0; }

kv_slots_outcome kv_put_slot(kv_slots slots, kv_name name, uint64_t parent)
{
    kv_slots_outcome r = {.slots = slots};
    unsigned at = 0;
    if (parent != KV_NO_PARENT) {
        uint64_t above = parent;
        if (!is_live(&slots, above)) {
            r.refusal = KV_PARENT_NOT_LIVE;
            return r;
        }
        for (int steps = 0; slots.parents[above] != 255; steps++) {
            above = slots.parents[above];
            if (steps == 2 || !is_live(&slots, above)) {
                r.refusal = KV_TOO_DEEP;
                return r;
            }
        }
    }
    while (at < KV_SLOTS && slots.taken >> at & 1)
        at++;
    if (at == KV_SLOTS) {
        r.refusal = KV_SLOTS_FULL;
        return r;
    }
    r.slots.taken |= (uint64_t)1 << at;
    r.slots.names[at] = name;
    r.slots.parents[at] = (uint8_t)(parent == KV_NO_PARENT ? 255 : parent);
    r.value = at;
    return r;
}

kv_slots_outcome kv_drop_slot(kv_slots slots, uint64_t number)
{
    kv_slots_outcome r = {.slots = slots};
    if (!is_live(&slots, number)) {
        r.refusal = KV_NO_SUCH_SLOT;
        return r;
    }
    for (unsigned i = 0; i < KV_SLOTS; i++) {
        uint64_t above = i;
        if (!(slots.taken >> i & 1))
            continue;
        for (int steps = 0; steps < 3 && above != number && is_live(&slots, slots.parents[above]); steps++)
            above = slots.parents[above];
        if (above == number) {
            r.slots.taken &= ~((uint64_t)1 << i);
            r.value++;
        }
    }
    return r;
}

uint32_t kv_live_slots(kv_slots slots)
{
    uint32_t live = 0;
    for (unsigned i = 0; i < KV_SLOTS; i++)
        live += slots.taken >> i & 1;
    return live;
}
