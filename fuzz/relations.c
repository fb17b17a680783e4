#include "relations.h"

#include <stdlib.h>
#include <string.h>

#define BLOCK 64
#define DIGEST 32
#define MOST_OFFERS 17
#define AT_KDF_INPUT 23
#define AT_KDF 24

/* The Key attribute (source document 004, section 3.1): where the wrapped key starts, and by how much it is longer than the key. */
#define WRAPPED_AT 52
#define LONGER 60
#define LONGEST_ATTRIBUTE 252
#define LONGEST_KEY 192
#define LARGEST_BUNDLE 17410

static int within(size_t least, size_t count, size_t most) { return least <= count && count <= most; }

static int same(const void *a, const void *b, size_t length) { return length == 0 || memcmp(a, b, length) == 0; }

/* A text put together from its parts, in a heap block of exactly its length. */
typedef struct {
    uint8_t *bytes;
    size_t length;
} text;

static void append(text *to, const void *bytes, size_t length)
{
    if (length == 0)
        return;
    to->bytes = realloc(to->bytes, to->length + length);
    if (to->bytes == NULL)
        abort();
    memcpy(to->bytes + to->length, bytes, length);
    to->length += length;
}

static void append_slice(text *to, slice part) { append(to, part.values, part.count); }

/* Checks that a digest or a MAC was given. */
static void expect_digest(const request *asked, kv_outcome r)
{
    expect(r.refusal == KV_ACCEPTED && r.value == DIGEST, asked, "rests on a digest that was refused");
}

/* RFC 2104 over kv_sha256: H(K xor opad, H(K xor ipad, text)). */
static void check_hmac(const request *asked, const answer *given)
{
    uint8_t key[BLOCK] = { 0 }, inner_pad[BLOCK], outer_pad[BLOCK], digest[DIGEST];
    if (asked->in[0].count > BLOCK)
        expect_digest(asked, kv_sha256(asked->in[0].values, asked->in[0].count, key, DIGEST));
    else if (asked->in[0].count > 0)
        memcpy(key, asked->in[0].values, asked->in[0].count);
    for (size_t i = 0; i < BLOCK; i++) {
        inner_pad[i] = key[i] ^ 0x36;
        outer_pad[i] = key[i] ^ 0x5c;
    }
    text inner = { 0 }, outer = { 0 };
    append(&inner, inner_pad, BLOCK);
    append_slice(&inner, asked->in[1]);
    expect_digest(asked, kv_sha256(inner.bytes, inner.length, digest, DIGEST));
    append(&outer, outer_pad, BLOCK);
    append(&outer, digest, DIGEST);
    expect_digest(asked, kv_sha256(outer.bytes, outer.length, digest, DIGEST));
    expect(same(given->out, digest, DIGEST), asked, "is not RFC 2104 over kv_sha256");
    free(inner.bytes);
    free(outer.bytes);
}

/* prf+ (RFC 4306, section 2.13) over kv_hmac_sha256, under a key, with this S. */
static void check_expansion_under(const request *asked, const answer *given, slice key, const text *s)
{
    const uint8_t *out = (const uint8_t *)given->out;
    uint8_t block[DIGEST];
    uint8_t counter = 1;
    for (size_t done = 0; done < given->written; done += DIGEST, counter++) {
        text message = { 0 };
        append(&message, block, counter == 1 ? 0 : DIGEST);
        append(&message, s->bytes, s->length);
        append(&message, &counter, 1);
        expect_digest(asked, kv_hmac_sha256(key.values, key.count, message.bytes, message.length, block, DIGEST));
        free(message.bytes);
        size_t left = given->written - done;
        expect(same(out + done, block, left < DIGEST ? left : DIGEST), asked, "is not prf+ over kv_hmac_sha256");
    }
}

/* The same under the first input. */
static void check_expansion(const request *asked, const answer *given, const text *s)
{
    check_expansion_under(asked, given, asked->in[0], s);
}

/* TS 33.402, Annex A.2, and RFC 5448, section 3.3, over kv_hmac_sha256: CK' then IK', and the expansion under IK' then CK'. */
static void check_aka_keys(const request *asked, const answer *given)
{
    const slice name = asked->in[2];
    const uint8_t fc = 0x20, name_length[2] = { (uint8_t)(name.count >> 8), (uint8_t)name.count }, sqn_length[2] = { 0, 6 };
    uint8_t primes[DIGEST], swapped[DIGEST];
    text key = { 0 }, message = { 0 }, s = { 0 };
    append_slice(&key, asked->in[0]);
    append_slice(&key, asked->in[1]);
    append(&message, &fc, 1);
    append_slice(&message, name);
    append(&message, name_length, 2);
    append_slice(&message, asked->in[3]);
    append(&message, sqn_length, 2);
    expect_digest(asked, kv_hmac_sha256(key.bytes, key.length, message.bytes, message.length, primes, DIGEST));
    memcpy(swapped, primes + 16, 16);
    memcpy(swapped + 16, primes, 16);
    append(&s, "EAP-AKA'", 8);
    append_slice(&s, asked->in[4]);
    expect(given->written == 208, asked, "did not return 208");
    check_expansion_under(asked, given, (slice){ swapped, DIGEST }, &s);
    free(key.bytes);
    free(message.bytes);
    free(s.bytes);
}

/* S of a usage key (RFC 5295): label, a zero byte, data, n in two bytes. */
static void check_usage_text(const request *asked, const answer *given, slice label, slice data, uint64_t n)
{
    const uint8_t zero = 0, length[2] = { (uint8_t)(n >> 8), (uint8_t)n };
    text s = { 0 };
    append_slice(&s, label);
    append(&s, &zero, 1);
    append_slice(&s, data);
    append(&s, length, 2);
    check_expansion(asked, given, &s);
    free(s.bytes);
}

static void check_usage_key(const request *asked, const answer *given)
{
    const slice label = asked->in[1], data = asked->in[2];
    const uint64_t n = asked->numbers[0];
    expect(within(1, n, 8160), asked, "accepted a key length outside 1 to 8,160");
    for (size_t i = 0; i < label.count; i++)
        expect(within(32, ((const uint8_t *)label.values)[i], 126), asked, "accepted a label byte outside 32 to 126");
    expect(given->written == n, asked, "did not return n");
    check_usage_text(asked, given, label, data, n);
}

static void check_visited_root_key(const request *asked, const answer *given)
{
    static const char label[] = "EAP Visited domain Root Key";
    expect(given->written == 64, asked, "did not return 64");
    check_usage_text(asked, given, (slice){ label, strlen(label) }, (slice){ 0 }, 64);
}

static void check_visited_master_key(const request *asked, const answer *given)
{
    expect(given->written == 64, asked, "did not return 64");
    text s = { 0 };
    append_slice(&s, asked->in[1]);
    append_slice(&s, asked->in[2]);
    check_expansion(asked, given, &s);
    free(s.bytes);
}

static void check_visited_reauth_key(const request *asked, const answer *given)
{
    static const char label[] = "EAP Re-authentication Root Key";
    expect(given->written == 64, asked, "did not return 64");
    text s = { 0 };
    append(&s, label, strlen(label));
    check_expansion(asked, given, &s);
    free(s.bytes);
}

/* A usage key of the same text is refused, since the label is the domain's own. */
static void check_domain_root_key(const request *asked, const answer *given)
{
    static const char label[] = "dsrk@ietf.org";
    const slice emsk = asked->in[0], domain = asked->in[1];
    uint8_t key[64];
    expect(given->written == 64, asked, "did not return 64");
    check_usage_text(asked, given, (slice){ label, strlen(label) }, domain, 64);
    kv_outcome usage = kv_usage_key(emsk.values, emsk.count, (const uint8_t *)label, strlen(label), domain.values, domain.count, 64, key,
                                    sizeof key);
    expect(usage.refusal == KV_DOMAIN_LABEL && usage.value == 0, asked, "is had as a usage key");
}

static void check_domain_reauth_key(const request *asked, const answer *given)
{
    static const char label[] = "EAP Re-authentication Root Key@ietf.org";
    expect(given->written == 64, asked, "did not return 64");
    check_usage_text(asked, given, (slice){ label, strlen(label) }, (slice){ 0 }, 64);
}

static void check_key_name(const request *asked, const answer *given)
{
    uint8_t digest[DIGEST];
    text named = { 0 };
    append_slice(&named, asked->in[0]);
    append_slice(&named, asked->in[1]);
    expect_digest(asked, kv_sha256(named.bytes, named.length, digest, DIGEST));
    expect(given->written == 8 && same(given->out, digest, 8), asked, "is not the first 8 bytes of kv_sha256");
    free(named.bytes);
}

/* Two keys of 32 bytes are the same, or they are not. */
static void expect_key(const request *asked, const answer *given, kv_outcome r, const uint8_t key[32], int equal, const char *what)
{
    expect(r.refusal == KV_ACCEPTED && r.value == 32, asked, "refuses a request of the same lengths");
    expect(same(given->out, key, 32) == equal, asked, what);
}

/* Only the first 32 bytes of an rRK count, and another SPA has another R0-Key. */
static void check_r0_key(const request *asked, const answer *given)
{
    const uint8_t *ad_id = asked->in[1].values;
    uint8_t rrk[64], spa[6], key[32];
    expect(given->written == 32, asked, "did not return 32");
    memcpy(rrk, asked->in[0].values, 64);
    memcpy(spa, asked->in[2].values, 6);
    memset(rrk + 32, rrk[0], 32);
    expect_key(asked, given, kv_r0_key(rrk, 64, ad_id, 16, spa, 6, key, 32), key, 1, "depends on the second half of the rRK");
    spa[5] ^= 1;
    expect_key(asked, given, kv_r0_key(rrk, 64, ad_id, 16, spa, 6, key, 32), key, 0, "is the R0-Key of another SPA");
}

/* The two IDs do not stand for each other, and the first 32 bytes of an rRK derive another key as an R0-Key. */
static void check_r1_key(const request *asked, const answer *given)
{
    const uint8_t *r0_key = asked->in[0].values, *ad_id = asked->in[1].values, *an_id = asked->in[2].values, *spa = asked->in[3].values;
    uint8_t rrk[64] = { 0 }, key[32];
    expect(given->written == 32, asked, "did not return 32");
    expect_key(asked, given, kv_r1_key(r0_key, 32, an_id, 16, ad_id, 16, spa, 6, key, 32), key, same(ad_id, an_id, 16),
               "does not tell AD-ID and AN-ID apart");
    memcpy(rrk, r0_key, 32);
    expect_key(asked, given, kv_r0_key(rrk, 64, ad_id, 16, spa, 6, key, 32), key, 0, "is an R0-Key");
}

static void check_r0_name(const request *asked, const answer *given)
{
    static const char label[] = "R0 Key Name";
    uint8_t digest[DIGEST];
    text named = { 0 };
    append_slice(&named, asked->in[0]);
    append(&named, label, strlen(label));
    append_slice(&named, asked->in[1]);
    append_slice(&named, asked->in[2]);
    expect_digest(asked, kv_sha256(named.bytes, named.length, digest, DIGEST));
    expect(given->written == 16 && same(given->out, digest, 16), asked, "is not the first 16 bytes of kv_sha256");
    free(named.bytes);
}

static int contains(slice list, uint16_t value)
{
    const uint16_t *values = list.values;
    for (size_t i = 0; i < list.count; i++)
        if (values[i] == value)
            return 1;
    return 0;
}

/* The server answers with the value and then the offers, and the peer accepts that. */
static void check_renewal(const request *asked, slice offers, uint16_t value)
{
    uint16_t list[MOST_OFFERS];
    kv_outcome server = kv_answer_offer(offers.values, offers.count, value, list, MOST_OFFERS);
    expect(server.refusal == KV_ACCEPTED && server.value == offers.count + 1, asked, "the server refuses the value");
    expect(list[0] == value && same(list + 1, offers.values, 2 * offers.count), asked, "the server's list is not value and offers");
    kv_outcome peer = kv_check_renewed(offers.values, offers.count, value, list, server.value);
    expect(peer.refusal == KV_ACCEPTED && peer.value == value, asked, "the peer refuses the server's list");
}

static void check_choice(const request *asked, const answer *given)
{
    const slice offers = asked->in[0], supported = asked->in[1];
    const uint16_t *values = offers.values;
    const uint64_t ask = given->fields[0], value = given->fields[1], position = given->fields[2];
    expect(position < offers.count && values[position] == value, asked, "the value is not at its position");
    expect(ask == (position > 0), asked, "does not ask exactly for an offer after the first");
    for (size_t i = 0; i < position; i++)
        expect(!contains(supported, values[i]), asked, "an earlier offer is supported");
    expect(contains(supported, (uint16_t)value), asked, "the value is not supported");
    if (ask)
        check_renewal(asked, offers, (uint16_t)value);
}

static void check_answer(const request *asked, const answer *given)
{
    uint16_t reply = (uint16_t)asked->numbers[0];
    expect(given->written == asked->in[0].count + 1 && given->out[0] == reply, asked, "does not write the reply first");
    check_renewal(asked, asked->in[0], reply);
}

static void check_renewed(const request *asked, const answer *given)
{
    const uint16_t choice = (uint16_t)asked->numbers[0], *renewed = asked->in[1].values;
    const slice original = asked->in[0];
    expect(given->fields[0] == choice, asked, "does not return the choice");
    expect(asked->in[1].count == original.count + 1 && renewed[0] == choice && same(renewed + 1, original.values, 2 * original.count),
           asked, "accepted a list that is not the choice and the original");
    check_renewal(asked, original, choice);
}

/* The offers by a walk of the area, whose attributes are within its bounds because the library accepted them. */
static void check_offers(const request *asked, const answer *given)
{
    const uint8_t *area = asked->in[0].values;
    size_t found = 0;
    for (size_t at = 0; at < asked->in[0].count; at += 4 * (size_t)area[at + 1]) {
        if (area[at] != AT_KDF)
            continue;
        expect(found < given->written && given->out[found] == (area[at + 2] << 8 | area[at + 3]), asked, "another offer in its place");
        found++;
    }
    expect(found == given->written && within(1, found, MOST_OFFERS), asked, "another count of offers");
}

/* The length of the field that begins at an offset of a name. */
static size_t field_at(slice name, size_t at)
{
    size_t end = at;
    while (end < name.count && ((const uint8_t *)name.values)[end] != ':')
        end++;
    return end - at;
}

/* Whether two names agree, field by field, to the end of the one with fewer. */
static int names_agree(slice a, slice b)
{
    for (size_t at = 0;;) {
        size_t in_a = field_at(a, at), in_b = field_at(b, at);
        if (in_a != in_b || !same((const uint8_t *)a.values + at, (const uint8_t *)b.values + at, in_a))
            return 0;
        at += in_a;
        if (at == a.count || at == b.count)
            return 1;
        at++;
    }
}

static void check_area(const request *asked, const answer *given)
{
    const slice area = asked->in[0], own = asked->in[1];
    const uint8_t *bytes = area.values;
    const uint64_t name_at = given->fields[1], name_len = given->fields[2], same_name = given->fields[3];
    expect(given->place == 0, asked, "accepted with a place");
    check_offers(asked, given);
    expect(within(4, name_at, area.count) && name_len <= area.count - name_at, asked, "the name is not in the area");
    expect(bytes[name_at - 4] == AT_KDF_INPUT && (bytes[name_at - 2] << 8 | bytes[name_at - 1]) == (int)name_len, asked,
           "the name is not that of an AT_KDF_INPUT");
    int agree = names_agree((slice){ bytes + name_at, name_len }, own);
    expect(same_name == (uint64_t)agree, asked, "does not tell whether the name agrees with the peer's own");
    expect(agree || asked->call == READ_AREA_LENIENT, asked, "a differing name is accepted");

    uint16_t offers[MOST_OFFERS];
    kv_area again = kv_read_area(bytes, area.count, bytes + name_at, name_len, offers, MOST_OFFERS);
    expect(again.refusal == KV_ACCEPTED && again.same_name == 1, asked, "the name is not the same as itself");
    expect(again.name_at == name_at && again.name_len == name_len && again.offers == given->written, asked, "the own name changed more");
}

/* What is written reads back to the same fields and key; spoilt in its wrapped part it is refused, and no byte of the key written. */
static void check_attribute(const request *asked, const answer *given)
{
    const slice kek_id = asked->in[0], key_id = asked->in[1], kek = asked->in[2], key = asked->in[3];
    uint8_t attribute[LONGEST_ATTRIBUTE], opened[LONGEST_KEY];
    expect(given->written == LONGER + key.count, asked, "is not 60 bytes longer than the key");
    memcpy(attribute, given->out, given->written);
    kv_key_attribute read = kv_read_key_attribute(kek.values, kek.count, attribute, given->written, opened, key.count);
    expect(read.refusal == KV_ACCEPTED, asked, "does not read back");
    expect(read.type == asked->numbers[0] && read.app_id == asked->numbers[1] && read.lifetime == asked->numbers[2], asked,
           "reads back to other numbers");
    expect(same(read.kek_id, kek_id.values, 16) && same(read.key_id, key_id.values, 16), asked, "reads back to other IDs");
    expect(read.key_len == key.count && same(opened, key.values, key.count), asked, "reads back to another key");

    size_t wrapped = given->written - WRAPPED_AT;
    attribute[WRAPPED_AT + read.lifetime % wrapped] ^= (uint8_t)(1 << read.app_id % 8);
    memset(opened, 0xee, sizeof opened);
    read = kv_read_key_attribute(kek.values, kek.count, attribute, given->written, opened, key.count);
    expect(read.refusal == KV_INTEGRITY, asked, "is accepted though it was spoilt");
    for (size_t i = 0; i < sizeof opened; i++)
        expect(opened[i] == 0xee, asked, "a byte of a key was written before refusal 28");
}

/* What is accepted, written again, is the same bytes. */
static void check_opened(const request *asked, const answer *given)
{
    const slice kek = asked->in[0], attribute = asked->in[1];
    uint8_t written[LONGEST_ATTRIBUTE];
    const uint8_t *key = (const uint8_t *)given->out;
    kv_outcome again = kv_write_key_attribute((uint8_t)given->fields[3], (uint32_t)given->fields[0], given->kek_id, 16, given->key_id, 16,
                                              (uint32_t)given->fields[1], kek.values, kek.count, key, given->written, written,
                                              sizeof written);
    expect(again.refusal == KV_ACCEPTED && again.value == attribute.count && same(written, attribute.values, attribute.count), asked,
           "written again is not the same bytes");
}

/* The MAC of a packet over kv_hmac_sha256: of the packet with zeros for the 32 bytes at a place. */
static void packet_mac(const request *asked, size_t at, uint8_t mac[DIGEST])
{
    text packet = { 0 };
    append_slice(&packet, asked->in[1]);
    expect(at + DIGEST <= packet.length, asked, "accepted a packet that has no room for a MAC");
    memset(packet.bytes + at, 0, DIGEST);
    expect_digest(asked, kv_hmac_sha256(asked->in[0].values, asked->in[0].count, packet.bytes, packet.length, mac, DIGEST));
    free(packet.bytes);
}

/* What was signed has the MAC, is accepted by the check, and is not with any other byte. */
static void check_signed(const request *asked, const answer *given)
{
    uint8_t mac[DIGEST], *packet = (uint8_t *)given->after;
    const uint8_t type = (uint8_t)asked->numbers[0];
    expect(given->fields[0] == DIGEST, asked, "did not return 32");
    packet_mac(asked, given->changed_at, mac);
    expect(same(packet + given->changed_at, mac, DIGEST), asked, "is not the HMAC of the packet with its MAC as zeros");
    text copy = { 0 };
    append(&copy, packet, asked->in[1].count);
    expect(kv_check_packet(asked->in[0].values, asked->in[0].count, type, copy.bytes, copy.length).refusal == KV_ACCEPTED, asked,
           "is not accepted by kv_check_packet");
    copy.bytes[given->changed_at] ^= 1;
    expect(kv_check_packet(asked->in[0].values, asked->in[0].count, type, copy.bytes, copy.length).refusal == KV_MAC_DIFFERS, asked,
           "is accepted with another MAC");
    free(copy.bytes);
}

/* What is accepted, signed again, is the same bytes. */
static void check_checked(const request *asked)
{
    text copy = { 0 };
    append_slice(&copy, asked->in[1]);
    const uint8_t type = (uint8_t)asked->numbers[0];
    expect(kv_sign_packet(asked->in[0].values, asked->in[0].count, type, copy.bytes, copy.length).refusal == KV_ACCEPTED, asked,
           "accepted a packet that kv_sign_packet refuses");
    expect(same(copy.bytes, asked->in[1].values, copy.length), asked, "accepted a packet that signing changes");
    free(copy.bytes);
}

/* A bundle reads back to the attributes that it was made of. */
static void check_bundle(const request *asked, const answer *given)
{
    static uint8_t file[LARGEST_BUNDLE], attributes[LARGEST_BUNDLE];
    memcpy(file, given->out, given->written);
    kv_outcome read = kv_read_bundle(file, given->written, attributes, asked->in[0].count);
    expect(read.refusal == KV_ACCEPTED && read.value == asked->in[0].count, asked, "a bundle does not read back");
    expect(same(attributes, asked->in[0].values, asked->in[0].count), asked, "a bundle reads back to other attributes");
}

/* The attributes of a bundle, written again, are the same file. */
static void check_unpacked(const request *asked, const answer *given)
{
    static uint8_t file[LARGEST_BUNDLE], attributes[LARGEST_BUNDLE];
    memcpy(attributes, given->out, given->written);
    kv_outcome written = kv_write_bundle(attributes, given->written, file, asked->in[0].count);
    expect(written.refusal == KV_ACCEPTED && written.value == asked->in[0].count, asked, "what was read is not written again");
    expect(same(file, asked->in[0].values, asked->in[0].count), asked, "what was read is written as another file");
}

static size_t number_at(const uint8_t *bytes) { return (size_t)bytes[0] << 8 | bytes[1]; }

/* The attribute of a Key ID in a bundle, or null. */
static const uint8_t *attribute_of(slice bundle, const uint8_t *id)
{
    const uint8_t *file = bundle.values;
    for (size_t i = 0; i < number_at(file); i++)
        if (same(file + 2 + 20 * i, id, 16))
            return file + number_at(file + 18 + 20 * i);
    return NULL;
}

/* The kind by which a Key ID is listed, 0 where its attributes agree. */
static uint8_t kind_of(slice first, slice second, const uint8_t *id)
{
    const uint8_t *a = attribute_of(first, id), *b = attribute_of(second, id);
    return a == NULL ? KV_ONLY_SECOND : b == NULL ? KV_ONLY_FIRST : a[1] == b[1] && same(a, b, a[1]) ? 0 : KV_CHANGED;
}

/* The list by the lines of both bundles, and its counts; and the comparison the other way round. */
static void check_compared(const request *asked, const answer *given)
{
    static uint8_t attributes[LARGEST_BUNDLE], listed[KV_CHANGES_MAX];
    const slice bundles[2] = { asked->in[0], asked->in[1] };
    const uint8_t *entry = (const uint8_t *)given->out, *end = entry + given->written;
    uint64_t counts[4] = { 0 };
    for (int i = 0; i < 2; i++) {
        const uint8_t *file = bundles[i].values;
        kv_outcome read = kv_read_bundle(file, bundles[i].count, attributes, sizeof attributes);
        expect(read.refusal == KV_ACCEPTED, asked, "compared a bundle that cannot be read");
        for (size_t j = 0; j < number_at(file); j++) {
            const uint8_t *id = file + 2 + 20 * j;
            const uint8_t kind = kind_of(bundles[0], bundles[1], id);
            if (kind == 0 || (i == 1) != (kind == KV_ONLY_SECOND))
                continue;
            expect(entry < end && entry[0] == kind && same(entry + 1, id, 16), asked, "another entry in its place");
            entry += KV_CHANGE_LEN;
            counts[kind]++;
        }
    }
    expect(entry == end, asked, "an entry too many");
    expect(given->fields[0] == counts[KV_ONLY_FIRST] && given->fields[1] == counts[KV_CHANGED] && given->fields[2] == counts[KV_ONLY_SECOND],
           asked, "other counts than those of the list");
    kv_comparison back = kv_compare_bundles(bundles[1].values, bundles[1].count, bundles[0].values, bundles[0].count, listed, given->written);
    expect(back.refusal == KV_ACCEPTED && back.only_first == given->fields[2] && back.changed == given->fields[1] &&
               back.only_second == given->fields[0], asked, "the other way round is not the same with both ends changed");
    kv_comparison itself = kv_compare_bundles(bundles[0].values, bundles[0].count, bundles[0].values, bundles[0].count, NULL, 0);
    expect(itself.refusal == KV_ACCEPTED && itself.only_first + itself.changed + itself.only_second == 0, asked,
           "the first bundle differs from itself");
}

/* The slot that a put took was the lowest free one and has name and parent; dropped, it alone goes where no parent named it before. */
static void check_put(const request *asked, const answer *given)
{
    const kv_slots before = slots_of(asked->in[0]);
    const uint64_t number = given->fields[0], parent = asked->numbers[1];
    const kv_name name = name_of(asked->numbers[0]);
    expect(number < KV_SLOTS && before.taken % ((uint64_t)1 << number) == ((uint64_t)1 << number) - 1, asked, "took no slot after taken ones");
    expect(same(&given->slots.names[number], &name, sizeof name), asked, "did not keep the name");
    expect(given->slots.parents[number] == (parent == KV_NO_PARENT ? 255 : parent), asked, "did not keep the parent");
    expect(kv_live_slots(given->slots) == kv_live_slots(before) + 1, asked, "the live count is not one more");
    kv_slots_outcome dropped = kv_drop_slot(given->slots, number);
    expect(dropped.refusal == KV_ACCEPTED && dropped.value >= 1 && (dropped.slots.taken | before.taken) == before.taken, asked,
           "cannot be dropped again");
}

/* A drop frees its slot, answers how many went, and leaves every name and parent. */
static void check_drop(const request *asked, const answer *given)
{
    const kv_slots before = slots_of(asked->in[0]);
    expect(kv_live_slots(given->slots) + given->fields[0] == kv_live_slots(before), asked, "did not return how many went");
    expect((given->slots.taken & ~before.taken) == 0, asked, "took a free slot");
    expect(same(given->slots.names, before.names, sizeof before.names) && same(given->slots.parents, before.parents, sizeof before.parents),
           asked, "altered a name or a parent");
    expect(kv_drop_slot(given->slots, asked->numbers[0]).refusal == KV_NO_SUCH_SLOT, asked, "can be dropped twice");
}

void check_relations(const request *asked, const answer *given)
{
    switch (asked->call) {
    case SHA256: expect(given->written == DIGEST, asked, "did not return 32"); break;
    case HMAC_SHA256: check_hmac(asked, given); break;
    case AKA_KEYS: check_aka_keys(asked, given); break;
    case USAGE_KEY: check_usage_key(asked, given); break;
    case VISITED_ROOT_KEY: check_visited_root_key(asked, given); break;
    case VISITED_MASTER_KEY: check_visited_master_key(asked, given); break;
    case VISITED_REAUTH_KEY: check_visited_reauth_key(asked, given); break;
    case DOMAIN_ROOT_KEY: check_domain_root_key(asked, given); break;
    case DOMAIN_REAUTH_KEY: check_domain_reauth_key(asked, given); break;
    case KEY_NAME: check_key_name(asked, given); break;
    case R0_KEY: check_r0_key(asked, given); break;
    case R1_KEY: check_r1_key(asked, given); break;
    case R0_NAME: check_r0_name(asked, given); break;
    case CHOOSE_OFFER: check_choice(asked, given); break;
    case ANSWER_OFFER: check_answer(asked, given); break;
    case CHECK_RENEWED: check_renewed(asked, given); break;
    case READ_AREA:
    case READ_AREA_LENIENT: check_area(asked, given); break;
    case WRITE_KEY_ATTRIBUTE: check_attribute(asked, given); break;
    case READ_KEY_ATTRIBUTE: check_opened(asked, given); break;
    case SIGN_PACKET: check_signed(asked, given); break;
    case CHECK_PACKET: check_checked(asked); break;
    case WRITE_BUNDLE: check_bundle(asked, given); break;
    case READ_BUNDLE: check_unpacked(asked, given); break;
    case COMPARE_BUNDLES: check_compared(asked, given); break;
    case PUT_SLOT: check_put(asked, given); break;
    case DROP_SLOT: check_drop(asked, given); break;
    case LIVE_SLOTS: expect(given->fields[0] <= KV_SLOTS, asked, "counts more slots than there are"); break;
    case CALLS: fail(asked, "is no call");
    }
}
