#include "calls.h"

#include <stdio.h>
#include <stdlib.h>
#include <string.h>

/* `out` is lent after the other slices. */
#define OUT SLICES

#define BIT(refusal) ((refusal_set)1 << (refusal))
#define LABEL_REFUSALS (BIT(KV_LABEL_LENGTH) | BIT(KV_LABEL_BYTE) | BIT(KV_LABEL_SYNTAX))
#define LIST_REFUSALS (BIT(KV_OFFER_COUNT) | BIT(KV_REPEATED_OFFER))
#define REPLY_REFUSALS (LIST_REFUSALS | BIT(KV_REPLY_IS_FIRST) | BIT(KV_REPLY_NOT_OFFERED))
#define AREA_REFUSALS \
    (BIT(KV_ATTRIBUTE_BOUNDS) | BIT(KV_KDF_LENGTH) | BIT(KV_KDF_INPUT) | BIT(KV_KDF_INPUT_PADDING) | BIT(KV_NETWORK_NAME) | \
     BIT(KV_OFFER_COUNT))
#define HANDOVER_REFUSALS (BIT(KV_HANDOVER_KEY_LENGTH) | BIT(KV_IDENTIFIER_LENGTH) | BIT(KV_ROOM))
#define FRAME_REFUSALS \
    (BIT(KV_KEY_ATTRIBUTE_LENGTH) | BIT(KV_ATTRIBUTE_TYPE) | BIT(KV_RESERVED_BYTE) | BIT(KV_ENC_TYPE) | BIT(KV_IV_FIELD))
#define BUNDLE_REFUSALS \
    (BIT(KV_BUNDLE_COUNT) | BIT(KV_BUNDLE_CONTENTS) | BIT(KV_BUNDLE_END) | BIT(KV_REPEATED_KEY_ID) | FRAME_REFUSALS | \
     BIT(KV_KEY_ID_UNLIKE_CONTENTS))

#define PACKET_REFUSALS \
    (BIT(KV_ROOT_KEY_LENGTH) | BIT(KV_ATTRIBUTE_TYPE) | BIT(KV_PACKET_LENGTH) | BIT(KV_PACKET_ATTRIBUTE_BOUNDS) | BIT(KV_MAC_ATTRIBUTE))

#define ANY { 0, MOST_BYTES }
#define ROOT_KEY { 64, 128 }
#define LABEL { 1, 255 }
#define DOMAIN { 1, 253 }
#define OFFERS { 1, 16 }
#define SIXTEEN { 16, 16 }
#define R0 { 32, 32 }
#define SPA { 6, 6 }
#define BUNDLE { 98, 17410 }

#define BYTES .width = 1
#define VALUES .width = 2
#define OUT_BYTES(most) .out_width = 1, .room = most
#define OUT_VALUES(most) .out_width = 2, .room = most

const shape shapes[CALLS] = {
    [SHA256] = { .name = "kv_sha256", .slices = 1, BYTES, .counts = { ANY }, OUT_BYTES(32), .refusals = BIT(KV_ROOM) },
    [HMAC_SHA256] = { .name = "kv_hmac_sha256", .slices = 2, BYTES, .counts = { ANY, ANY }, OUT_BYTES(32), .refusals = BIT(KV_ROOM) },
    [AKA_KEYS] = { .name = "kv_aka_keys", .slices = 5, BYTES, .counts = { SIXTEEN, SIXTEEN, { 0, 1016 }, { 6, 6 }, { 1, 255 } },
                   OUT_BYTES(208),
                   .refusals = BIT(KV_AKA_INPUT_LENGTH) | BIT(KV_NETWORK_NAME_LENGTH) | BIT(KV_IDENTITY_LENGTH) | BIT(KV_ROOM) },
    [USAGE_KEY] = { .name = "kv_usage_key", .slices = 3, BYTES, .counts = { ROOT_KEY, LABEL, { 0, 2048 } }, .numbers = { 8 },
                    OUT_BYTES(8160), .refusals = BIT(KV_ROOT_KEY_LENGTH) | LABEL_REFUSALS | BIT(KV_DOMAIN_LABEL) | BIT(KV_DATA_LENGTH) |
                                                 BIT(KV_KEY_LENGTH) | BIT(KV_ROOM) },
    [VISITED_ROOT_KEY] = { .name = "kv_visited_root_key", .slices = 1, BYTES, .counts = { ROOT_KEY }, OUT_BYTES(64),
                           .refusals = BIT(KV_ROOT_KEY_LENGTH) | BIT(KV_ROOM) },
    [VISITED_MASTER_KEY] = { .name = "kv_visited_master_key", .slices = 3, BYTES, .counts = { ROOT_KEY, { 1, 255 }, DOMAIN },
                             OUT_BYTES(64),
                             .refusals = BIT(KV_ROOT_KEY_LENGTH) | BIT(KV_SERVER_ID) | BIT(KV_DOMAIN) | BIT(KV_ROOM) },
    [VISITED_REAUTH_KEY] = { .name = "kv_visited_reauth_key", .slices = 1, BYTES, .counts = { ROOT_KEY }, OUT_BYTES(64),
                             .refusals = BIT(KV_ROOT_KEY_LENGTH) | BIT(KV_ROOM) },
    [DOMAIN_ROOT_KEY] = { .name = "kv_domain_root_key", .slices = 2, BYTES, .counts = { ROOT_KEY, DOMAIN }, OUT_BYTES(64),
                          .refusals = BIT(KV_ROOT_KEY_LENGTH) | BIT(KV_DOMAIN) | BIT(KV_ROOM) },
    [DOMAIN_REAUTH_KEY] = { .name = "kv_domain_reauth_key", .slices = 1, BYTES, .counts = { { 64, 64 } }, OUT_BYTES(64),
                            .refusals = BIT(KV_ROOT_KEY_LENGTH) | BIT(KV_ROOM) },
    [KEY_NAME] = { .name = "kv_key_name", .slices = 2, BYTES, .counts = { { 1, 255 }, LABEL }, OUT_BYTES(8),
                   .refusals = BIT(KV_SESSION_ID) | LABEL_REFUSALS | BIT(KV_ROOM) },
    [R0_KEY] = { .name = "kv_r0_key", .slices = 3, BYTES, .counts = { { 64, 64 }, SIXTEEN, SPA }, OUT_BYTES(32),
                 .refusals = HANDOVER_REFUSALS },
    [R1_KEY] = { .name = "kv_r1_key", .slices = 4, BYTES, .counts = { R0, SIXTEEN, SIXTEEN, SPA }, OUT_BYTES(32),
                 .refusals = HANDOVER_REFUSALS },
    [R0_NAME] = { .name = "kv_r0_name", .slices = 3, BYTES, .counts = { R0, SIXTEEN, SPA }, OUT_BYTES(16),
                  .refusals = HANDOVER_REFUSALS },
    [CHOOSE_OFFER] = { .name = "kv_choose_offer", .slices = 2, VALUES, .counts = { OFFERS, { 1, MOST_BYTES } },
                       .refusals = LIST_REFUSALS | BIT(KV_NO_OFFER_SUPPORTED) },
    [ANSWER_OFFER] = { .name = "kv_answer_offer", .slices = 1, VALUES, .counts = { OFFERS }, .numbers = { 2 }, OUT_VALUES(17),
                       .refusals = REPLY_REFUSALS | BIT(KV_ROOM) },
    [CHECK_RENEWED] = { .name = "kv_check_renewed", .slices = 2, VALUES, .counts = { OFFERS, { 2, 17 } }, .numbers = { 2 },
                        .refusals = REPLY_REFUSALS | BIT(KV_RENEWED_LIST) },
    [READ_AREA] = { .name = "kv_read_area", .slices = 2, BYTES, .counts = { { 8, MOST_BYTES }, ANY }, OUT_VALUES(17),
                    .refusals = AREA_REFUSALS | BIT(KV_NETWORK_NAME_DIFFERS) | BIT(KV_ROOM) },
    [READ_AREA_LENIENT] = { .name = "kv_read_area_lenient", .slices = 2, BYTES, .counts = { { 8, MOST_BYTES }, ANY }, OUT_VALUES(17),
                            .refusals = AREA_REFUSALS | BIT(KV_ROOM) },
    [WRITE_KEY_ATTRIBUTE] = { .name = "kv_write_key_attribute", .slices = 4, BYTES,
                              .counts = { SIXTEEN, SIXTEEN, SIXTEEN, { 16, 192 } }, .numbers = { 1, 4, 4 }, OUT_BYTES(252),
                              .refusals = BIT(KV_ATTRIBUTE_TYPE) | BIT(KV_ID_LENGTH) | BIT(KV_KEK_LENGTH) |
                                          BIT(KV_KEY_TO_WRAP_LENGTH) | BIT(KV_ROOM) },
    [READ_KEY_ATTRIBUTE] = { .name = "kv_read_key_attribute", .slices = 2, BYTES, .counts = { SIXTEEN, { 76, 252 } }, OUT_BYTES(192),
                             .refusals = BIT(KV_KEK_LENGTH) | FRAME_REFUSALS | BIT(KV_ROOM) | BIT(KV_INTEGRITY) },
    [SIGN_PACKET] = { .name = "kv_sign_packet", .slices = 2, BYTES, .counts = { ROOT_KEY, { 72, 4096 } }, .numbers = { 1 },
                      .refusals = PACKET_REFUSALS, .changes = 1 },
    [CHECK_PACKET] = { .name = "kv_check_packet", .slices = 2, BYTES, .counts = { ROOT_KEY, { 72, 4096 } }, .numbers = { 1 },
                       .refusals = PACKET_REFUSALS | BIT(KV_MAC_DIFFERS) },
    [WRITE_BUNDLE] = { .name = "kv_write_bundle", .slices = 1, BYTES, .counts = { { 76, 16128 } }, OUT_BYTES(17410),
                       .refusals = FRAME_REFUSALS | BIT(KV_BUNDLE_COUNT) | BIT(KV_REPEATED_KEY_ID) | BIT(KV_ROOM) },
    [READ_BUNDLE] = { .name = "kv_read_bundle", .slices = 1, BYTES, .counts = { BUNDLE }, OUT_BYTES(16128),
                      .refusals = BUNDLE_REFUSALS | BIT(KV_ROOM) },
    [COMPARE_BUNDLES] = { .name = "kv_compare_bundles", .slices = 2, BYTES, .counts = { BUNDLE, BUNDLE }, OUT_BYTES(2176),
                          .refusals = BUNDLE_REFUSALS | BIT(KV_ROOM) },
    /* the slots are the bytes of a slice, and the name is a number, before that of the parent */
    [PUT_SLOT] = { .name = "kv_put_slot", .slices = 1, BYTES, .counts = { ANY }, .numbers = { 8, 8 },
                   .refusals = BIT(KV_PARENT_NOT_LIVE) | BIT(KV_TOO_DEEP) | BIT(KV_SLOTS_FULL) },
    [DROP_SLOT] = { .name = "kv_drop_slot", .slices = 1, BYTES, .counts = { ANY }, .numbers = { 8 }, .refusals = BIT(KV_NO_SUCH_SLOT) },
    [LIVE_SLOTS] = { .name = "kv_live_slots", .slices = 1, BYTES, .counts = { ANY } },
};

_Noreturn void fail(const request *asked, const char *what)
{
    fprintf(stderr, "%s: %s\n", shapes[asked->call].name, what);
    abort();
}

/* The answer of a call that returns a kv_outcome; `written` where its value counts what it wrote. The value of a refusal is its place. */
static void take_outcome(answer *given, kv_outcome r, int counts)
{
    const int accepted = r.refusal == KV_ACCEPTED;
    given->refusal = r.refusal;
    given->place = accepted ? 0 : r.value;
    given->fields[0] = accepted ? r.value : 0;
    given->written = accepted && counts ? r.value : 0;
}

static void take_first_round(answer *given, kv_first_round r)
{
    given->refusal = r.refusal;
    given->fields[0] = r.ask;
    given->fields[1] = r.value;
    given->fields[2] = r.position;
}

static void take_area(answer *given, kv_area r)
{
    given->refusal = r.refusal;
    given->place = r.at;
    given->fields[0] = given->written = r.offers;
    given->fields[1] = r.name_at;
    given->fields[2] = r.name_len;
    given->fields[3] = r.same_name;
}

static void take_key_attribute(answer *given, kv_key_attribute r)
{
    given->refusal = r.refusal;
    given->fields[0] = r.app_id;
    given->fields[1] = r.lifetime;
    given->fields[2] = given->written = r.key_len;
    given->fields[3] = r.type;
    memcpy(given->kek_id, r.kek_id, 16);
    memcpy(given->key_id, r.key_id, 16);
}

static void take_comparison(answer *given, kv_comparison r)
{
    given->refusal = r.refusal;
    given->fields[0] = r.only_first;
    given->fields[1] = r.changed;
    given->fields[2] = r.only_second;
    given->written = KV_CHANGE_LEN * ((size_t)r.only_first + r.changed + r.only_second);
}

/* Says which part of an accepted packet may have changed: the 32 bytes from byte 20 on of its first attribute of the type. */
static void name_signed(const request *asked, answer *given)
{
    const uint8_t *packet = asked->in[1].values;
    size_t at = 20;
    while (at + 52 <= asked->in[1].count && packet[at] != (uint8_t)asked->numbers[0] && packet[at + 1] >= 2)
        at += packet[at + 1];
    given->changed_at = at + 20;
    given->changed = 32;
}

kv_slots slots_of(slice bytes)
{
    kv_slots slots = { 0 };
    if (bytes.count > 0)
        memcpy(&slots, bytes.values, bytes.count < sizeof slots ? bytes.count : sizeof slots);
    return slots;
}

kv_name name_of(uint64_t number)
{
    kv_name name;
    for (int i = 0; i < 8; i++)
        name.bytes[i] = (uint8_t)(number >> (56 - 8 * i));
    return name;
}

/* The answer of a call that returns slots. A refusal returns those that it took. */
static void take_slots(const request *asked, answer *given, kv_slots before, kv_slots_outcome r)
{
    expect(r.refusal == KV_ACCEPTED || memcmp(&r.slots, &before, sizeof before) == 0, asked, "a refusal that changes the slots");
    given->refusal = r.refusal;
    given->fields[0] = r.value;
    given->slots = r.slots;
}

/* Calls the library on the lent buffers. A call that changes a slice is handed the last of `in`, which is lent to be written too, and
 * says in `given` which part of it may have changed. */
static void call(const request *asked, void *const in[SLICES], void *out, answer *given)
{
    const uint8_t *a = in[0], *b = in[1], *c = in[2], *d = in[3], *e = in[4];
    const uint16_t *list = in[0], *other = in[1];
    const size_t an = asked->in[0].count, bn = asked->in[1].count, cn = asked->in[2].count, dn = asked->in[3].count;
    const size_t en = asked->in[4].count;
    const size_t room = asked->room;
    const uint64_t *numbers = asked->numbers;
    const kv_slots slots = slots_of((slice){ a, an });
    switch (asked->call) {
    case SHA256: take_outcome(given, kv_sha256(a, an, out, room), 1); break;
    case HMAC_SHA256: take_outcome(given, kv_hmac_sha256(a, an, b, bn, out, room), 1); break;
    case AKA_KEYS: take_outcome(given, kv_aka_keys(a, an, b, bn, c, cn, d, dn, e, en, out, room), 1); break;
    case USAGE_KEY: take_outcome(given, kv_usage_key(a, an, b, bn, c, cn, numbers[0], out, room), 1); break;
    case VISITED_ROOT_KEY: take_outcome(given, kv_visited_root_key(a, an, out, room), 1); break;
    case VISITED_MASTER_KEY: take_outcome(given, kv_visited_master_key(a, an, b, bn, c, cn, out, room), 1); break;
    case VISITED_REAUTH_KEY: take_outcome(given, kv_visited_reauth_key(a, an, out, room), 1); break;
    case DOMAIN_ROOT_KEY: take_outcome(given, kv_domain_root_key(a, an, b, bn, out, room), 1); break;
    case DOMAIN_REAUTH_KEY: take_outcome(given, kv_domain_reauth_key(a, an, out, room), 1); break;
    case KEY_NAME: take_outcome(given, kv_key_name(a, an, b, bn, out, room), 1); break;
    case R0_KEY: take_outcome(given, kv_r0_key(a, an, b, bn, c, cn, out, room), 1); break;
    case R1_KEY: take_outcome(given, kv_r1_key(a, an, b, bn, c, cn, d, dn, out, room), 1); break;
    case R0_NAME: take_outcome(given, kv_r0_name(a, an, b, bn, c, cn, out, room), 1); break;
    case CHOOSE_OFFER: take_first_round(given, kv_choose_offer(list, an, other, bn)); break;
    case ANSWER_OFFER: take_outcome(given, kv_answer_offer(list, an, (uint16_t)numbers[0], out, room), 1); break;
    case CHECK_RENEWED: take_outcome(given, kv_check_renewed(list, an, (uint16_t)numbers[0], other, bn), 0); break;
    case READ_AREA: take_area(given, kv_read_area(a, an, b, bn, out, room)); break;
    case READ_AREA_LENIENT: take_area(given, kv_read_area_lenient(a, an, b, bn, out, room)); break;
    case WRITE_KEY_ATTRIBUTE:
        take_outcome(given, kv_write_key_attribute((uint8_t)numbers[0], (uint32_t)numbers[1], a, an, b, bn, (uint32_t)numbers[2], c, cn,
                                                   d, dn, out, room), 1);
        break;
    case READ_KEY_ATTRIBUTE: take_key_attribute(given, kv_read_key_attribute(a, an, b, bn, out, room)); break;
    case SIGN_PACKET:
        take_outcome(given, kv_sign_packet(a, an, (uint8_t)numbers[0], in[1], bn), 0);
        if (given->refusal == KV_ACCEPTED)
            name_signed(asked, given);
        break;
    case CHECK_PACKET: take_outcome(given, kv_check_packet(a, an, (uint8_t)numbers[0], b, bn), 0); break;
    case WRITE_BUNDLE: take_outcome(given, kv_write_bundle(a, an, out, room), 1); break;
    case READ_BUNDLE: take_outcome(given, kv_read_bundle(a, an, out, room), 1); break;
    case COMPARE_BUNDLES: take_comparison(given, kv_compare_bundles(a, an, b, bn, out, room)); break;
    case PUT_SLOT: take_slots(asked, given, slots, kv_put_slot(slots, name_of(numbers[0]), numbers[1])); break;
    case DROP_SLOT: take_slots(asked, given, slots, kv_drop_slot(slots, numbers[0])); break;
    case LIVE_SLOTS: given->fields[0] = kv_live_slots(slots); break;
    case CALLS: fail(asked, "is no call");
    }
}

/* Checks that a place is that of the first byte of a label outside 32 to 126. */
static void expect_label_place(const request *asked, uint64_t place)
{
    const slice label = asked->in[1]; /* in both calls that have one */
    const uint8_t *bytes = label.values;
    expect(place < label.count && (bytes[place] < 32 || bytes[place] > 126), asked, "the byte at its place is not bad");
    for (uint64_t i = 0; i < place; i++)
        expect(bytes[i] >= 32 && bytes[i] <= 126, asked, "a byte before its place is bad");
}

/* Checks that a place is that of the attribute at which a walk of the area stops: the first without a length byte, of length 0, or past the
 * end. */
static void expect_attribute_place(const request *asked, uint64_t place)
{
    const slice area = asked->in[0];
    const uint8_t *bytes = area.values;
    size_t at = 0;
    while (area.count - at >= 2 && bytes[at + 1] != 0 && 4 * (size_t)bytes[at + 1] <= area.count - at)
        at += 4 * (size_t)bytes[at + 1];
    expect(at < area.count && place == at, asked, "its place is not that of the attribute that is not within the area");
}

/* Checks the place that a refusal carries: 3 and 16 have one, and the others have none. */
static void expect_place(const request *asked, const answer *given)
{
    if (given->refusal == KV_LABEL_BYTE)
        expect_label_place(asked, given->place);
    else if (given->refusal == KV_ATTRIBUTE_BOUNDS)
        expect_attribute_place(asked, given->place);
    else
        expect(given->place == 0, asked, "a place with a refusal that carries none");
}

/* Checks that a refusal is one of the call's own and comes with its place and nothing else. */
static void expect_refusal(const request *asked, const answer *given)
{
    static const answer nothing;
    expect(given->refusal <= LAST_REFUSAL && (shapes[asked->call].refusals & BIT(given->refusal)) != 0, asked,
           "a refusal that the header does not give for it");
    expect_place(asked, given);
    expect(memcmp(given->fields, nothing.fields, sizeof given->fields) == 0, asked, "a refusal with a field that is not 0");
    expect(memcmp(given->kek_id, nothing.kek_id, 16) == 0 && memcmp(given->key_id, nothing.key_id, 16) == 0, asked,
           "a refusal with an ID that is not 0");
    expect(given->written == 0 && given->changed == 0, asked, "a refusal that writes");
}

/* Checks that every slice of an accepted request is within the call's limits. */
static void expect_within_limits(const request *asked)
{
    const shape *form = &shapes[asked->call];
    for (int i = 0; i < form->slices; i++)
        expect(form->counts[i].least <= asked->in[i].count && asked->in[i].count <= form->counts[i].most, asked,
               "accepted a slice outside its limits");
}

/* Whether bytes `from` to `to` of a slice are those that were lent. */
static int kept(slice lent, const uint8_t *now, size_t from, size_t to)
{
    return from == to || memcmp((const uint8_t *)lent.values + from, now + from, to - from) == 0;
}

/* Checks that a slice that the call only reads is as it was. */
static void expect_unaltered(const request *asked, int which, const void *now)
{
    expect(kept(asked->in[which], now, 0, asked->in[which].count * shapes[asked->call].width), asked, "an input was altered");
}

/* Checks that the slice that the call changes is as it was but for the part that the answer names, and keeps it in the answer. */
static void expect_changed(const request *asked, int which, const void *now, answer *given)
{
    const slice lent = asked->in[which];
    const size_t width = shapes[asked->call].width;
    expect(given->changed_at <= lent.count && given->changed <= lent.count - given->changed_at, asked, "changed more than it was lent");
    expect(kept(lent, now, 0, given->changed_at * width), asked, "a byte before the changed part was altered");
    expect(kept(lent, now, (given->changed_at + given->changed) * width, lent.count * width), asked,
           "a byte after the changed part was altered");
    if (lent.count > 0)
        memcpy(given->after, now, lent.count * width);
}

/* The answer with all buffers at one place of their pages. */
static void perform_at(place where, const request *asked, answer *given)
{
    const shape *form = &shapes[asked->call];
    const int changing = form->slices - form->changes; /* slices from here on are changed */
    void *in[SLICES] = { 0 };
    for (int i = 0; i < form->slices; i++)
        in[i] = lend(i, where, asked->in[i].values, asked->in[i].count * form->width);
    uint8_t *out = lend(OUT, where, NULL, asked->room * form->out_width);

    memset(given, 0, offsetof(answer, out));
    call(asked, in, out, given);

    if (given->refusal == KV_ACCEPTED)
        expect_within_limits(asked);
    else
        expect_refusal(asked, given);
    for (int i = 0; i < form->slices; i++) {
        expect(surroundings_kept(i), asked, "a byte around a slice was altered");
        if (i < changing)
            expect_unaltered(asked, i, in[i]);
        else
            expect_changed(asked, i, in[i], given);
    }
    expect(surroundings_kept(OUT), asked, "a byte around `out` was altered");
    expect(given->written <= asked->room, asked, "more was written than there is room for");
    expect(fill_kept(OUT, given->written * form->out_width), asked, "a byte after those written was altered");
    if (given->written > 0)
        memcpy(given->out, out, given->written * form->out_width);
}

void perform(const request *asked, answer *given)
{
    static answer again;
    const shape *form = &shapes[asked->call];
    perform_at(FIRST, asked, given);
    perform_at(LAST, asked, &again);
    expect(memcmp(given, &again, offsetof(answer, out)) == 0, asked, "the same call twice gave two answers");
    expect(memcmp(given->out, again.out, given->written * form->out_width) == 0, asked, "the same call twice wrote different bytes");
    expect(!form->changes || memcmp(given->after, again.after, asked->in[form->slices - 1].count * form->width) == 0, asked,
           "the same call twice changed a slice to different bytes");
}
