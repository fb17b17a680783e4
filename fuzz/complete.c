#include "complete.h"

#include <stdlib.h>
#include <string.h>

static unsigned state;

static unsigned pick(unsigned below)
{
    state = state * 1103515245u + 12345u;
    return (state >> 8) % below;
}

static void replace(slice *changed, const void *values, size_t count, size_t width)
{
    void *block = malloc(count * width + 1);
    if (block == NULL)
        abort();
    memcpy(block, values, count * width);
    free((void *)changed->values);
    *changed = (slice){ block, count };
}

/* ---- texts */
static void admit(slice text, int (*admits)(uint8_t))
{
    uint8_t *bytes = (uint8_t *)text.values;
    for (size_t i = 0; i < text.count; i++)
        if (!admits(bytes[i]))
            bytes[i] = (uint8_t)('a' + bytes[i] % 26);
}

static int in_label(uint8_t b) { return b > 32 && b < 127 && b != ',' && b != '@'; }
static int in_server_id(uint8_t b) { return b > 32 && b < 127; }
static int in_domain(uint8_t b) { return (b | 32) >= 'a' && (b | 32) <= 'z'; }

static void admit_label(slice *label)
{
    admit(*label, in_label);
    if (label->count > 64)
        ((uint8_t *)label->values)[1 + pick((unsigned)label->count - 2)] = '@';
}

/* ---- offers */
static void make_distinct(slice list)
{
    uint16_t *values = (uint16_t *)list.values;
    for (size_t i = 0; i < list.count; i++)
        for (size_t j = 0; j < i; j++)
            if (values[i] == values[j])
                values[i]++, j = (size_t)-1;
}

static void choose(request *asked)
{
    const uint16_t *offers = asked->in[0].values;
    uint16_t renewed[17];
    make_distinct(asked->in[0]);
    if (asked->call == CHOOSE_OFFER) {
        ((uint16_t *)asked->in[1].values)[pick((unsigned)asked->in[1].count)] = offers[pick((unsigned)asked->in[0].count)];
        return;
    }
    if (asked->in[0].count < 2)
        return;
    asked->numbers[0] = renewed[0] = offers[1 + pick((unsigned)asked->in[0].count - 1)];
    memcpy(renewed + 1, offers, 2 * asked->in[0].count);
    if (asked->call == CHECK_RENEWED)
        replace(&asked->in[1], renewed, asked->in[0].count + 1, 2);
}

/* ---- the area: whole attributes, of which the first is the peer's own name */
static void complete_area(request *asked)
{
    static uint8_t area[MOST_BYTES];
    const uint8_t *own = asked->in[1].values;
    size_t name = asked->in[1].count < 1000 ? asked->in[1].count : 1000, words = 1 + (name + 3) / 4, n = 4 * words;
    memset(area, 0, sizeof area);
    area[0] = 23, area[1] = (uint8_t)words, area[2] = (uint8_t)(name >> 8), area[3] = (uint8_t)name;
    memcpy(area + 4, own, name);
    for (unsigned offers = 1 + pick(17); offers > 0; offers--, n += 4) {
        area[n] = 24, area[n + 1] = 1, area[n + 2] = (uint8_t)pick(256), area[n + 3] = (uint8_t)pick(256);
        if (pick(4) == 0) {
            n += 4;
            area[n] = (uint8_t)(128 + pick(128)), area[n + 1] = (uint8_t)(1 + pick(3));
            n += 4 * (size_t)(area[n + 1] - 1);
        }
    }
    replace(&asked->in[0], area, n, 1);
    replace(&asked->in[1], own, name, 1);
}

/* ---- packets: the attribute of the MAC first, and whole attributes of other types after it */
static void complete_packet(request *asked)
{
    uint8_t *packet = (uint8_t *)asked->in[1].values;
    size_t n = asked->in[1].count, rest;
    if (n == 73)
        n = asked->in[1].count = 72;
    if (asked->numbers[0] == 0)
        asked->numbers[0] = 26;
    packet[2] = (uint8_t)(n >> 8), packet[3] = (uint8_t)n;
    packet[20] = (uint8_t)asked->numbers[0], packet[21] = 52, packet[22] = 0, packet[23] = 2;
    for (size_t at = 72; at < n; at += packet[at + 1]) {
        rest = n - at;
        if (packet[at] == packet[20])
            packet[at]++;
        if (packet[at + 1] < 2 || packet[at + 1] > rest)
            packet[at + 1] = (uint8_t)(rest < 250 ? rest : 200);
        if (rest - packet[at + 1] == 1)
            packet[at + 1] = (uint8_t)(packet[at + 1] > 2 ? packet[at + 1] - 1 : 3);
    }
    if (asked->call == CHECK_PACKET)
        (void)!kv_sign_packet(asked->in[0].values, asked->in[0].count, packet[20], packet, n).refusal;
}

/* ---- Key attributes and bundles */
static size_t key_length(size_t n) { return n < 24 ? 16 : n > 192 ? 192 : n / 8 * 8; }

static void complete_attribute(request *asked)
{
    uint8_t attribute[KV_KEY_ATTRIBUTE_MAX] = { 0 }, key[192] = { 0 };
    const uint8_t *bytes = asked->in[1].values;
    size_t n = asked->in[1].count;
    memcpy(key, bytes, n < sizeof key ? n : sizeof key);
    n = key_length(n - 60);
    kv_outcome r = kv_write_key_attribute((uint8_t)(bytes[0] | 1), pick(1u << 31), bytes, 16, bytes + 16, 16, pick(1u << 31), asked->in[0].values,
                                          asked->in[0].count, key, n, attribute, sizeof attribute);
    replace(&asked->in[1], attribute, (size_t)r.value, 1);
}

/* Attributes packed end to end, with the bytes that are given; each has a Key ID of its own. Returns their length. */
static size_t pack(uint8_t *packed, const uint8_t *bytes, size_t n, unsigned least_id)
{
    size_t size = 0;
    for (unsigned count = 1 + pick(pick(8) == 0 ? 64 : 6), i = 0; i < count; i++) {
        size_t length = 60 + key_length(16 + pick(180));
        for (size_t j = 0; j < length; j++)
            packed[size + j] = bytes[(i + j) % n];
        packed[size] |= 1, packed[size + 1] = (uint8_t)length, packed[size + 2] = packed[size + 3] = 0;
        memset(packed + size + 24, 0, 16);
        packed[size + 39] = (uint8_t)(least_id + i);
        memset(packed + size + 44, 0xa6, 8);
        size += length;
    }
    return size;
}

static void complete_bundle(slice *changed, int is_file)
{
    static uint8_t packed[16384], file[17410], bytes[256];
    size_t n = changed->count < sizeof bytes ? changed->count : sizeof bytes, size;
    memcpy(bytes, changed->values, n);
    size = pack(packed, bytes, n, pick(4));
    if (is_file)
        replace(changed, file, (size_t)kv_write_bundle(packed, size, file, sizeof file).value, 1);
    else
        replace(changed, packed, size, 1);
}

void complete_request(request *asked, unsigned seed)
{
    state = seed;
    accept_counts(asked);
    switch (asked->call) {
    case USAGE_KEY: admit_label(&asked->in[1]), asked->numbers[0] = 1 + asked->numbers[0] % 300; break;
    case KEY_NAME: admit_label(&asked->in[1]); break;
    case VISITED_MASTER_KEY: admit(asked->in[1], in_server_id), admit(asked->in[2], in_domain); break;
    case DOMAIN_ROOT_KEY: admit(asked->in[1], in_domain); break;
    case CHOOSE_OFFER:
    case ANSWER_OFFER:
    case CHECK_RENEWED: choose(asked); break;
    case READ_AREA:
    case READ_AREA_LENIENT: complete_area(asked); break;
    case WRITE_KEY_ATTRIBUTE: asked->in[3].count = key_length(asked->in[3].count), asked->numbers[0] |= 1; break;
    case READ_KEY_ATTRIBUTE: complete_attribute(asked); break;
    case SIGN_PACKET:
    case CHECK_PACKET: complete_packet(asked); break;
    case WRITE_BUNDLE: complete_bundle(&asked->in[0], 0); break;
    case READ_BUNDLE: complete_bundle(&asked->in[0], 1); break;
    case COMPARE_BUNDLES: complete_bundle(&asked->in[0], 1), complete_bundle(&asked->in[1], 1); break;
    case PUT_SLOT: asked->numbers[1] = KV_NO_PARENT; break;
    default: break;
    }
}
