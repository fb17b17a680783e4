#include "jobs.h"
#include <string.h>

/* ---- inputs */
static uint8_t message[65536], key192[192], label255[255];
uint8_t emsk[128], data[2048];
const uint8_t label20[20] = {'y', 'a', 'r', 'd', '-', 'g', 'a', 't', 'e', '@', 'm', 'i', 'l', 'l', '.', 'l', 'o', 'c', 'a', 'l'};
/* KEK and key of RFC 3394, section 4.1 */
static const uint8_t kek[16] = {0, 1, 2, 3, 4, 5, 6, 7, 8, 9, 10, 11, 12, 13, 14, 15};
static const uint8_t key16[16] = {0x00, 0x11, 0x22, 0x33, 0x44, 0x55, 0x66, 0x77, 0x88, 0x99, 0xaa, 0xbb, 0xcc, 0xdd, 0xee, 0xff};
static const uint8_t kek_id[16] = "kek-of-the-yard", key_id[16] = "key-of-the-gate";
static const uint8_t spa[6] = {0x02, 0x11, 0x22, 0x33, 0x44, 0x55};
static uint8_t attribute16[76], attribute192[252];
enum { BUNDLED = 64 };
static uint8_t attributes[BUNDLED * 252], bundle[2 + BUNDLED * (20 + 252)], later_bundle[sizeof bundle];
uint8_t area[4 * OFFERS + 4 + NAME + 3];
const uint8_t own_name[NAME] = {'w', 'l', 'a', 'n', '.', 'y', 'a', 'r', 'd', '.', 'e', 'x', 'a', 'm', 'p', 'l', 'e'};

static void fill(uint8_t *at, size_t n, uint32_t seed)
{
    for (size_t i = 0; i < n; i++) {
        seed = seed * 1664525u + 1013904223u;
        at[i] = (uint8_t)(seed >> 24);
    }
}

/* ---- answers */
uint8_t out[17410];
uint16_t offers[17];
static kv_outcome outcome;
static kv_key_attribute attribute;
static kv_area found;
static kv_comparison compared;

/* ---- jobs */
static void none(void) {}

static void sha256(size_t len) { outcome = kv_sha256(message, len, out, sizeof out); }
static void sha256_64(void) { sha256(64); }
static void sha256_1024(void) { sha256(1024); }
static void sha256_65536(void) { sha256(65536); }

static const uint8_t wlan[4] = {'W', 'L', 'A', 'N'}, identity16[16] = {'0', '5', '5', '5', '4', '4', '4', '3', '3', '3', '2', '2', '2', '1', '1', '1'};
static void aka_keys(void) { outcome = kv_aka_keys(emsk, 16, emsk + 16, 16, wlan, 4, emsk + 32, 6, identity16, 16, out, sizeof out); }

static void usage_64(void) { outcome = kv_usage_key(emsk, 64, label20, 20, data, 0, 64, out, sizeof out); }
static void usage_64_data(void) { outcome = kv_usage_key(emsk, 128, label20, 20, data, 2048, 64, out, sizeof out); }
static void usage_8160(void) { outcome = kv_usage_key(emsk, 128, label255, 255, data, 2048, 8160, out, sizeof out); }

static void r0_key(void) { outcome = kv_r0_key(emsk, 64, kek_id, 16, spa, 6, out, sizeof out); }
static void r1_key(void) { outcome = kv_r1_key(emsk, 32, kek_id, 16, key_id, 16, spa, 6, out, sizeof out); }

/* 38 bytes: the longest domain whose first block of the expansion is hashed in one block */
static const uint8_t domain38[] = "yard-0012.north.mills.sidings.examples";
static void domain_root(void) { outcome = kv_domain_root_key(emsk, 64, domain38, 38, out, sizeof out); }
static void domain_reauth(void) { outcome = kv_domain_reauth_key(emsk, 64, out, sizeof out); }

static void write(const uint8_t *key, size_t len, uint8_t *to, size_t room)
{
    outcome = kv_write_key_attribute(7, 0x01020304, kek_id, 16, key_id, 16, 3600, kek, 16, key, len, to, room);
}
static void write_16(void) { write(key16, 16, out, sizeof out); }
static void write_192(void) { write(key192, 192, out, sizeof out); }

static void read_16(void) { attribute = kv_read_key_attribute(kek, 16, attribute16, 76, out, sizeof out); }
static void read_192(void) { attribute = kv_read_key_attribute(kek, 16, attribute192, 252, out, sizeof out); }

/* packets with the MAC's attribute first: of 72 bytes, and of 4,096 with attributes of 254 bytes after it */
static uint8_t packet72[72], packet4096[4096];
static void frame_packet(uint8_t *packet, size_t n)
{
    packet[0] = 2, packet[2] = (uint8_t)(n >> 8), packet[3] = (uint8_t)n;
    packet[20] = 90, packet[21] = 52, packet[23] = 2;
    for (size_t at = 72; at < n; at += packet[at + 1])
        packet[at] = 1, packet[at + 1] = (uint8_t)(n - at < 254 ? n - at : 254);
}
static void sign_72(void) { outcome = kv_sign_packet(emsk, 64, 90, packet72, 72); }
static void sign_4096(void) { outcome = kv_sign_packet(emsk, 64, 90, packet4096, 4096); }
static void check_4096(void) { outcome = kv_check_packet(emsk, 64, 90, packet4096, 4096); }

static void area_17(void) { found = kv_read_area(area, sizeof area, own_name, NAME, offers, 17); }

static void bundle_write_64(void) { outcome = kv_write_bundle(attributes, sizeof attributes, out, sizeof out); }
static void bundle_read_64(void) { outcome = kv_read_bundle(bundle, sizeof bundle, out, sizeof out); }
static void bundle_compare_64(void)
{
    compared = kv_compare_bundles(bundle, sizeof bundle, later_bundle, sizeof later_bundle, out, sizeof out);
}

/* All 64 slots are taken: slot 0 is a root, seven stand below it, and eight below each of these and of slot 0. A put goes into the last. */
static kv_slots full_slots, free_slots;
static kv_slots_outcome changed;
static void slot_put(void) { changed = kv_put_slot(free_slots, (kv_name){{1, 2, 3, 4, 5, 6, 7, 8}}, 8); }
static void slot_drop(void) { changed = kv_drop_slot(full_slots, 0); }

const struct job jobs[JOBS] = {
    {"none", none},
    {"sha256-64", sha256_64},
    {"sha256-1024", sha256_1024},
    {"sha256-65536", sha256_65536},
    {"aka-keys", aka_keys},
    {"usage-64", usage_64},
    {"usage-64-data", usage_64_data},
    {"usage-8160", usage_8160},
    {"r0-key", r0_key},
    {"r1-key", r1_key},
    {"domain-root", domain_root},
    {"domain-reauth", domain_reauth},
    {"write-16", write_16},
    {"write-192", write_192},
    {"read-16", read_16},
    {"read-192", read_192},
    {"sign-72", sign_72},
    {"sign-4096", sign_4096},
    {"check-4096", check_4096},
    {"area-17", area_17},
    {"bundle-write-64", bundle_write_64},
    {"bundle-read-64", bundle_read_64},
    {"bundle-compare-64", bundle_compare_64},
    {"slot-put", slot_put},
    {"slot-drop", slot_drop},
};

/* Makes the attributes and their bundle: Key IDs that are counted up, and the last byte of every third attribute changed by so much. */
static void bundle_up(int first_id, uint8_t change, uint8_t *to)
{
    for (int i = 0; i < BUNDLED; i++) {
        memcpy(attributes + 252 * i, attribute192, 252);
        attributes[252 * i + 39] = (uint8_t)(first_id + i);
        if (i % 3 == 0)
            attributes[252 * i + 251] ^= change;
    }
    outcome = kv_write_bundle(attributes, sizeof attributes, to, sizeof bundle);
}

void prepare_jobs(void)
{
    fill(message, sizeof message, 1);
    fill(emsk, sizeof emsk, 2);
    fill(data, sizeof data, 3);
    fill(key192, sizeof key192, 4);
    for (int i = 0; i < 255; i++)
        label255[i] = (uint8_t)('a' + i % 26);
    label255[127] = '@';
    for (int i = 0; i < OFFERS; i++) {
        area[4 * i] = 24, area[4 * i + 1] = 1;
        area[4 * i + 2] = (uint8_t)(i / 4), area[4 * i + 3] = (uint8_t)(37 * i + 1);
    }
    area[4 * OFFERS] = 23, area[4 * OFFERS + 1] = 1 + (NAME + 3) / 4, area[4 * OFFERS + 3] = NAME;
    memcpy(area + 4 * OFFERS + 4, own_name, NAME);
    frame_packet(packet72, 72);
    frame_packet(packet4096, 4096);
    write(key16, 16, attribute16, sizeof attribute16);
    write(key192, 192, attribute192, sizeof attribute192);
    /* a later bundle: 16 Key IDs are gone and 16 are new; of the 48 others 32 agree and 16 differ */
    bundle_up(16, 1, later_bundle);
    bundle_up(0, 0, bundle);
    full_slots.taken = ~(uint64_t)0;
    for (int i = 0; i < KV_SLOTS; i++) {
        fill(full_slots.names[i].bytes, sizeof full_slots.names[i].bytes, (uint8_t)i);
        full_slots.parents[i] = (uint8_t)(i < 8 ? 0 : i / 8);
    }
    full_slots.parents[0] = 255;
    free_slots = full_slots;
    free_slots.taken >>= 1;
}

static void show_bytes(const uint8_t *at, size_t n, void (*put)(const char *))
{
    char text[65];
    while (n) {
        size_t i = 0;
        for (; n && i < 64; i += 2, n--, at++) {
            text[i] = "0123456789abcdef"[*at >> 4];
            text[i + 1] = "0123456789abcdef"[*at & 15];
        }
        text[i] = 0;
        put(text);
    }
}

static void show_number(uint64_t x, void (*put)(const char *))
{
    uint8_t bytes[8];
    for (int i = 0; i < 8; i++)
        bytes[i] = (uint8_t)(x >> 8 * (7 - i));
    put(" ");
    show_bytes(bytes, 8, put);
}

void show_job(const struct job *job, void (*put)(const char *))
{
    memset(out, 0xee, sizeof out);
    memset(offers, 0xee, sizeof offers);
    memset(&outcome, 0, sizeof outcome);
    memset(&attribute, 0, sizeof attribute);
    memset(&found, 0, sizeof found);
    memset(&changed, 0, sizeof changed);
    memset(&compared, 0, sizeof compared);
    job->call();
    const uint64_t numbers[] = {outcome.refusal, outcome.value,   attribute.refusal, attribute.app_id, attribute.lifetime,
                                attribute.key_len, attribute.type, found.refusal,    found.offers,     found.at,
                                found.name_at,   found.name_len,  found.same_name,   changed.refusal,  changed.value,
                                changed.slots.taken, compared.refusal, compared.only_first, compared.changed, compared.only_second};
    put(job->name);
    for (size_t i = 0; i < sizeof numbers / sizeof *numbers; i++)
        show_number(numbers[i], put);
    put(" ");
    show_bytes(attribute.kek_id, 16, put);
    show_bytes(attribute.key_id, 16, put);
    put(" ");
    show_bytes((const uint8_t *)offers, sizeof offers, put);
    put(" ");
    show_bytes(out, sizeof out, put);
    put("\n");
}
