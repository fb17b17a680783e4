#include "cases.h"

#include <string.h>

typedef enum { SHA256, HMAC, AKA, USAGE, VRK, VMSK, V_RRK, DSRK, RRK, R0, R1, R0_NAME, WRITE, READ, SIGN, CHECK } call;

static const char *const names[] = { "kv_sha256", "kv_hmac_sha256", "kv_aka_keys", "kv_usage_key", "kv_visited_root_key", "kv_visited_master_key",
                                     "kv_visited_reauth_key", "kv_domain_root_key", "kv_domain_reauth_key", "kv_r0_key", "kv_r1_key", "kv_r0_name",
                                     "kv_write_key_attribute", "kv_read_key_attribute", "kv_sign_packet", "kv_check_packet" };

/* A call, the length of its secret, one more size, the room of `out`, and what it answers. The further size is the length of the message, of the
 * optional data, of the key to wrap or of the packet, by the call. `spoilt` is not 0 where a byte of the wrapped key or of the MAC is changed; of the MAC it is
 * another byte for each set, so that a comparison that stops at the first difference takes another time. */
typedef struct {
    call call;
    uint16_t secret, size, room, refusal, spoilt;
} row;

static const row rows[] = {
    { SHA256, 0, 0, 32, 0, 0 },          { SHA256, 0, 55, 32, 0, 0 },        { SHA256, 0, 200, 32, 0, 0 },        { SHA256, 0, 64, 31, KV_ROOM, 0 },
    { HMAC, 0, 20, 32, 0, 0 },           { HMAC, 20, 64, 32, 0, 0 },         { HMAC, 64, 300, 32, 0, 0 },         { HMAC, 131, 0, 32, 0, 0 },
    { HMAC, 64, 20, 31, KV_ROOM, 0 },    { AKA, 16, 4, 208, 0, 0 },          { AKA, 16, 4, 207, KV_ROOM, 0 },     { AKA, 15, 4, 208, KV_AKA_INPUT_LENGTH, 0 },
    { USAGE, 64, 0, 64, 0, 0 },          { USAGE, 65, 100, 32, 0, 0 },       { USAGE, 128, 30, 100, 0, 0 },       { USAGE, 100, 1, 1, 0, 0 },
    { USAGE, 63, 0, 64, KV_ROOT_KEY_LENGTH, 0 }, { USAGE, 129, 0, 64, KV_ROOT_KEY_LENGTH, 0 }, { USAGE, 64, 2049, 64, KV_DATA_LENGTH, 0 },
    { VRK, 64, 0, 64, 0, 0 },            { VRK, 128, 0, 64, 0, 0 },          { VRK, 64, 0, 63, KV_ROOM, 0 },      { VMSK, 64, 0, 64, 0, 0 },
    { VMSK, 90, 0, 64, 0, 0 },           { VMSK, 64, 0, 0, KV_ROOM, 0 },     { V_RRK, 64, 0, 64, 0, 0 },          { V_RRK, 128, 0, 64, 0, 0 },
    { DSRK, 64, 0, 64, 0, 0 },           { DSRK, 128, 0, 64, 0, 0 },         { DSRK, 60, 0, 64, KV_ROOT_KEY_LENGTH, 0 }, { RRK, 64, 0, 64, 0, 0 },
    { RRK, 65, 0, 64, KV_ROOT_KEY_LENGTH, 0 }, { R0, 64, 0, 32, 0, 0 },      { R0, 63, 0, 32, KV_HANDOVER_KEY_LENGTH, 0 }, { R0, 64, 0, 31, KV_ROOM, 0 },
    { R1, 32, 0, 32, 0, 0 },             { R1, 32, 0, 31, KV_ROOM, 0 },      { R0_NAME, 32, 0, 16, 0, 0 },        { R0_NAME, 31, 0, 16, KV_HANDOVER_KEY_LENGTH, 0 },
    { WRITE, 16, 16, 252, 0, 0 },        { WRITE, 16, 32, 252, 0, 0 },       { WRITE, 16, 64, 252, 0, 0 },        { WRITE, 16, 128, 252, 0, 0 },
    { WRITE, 16, 192, 252, 0, 0 },       { WRITE, 15, 16, 252, KV_KEK_LENGTH, 0 }, { WRITE, 16, 15, 252, KV_KEY_TO_WRAP_LENGTH, 0 }, { WRITE, 16, 192, 251, KV_ROOM, 0 },
    { READ, 16, 16, 192, 0, 0 },         { READ, 16, 24, 192, 0, 0 },        { READ, 16, 104, 192, 0, 0 },        { READ, 16, 192, 192, 0, 0 },
    { READ, 16, 16, 192, KV_INTEGRITY, 1 }, { READ, 16, 192, 192, KV_INTEGRITY, 200 }, { READ, 16, 192, 191, KV_ROOM, 0 }, { SIGN, 64, 72, 0, 0, 0 },
    { SIGN, 128, 200, 0, 0, 0 },         { SIGN, 64, 1000, 0, 0, 0 },        { SIGN, 63, 72, 0, KV_ROOT_KEY_LENGTH, 0 }, { CHECK, 64, 72, 0, 0, 0 },
    { CHECK, 128, 1000, 0, 0, 0 },       { CHECK, 64, 72, 0, KV_MAC_DIFFERS, 1 }, { CHECK, 64, 72, 0, KV_MAC_DIFFERS, 32 },
#ifdef WRONG_COMPARISON
    { CHECK, 64, 72, 0, KV_MAC_DIFFERS, 2 },
#endif
};

const size_t case_count = sizeof rows / sizeof *rows;
const char *case_name(size_t which) { return names[rows[which].call]; }
uint32_t case_refusal(size_t which) { return rows[which].refusal; }

#define MAC_TYPE 26
#define MAC_AT 40

static uint8_t secret[256], extra[4096], sent[4096], out[256];
static const uint8_t ids[32] = "kek id 00000001key id 00000001", text[2100], spa[KV_SPA_LEN] = "\2\1\1\1\1";

/* The bytes of a set. No branch goes by what they are. */
static void fill(uint8_t *bytes, size_t n, int set, uint32_t state)
{
    static const uint8_t keep[SETS] = { 0, 0, 255, 255, 255 }, add[SETS] = { 0, 255, 0, 0, 0 };
    state += 0x9e3779b9u * (uint32_t)set;
    for (size_t i = 0; i < n; i++) {
        state = state * 1664525u + 1013904223u;
        bytes[i] = (uint8_t)(((state >> 24) & keep[set]) | add[set]);
    }
}

/* A packet of one attribute of other types and the place of the MAC. */
static void build_packet(uint8_t *packet, size_t n)
{
    memset(packet, 0, n);
    packet[0] = 1, packet[2] = (uint8_t)(n >> 8), packet[3] = (uint8_t)n;
    packet[20] = MAC_TYPE, packet[21] = 52, packet[23] = 2;
    for (size_t at = 72; at < n; at += packet[at + 1]) {
        size_t rest = n - at;
        packet[at] = 1, packet[at + 1] = (uint8_t)(rest > 250 ? 200 : rest);
    }
}

#ifdef WRONG_COMPARISON
/* What must be seen to fail: a comparison that stops at the first difference. */
static uint32_t wrong_check(size_t key_len, size_t n)
{
    uint8_t mac[32], copy[4096];
    memcpy(copy, sent, n);
    memset(copy + MAC_AT, 0, sizeof mac);
    (void)!kv_hmac_sha256(secret, key_len, copy, n, mac, sizeof mac).refusal;
    for (size_t i = 0; i < sizeof mac; i++)
        if (((volatile uint8_t *)mac)[i] != sent[MAC_AT + i])
            return KV_MAC_DIFFERS;
    return KV_ACCEPTED;
}
#endif

static uint32_t ask(const row *r, size_t prepared)
{
    switch (r->call) {
    case SHA256: return kv_sha256(extra, r->size, out, r->room).refusal;
    case HMAC: return kv_hmac_sha256(secret, r->secret, extra, r->size, out, r->room).refusal;
    case AKA: return kv_aka_keys(secret, r->secret, secret + 16, 16, text, r->size, spa, 6, ids, 16, out, r->room).refusal;
    case USAGE: return kv_usage_key(secret, r->secret, ids, 3, text, r->size, r->room, out, r->room).refusal;
    case VRK: return kv_visited_root_key(secret, r->secret, out, r->room).refusal;
    case VMSK: return kv_visited_master_key(secret, r->secret, ids, 3, ids, 3, out, r->room).refusal;
    case V_RRK: return kv_visited_reauth_key(secret, r->secret, out, r->room).refusal;
    case DSRK: return kv_domain_root_key(secret, r->secret, ids, 3, out, r->room).refusal;
    case RRK: return kv_domain_reauth_key(secret, r->secret, out, r->room).refusal;
    case R0: return kv_r0_key(secret, r->secret, ids, 16, spa, 6, out, r->room).refusal;
    case R1: return kv_r1_key(secret, r->secret, ids, 16, ids + 16, 16, spa, 6, out, r->room).refusal;
    case R0_NAME: return kv_r0_name(secret, r->secret, ids, 16, spa, 6, out, r->room).refusal;
    case WRITE: return kv_write_key_attribute(1, 2, ids, 16, ids + 16, 16, 3, secret, r->secret, extra, r->size, out, r->room).refusal;
    case READ: return kv_read_key_attribute(secret, r->secret, sent, prepared, out, r->room).refusal;
    case SIGN: return kv_sign_packet(secret, r->secret, MAC_TYPE, sent, r->size).refusal;
    default:
#ifdef WRONG_COMPARISON
        if (r->spoilt == 2)
            return wrong_check(r->secret, r->size);
#endif
        return kv_check_packet(secret, r->secret, MAC_TYPE, sent, r->size).refusal;
    }
}

uint32_t make_case(size_t which, int set)
{
    const row *r = &rows[which];
    size_t prepared = r->size + 60u;
    uint32_t refusal;
    fill(secret, sizeof secret, set, 1);
    fill(extra, r->call == SHA256 || r->call == HMAC || r->call == WRITE || r->call == READ ? r->size : 0, set, 2);
    if (r->call == READ) {
        (void)!kv_write_key_attribute(1, 2, ids, 16, ids + 16, 16, 3, secret, r->secret, extra, r->size, sent, sizeof sent).refusal;
        sent[51 + (r->spoilt > 0 ? r->spoilt : 1)] ^= r->spoilt > 0;
    }
    if (r->call == SIGN || r->call == CHECK)
        build_packet(sent, r->size);
    if (r->call == CHECK) {
        (void)!kv_sign_packet(secret, r->secret, MAC_TYPE, sent, r->size).refusal;
        sent[MAC_AT + (r->spoilt + 7u * (unsigned)set) % 32] ^= r->spoilt > 0;
    }
    memset(out, 0, sizeof out);
    secret_is(secret, sizeof secret);
    secret_is(extra, r->call == SHA256 || r->call == HMAC || r->call == WRITE ? r->size : 0);
    refusal = ask(r, prepared);
    public_is(secret, sizeof secret);
    public_is(extra, sizeof extra);
    public_is(sent, sizeof sent);
    public_is(out, sizeof out);
    public_is(&refusal, sizeof refusal);
    return refusal;
}
