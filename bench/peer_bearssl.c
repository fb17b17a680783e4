/* BearSSL. Its HMAC key holds the two states after the pads. It has no key wrap, so the wrap is over its functions for one block, which
 * its archive has and its public header leaves out: over CBC of one block AES would take a fifth more. AES is big (tables of four-byte
 * entries) or small (the S-box alone). */
#include "peer.h"
#include "rfc3394.h"
#include <bearssl.h>

#define JOIN2(a, b, c) a##b##c
#define JOIN(a, b, c) JOIN2(a, b, c)
#define AES_OF(name) JOIN(br_aes_, AES, _##name)

/* as in its src/inner.h: the round keys, those of the inverse cipher with tables, and one block in place */
unsigned br_aes_keysched(uint32_t *skey, const void *key, size_t key_len);
unsigned br_aes_big_keysched_inv(uint32_t *skey, const void *key, size_t key_len);
void AES_OF(encrypt)(unsigned num_rounds, const uint32_t *skey, void *data);
void AES_OF(decrypt)(unsigned num_rounds, const uint32_t *skey, void *data);
#define KEYS_big br_aes_big_keysched_inv
#define KEYS_small br_aes_keysched
#define INVERSE_KEYS JOIN(KEYS_, AES, )

void peer_sha256(const uint8_t *message, size_t len, uint8_t out[32])
{
    br_sha256_context c;
    br_sha256_init(&c);
    br_sha256_update(&c, message, len);
    br_sha256_out(&c, out);
}

void peer_expand(const uint8_t *key, size_t key_len, const uint8_t *label, size_t label_len, const uint8_t *data, size_t data_len,
                 size_t n, uint8_t *out)
{
    br_hmac_key_context k;
    br_hmac_context c;
    uint8_t t[32], zero = 0, length[2] = {(uint8_t)(n >> 8), (uint8_t)n}, i = 0;
    br_hmac_key_init(&k, &br_sha256_vtable, key, key_len);
    for (size_t done = 0; done < n; done += 32) {
        br_hmac_init(&c, &k, 0);
        if (i++)
            br_hmac_update(&c, t, 32);
        br_hmac_update(&c, label, label_len);
        br_hmac_update(&c, &zero, 1);
        br_hmac_update(&c, data, data_len);
        br_hmac_update(&c, length, 2);
        br_hmac_update(&c, &i, 1);
        br_hmac_out(&c, t);
        memcpy(out + done, t, n - done < 32 ? n - done : 32);
    }
}

void peer_kdf(const uint8_t *key, uint8_t *text, size_t len, uint8_t *out)
{
    br_hmac_key_context k;
    br_hmac_context c;
    uint8_t t[40];
    br_hmac_key_init(&k, &br_sha1_vtable, key, 32);
    for (int i = 0; i < 2; i++) {
        text[0] = (uint8_t)(i + 1);
        br_hmac_init(&c, &k, 0);
        br_hmac_update(&c, text, len);
        br_hmac_out(&c, t + 20 * i);
    }
    memcpy(out, t, 32);
}

void peer_hmac(const uint8_t *key, size_t key_len, const part *parts, size_t count, uint8_t out[32])
{
    br_hmac_key_context k;
    br_hmac_context c;
    br_hmac_key_init(&k, &br_sha256_vtable, key, key_len);
    br_hmac_init(&c, &k, 0);
    for (size_t i = 0; i < count; i++)
        br_hmac_update(&c, parts[i].bytes, parts[i].count);
    br_hmac_out(&c, out);
}

/* a key's schedule: ten rounds for a key of 16 bytes */
typedef struct {
    uint32_t words[44];
} schedule;

static void encrypt(void *aes, uint8_t *b)
{
    AES_OF(encrypt)(10, ((schedule *)aes)->words, b);
}

static void decrypt(void *aes, uint8_t *b)
{
    AES_OF(decrypt)(10, ((schedule *)aes)->words, b);
}

void peer_wrap(const uint8_t *kek, const uint8_t *key, size_t key_len, uint8_t *out)
{
    schedule aes;
    br_aes_keysched(aes.words, kek, 16);
    rfc3394_wrap(encrypt, &aes, key, key_len, out);
}

int peer_unwrap(const uint8_t *kek, const uint8_t *in, size_t key_len, uint8_t *out)
{
    schedule aes;
    INVERSE_KEYS(aes.words, kek, 16);
    return rfc3394_unwrap(decrypt, &aes, in, key_len, out);
}
