/* The internal crypto of hostap (hostapd and wpa_supplicant): hmac_sha256_kdf, which is RFC 5295's, aes_wrap and aes_unwrap. It keys HMAC
 * anew for each block. The declarations are repeated here, so that no header of it is needed. */
#include "peer.h"
#include <string.h>

int sha256_vector(size_t num, const uint8_t *addr[], const size_t *len, uint8_t *mac);
int hmac_sha256_kdf(const uint8_t *secret, size_t secret_len, const char *label, const uint8_t *seed, size_t seed_len, uint8_t *out,
                    size_t outlen);
int hmac_sha1(const uint8_t *key, size_t key_len, const uint8_t *data, size_t data_len, uint8_t *mac);
int hmac_sha256_vector(const uint8_t *key, size_t key_len, size_t num_elem, const uint8_t *addr[], const size_t *len, uint8_t *mac);
int aes_wrap(const uint8_t *kek, size_t kek_len, int n, const uint8_t *plain, uint8_t *cipher);
int aes_unwrap(const uint8_t *kek, size_t kek_len, int n, const uint8_t *cipher, uint8_t *plain);

void peer_sha256(const uint8_t *message, size_t len, uint8_t out[32])
{
    sha256_vector(1, &message, &len, out);
}

void peer_expand(const uint8_t *key, size_t key_len, const uint8_t *label, size_t label_len, const uint8_t *data, size_t data_len,
                 size_t n, uint8_t *out)
{
    char text[256]; /* the KDF takes the label as a string, and its end for the zero byte */
    uint8_t seed[2048 + 2];
    memcpy(text, label, label_len);
    text[label_len] = 0;
    memcpy(seed, data, data_len);
    seed[data_len] = (uint8_t)(n >> 8);
    seed[data_len + 1] = (uint8_t)n;
    hmac_sha256_kdf(key, key_len, text, seed, data_len + 2, out, n);
}

void peer_kdf(const uint8_t *key, uint8_t *text, size_t len, uint8_t *out)
{
    uint8_t t[40];
    for (int i = 0; i < 2; i++) {
        text[0] = (uint8_t)(i + 1);
        hmac_sha1(key, 32, text, len, t + 20 * i);
    }
    memcpy(out, t, 32);
}

void peer_hmac(const uint8_t *key, size_t key_len, const part *parts, size_t count, uint8_t out[32])
{
    const uint8_t *at[6];
    size_t len[6];
    for (size_t i = 0; i < count; i++) {
        at[i] = parts[i].bytes;
        len[i] = parts[i].count;
    }
    hmac_sha256_vector(key, key_len, count, at, len, out);
}

void peer_wrap(const uint8_t *kek, const uint8_t *key, size_t key_len, uint8_t *out)
{
    aes_wrap(kek, 16, (int)(key_len / 8), key, out);
}

int peer_unwrap(const uint8_t *kek, const uint8_t *in, size_t key_len, uint8_t *out)
{
    return !aes_unwrap(kek, 16, (int)(key_len / 8), in, out);
}
