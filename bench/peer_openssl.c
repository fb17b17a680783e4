/* OpenSSL's libcrypto by its low-level functions: SHA256_CTX copied after each pad, AES_wrap_key. They take no memory; deprecated since
 * 3.0, and the leanest that it has. */
#define OPENSSL_SUPPRESS_DEPRECATED
#include "peer.h"
#include <openssl/aes.h>
#include <openssl/sha.h>
#include <string.h>

void peer_sha256(const uint8_t *message, size_t len, uint8_t out[32])
{
    SHA256_CTX c;
    SHA256_Init(&c);
    SHA256_Update(&c, message, len);
    SHA256_Final(out, &c);
}

void peer_expand(const uint8_t *key, size_t key_len, const uint8_t *label, size_t label_len, const uint8_t *data, size_t data_len,
                 size_t n, uint8_t *out)
{
    SHA256_CTX inner, outer, c;
    uint8_t pad[64] = {0}, t[32], zero = 0, length[2] = {(uint8_t)(n >> 8), (uint8_t)n}, i = 0;
    if (key_len > 64)
        peer_sha256(key, key_len, pad);
    else
        memcpy(pad, key, key_len);
    for (int j = 0; j < 64; j++)
        pad[j] ^= 0x36;
    SHA256_Init(&inner);
    SHA256_Update(&inner, pad, 64);
    for (int j = 0; j < 64; j++)
        pad[j] ^= 0x36 ^ 0x5c;
    SHA256_Init(&outer);
    SHA256_Update(&outer, pad, 64);
    for (size_t done = 0; done < n; done += 32) {
        c = inner;
        if (i++)
            SHA256_Update(&c, t, 32);
        SHA256_Update(&c, label, label_len);
        SHA256_Update(&c, &zero, 1);
        SHA256_Update(&c, data, data_len);
        SHA256_Update(&c, length, 2);
        SHA256_Update(&c, &i, 1);
        SHA256_Final(t, &c);
        c = outer;
        SHA256_Update(&c, t, 32);
        SHA256_Final(t, &c);
        memcpy(out + done, t, n - done < 32 ? n - done : 32);
    }
}

void peer_kdf(const uint8_t *key, uint8_t *text, size_t len, uint8_t *out)
{
    SHA_CTX inner, outer, c;
    uint8_t pad[64] = {0}, t[40];
    memcpy(pad, key, 32);
    for (int j = 0; j < 64; j++)
        pad[j] ^= 0x36;
    SHA1_Init(&inner);
    SHA1_Update(&inner, pad, 64);
    for (int j = 0; j < 64; j++)
        pad[j] ^= 0x36 ^ 0x5c;
    SHA1_Init(&outer);
    SHA1_Update(&outer, pad, 64);
    for (int i = 0; i < 2; i++) {
        text[0] = (uint8_t)(i + 1);
        c = inner;
        SHA1_Update(&c, text, len);
        SHA1_Final(t + 20 * i, &c);
        c = outer;
        SHA1_Update(&c, t + 20 * i, 20);
        SHA1_Final(t + 20 * i, &c);
    }
    memcpy(out, t, 32);
}

void peer_hmac(const uint8_t *key, size_t key_len, const part *parts, size_t count, uint8_t out[32])
{
    SHA256_CTX c;
    uint8_t pad[64] = {0}, t[32];
    if (key_len > 64)
        peer_sha256(key, key_len, pad);
    else
        memcpy(pad, key, key_len);
    for (int j = 0; j < 64; j++)
        pad[j] ^= 0x36;
    SHA256_Init(&c);
    SHA256_Update(&c, pad, 64);
    for (size_t i = 0; i < count; i++)
        SHA256_Update(&c, parts[i].bytes, parts[i].count);
    SHA256_Final(t, &c);
    for (int j = 0; j < 64; j++)
        pad[j] ^= 0x36 ^ 0x5c;
    SHA256_Init(&c);
    SHA256_Update(&c, pad, 64);
    SHA256_Update(&c, t, 32);
    SHA256_Final(out, &c);
}

void peer_wrap(const uint8_t *kek, const uint8_t *key, size_t key_len, uint8_t *out)
{
    AES_KEY aes;
    AES_set_encrypt_key(kek, 128, &aes);
    AES_wrap_key(&aes, NULL, out, key, (unsigned)key_len);
}

int peer_unwrap(const uint8_t *kek, const uint8_t *in, size_t key_len, uint8_t *out)
{
    AES_KEY aes;
    AES_set_decrypt_key(kek, 128, &aes);
    return AES_unwrap_key(&aes, NULL, out, in, (unsigned)key_len + 8) > 0;
}
