/* wolfSSL's wolfCrypt. Its HMAC keeps the two pads and hashes them again for each block. */
#include "peer.h"
#include <wolfssl/options.h>
#include <wolfssl/wolfcrypt/aes.h>
#include <wolfssl/wolfcrypt/hmac.h>
#include <wolfssl/wolfcrypt/sha256.h>
#include <string.h>

void peer_sha256(const uint8_t *message, size_t len, uint8_t out[32])
{
    wc_Sha256 c;
    wc_InitSha256(&c);
    wc_Sha256Update(&c, message, (word32)len);
    wc_Sha256Final(&c, out);
}

void peer_expand(const uint8_t *key, size_t key_len, const uint8_t *label, size_t label_len, const uint8_t *data, size_t data_len,
                 size_t n, uint8_t *out)
{
    Hmac c;
    uint8_t t[32], zero = 0, length[2] = {(uint8_t)(n >> 8), (uint8_t)n}, i = 0;
    wc_HmacInit(&c, NULL, INVALID_DEVID);
    wc_HmacSetKey(&c, WC_SHA256, key, (word32)key_len);
    for (size_t done = 0; done < n; done += 32) {
        if (i++)
            wc_HmacUpdate(&c, t, 32);
        wc_HmacUpdate(&c, label, (word32)label_len);
        wc_HmacUpdate(&c, &zero, 1);
        if (data_len)
            wc_HmacUpdate(&c, data, (word32)data_len);
        wc_HmacUpdate(&c, length, 2);
        wc_HmacUpdate(&c, &i, 1);
        wc_HmacFinal(&c, t);
        memcpy(out + done, t, n - done < 32 ? n - done : 32);
    }
    wc_HmacFree(&c);
}

void peer_kdf(const uint8_t *key, uint8_t *text, size_t len, uint8_t *out)
{
    Hmac c;
    uint8_t t[40];
    wc_HmacInit(&c, NULL, INVALID_DEVID);
    wc_HmacSetKey(&c, WC_SHA, key, 32);
    for (int i = 0; i < 2; i++) {
        text[0] = (uint8_t)(i + 1);
        wc_HmacUpdate(&c, text, (word32)len);
        wc_HmacFinal(&c, t + 20 * i);
    }
    wc_HmacFree(&c);
    memcpy(out, t, 32);
}

void peer_hmac(const uint8_t *key, size_t key_len, const part *parts, size_t count, uint8_t out[32])
{
    Hmac c;
    wc_HmacInit(&c, NULL, INVALID_DEVID);
    wc_HmacSetKey(&c, WC_SHA256, key, (word32)key_len);
    for (size_t i = 0; i < count; i++)
        wc_HmacUpdate(&c, parts[i].bytes, (word32)parts[i].count);
    wc_HmacFinal(&c, out);
    wc_HmacFree(&c);
}

void peer_wrap(const uint8_t *kek, const uint8_t *key, size_t key_len, uint8_t *out)
{
    wc_AesKeyWrap(kek, 16, key, (word32)key_len, out, (word32)key_len + 8, NULL);
}

int peer_unwrap(const uint8_t *kek, const uint8_t *in, size_t key_len, uint8_t *out)
{
    return wc_AesKeyUnWrap(kek, 16, in, (word32)key_len + 8, out, (word32)key_len, NULL) == (int)key_len;
}
