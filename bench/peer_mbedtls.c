/* mbedTLS. Its HMAC keeps the two pads and hashes them again for each block. Debian builds it without a key wrap, so that is over its
 * AES; with --wrap=mbedtls_aesni_has_support that AES does without the processor's help. */
#include "peer.h"
#include "rfc3394.h"
#include <mbedtls/aes.h>
#include <mbedtls/md.h>
#include <mbedtls/sha256.h>

int __wrap_mbedtls_aesni_has_support(unsigned what);
int __wrap_mbedtls_aesni_has_support(unsigned what)
{
    (void)what;
    return 0;
}

void peer_sha256(const uint8_t *message, size_t len, uint8_t out[32]) { mbedtls_sha256_ret(message, len, out, 0); }

void peer_expand(const uint8_t *key, size_t key_len, const uint8_t *label, size_t label_len, const uint8_t *data, size_t data_len,
                 size_t n, uint8_t *out)
{
    mbedtls_md_context_t c;
    uint8_t t[32], zero = 0, length[2] = {(uint8_t)(n >> 8), (uint8_t)n}, i = 0;
    mbedtls_md_init(&c);
    mbedtls_md_setup(&c, mbedtls_md_info_from_type(MBEDTLS_MD_SHA256), 1);
    mbedtls_md_hmac_starts(&c, key, key_len);
    for (size_t done = 0; done < n; done += 32) {
        if (i++) {
            mbedtls_md_hmac_reset(&c);
            mbedtls_md_hmac_update(&c, t, 32);
        }
        mbedtls_md_hmac_update(&c, label, label_len);
        mbedtls_md_hmac_update(&c, &zero, 1);
        mbedtls_md_hmac_update(&c, data, data_len);
        mbedtls_md_hmac_update(&c, length, 2);
        mbedtls_md_hmac_update(&c, &i, 1);
        mbedtls_md_hmac_finish(&c, t);
        memcpy(out + done, t, n - done < 32 ? n - done : 32);
    }
    mbedtls_md_free(&c);
}

void peer_kdf(const uint8_t *key, uint8_t *text, size_t len, uint8_t *out)
{
    mbedtls_md_context_t c;
    uint8_t t[40];
    mbedtls_md_init(&c);
    mbedtls_md_setup(&c, mbedtls_md_info_from_type(MBEDTLS_MD_SHA1), 1);
    mbedtls_md_hmac_starts(&c, key, 32);
    for (int i = 0; i < 2; i++) {
        if (i)
            mbedtls_md_hmac_reset(&c);
        text[0] = (uint8_t)(i + 1);
        mbedtls_md_hmac_update(&c, text, len);
        mbedtls_md_hmac_finish(&c, t + 20 * i);
    }
    mbedtls_md_free(&c);
    memcpy(out, t, 32);
}

void peer_hmac(const uint8_t *key, size_t key_len, const part *parts, size_t count, uint8_t out[32])
{
    mbedtls_md_context_t c;
    mbedtls_md_init(&c);
    mbedtls_md_setup(&c, mbedtls_md_info_from_type(MBEDTLS_MD_SHA256), 1);
    mbedtls_md_hmac_starts(&c, key, key_len);
    for (size_t i = 0; i < count; i++)
        mbedtls_md_hmac_update(&c, parts[i].bytes, parts[i].count);
    mbedtls_md_hmac_finish(&c, out);
    mbedtls_md_free(&c);
}

static void encrypt(void *aes, uint8_t *b) { mbedtls_aes_crypt_ecb(aes, MBEDTLS_AES_ENCRYPT, b, b); }
static void decrypt(void *aes, uint8_t *b) { mbedtls_aes_crypt_ecb(aes, MBEDTLS_AES_DECRYPT, b, b); }

void peer_wrap(const uint8_t *kek, const uint8_t *key, size_t key_len, uint8_t *out)
{
    mbedtls_aes_context aes;
    mbedtls_aes_init(&aes);
    mbedtls_aes_setkey_enc(&aes, kek, 128);
    rfc3394_wrap(encrypt, &aes, key, key_len, out);
    mbedtls_aes_free(&aes);
}

int peer_unwrap(const uint8_t *kek, const uint8_t *in, size_t key_len, uint8_t *out)
{
    mbedtls_aes_context aes;
    mbedtls_aes_init(&aes);
    mbedtls_aes_setkey_dec(&aes, kek, 128);
    int found = rfc3394_unwrap(decrypt, &aes, in, key_len, out);
    mbedtls_aes_free(&aes);
    return found;
}
