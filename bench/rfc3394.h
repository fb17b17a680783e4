/* RFC 3394 over one block of AES at a time, for the libraries that have AES and no key wrap. Inlined, so that `block`, which works in
 * place on 16 bytes, is called directly. */
#ifndef RFC3394_H
#define RFC3394_H
#include <stddef.h>
#include <stdint.h>
#include <string.h>

static inline __attribute__((always_inline)) void rfc3394_wrap(void (*block)(void *aes, uint8_t *b), void *aes, const uint8_t *key,
                                                               size_t key_len, uint8_t *out)
{
    uint8_t b[16], step = 1; /* at most 6 * 24 steps */
    memset(b, 0xa6, 8);
    memcpy(out + 8, key, key_len);
    for (int round = 0; round < 6; round++)
        for (size_t at = 8; at <= key_len; at += 8) {
            memcpy(b + 8, out + at, 8);
            block(aes, b);
            b[7] ^= step++;
            memcpy(out + at, b + 8, 8);
        }
    memcpy(out, b, 8);
}

static inline __attribute__((always_inline)) int rfc3394_unwrap(void (*block)(void *aes, uint8_t *b), void *aes, const uint8_t *in,
                                                                size_t key_len, uint8_t *out)
{
    uint8_t b[16], wrong = 0, step = (uint8_t)(6 * key_len / 8);
    memcpy(b, in, 8);
    memcpy(out, in + 8, key_len);
    for (int round = 0; round < 6; round++)
        for (size_t at = key_len; at; at -= 8) {
            b[7] ^= step--;
            memcpy(b + 8, out + at - 8, 8);
            block(aes, b);
            memcpy(out + at - 8, b + 8, 8);
        }
    for (int i = 0; i < 8; i++)
        wrong |= b[i] ^ 0xa6;
    return !wrong;
}

#endif
