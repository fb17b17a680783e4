/* What a library supplies so that calls.c can make calls of include/ketvaulo.h of it. All inputs were checked by calls.c. */
#ifndef PEER_H
#define PEER_H
#include <stddef.h>
#include <stdint.h>

void peer_sha256(const uint8_t *message, size_t len, uint8_t out[32]);

/* prf+ with S = label, 0, data, n in two bytes: n bytes to out. */
void peer_expand(const uint8_t *key, size_t key_len, const uint8_t *label, size_t label_len, const uint8_t *data, size_t data_len,
                 size_t n, uint8_t *out);

/* The 32 bytes that HMAC-SHA-1 under a key of 32 bytes begins with, over the text with 1 and then with 2 as its first byte. */
void peer_kdf(const uint8_t *key, uint8_t *text, size_t len, uint8_t *out);

/* HMAC-SHA-256 of a message in parts. */
typedef struct {
    const uint8_t *bytes;
    size_t count;
} part;
void peer_hmac(const uint8_t *key, size_t key_len, const part *parts, size_t count, uint8_t out[32]);

/* RFC 3394 under a KEK of 16 bytes: key_len bytes to key_len + 8, and back. peer_unwrap is 0 where the initial value is not found. */
void peer_wrap(const uint8_t *kek, const uint8_t *key, size_t key_len, uint8_t *out);
int peer_unwrap(const uint8_t *kek, const uint8_t *in, size_t key_len, uint8_t *out);

#endif
