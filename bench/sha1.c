/* SHA-1's compression alone: what a block costs, over one library. bench/sha1 builds one such program for each.

   Prints 'LIBRARY BLOCK', by callgrind's or qemu's count of a call over 1 block and of one over 17. First the hash value after one block, the padded
   "abc" of FIPS 180-4's example, is compared with the digest that the standard's examples print: the program stops where it differs. */
#include <stdint.h>
#include <string.h>

enum { FEW = 1, MANY = 17 };
static uint8_t message[64 * MANY];

#if defined KETVAULO
/* The library exports no SHA-1. This is its compression as it stands in the archive, under a name that bench/sha1 gives it: it brings the hash value h to
   the one after the whole blocks of a message. */
void compress_blocks(uint32_t *h, const uint8_t *at, uint64_t len);
static uint32_t value[5];
static void start(void) { memcpy(value, (const uint32_t[5]){0x67452301, 0xefcdab89, 0x98badcfe, 0x10325476, 0xc3d2e1f0}, 20); }
static void blocks(uint64_t n) { compress_blocks(value, message, 64 * n); }
static const uint32_t *words(void) { return value; }
#elif defined BEARSSL
#include <bearssl.h>
static br_sha1_context sha1;
static void start(void) { br_sha1_init(&sha1); }
static void blocks(uint64_t n) { br_sha1_update(&sha1, message, 64 * n); }
static const uint32_t *words(void) { return sha1.val; }
#elif defined MBEDTLS
#include <mbedtls/sha1.h>
static mbedtls_sha1_context sha1;
static void start(void) { mbedtls_sha1_init(&sha1), mbedtls_sha1_starts_ret(&sha1); }
static void blocks(uint64_t n) { mbedtls_sha1_update_ret(&sha1, message, 64 * n); }
static const uint32_t *words(void) { return sha1.state; }
#elif defined WOLFSSL
#include <wolfssl/options.h>
#include <wolfssl/wolfcrypt/sha.h>
static wc_Sha sha1;
static void start(void) { wc_InitSha(&sha1); }
static void blocks(uint64_t n) { wc_ShaUpdate(&sha1, message, 64 * n); }
static const uint32_t *words(void) { return sha1.digest; }
#elif defined OPENSSL
#define OPENSSL_SUPPRESS_DEPRECATED
#include <openssl/sha.h>
static SHA_CTX sha1;
static void start(void) { SHA1_Init(&sha1); }
static void blocks(uint64_t n) { SHA1_Update(&sha1, message, 64 * n); }
static const uint32_t *words(void)
{
    static uint32_t h[5];
    return memcpy(h, (uint32_t[]){sha1.h0, sha1.h1, sha1.h2, sha1.h3, sha1.h4}, 20);
}
#endif

static int is_abc(void)
{
    memcpy(message, "abc\x80", 4);
    message[63] = 24;
    start();
    blocks(1);
    return !memcmp(words(), (const uint32_t[5]){0xa9993e36, 0x4706816a, 0xba3e2571, 0x7850c26c, 0x9cd0d89d}, 20);
}
static void few(void) { blocks(FEW); }
static void many(void) { blocks(MANY); }

#ifdef BARE
#include "port.h"
static volatile uint32_t *const timer = (volatile uint32_t *)0x40000000; /* as in bench/m4/main.c */
static uint32_t instructions(void (*call)(void))
{
    timer[0] = 0;
    timer[2] = timer[1] = 0xffffffff;
    timer[0] = 1;
    call();
    return (uint32_t)((uint64_t)(0xffffffff - timer[1]) * 5 >> 5);
}
int program(void)
{
    char text[12] = "", *at = text + sizeof text - 1;
    if (!is_abc())
        return 1;
    start();
    uint32_t n = (instructions(many) - instructions(few)) / (MANY - FEW);
    do
        *--at = (char)('0' + n % 10);
    while (n /= 10);
    put(at);
    put("\n");
    return 0;
}
#else
#include <valgrind/callgrind.h>
static void count(const char *name, void (*call)(void))
{
    call();
    CALLGRIND_ZERO_STATS;
    CALLGRIND_TOGGLE_COLLECT;
    call();
    CALLGRIND_TOGGLE_COLLECT;
    CALLGRIND_DUMP_STATS_AT(name);
}
int main(void)
{
    if (!is_abc())
        return 1;
    start();
    count("few", few);
    count("many", many);
    return 0;
}
#endif
