/* The functions of the C library that the programs and the library need. None of them reads or writes a word at an address that 4 does not
 * divide, so that they work where unaligned access is trapped. */
#include "port.h"

#include <stdint.h>
#include <stdio.h>
#include <stdlib.h>
#include <string.h>

typedef uint32_t __attribute__((may_alias)) word;

static int aligned(const void *address) { return (uintptr_t)address % sizeof(word) == 0; }

void *memcpy(void *restrict to, const void *restrict from, size_t n)
{
    size_t i = 0;
    if (aligned(to) && aligned(from))
        for (; n - i >= sizeof(word); i += sizeof(word))
            *(word *)((char *)to + i) = *(const word *)((const char *)from + i);
    for (; i < n; i++)
        ((char *)to)[i] = ((const char *)from)[i];
    return to;
}

void *memmove(void *to, const void *from, size_t n)
{
    if ((char *)to < (const char *)from)
        for (size_t i = 0; i < n; i++)
            ((char *)to)[i] = ((const char *)from)[i];
    else
        for (size_t i = n; i > 0; i--)
            ((char *)to)[i - 1] = ((const char *)from)[i - 1];
    return to;
}

void *memset(void *to, int byte, size_t n)
{
    size_t i = 0;
    if (aligned(to))
        for (; n - i >= sizeof(word); i += sizeof(word))
            *(word *)((char *)to + i) = 0x01010101u * (uint8_t)byte;
    for (; i < n; i++)
        ((char *)to)[i] = (char)byte;
    return to;
}

int memcmp(const void *first, const void *second, size_t n)
{
    const unsigned char *a = first, *b = second;
    for (size_t i = 0; i < n; i++)
        if (a[i] != b[i])
            return a[i] - b[i];
    return 0;
}

/* Blocks lie one after another. Once every block is freed, the heap starts anew: so it does after each request. */
static _Alignas(8) char heap[400 * 1024];
static size_t used, blocks;

void *malloc(size_t size)
{
    void *block = heap + used;
    if (size > sizeof heap - used)
        return NULL;
    used += (size + 7) / 8 * 8;
    blocks++;
    return block;
}

void free(void *block)
{
    if (block != NULL && --blocks == 0)
        used = 0;
}

_Noreturn void abort(void) { leave(3); }
_Noreturn void exit(int status) { leave(status); }

static void put_char(char c) { put((const char[2]){ c, 0 }); }

static void put_digits(unsigned number, unsigned base, int least)
{
    char text[11], *at = text + sizeof text;
    *--at = 0;
    for (; number > 0 || least > 0; number /= base, least--)
        *--at = "0123456789abcdef"[number % base];
    put(at);
}

static void print(const char *format, __builtin_va_list values)
{
    for (; *format != 0; format++) {
        if (*format != '%') {
            put_char(*format);
            continue;
        }
        int most = -1, width = 1;
        format++;
        if (format[0] == '.' && format[1] == '*')
            most = __builtin_va_arg(values, int), format += 2;
        else if (format[0] == '.')
            for (most = 0, format++; *format <= '9'; format++)
                most = 10 * most + *format - '0';
        else if (format[0] == '0')
            width = format[1] - '0', format += 2;
        if (*format == 's')
            for (const char *text = __builtin_va_arg(values, const char *); most-- != 0 && *text != 0; text++)
                put_char(*text);
        else
            put_digits(__builtin_va_arg(values, unsigned), *format == 'x' ? 16 : 10, width);
    }
}

int printf(const char *format, ...)
{
    __builtin_va_list values;
    __builtin_va_start(values, format);
    print(format, values);
    __builtin_va_end(values);
    return 0;
}

int fprintf(int stream, const char *format, ...)
{
    __builtin_va_list values;
    (void)stream;
    __builtin_va_start(values, format);
    print(format, values);
    __builtin_va_end(values);
    return 0;
}

#ifdef __ARM_EABI__
/* What Cortex-M0+ has no instruction for, by the names of Arm's run-time ABI. Only the programs need these, never the library. */
typedef unsigned u32;
typedef unsigned long long u64;

static u64 pair(u32 high, u32 low) { return (u64)high << 32 | low; }

u64 __aeabi_llsl(u64 number, int by);
u64 __aeabi_llsl(u64 number, int by)
{
    u32 high = (u32)(number >> 32), low = (u32)number;
    if (by >= 32)
        return pair(by < 64 ? low << (by - 32) : 0, 0);
    return by == 0 ? number : pair(high << by | low >> (32 - by), low << by);
}

u64 __aeabi_llsr(u64 number, int by);
u64 __aeabi_llsr(u64 number, int by)
{
    u32 high = (u32)(number >> 32), low = (u32)number;
    if (by >= 32)
        return pair(0, by < 64 ? high >> (by - 32) : 0);
    return by == 0 ? number : pair(high >> by, low >> by | high << (32 - by));
}

u64 __aeabi_lmul(u64 a, u64 b);
u64 __aeabi_lmul(u64 a, u64 b)
{
    u32 al = (u32)a & 0xffff, ah = (u32)a >> 16, bl = (u32)b & 0xffff, bh = (u32)b >> 16;
    u32 low = al * bl, middle = ah * bl + (low >> 16), other = al * bh + (middle & 0xffff);
    u32 high = ah * bh + (middle >> 16) + (other >> 16);
    return pair(high + (u32)(a >> 32) * (u32)b + (u32)a * (u32)(b >> 32), other << 16 | (low & 0xffff));
}

/* The quotient in r0 and the remainder in r1. */
u64 __aeabi_uidivmod(u32 n, u32 by);
u64 __aeabi_uidivmod(u32 n, u32 by)
{
    u32 quotient = 0, rest = 0;
    for (int i = 31; i >= 0; i--) {
        u32 over = rest >> 31;
        rest = rest << 1 | (n >> i & 1);
        if (over || rest >= by) {
            rest -= by;
            quotient |= 1u << i;
        }
    }
    return pair(rest, quotient);
}

u32 __aeabi_uidiv(u32 n, u32 by);
u32 __aeabi_uidiv(u32 n, u32 by) { return (u32)__aeabi_uidivmod(n, by); }
#endif
