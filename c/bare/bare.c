/*
 * bare.c: what the archive and the programs here need of a C library, for a board that has none. A board's own
 * library has quicker ones. Compile it with -fno-builtin, or the compiler makes each of memcpy's kind a call of itself.
 */
#include <stdarg.h>
#include <stddef.h>
#include <stdint.h>

#include "bare.h"
#include "stdio.h"
#include "string.h"

void *memcpy(void *to, const void *from, size_t length)
{
    uint8_t *t = to;
    const uint8_t *f = from;
    while (length--)
        *t++ = *f++;
    return to;
}

void *memmove(void *to, const void *from, size_t length)
{
    uint8_t *t = to;
    const uint8_t *f = from;
    if (t <= f)
        return memcpy(to, from, length);
    while (length--)
        t[length] = f[length];
    return to;
}

void *memset(void *to, int byte, size_t length)
{
    uint8_t *t = to;
    while (length--)
        *t++ = (uint8_t)byte;
    return to;
}

int memcmp(const void *first, const void *second, size_t length)
{
    const uint8_t *a = first, *b = second;
    for (; length--; a++, b++)
        if (*a != *b)
            return *a < *b ? -1 : 1;
    return 0;
}

size_t strlen(const char *text)
{
    size_t length = 0;
    while (text[length])
        length++;
    return length;
}

/* ---- Arm's own names (its run-time ABI): the fill comes last, and nothing is returned ---- */

#ifdef __arm__
#define COPIES(name, call) \
    void name(void *to, const void *from, size_t length) { call(to, from, length); }
#define FILLS(name) \
    void name(void *to, size_t length, int byte) { memset(to, byte, length); }
#define CLEARS(name) \
    void name(void *to, size_t length) { memset(to, 0, length); }
COPIES(__aeabi_memcpy, memcpy)
COPIES(__aeabi_memcpy4, memcpy)
COPIES(__aeabi_memcpy8, memcpy)
COPIES(__aeabi_memmove, memmove)
COPIES(__aeabi_memmove4, memmove)
COPIES(__aeabi_memmove8, memmove)
FILLS(__aeabi_memset)
FILLS(__aeabi_memset4)
FILLS(__aeabi_memset8)
CLEARS(__aeabi_memclr)
CLEARS(__aeabi_memclr4)
CLEARS(__aeabi_memclr8)

/* Division of 64 bits, bit by bit. __aeabi_uldivmod gives both, the quotient in r0, r1, the remainder in r2, r3. */
uint64_t divided(uint64_t number, uint64_t by, uint64_t *remainder)
{
    uint64_t quotient = 0, rest = 0;
    int bit;
    for (bit = 63; bit >= 0; bit--) {
        rest = rest << 1 | (number >> bit & 1);
        if (rest >= by) {
            rest -= by;
            quotient |= (uint64_t)1 << bit;
        }
    }
    *remainder = rest;
    return quotient;
}

__attribute__((naked)) void __aeabi_uldivmod(void)
{
    __asm__("push {r6, lr}\n"
            "sub sp, sp, #16\n"
            "add r6, sp, #8\n"
            "str r6, [sp]\n"
            "bl divided\n"
            "ldr r2, [sp, #8]\n"
            "ldr r3, [sp, #12]\n"
            "add sp, sp, #16\n"
            "pop {r6, pc}\n");
}
#endif

/* ---- printing ---- */

static void print_number(unsigned number)
{
    char digits[10];
    uint32_t at = sizeof digits;
    do {
        digits[--at] = (char)('0' + number % 10);
        number /= 10;
    } while (number);
    bare_write(digits + at, (uint32_t)sizeof digits - at);
}

static void print_one(char kind, va_list *values)
{
    if (kind == 's') {
        const char *text = va_arg(*values, const char *);
        bare_write(text, (uint32_t)strlen(text));
    } else if (kind == 'c') {
        const char letter = (char)va_arg(*values, int);
        bare_write(&letter, 1);
    } else if (kind == 'd') {
        const int number = va_arg(*values, int);
        if (number < 0)
            bare_write("-", 1);
        print_number(number < 0 ? 0u - (unsigned)number : (unsigned)number);
    } else if (kind == 'u') {
        print_number(va_arg(*values, unsigned));
    } else {
        bare_write(&kind, 1);
    }
}

int printf(const char *form, ...)
{
    va_list values;
    va_start(values, form);
    while (*form) {
        uint32_t plain = 0;
        while (form[plain] && form[plain] != '%')
            plain++;
        bare_write(form, plain);
        form += plain;
        if (*form) {
            print_one(form[1], &values);
            form += 2;
        }
    }
    va_end(values);
    return 0;
}
