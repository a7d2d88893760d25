/*
 * cortex-m4.c: the start of a Cortex-M4, and its bytes by semihosting, the emulator's own service (qemu's
 * `-semihosting-config enable=on,target=native`). On a board both places are replaced: the vectors and the memory by
 * the board's own, bare_read and bare_write by its UART.
 */
#include "bare.h"

extern uint32_t stack_top, data_from, data_start, data_end, bss_start, bss_end;
int main(void);
void reset(void);

/* ---- semihosting ---- */

enum { OPEN = 1, WRITE = 5, READ = 6, EXIT = 0x18, READING = 1, WRITING = 9, STOPPED = 0x20026, FAILED = 0x20023 };

static int32_t service(int32_t number, const void *words)
{
    register int32_t r0 __asm__("r0") = number;
    register const void *r1 __asm__("r1") = words;
    __asm__ volatile("bkpt 0xab" : "+r"(r0) : "r"(r1) : "memory");
    return r0;
}

static int32_t opened(const char *name, uint32_t length, uint32_t mode)
{
    const uint32_t words[3] = {(uint32_t)name, mode, length};
    return service(OPEN, words);
}

int bare_read(void *to, uint32_t length)
{
    static int32_t in;
    uint8_t *next = to;
    if (!in)
        in = opened("/dev/stdin", 10, READING);
    while (length) {
        const uint32_t words[3] = {(uint32_t)in, (uint32_t)next, length};
        const uint32_t left = (uint32_t)service(READ, words); /* how many did not come */
        if (left >= length)
            return 0;
        next += length - left;
        length = left;
    }
    return 1;
}

void bare_write(const void *from, uint32_t length)
{
    static int32_t out;
    const uint8_t *next = from;
    if (!out)
        out = opened("/dev/stdout", 11, WRITING);
    while (length) {
        const uint32_t words[3] = {(uint32_t)out, (uint32_t)next, length};
        const uint32_t left = (uint32_t)service(WRITE, words);
        next += length - left;
        length = left;
    }
}

void bare_end(int status)
{
    service(EXIT, (const void *)(status == 0 ? STOPPED : FAILED));
    for (;;) {
    }
}

/* ---- the start ---- */

static void fault(void)
{
    bare_end(1);
}

void reset(void)
{
    uint32_t *to = &data_start;
    const uint32_t *from = &data_from;
    while (to < &data_end)
        *to++ = *from++;
    for (to = &bss_start; to < &bss_end;)
        *to++ = 0;
    bare_end(main());
}

__attribute__((section(".vectors"), used)) static void (*const vectors[16])(void) = {
    (void (*)(void))&stack_top, reset, fault, fault, fault, fault, fault,
};
