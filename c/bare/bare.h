/* What a board without an operating system gives a program here: bytes in, bytes out, an end. */
#ifndef BARE_H
#define BARE_H
#include <stdint.h>

/* Fills the bytes from the line that brings calls, or returns 0 where it ends. */
int bare_read(void *to, uint32_t length);
void bare_write(const void *from, uint32_t length);
void bare_end(int status);
#endif
