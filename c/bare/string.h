/* What the programs here need of <string.h>; bare.c has it. */
#ifndef BARE_STRING_H
#define BARE_STRING_H
#include <stddef.h>
void *memcpy(void *to, const void *from, size_t length);
void *memmove(void *to, const void *from, size_t length);
void *memset(void *to, int byte, size_t length);
int memcmp(const void *first, const void *second, size_t length);
size_t strlen(const char *text);
#endif
