/* What the programs here need of <stdio.h>; bare.c has it: %s, %d, %u, %c and %% alone. */
#ifndef BARE_STDIO_H
#define BARE_STDIO_H
int printf(const char *form, ...);
#endif
