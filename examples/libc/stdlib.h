#ifndef LIBC_STDLIB_H
#define LIBC_STDLIB_H

#include <stddef.h>

void abort(void);
int atexit(void (*at_end)(void));
void exit(int status);
void qsort(void *items, size_t count, size_t size,
           int (*order)(const void *, const void *));
unsigned long strtoul(const char *text, char **end, int base);

#endif
