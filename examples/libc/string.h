#ifndef LIBC_STRING_H
#define LIBC_STRING_H

#include <stddef.h>

void *memchr(const void *bytes, int byte, size_t len);
int memcmp(const void *a, const void *b, size_t len);
void *memcpy(void *to, const void *from, size_t len);
void *memset(void *bytes, int byte, size_t len);
char *strcat(char *to, const char *from);
char *strchr(const char *text, int character);
int strcmp(const char *a, const char *b);
char *strcpy(char *to, const char *from);
size_t strlen(const char *text);
size_t strspn(const char *text, const char *characters);

#endif
