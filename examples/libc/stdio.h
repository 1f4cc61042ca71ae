#ifndef LIBC_STDIO_H
#define LIBC_STDIO_H

#include <stddef.h>

#define FILENAME_MAX 4096

typedef struct _IO_FILE FILE;
extern FILE *stdout;
extern FILE *stderr;

int fclose(FILE *file);
int ferror(FILE *file);
int fflush(FILE *file);
FILE *fopen(const char *path, const char *mode);
int fprintf(FILE *file, const char *format, ...);
int fputs(const char *text, FILE *file);
size_t fread(void *to, size_t size, size_t count, FILE *file);
size_t fwrite(const void *from, size_t size, size_t count, FILE *file);
int printf(const char *format, ...);
int puts(const char *text);
int remove(const char *path);
int rename(const char *from, const char *to);
int sprintf(char *to, const char *format, ...);

#endif
