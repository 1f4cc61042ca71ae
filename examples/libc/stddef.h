#ifndef LIBC_STDDEF_H
#define LIBC_STDDEF_H

typedef unsigned long size_t;
#ifndef NULL
#define NULL ((void *)0)
#endif

#endif
