/* Stands in for the C library's header where the compiler has none: x86-64 Linux. */
#ifndef HEADERS_STRING_H
#define HEADERS_STRING_H
#include <stddef.h>
void *memcpy(void *to, const void *from, size_t n);
void *memmove(void *to, const void *from, size_t n);
void *memset(void *to, int byte, size_t n);
int memcmp(const void *a, const void *b, size_t n);
int strcmp(const char *a, const char *b);
#endif
