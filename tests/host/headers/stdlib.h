/* Stands in for the C library's header where the compiler has none: x86-64 Linux. */
#ifndef HEADERS_STDLIB_H
#define HEADERS_STDLIB_H
#include <stddef.h>
void *malloc(size_t n);
void free(void *p);
void exit(int status) __attribute__((noreturn));
void qsort(void *base, size_t n, size_t size, int (*compare)(const void *, const void *));
#endif
