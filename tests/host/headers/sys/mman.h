/* Stands in for the C library's header where the compiler has none: x86-64 Linux. */
#ifndef HEADERS_SYS_MMAN_H
#define HEADERS_SYS_MMAN_H
#include <stddef.h>
#define PROT_NONE 0
#define PROT_READ 1
#define PROT_WRITE 2
#define MAP_PRIVATE 2
#define MAP_ANONYMOUS 32
#define MAP_FAILED ((void *)-1)
void *mmap(void *at, size_t n, int may, int how, int file, long from);
int mprotect(void *at, size_t n, int may);
#endif
