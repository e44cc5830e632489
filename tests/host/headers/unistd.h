/* Stands in for the C library's header where the compiler has none: x86-64 Linux. */
#ifndef HEADERS_UNISTD_H
#define HEADERS_UNISTD_H
#include <stddef.h>
#define _SC_PAGESIZE 30
#define STDIN_FILENO 0
typedef long ssize_t;
long sysconf(int name);
ssize_t read(int from, void *to, size_t most);
#endif
