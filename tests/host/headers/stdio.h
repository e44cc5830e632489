/* Stands in for the C library's header where the compiler has none: x86-64 Linux with glibc. */
#ifndef HEADERS_STDIO_H
#define HEADERS_STDIO_H
#include <stddef.h>
typedef struct _IO_FILE FILE;
extern FILE *stdin;
extern FILE *stdout;
extern FILE *stderr;
int printf(const char *format, ...) __attribute__((format(printf, 1, 2)));
int fprintf(FILE *to, const char *format, ...) __attribute__((format(printf, 2, 3)));
size_t fread(void *to, size_t size, size_t n, FILE *from);
size_t fwrite(const void *from, size_t size, size_t n, FILE *to);
int ferror(FILE *f);
int fflush(FILE *f);
#endif
