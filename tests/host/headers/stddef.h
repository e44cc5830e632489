/* Stands in for the C library's header where the compiler has none: x86-64 Linux. */
#ifndef HEADERS_STDDEF_H
#define HEADERS_STDDEF_H
typedef unsigned long size_t;
#ifdef __cplusplus
#define NULL 0
#else
#define NULL ((void *)0)
#endif
#define offsetof(type, field) __builtin_offsetof(type, field)
#endif
