/* Stands in for the C library's header where the compiler has none: x86-64 Linux. */
#ifndef HEADERS_STDINT_H
#define HEADERS_STDINT_H
typedef signed char int8_t;
typedef short int16_t;
typedef int int32_t;
typedef long int64_t;
typedef unsigned char uint8_t;
typedef unsigned short uint16_t;
typedef unsigned int uint32_t;
typedef unsigned long uint64_t;
#define UINT64_MAX 18446744073709551615UL
#endif
