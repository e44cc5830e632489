/* Stands in for the C library's header where the compiler has none: x86-64 Linux. */
#ifndef HEADERS_TIME_H
#define HEADERS_TIME_H
struct timespec {
    long tv_sec;
    long tv_nsec;
};
#define CLOCK_MONOTONIC 1
int clock_gettime(int clock, struct timespec *now);
#endif
