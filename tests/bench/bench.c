/* bench: the library's remainder and frame reader against straight.c, over the same captures, in the same program. Each
 * round times both, one after the other; a line has the input, the call, the bytes, and the two medians as ns for each byte.
 * bench N: writes capture N to standard output. */
#include "kamzhor.h"
#include "straight.h"
#include <stdio.h>
#include <stdlib.h>
#include <time.h>

#define LENGTH 65536
#define ROUNDS 41

static uint8_t bytes[LENGTH], room[240];
static size_t from[LENGTH / 2], size[LENGTH / 2], many;
static volatile uint64_t sink;

static double now(void)
{
    struct timespec t;
    clock_gettime(CLOCK_MONOTONIC, &t);
    return (double)t.tv_sec * 1e9 + (double)t.tv_nsec;
}

static uint64_t remainder_theirs(void)
{
    return straight_remainder(bytes, LENGTH);
}

static uint64_t remainder_ours(void)
{
    return kamzhor_remainder(bytes, LENGTH);
}

static uint64_t frames_theirs(void)
{
    uint64_t sum = 0;
    size_t i;
    for (i = 0; i < many; i++) {
        struct straight_frame t = straight_read_frame(bytes + from[i], size[i], room, sizeof room);
        sum = sum * 31 + t.refusal + t.size + t.place + room[0];
    }
    return sum;
}

static uint64_t frames_ours(void)
{
    uint64_t sum = 0;
    size_t i;
    for (i = 0; i < many; i++) {
        struct kamzhor_frame t = kamzhor_read_frame(bytes + from[i], size[i], room, sizeof room);
        sum = sum * 31 + t.refusal + t.size + t.place + room[0];
    }
    return sum;
}

static int by_time(const void *a, const void *b)
{
    double x = *(const double *)a, y = *(const double *)b;
    return x < y ? -1 : x > y;
}

static double median(double *times)
{
    qsort(times, ROUNDS, sizeof *times, by_time);
    return times[ROUNDS / 2];
}

static int compare(const char *capture_name, const char *what, uint64_t (*ours)(void), uint64_t (*theirs)(void), size_t over)
{
    static double a[ROUNDS], b[ROUNDS];
    int i;
    double x, y;
    room[0] = 0;
    sink = ours();
    room[0] = 0;
    if (sink != theirs()) {
        printf("bench: FAILED, the two answer differently (%s, %s)\n", capture_name, what);
        return 1;
    }
    for (i = 0; i < ROUNDS; i++) {
        double start = now(), middle, end;
        if (i % 2) { /* neither is always the first */
            sink = ours();
            middle = now();
            sink = theirs();
            end = now();
            a[i] = middle - start;
            b[i] = end - middle;
        } else {
            sink = theirs();
            middle = now();
            sink = ours();
            end = now();
            b[i] = middle - start;
            a[i] = end - middle;
        }
    }
    x = median(a) / (double)over;
    y = median(b) / (double)over;
    printf("%s %s %lu %.3f %.3f\n", capture_name, what, (unsigned long)over, x, y);
    return 0;
}

/* where the frames lie: from each 13 to the next 10, as a host finds them */
static size_t find_frames(void)
{
    size_t i, start = 0, total = 0;
    int open = 0;
    many = 0;
    for (i = 0; i < LENGTH; i++) {
        if (bytes[i] == 13) {
            start = i;
            open = 1;
        } else if (bytes[i] == 10 && open) {
            from[many] = start;
            size[many] = i + 1 - start;
            total += size[many++];
            open = 0;
        }
    }
    return total;
}

int main(int count, char **words)
{
    static const char *const names[] = {"night", "long", "noise"};
    int i, failed = 0;
    if (count > 1) {
        capture(words[1][0] - '0', bytes, LENGTH);
        return fwrite(bytes, 1, LENGTH, stdout) != LENGTH;
    }
    for (i = 0; i < 3; i++) {
        size_t framed;
        capture(i, bytes, LENGTH);
        framed = find_frames();
        failed |= compare(names[i], "remainder", remainder_ours, remainder_theirs, LENGTH);
        failed |= compare(names[i], "frames", frames_ours, frames_theirs, framed);
    }
    return failed;
}
