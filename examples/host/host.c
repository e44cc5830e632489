/* A small capture host: reads a capture of at most 65536 bytes from standard input and prints each frame that it finds in
 * it, with its fields and data, or with the number that refuses it.
 *
 *     examples/host/build && tools/launch target/host/example <capture
 *
 * builds it with the Rattle toolchain's own compiler and linker. Once `tools/archive` has written the archive, this does it
 * too:
 *
 *     cc -I include -o example examples/host/host.c target/staticlib/libkamzhor.a
 */
#include "kamzhor.h"
#include <stdio.h>

#define MOST 65536

static uint8_t capture[MOST + 1]; /* one more, so that a longer capture is seen */

static void show(size_t at, const uint8_t *frame, size_t length)
{
    uint8_t room[KAMZHOR_MOST_DATA];
    size_t i;
    struct kamzhor_frame t = kamzhor_read_frame(frame, length, room, sizeof room);
    if (t.refusal != KAMZHOR_DONE) {
        printf("at %lu refused %u", (unsigned long)at, (unsigned)t.refusal);
        if (t.refusal == KAMZHOR_BAD_SUBSTITUTION)
            printf(" in %lu", (unsigned long)t.place);
        printf("\n");
        return;
    }
    printf("at %lu from %u to %u type %u register %u data", (unsigned long)at, (unsigned)t.source, (unsigned)t.destination, (unsigned)t.type,
           (unsigned)t.reg);
    for (i = 0; i < t.size; i++)
        printf(" %02x", (unsigned)room[i]);
    /* a datagram of two bytes is most often a number of 16 bits */
    if (t.type == KAMZHOR_DATAGRAM && t.size == 2) {
        struct kamzhor_value v = kamzhor_read_value(KAMZHOR_U16, room, (size_t)t.size, 0);
        if (v.refusal == KAMZHOR_DONE)
            printf(" as U16 %lu", (unsigned long)v.magnitude);
    }
    printf("\n");
}

int main(void)
{
    size_t length = fread(capture, 1, sizeof capture, stdin), from = 0, i;
    int open = 0;
    if (ferror(stdin)) {
        fprintf(stderr, "the capture cannot be read\n");
        return 1;
    }
    if (length > MOST) {
        fprintf(stderr, "the capture is longer than %d bytes: nothing is listed; cut it into pieces\n", MOST);
        return 1;
    }
    /* a 13 opens a frame, and drops one that is open; a 10 closes it */
    for (i = 0; i < length; i++) {
        if (capture[i] == 13) {
            from = i;
            open = 1;
        } else if (capture[i] == 10 && open) {
            show(from, capture + from, i + 1 - from);
            open = 0;
        }
    }
    return 0;
}
