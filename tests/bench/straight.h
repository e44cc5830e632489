/* What a C programmer would write at first: the remainder bit by bit, and a reader that goes over the frame once. */
#ifndef STRAIGHT_H
#define STRAIGHT_H

#include <stddef.h>
#include <stdint.h>

struct straight_frame {
    uint32_t refusal;
    uint8_t destination, source, type, reg;
    size_t size, place; /* of the first bad 94, with refusal 3 */
};

uint16_t straight_remainder(const uint8_t *bytes, size_t n);
struct straight_frame straight_read_frame(const uint8_t *frame, size_t n, uint8_t *room, size_t room_length);

/* A capture of n bytes, the same each time: 0 a night of mixed traffic, 1 right frames with 240 data bytes, 2 noise. */
void capture(int which, uint8_t *out, size_t n);

#endif
