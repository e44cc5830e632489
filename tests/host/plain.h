/* The paper once more, in plain C: long division for the remainder, a pass per row for the reader, 64-bit arithmetic for
 * the values, one reading of all bytes for a stream in chunks. It shares no code with the library that it is compared
 * with. */
#ifndef PLAIN_H
#define PLAIN_H

#include <stddef.h>
#include <stdint.h>

#define PLAIN_LONGEST 2048
#define PLAIN_KEPT 494

struct plain_frame {
    unsigned refusal, destination, source, type, reg;
    size_t size, place; /* of the first faulty 94, with number 3; 0 with all else */
    uint8_t data[PLAIN_LONGEST];
};

struct plain_value {
    unsigned refusal, negative;
    uint64_t magnitude;
};

struct plain_receiver {
    uint64_t place, start, size;
    uint8_t bytes[PLAIN_KEPT];
};

/* how many lines of each kind there were: 1 read, 2 refused, 3 dropped */
struct plain_tally {
    uint64_t lines[4];
};

struct plain_step {
    unsigned refusal, line;
    uint64_t taken, place;
    struct plain_frame frame;
    struct plain_receiver receiver;
};

/* at most PLAIN_LONGEST bytes in each */
unsigned plain_remainder(const uint8_t *bytes, size_t n);
void plain_read_frame(const uint8_t *frame, size_t n, size_t room, struct plain_frame *out);
struct plain_value plain_read_value(uint64_t kind, const uint8_t *bytes, size_t n, uint64_t element);

/* The telegram of n message bytes, substituted and framed; answers its length. */
size_t plain_framed(const uint8_t *message, size_t n, uint8_t *out);

/* The step over the bytes of a stream from one of them up to another, by reading the stream from its first byte, which has
 * that place: nothing is kept from step to step but the tally. */
void plain_step_in(const uint8_t *stream, size_t from, size_t to, uint64_t place, struct plain_tally *tally, struct plain_step *out);

/* The step of any receiver, also of one that no bytes lead to, byte by byte. */
void plain_step_of(const struct plain_receiver *receiver, struct plain_tally *tally, const uint8_t *chunk, size_t n, struct plain_step *out);

#endif
