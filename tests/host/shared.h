/* What the host tests share: how one fails, seeded numbers, bytes and frames, and memory to lend between closed pages. */
#ifndef SHARED_H
#define SHARED_H

#include <stddef.h>
#include <stdint.h>

/* for what a failure says: what is being tested, and how many calls there were */
extern const char *doing;
extern unsigned long calls;
void fail(const char *what) __attribute__((noreturn));

uint64_t random64(void);
size_t below(size_t n);

/* a byte, often one that matters to the reader */
uint8_t some_byte(void);

/* a frame, right or damaged, and how many data bytes were put into it; answers its length, at most 600 */
size_t some_frame(uint8_t *frame, size_t *data);

struct ground {
    uint8_t *from, *to; /* what may be touched; a closed page stands on either side */
};

/* room for so many bytes, and for canaries */
struct ground ground(size_t most);

/* n bytes at the end of the ground or at its beginning, with canaries on the side that is open; fails where these changed */
uint8_t *lend(struct ground g, size_t n, int at_end);
void unharmed(const uint8_t *lent, size_t n, int at_end);

#endif
