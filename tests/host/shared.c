#include "shared.h"
#include "plain.h"
#include <stdio.h>
#include <stdlib.h>
#include <string.h>
#include <sys/mman.h>
#include <unistd.h>

#define CANARIES 64
#define CANARY 0xC5

const char *doing = "";
unsigned long calls;

void fail(const char *what)
{
    printf("host: FAILED %s: %s (call %lu)\n", doing, what, calls);
    fflush(stdout);
    exit(1);
}

static uint64_t state = 0x9E3779B97F4A7C15u;

uint64_t random64(void)
{
    state ^= state >> 12;
    state ^= state << 25;
    state ^= state >> 27;
    return state * 0x2545F4914F6CDD1Du;
}

size_t below(size_t n)
{
    return (size_t)(random64() >> 20) % n;
}

/* ---- lent memory */

struct ground ground(size_t most)
{
    struct ground g;
    size_t page = (size_t)sysconf(_SC_PAGESIZE), pages = (most + CANARIES) / page + 1;
    uint8_t *all = (uint8_t *)mmap(NULL, (pages + 2) * page, PROT_READ | PROT_WRITE, MAP_PRIVATE | MAP_ANONYMOUS, -1, 0);
    if ((void *)all == MAP_FAILED || mprotect(all, page, PROT_NONE) || mprotect(all + (pages + 1) * page, page, PROT_NONE)) {
        printf("host: FAILED, no memory with closed pages\n");
        exit(1);
    }
    g.from = all + page;
    g.to = all + (pages + 1) * page;
    return g;
}

uint8_t *lend(struct ground g, size_t n, int at_end)
{
    uint8_t *lent = at_end ? g.to - n : g.from;
    memset(at_end ? lent - CANARIES : lent + n, CANARY, CANARIES);
    return lent;
}

void unharmed(const uint8_t *lent, size_t n, int at_end)
{
    const uint8_t *side = at_end ? lent - CANARIES : lent + n;
    size_t i;
    for (i = 0; i < CANARIES; i++)
        if (side[i] != CANARY)
            fail("a byte beside a lent buffer changed");
}

/* ---- seeded bytes and frames */

uint8_t some_byte(void)
{
    static const uint8_t special[] = {10, 13, 94, 74, 77, 158, 0, 64};
    return below(4) ? (uint8_t)random64() : special[below(sizeof special)];
}

static size_t some_data(void)
{
    switch (below(8)) {
    case 0:
        return 236 + below(10);
    case 1:
        return below(241);
    case 2:
        return 0;
    default:
        return below(12);
    }
}

size_t some_frame(uint8_t *frame, size_t *data)
{
    static uint8_t message[512];
    size_t n, i, m;
    unsigned rest;
    *data = some_data();
    if (below(12) == 0) { /* noise, often between the two ends */
        n = below(40);
        for (i = 0; i < n; i++)
            frame[i] = some_byte();
        if (n > 1 && below(4)) {
            frame[0] = 13;
            frame[n - 1] = 10;
        }
        return n;
    }
    message[0] = (uint8_t)(below(12) ? 1 + below(255) : 0);
    message[1] = (uint8_t)(below(12) ? 1 + below(255) : 0);
    message[2] = (uint8_t)(below(10) ? below(10) : below(256));
    message[3] = some_byte();
    for (i = 0; i < *data; i++)
        message[4 + i] = some_byte();
    m = 4 + *data;
    rest = plain_remainder(message, m);
    message[m++] = (uint8_t)(rest / 256);
    message[m++] = (uint8_t)(rest % 256);
    if (below(10) == 0) {
        i = below(m);
        message[i] ^= (uint8_t)(1u << below(8));
    }
    if (below(24) == 0)
        m = below(7);
    n = plain_framed(message, m, frame);
    switch (below(12)) { /* damage on the line */
    case 0:
        i = below(n);
        frame[i] = some_byte();
        break;
    case 1:
        i = below(n);
        memmove(frame + i, frame + i + 1, n - i - 1);
        n--;
        break;
    case 2:
        i = below(n);
        memmove(frame + i + 1, frame + i, n - i);
        frame[i] = some_byte();
        n++;
        break;
    case 3:
        n = below(n + 1);
        break;
    default:
        break;
    }
    return n;
}
