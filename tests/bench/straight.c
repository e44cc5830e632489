#include "straight.h"
#include <string.h>

uint16_t straight_remainder(const uint8_t *bytes, size_t n)
{
    uint16_t rest = 0;
    size_t i;
    int k;
    for (i = 0; i < n; i++) {
        rest = (uint16_t)(rest ^ bytes[i] << 8);
        for (k = 0; k < 8; k++)
            rest = (uint16_t)(rest & 0x8000 ? rest << 1 ^ 0x1021 : rest << 1);
    }
    return rest;
}

struct straight_frame straight_read_frame(const uint8_t *frame, size_t n, uint8_t *room, size_t room_length)
{
    struct straight_frame t = {1, 0, 0, 0, 0, 0, 0};
    uint8_t message[246];
    size_t i, m = 0, bad = 0;
    if (n < 2 || frame[0] != 13 || frame[n - 1] != 10)
        return t;
    for (i = 1; i + 1 < n; i++) {
        uint8_t b = frame[i];
        if (b == 10 || b == 13) {
            t.refusal = 2;
            return t;
        }
        if (b == 94) {
            uint8_t next = frame[i + 1];
            if (next == 74 || next == 77 || next == 158) {
                b = (uint8_t)(next - 64);
                i++;
            } else if (!bad)
                bad = i;
        }
        if (m < sizeof message)
            message[m] = b;
        m++;
    }
    t.refusal = bad ? 3 : m < 6 ? 4 : m > 246 ? 5 : room_length < m - 6 ? 6 : 0;
    t.place = bad;
    if (t.refusal)
        return t;
    t.refusal = straight_remainder(message, m) ? 7 : !message[0] || !message[1] ? 8 : message[2] > 9 ? 9 : 0;
    if (t.refusal)
        return t;
    t.destination = message[0];
    t.source = message[1];
    t.type = message[2];
    t.reg = message[3];
    t.size = m - 6;
    memcpy(room, message + 4, m - 6);
    return t;
}

static uint64_t state;

static size_t below(size_t n)
{
    state ^= state >> 12;
    state ^= state << 25;
    state ^= state >> 27;
    return (size_t)(state * 0x2545F4914F6CDD1Du >> 20) % n;
}

static size_t frame_into(uint8_t *out, size_t data)
{
    uint8_t message[246];
    size_t i, to = 0, m = 4 + data;
    uint16_t rest;
    message[0] = (uint8_t)(1 + below(255));
    message[1] = (uint8_t)(1 + below(255));
    message[2] = (uint8_t)below(10);
    for (i = 3; i < m; i++)
        message[i] = (uint8_t)below(256);
    rest = straight_remainder(message, m);
    message[m++] = (uint8_t)(rest / 256);
    message[m++] = (uint8_t)(rest % 256);
    out[to++] = 13;
    for (i = 0; i < m; i++)
        if (message[i] == 10 || message[i] == 13 || message[i] == 94) {
            out[to++] = 94;
            out[to++] = (uint8_t)(message[i] + 64);
        } else
            out[to++] = message[i];
    out[to++] = 10;
    return to;
}

void capture(int which, uint8_t *out, size_t n)
{
    size_t at = 0;
    uint8_t frame[512];
    state = 0x9E3779B97F4A7C15u + (uint64_t)which;
    while (at < n) {
        size_t m, i;
        if (which == 2 || (which == 0 && below(8) == 0)) { /* noise between frames */
            m = 1 + below(32);
            for (i = 0; i < m; i++)
                frame[i] = (uint8_t)below(256);
        } else {
            m = frame_into(frame, which == 1 ? 240 : below(6) ? below(9) : below(241));
            if (which == 0 && below(10) == 0)
                frame[below(m)] ^= (uint8_t)(1u << below(8));
        }
        for (i = 0; i < m && at < n; i++)
            out[at++] = frame[i];
    }
}
