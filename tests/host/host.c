/* Calls the library as a C host does and compares every answer and every lent byte with plain.c: the papers' vectors,
 * then a seeded set of frames and values, right and damaged. Each lent buffer ends right before a page that can be neither
 * read nor written, or begins right behind one; the bytes on its other side are canaries. */
#include "kamzhor.h"
#include "kamzhor.h" /* twice does no harm */

#include "constants.h"
#include "plain.h"
#include "shared.h"
#include <stdio.h>
#include <string.h>

#ifndef ROUNDS
#define ROUNDS 100000
#endif

/* the layout that the library has: no padding anywhere */
typedef char frame_is_24_bytes[sizeof(struct kamzhor_frame) == 24 ? 1 : -1];
typedef char value_is_16_bytes[sizeof(struct kamzhor_value) == 16 ? 1 : -1];

static unsigned long seen[64];
static struct ground frames, rooms;

/* ---- one call, compared */

static void remainder_of(const uint8_t *bytes, size_t n)
{
    int at_end;
    unsigned want = plain_remainder(bytes, n);
    calls++;
    for (at_end = 0; at_end < 2; at_end++) {
        uint8_t *lent = lend(frames, n, at_end);
        if (n)
            memcpy(lent, bytes, n);
        if (kamzhor_remainder(lent, n) != want)
            fail("the remainder differs");
        if (n && memcmp(lent, bytes, n))
            fail("the bytes changed");
        unharmed(lent, n, at_end);
    }
    if (n == 0 && kamzhor_remainder(NULL, 0) != 0)
        fail("the remainder of nothing is not 0");
}

static void same_frame(struct kamzhor_frame a, const struct plain_frame *b)
{
    if (a.refusal != b->refusal)
        fail("the frame's number differs");
    if (a.destination != b->destination || a.source != b->source || a.type != b->type || a.reg != b->reg || a.size != b->size)
        fail("a field of the frame differs");
    if (a.place != b->place)
        fail("the place differs");
}

static unsigned frame_of(const uint8_t *frame, size_t n, size_t room_length)
{
    static struct plain_frame want;
    static uint8_t before[PLAIN_LONGEST];
    int at_end;
    size_t i;
    plain_read_frame(frame, n, room_length, &want);
    calls++;
    seen[want.refusal]++;
    for (i = 0; i < room_length; i++)
        before[i] = (uint8_t)(0xA1 + i % 91);
    for (at_end = 0; at_end < 2; at_end++) {
        uint8_t *lent = lend(frames, n, at_end);
        uint8_t *room = lend(rooms, room_length, at_end);
        if (n)
            memcpy(lent, frame, n);
        if (room_length)
            memcpy(room, before, room_length);
        same_frame(kamzhor_read_frame(lent, n, room, room_length), &want);
        if (memcmp(room, want.data, want.size) || memcmp(room + want.size, before + want.size, room_length - want.size))
            fail("the room differs");
        if (n && memcmp(lent, frame, n))
            fail("the frame changed");
        unharmed(lent, n, at_end);
        unharmed(room, room_length, at_end);
        if (room_length == 0)
            same_frame(kamzhor_read_frame(lent, n, NULL, 0), &want);
        if (n == 0)
            same_frame(kamzhor_read_frame(NULL, 0, room, room_length), &want);
        if (n == 0 && room_length == 0)
            same_frame(kamzhor_read_frame(NULL, 0, NULL, 0), &want);
    }
    return want.refusal;
}

static void same_value(struct kamzhor_value a, struct plain_value b)
{
    if (a.refusal != b.refusal)
        fail("the value's number differs");
    if (a.negative != b.negative || a.magnitude != b.magnitude)
        fail("the value differs");
}

static unsigned value_of(uint64_t kind, const uint8_t *bytes, size_t n, uint64_t element)
{
    int at_end;
    struct plain_value want = plain_read_value(kind, bytes, n, element);
    calls++;
    seen[want.refusal]++;
    for (at_end = 0; at_end < 2; at_end++) {
        uint8_t *lent = lend(frames, n, at_end);
        if (n)
            memcpy(lent, bytes, n);
        same_value(kamzhor_read_value(kind, lent, n, element), want);
        if (n && memcmp(lent, bytes, n))
            fail("the bytes changed");
        unharmed(lent, n, at_end);
        if (n == 0)
            same_value(kamzhor_read_value(kind, NULL, 0, element), want);
    }
    return want.refusal;
}

/* ---- the papers' vectors: what they must give is written out, and not left to plain.c */

struct told_remainder {
    size_t n;
    uint8_t bytes[8];
    unsigned gives;
};

static const struct told_remainder remainders[] = {
    {4, {0x0F, 0xA2, 0x04, 0x66}, 0xC7B6},
    {5, {0x0F, 0xA2, 0x05, 0x30, 0x03}, 0xBCE1},
    {6, {0x0A, 0xA2, 0x05, 0x23, 0x88, 0x13}, 0x3B55},
    {6, {0xA2, 0x0A, 0x08, 0x11, 0x5E, 0x91}, 0x637E},
    {0, {0}, 0},
    {6, {0x0F, 0xA2, 0x04, 0x66, 0xC7, 0xB6}, 0},
};

struct told_frame {
    size_t n;
    uint8_t bytes[16];
    unsigned refusal, destination, source, type, reg, size;
    uint8_t data[4];
    unsigned place; /* with number 3 */
};

static const struct told_frame told_frames[] = {
    {8, {13, 0x0F, 0xA2, 0x04, 0x66, 0xC7, 0xB6, 10}, 0, 15, 162, 4, 102, 0, {0}, 0},
    {9, {13, 0x0F, 0xA2, 0x05, 0x30, 0x03, 0xBC, 0xE1, 10}, 0, 15, 162, 5, 48, 1, {3}, 0},
    {8, {13, 0xA2, 0x0F, 0x03, 0x30, 0x48, 0x2F, 10}, 0, 162, 15, 3, 48, 0, {0}, 0},
    {11, {13, 0x5E, 0x4A, 0xA2, 0x05, 0x23, 0x88, 0x13, 0x3B, 0x55, 10}, 0, 10, 162, 5, 35, 2, {0x88, 0x13}, 0},
    {9, {13, 0xA2, 0x5E, 0x4A, 0x03, 0x23, 0x81, 0x8D, 10}, 0, 162, 10, 3, 35, 0, {0}, 0},
    {9, {13, 0x5E, 0x4A, 0xA2, 0x04, 0x11, 0x75, 0x83, 10}, 0, 10, 162, 4, 17, 0, {0}, 0},
    {11, {13, 0xA2, 0x5E, 0x4A, 0x08, 0x11, 0x5E, 0x91, 0x63, 0x7E, 10}, 3, 0, 0, 0, 0, 0, {0}, 6},
    {12, {13, 0xA2, 0x5E, 0x4A, 0x08, 0x11, 0x5E, 0x9E, 0x91, 0x63, 0x7E, 10}, 0, 162, 10, 8, 17, 2, {0x5E, 0x91}, 0},
    {11, {13, 0x5E, 0x4A, 0x42, 0x05, 0x32, 0x5E, 0x4D, 0x9C, 0xF0, 10}, 0, 10, 66, 5, 50, 1, {13}, 0}, /* T5 */
    {2, {13, 10}, 4, 0, 0, 0, 0, 0, {0}, 0},                                                            /* T6 */
    {4, {13, 0x5E, 0x41, 10}, 3, 0, 0, 0, 0, 0, {0}, 1},                                                /* T7 */
    {8, {13, 0x0F, 0xA2, 0x04, 0x66, 0xC7, 0xB7, 10}, 7, 0, 0, 0, 0, 0, {0}, 0},                        /* T8 */
    {0, {0}, 1, 0, 0, 0, 0, 0, {0}, 0},
    {1, {13}, 1, 0, 0, 0, 0, 0, {0}, 0},
    {3, {13, 13, 10}, 2, 0, 0, 0, 0, 0, {0}, 0},
    {3, {13, 94, 10}, 3, 0, 0, 0, 0, 0, {0}, 1},
    {9, {13, 94, 0xA2, 0x0F, 0x03, 0x30, 0x48, 0x2F, 10}, 3, 0, 0, 0, 0, 0, {0}, 1}, /* right after the start */
    {9, {13, 0xA2, 0x0F, 0x03, 0x30, 0x48, 0x2F, 94, 10}, 3, 0, 0, 0, 0, 0, {0}, 7}, /* just before the end */
    {9, {13, 0xA2, 94, 65, 0x03, 94, 66, 0x2F, 10}, 3, 0, 0, 0, 0, 0, {0}, 2},       /* two */
    {8, {13, 94, 74, 0x0F, 94, 65, 0x2F, 10}, 3, 0, 0, 0, 0, 0, {0}, 4},             /* a right one before it */
    {8, {13, 0xA2, 94, 65, 94, 74, 0x2F, 10}, 3, 0, 0, 0, 0, 0, {0}, 2},             /* and behind it */
    {5, {13, 94, 94, 74, 10}, 3, 0, 0, 0, 0, 0, {0}, 1},                             /* the second is right */
    {7, {13, 94, 158, 94, 94, 158, 10}, 3, 0, 0, 0, 0, 0, {0}, 3},
    {7, {13, 0xA2, 94, 65, 13, 0x2F, 10}, 2, 0, 0, 0, 0, 0, {0}, 0}, /* a 13 too */
    {5, {13, 94, 10, 0x2F, 10}, 2, 0, 0, 0, 0, 0, {0}, 0},           /* a 10 */
    {4, {13, 94, 65, 66}, 1, 0, 0, 0, 0, 0, {0}, 0},                 /* no end */
};

struct told_value {
    uint64_t kind, element;
    size_t n;
    uint8_t bytes[8];
    unsigned refusal, negative;
    uint64_t magnitude;
};

static const struct told_value told_values[] = {
    {KAMZHOR_I16, 0, 2, {0x00, 0x80}, 0, 1, 32768}, /* T9 */
    {KAMZHOR_U16, 0, 2, {0x5E, 0x91}, 0, 0, 37214}, /* T10 */
    {KAMZHOR_U8, 1, 2, {0, 255}, 0, 0, 255},
    {KAMZHOR_I8, 0, 1, {255}, 0, 1, 1},
    {KAMZHOR_I8, 0, 1, {128}, 0, 1, 128},
    {KAMZHOR_I16, 0, 2, {0xFF, 0x7F}, 0, 0, 32767},
    {KAMZHOR_U32, 0, 4, {0xFF, 0xFF, 0xFF, 0xFF}, 0, 0, 4294967295u},
    {KAMZHOR_I32, 0, 4, {0, 0, 0, 0x80}, 0, 1, 2147483648u},
    {KAMZHOR_I32, 1, 8, {0, 0, 0, 0, 0xFE, 0xFF, 0xFF, 0xFF}, 0, 1, 2},
    {KAMZHOR_U64, 0, 8, {0xFF, 0xFF, 0xFF, 0xFF, 0xFF, 0xFF, 0xFF, 0xFF}, 0, 0, UINT64_MAX},
    {0, 0, 1, {7}, 40, 0, 0},
    {8, 0, 1, {7}, 40, 0, 0},
    {256, 0, 1, {7}, 40, 0, 0},
    {257, 0, 1, {7}, 40, 0, 0},
    {(uint64_t)1 << 32 | 1, 0, 1, {7}, 40, 0, 0},
    {UINT64_MAX, 0, 0, {0}, 40, 0, 0},
    {KAMZHOR_U8, 0, 0, {0}, 41, 0, 0},
    {KAMZHOR_U32, 0, 6, {0}, 41, 0, 0},
    {KAMZHOR_U8, 1, 1, {7}, 42, 0, 0},
    {KAMZHOR_U8, 256, 1, {7}, 42, 0, 0},
    {KAMZHOR_U8, (uint64_t)1 << 32, 1, {7}, 42, 0, 0},
    {KAMZHOR_U64, (uint64_t)1 << 61, 8, {7}, 42, 0, 0},
    {KAMZHOR_U8, (uint64_t)1 << 63, 1, {7}, 42, 0, 0},
    {KAMZHOR_U64, UINT64_MAX, 8, {7}, 42, 0, 0},
};

static void vectors(void)
{
    size_t i;
    doing = "vectors";
    for (i = 0; i < sizeof remainders / sizeof *remainders; i++) {
        const struct told_remainder *t = &remainders[i];
        remainder_of(t->bytes, t->n);
        if (kamzhor_remainder(t->bytes, t->n) != t->gives)
            fail("a remainder is not the paper's");
    }
    for (i = 0; i < sizeof told_frames / sizeof *told_frames; i++) {
        const struct told_frame *t = &told_frames[i];
        uint8_t room[4] = {0xA1, 0xA2, 0xA3, 0xA4}, after[4] = {0xA1, 0xA2, 0xA3, 0xA4};
        struct kamzhor_frame a = kamzhor_read_frame(t->bytes, t->n, room, sizeof room);
        if (a.refusal != t->refusal || a.destination != t->destination || a.source != t->source || a.type != t->type || a.reg != t->reg
            || a.size != t->size || a.place != t->place)
            fail("a frame is not read as the paper says");
        memcpy(after, t->data, t->size);
        if (memcmp(room, after, sizeof room))
            fail("a room is not filled as the paper says");
        frame_of(t->bytes, t->n, 0);
        frame_of(t->bytes, t->n, 1);
        frame_of(t->bytes, t->n, 240);
    }
    for (i = 0; i < sizeof told_values / sizeof *told_values; i++) {
        const struct told_value *t = &told_values[i];
        struct kamzhor_value v = kamzhor_read_value(t->kind, t->bytes, t->n, t->element);
        if (v.refusal != t->refusal || v.negative != t->negative || v.magnitude != t->magnitude)
            fail("a value is not the paper's");
        value_of(t->kind, t->bytes, t->n, t->element);
    }
}

/* The archive's own numbers, by the header's names: one frame or value for each. */
static void named(void)
{
    static const struct {
        size_t n;
        uint8_t bytes[12];
        unsigned gives;
    } by_name[] = {
        {8, {13, 0xA2, 0x0F, 0x03, 0x30, 0x48, 0x2F, 10}, KAMZHOR_DONE},
        {1, {13}, KAMZHOR_NOT_FRAMED},
        {3, {13, 13, 10}, KAMZHOR_STRAY_END},
        {4, {13, 0x5E, 0x41, 10}, KAMZHOR_BAD_SUBSTITUTION},
        {2, {13, 10}, KAMZHOR_SHORT_MESSAGE},
        {9, {13, 0x0F, 0xA2, 0x05, 0x30, 0x03, 0xBC, 0xE1, 10}, KAMZHOR_NO_ROOM},
        {8, {13, 0x0F, 0xA2, 0x04, 0x66, 0xC7, 0xB7, 10}, KAMZHOR_CHECK_FAULT},
        {8, {13, 0x00, 0xA2, 0x04, 0x32, 0x09, 0x29, 10}, KAMZHOR_ZERO_ADDRESS},
        {9, {13, 0x0F, 0xA2, 0x5E, 0x4A, 0x32, 0xFE, 0xC8, 10}, KAMZHOR_UNKNOWN_TYPE},
    };
    static uint8_t frame[249], room[KAMZHOR_MOST_DATA];
    size_t i;
    doing = "names";
    for (i = 0; i < sizeof by_name / sizeof *by_name; i++)
        if (kamzhor_read_frame(by_name[i].bytes, by_name[i].n, NULL, 0).refusal != by_name[i].gives)
            fail("the archive gives another number than the header's name says");
    memset(frame, 1, sizeof frame);
    frame[0] = 13;
    frame[sizeof frame - 1] = 10;
    if (kamzhor_read_frame(frame, sizeof frame, room, sizeof room).refusal != KAMZHOR_LONG_MESSAGE)
        fail("a message of 247 bytes is not long");
    if (kamzhor_read_value(0, frame, 1, 0).refusal != KAMZHOR_UNKNOWN_KIND || kamzhor_read_value(KAMZHOR_U16, frame, 1, 0).refusal != KAMZHOR_WRONG_LENGTH
        || kamzhor_read_value(KAMZHOR_U8, frame, 1, 1).refusal != KAMZHOR_NO_SUCH_ELEMENT)
        fail("the archive gives a value another number than the header's name says");
}

/* number 3's place, written out and not left to plain.c */
static void placed(const uint8_t *frame, size_t n, size_t place)
{
    struct kamzhor_frame a = kamzhor_read_frame(frame, n, NULL, 0);
    if (a.refusal != KAMZHOR_BAD_SUBSTITUTION || a.place != place || frame_of(frame, n, 0) != 3)
        fail("the first faulty 94 is in another place");
}

static void not_placed(const uint8_t *frame, size_t n, unsigned gives)
{
    struct kamzhor_frame a = kamzhor_read_frame(frame, n, NULL, 0);
    if (a.refusal != gives || a.place != 0 || frame_of(frame, n, 0) != gives)
        fail("another number than 3 has a place, or it is another number");
}

/* A faulty 94 at the places of frames of these lengths: alone, with the last byte a faulty one too, with right pairs before it;
 * then with a 13 or a 10 between the ends, and without the end byte. The reader keeps its order in frames over 494 bytes. */
static void places(void)
{
    static const size_t lengths[] = {3, 4, 5, 8, 12, 300, 493, 494, 495, 600, 2000};
    static uint8_t frame[PLAIN_LONGEST];
    size_t k, at, i;
    doing = "places";
    for (k = 0; k < sizeof lengths / sizeof *lengths; k++) {
        size_t n = lengths[k];
        for (at = 1; at + 1 < n; at += at < 10 || at + 10 > n || (at > 250 && at < 260) ? 1 : 3) {
            memset(frame, 65, n);
            frame[0] = 13;
            frame[n - 1] = 10;
            frame[at] = 94;
            placed(frame, n, at);
            frame[n - 2] = 94;
            placed(frame, n, at);
            for (i = at % 2 ? 1 : 2; i < at; i += 2) {
                frame[i] = 94;
                frame[i + 1] = i % 3 == 0 ? 74 : i % 3 == 1 ? 77 : 158;
            }
            placed(frame, n, at);
            frame[n - 1] = 65;
            not_placed(frame, n, KAMZHOR_NOT_FRAMED);
            frame[n - 1] = 10;
            if (n > 4) {
                i = at + 2 < n ? at + 1 : at - 1; /* behind it, or before it */
                frame[i] = at % 2 ? 13 : 10;
                not_placed(frame, n, KAMZHOR_STRAY_END);
            }
        }
    }
}

/* every byte after a 94 */
static void after_94(void)
{
    uint8_t frame[] = {13, 0xA2, 94, 0, 0x0F, 0x03, 10};
    unsigned b;
    doing = "bytes after a 94";
    for (b = 0; b < 256; b++) {
        frame[3] = (uint8_t)b;
        if (b == 10 || b == 13)
            not_placed(frame, sizeof frame, KAMZHOR_STRAY_END);
        else if (b == 74 || b == 77 || b == 158)
            not_placed(frame, sizeof frame, KAMZHOR_SHORT_MESSAGE);
        else
            placed(frame, sizeof frame, 2);
    }
}

/* both sides of 240 data bytes, with rooms of the data's length, one less and one more */
static void limits(void)
{
    static uint8_t message[260], frame[600];
    size_t data, room, i, n;
    doing = "limits";
    for (data = 238; data < 243; data++)
        for (room = data - 1; room < data + 2; room++) {
            unsigned rest;
            message[0] = 15;
            message[1] = 162;
            message[2] = 5;
            message[3] = 48;
            for (i = 0; i < data; i++)
                message[4 + i] = (uint8_t)(i * 7 + 3);
            rest = plain_remainder(message, 4 + data);
            message[4 + data] = (uint8_t)(rest / 256);
            message[5 + data] = (uint8_t)(rest % 256);
            n = plain_framed(message, 6 + data, frame);
            if (frame_of(frame, n, room) != (data > 240 ? 5u : room < data ? 6u : 0u))
                fail("a limit is in another place");
        }
}

/* ---- the seeded set */

static void seeded(void)
{
    static uint8_t frame[PLAIN_LONGEST], bytes[64];
    size_t round, data, n, i;
    doing = "seeded frames";
    for (round = 0; round < ROUNDS; round++) {
        size_t room;
        n = some_frame(frame, &data);
        switch (below(6)) {
        case 0:
            room = 0;
            break;
        case 1:
            room = data ? data - 1 : 0;
            break;
        case 2:
            room = data;
            break;
        case 3:
            room = data + below(20);
            break;
        default:
            room = 240 + below(60);
        }
        frame_of(frame, n, room);
        if (round % 4 == 0)
            remainder_of(frame, n);
    }
    doing = "seeded values";
    for (round = 0; round < ROUNDS; round++) {
        uint64_t kind = below(10), element = below(10);
        if (below(16) == 0)
            kind = random64() >> below(64);
        if (below(16) == 0)
            element = random64() >> below(64);
        n = below(3) ? below(5) * 8 : below(sizeof bytes);
        for (i = 0; i < n; i++)
            bytes[i] = some_byte();
        value_of(kind, bytes, n, element);
    }
}

int main(void)
{
    static const unsigned wanted[] = {0, 1, 2, 3, 4, 5, 6, 7, 8, 9, 40, 41, 42};
    size_t i;
    frames = ground(PLAIN_LONGEST);
    rooms = ground(PLAIN_LONGEST);
    vectors();
    named();
    places();
    after_94();
    limits();
    seeded();
    doing = "count";
    for (i = 0; i < sizeof wanted / sizeof *wanted; i++) {
        printf("host: number %u given %lu times\n", wanted[i], seen[wanted[i]]);
        if (seen[wanted[i]] < ROUNDS / 1000)
            fail("too few of one number");
    }
    printf("host: %lu calls compared, each with closed pages behind and before\n", calls);
    return 0;
}
