/* The receiver as a C host calls it: streams cut into chunks in many ways, each step's whole answer and its tally compared
 * with plain.c, which reads the stream from its first byte each time; and receivers that no call made. Each chunk, and each
 * tally, ends right before a closed page, or begins right behind one. */
#include "kamzhor.h"

#include "plain.h"
#include "shared.h"
#include <stdio.h>
#include <string.h>

#ifndef STREAMS
#define STREAMS 100
#endif
#define MOST_CHUNK 4000 /* what the driver has at most */
#define LONG 150000     /* more than twice what was once the longest capture */

/* the layout that the library has: two bytes of padding behind the receiver's bytes, and no other */
#define AT(type, field, place) typedef char type##_##field##_is_at_##place[offsetof(struct kamzhor_##type, field) == (place) ? 1 : -1];
AT(receiver, place, 0)
AT(receiver, start, 8)
AT(receiver, size, 16)
AT(receiver, bytes, 24)
AT(tally, read, 0)
AT(tally, refused, 4)
AT(tally, dropped, 8)
AT(step, refusal, 0)
AT(step, line, 4)
AT(step, taken, 8)
AT(step, place, 16)
AT(step, frame, 24)
AT(step, receiver, 48)
typedef char receiver_is_520_bytes[sizeof(struct kamzhor_receiver) == 520 ? 1 : -1];
typedef char step_is_568_bytes[sizeof(struct kamzhor_step) == 568 ? 1 : -1];
typedef char tally_is_12_bytes[sizeof(struct kamzhor_tally) == 12 ? 1 : -1];

#define MOST 4294967295u /* what a number of the tally holds */

static unsigned long lines[4], numbers[80];
static struct ground chunks, tallies;
static uint8_t stream[LONG];

/* ---- one step, compared */

static void same_receiver(const struct kamzhor_receiver *a, const struct plain_receiver *b)
{
    if (a->place != b->place || a->start != b->start || a->size != b->size)
        fail("a number of the receiver differs");
    if (memcmp(a->bytes, b->bytes, sizeof a->bytes))
        fail("the receiver's bytes differ");
}

static void same_step(const struct kamzhor_step *a, const struct plain_step *b)
{
    if (a->refusal != b->refusal || a->line != b->line || a->taken != b->taken || a->place != b->place)
        fail("a number of the step differs");
    if (a->frame.refusal != b->frame.refusal || a->frame.destination != b->frame.destination || a->frame.source != b->frame.source
        || a->frame.type != b->frame.type || a->frame.reg != b->frame.reg || a->frame.size != b->frame.size || a->frame.place != b->frame.place)
        fail("a number of the step's frame differs");
    same_receiver(&a->receiver, &b->receiver);
}

static void same_tally(const struct kamzhor_tally *a, const struct plain_tally *b)
{
    if (a->read != b->lines[1] || a->refused != b->lines[2] || a->dropped != b->lines[3])
        fail("a number of the tally differs");
}

/* with the tally from the one to the other */
static struct kamzhor_step step(struct kamzhor_receiver receiver, const struct plain_tally *from, const uint8_t *chunk, size_t n,
                                const struct plain_step *want, const struct plain_tally *to)
{
    int at_end = (int)below(2);
    uint8_t *lent = lend(tallies, sizeof(struct kamzhor_tally), at_end);
    struct kamzhor_tally *tally = (struct kamzhor_tally *)(void *)lent;
    struct kamzhor_step a;
    tally->read = (uint32_t)from->lines[1];
    tally->refused = (uint32_t)from->lines[2];
    tally->dropped = (uint32_t)from->lines[3];
    a = kamzhor_step(receiver, tally, chunk, n);
    calls++;
    same_step(&a, want);
    same_tally(tally, to);
    if (n == 0) {
        struct kamzhor_step none = kamzhor_step(receiver, tally, NULL, 0);
        same_step(&none, want);
        same_tally(tally, to);
    }
    unharmed(lent, sizeof *tally, at_end);
    lines[a.line]++;
    numbers[a.refusal]++;
    numbers[a.frame.refusal]++;
    return a;
}

/* the frame of a line, joined from what was kept and from the chunk, as the header says, reads as the line tells it */
static void same_frame(const struct kamzhor_receiver *before, const uint8_t *chunk, const struct kamzhor_step *a)
{
    static uint8_t frame[KAMZHOR_MOST_KEPT], room[KAMZHOR_MOST_DATA];
    size_t kept = (size_t)before->size, from = kept ? 0 : (size_t)(a->place - before->place), more = (size_t)a->taken - from;
    struct kamzhor_frame t;
    if ((a->line != KAMZHOR_LINE_OK && a->line != KAMZHOR_LINE_REFUSED) || kept + more > sizeof frame)
        return;
    memcpy(frame, before->bytes, kept);
    memcpy(frame + kept, chunk + from, more);
    t = kamzhor_read_frame(frame, kept + more, room, sizeof room);
    if (memcmp(&t, &a->frame, sizeof t))
        fail("the line's frame is not what stands in the receiver and the chunk");
}

/* ---- a stream in chunks */

/* what was taken of it so far */
struct taken {
    struct kamzhor_receiver receiver;
    struct kamzhor_step last;
    size_t bytes;
    uint64_t place; /* of its first byte */
    struct plain_tally tally;
    uint64_t told[4];  /* how many lines of each kind the steps told */
    uint64_t noted[4]; /* what the tally held whenever it was cleared */
    int clears;        /* whether it is, after a 76 */
};

static struct taken begin(uint64_t place)
{
    struct plain_receiver want = {0, 0, 0, {0}};
    struct taken t;
    memset(&t, 0, sizeof t);
    t.receiver = kamzhor_receiver(place);
    t.place = want.place = place;
    t.clears = 1;
    same_receiver(&t.receiver, &want);
    return t;
}

/* one step on those bytes, which are the stream's up to that one */
static void take(struct taken *t, const uint8_t *lent, size_t to)
{
    static struct plain_step want;
    struct plain_tally after = t->tally;
    plain_step_in(stream, t->bytes, to, t->place, &after, &want);
    t->last = step(t->receiver, &t->tally, lent, to - t->bytes, &want, &after);
    same_frame(&t->receiver, lent, &t->last);
    t->receiver = t->last.receiver;
    t->bytes += (size_t)t->last.taken;
    t->tally = after;
    t->told[t->last.line]++;
}

static void clear(struct taken *t)
{
    size_t i;
    for (i = 0; i < 4; i++)
        t->noted[i] += t->tally.lines[i];
    memset(&t->tally, 0, sizeof t->tally);
}

/* hands over the stream's bytes up to that one; answers whether they were taken */
static int chunk(struct taken *t, size_t to)
{
    size_t from = t->bytes, n = to - from;
    int at_end = (int)below(2);
    uint8_t *lent = lend(chunks, n, at_end);
    memcpy(lent, stream + from, n);
    for (;;) {
        take(t, lent + (t->bytes - from), to);
        if (t->last.refusal == KAMZHOR_TALLY_FULL && t->clears)
            clear(t);
        else if (t->last.refusal != KAMZHOR_DONE || t->bytes == to)
            break;
    }
    if (memcmp(lent, stream + from, n))
        fail("the chunk changed");
    unharmed(lent, n, at_end);
    return t->last.refusal == KAMZHOR_DONE;
}

/* where the next chunk ends: often at once, or after one byte */
static size_t some_cut(size_t from, size_t n, size_t most)
{
    size_t left = n - from, length = below(8) == 0 ? 0 : below(4) == 0 ? 1 : 1 + below(most);
    return from + (length < left ? length : left);
}

/* a tally that was cleared, or one that has room for few lines or none */
static void some_tally(struct plain_tally *tally)
{
    size_t i;
    memset(tally, 0, sizeof *tally);
    if (below(2))
        for (i = 1; i < 4; i++)
            tally->lines[i] = below(4) ? MOST - below(6) : random64() >> (32 + below(32));
}

/* The whole stream, in chunks of at most so many bytes; where one would go past the largest place, only what fits. A full
 * tally is cleared, and what it held together with what it holds at the end is what it began with and one for each line. */
static struct taken whole(size_t n, uint64_t place, size_t most)
{
    struct taken t = begin(place);
    struct plain_tally first;
    size_t i;
    some_tally(&t.tally);
    first = t.tally;
    while (t.bytes < n)
        if (!chunk(&t, some_cut(t.bytes, n, most))) {
            size_t fits = (size_t)(UINT64_MAX - t.receiver.place);
            if (!chunk(&t, t.bytes + fits) || t.receiver.place != UINT64_MAX || chunk(&t, t.bytes + 1))
                fail("60 is in another place");
            break;
        }
    for (i = 1; i < 4; i++)
        if (t.noted[i] + t.tally.lines[i] != first.lines[i] + t.told[i])
            fail("a number of the tally is not the count of such lines");
    return t;
}

/* ---- what must come of it is written out here, and not left to plain.c */

static void put(size_t n, const char *bytes)
{
    memcpy(stream, bytes, n);
}

static void told_in(const struct taken *t, unsigned line, uint64_t place, unsigned refusal, uint64_t in)
{
    if (t->last.refusal != KAMZHOR_DONE || t->last.line != line || t->last.place != place || t->last.frame.refusal != refusal)
        fail("another line than the paper's");
    if (t->last.frame.place != in)
        fail("another place in the frame than the paper's");
}

/* without a place in the frame: all but number 3 */
static void told(const struct taken *t, unsigned line, uint64_t place, unsigned refusal)
{
    told_in(t, line, place, refusal, 0);
}

static void vectors(void)
{
    static const char ack[] = "\r\xA2\x0F\x03\x30\x48\x2F\n";
    struct taken t;
    size_t cut;
    doing = "vectors";
    put(8, ack);
    for (cut = 0; cut < 8; cut++) {
        t = begin(1000);
        chunk(&t, cut);
        told(&t, KAMZHOR_NO_LINE, 0, 0);
        if (t.receiver.size != cut || t.receiver.start != (cut ? 1000 : 0) || t.receiver.place != 1000 + cut)
            fail("another open frame than the paper's");
        chunk(&t, 8);
        told(&t, KAMZHOR_LINE_OK, 1000, 0);
        if (t.last.frame.destination != 162 || t.last.frame.source != 15 || t.last.frame.type != KAMZHOR_ACK || t.last.frame.reg != 48
            || t.last.frame.size != 0)
            fail("the line's fields are not the paper's");
    }
    put(3, "\r\r\n"); /* a 13 drops the frame and opens another */
    t = begin(0);
    chunk(&t, 2);
    told(&t, KAMZHOR_LINE_DROPPED, 0, 0);
    chunk(&t, 3);
    told(&t, KAMZHOR_LINE_REFUSED, 1, KAMZHOR_SHORT_MESSAGE);
    put(3, "\n\x41\n"); /* outside a frame */
    t = begin(0);
    chunk(&t, 3);
    told(&t, KAMZHOR_NO_LINE, 0, 0);
}

/* number 3's place counts from the frame's own start byte, wherever the chunks are cut: also behind the 94 */
static void places(void)
{
    static const struct {
        size_t n;
        const char *bytes;
        size_t start, in; /* the start byte of the last frame, and the place in it */
    } frames[] = {
        {3, "\r^\n", 0, 1},                         /* the first and the last byte between the ends */
        {9, "\r^\xA2\x0F\x03\x30\x48\x2F\n", 0, 1}, /* right after the start */
        {9, "\r\xA2\x0F\x03\x30\x48\x2F^\n", 0, 7}, /* just before the end */
        {9, "\r\xA2^\x41\x03^\x42\x2F\n", 0, 2},    /* two */
        {8, "\r^\x4A\x0F^\x41\x2F\n", 0, 4},        /* a right one before it */
        {5, "\r^^\x4A\n", 0, 1},                    /* the second is right */
        {7, "\r^\x9E^^\x9E\n", 0, 3},
        {9, "^\x41^\r\x0F^\x4D^\n", 3, 4}, /* others outside of the frame */
        {8, "\r^\x41\r\xA2^\x41\n", 3, 2}, /* and in one that is dropped */
    };
    size_t i, cut;
    struct taken t;
    doing = "places";
    for (i = 0; i < sizeof frames / sizeof *frames; i++) {
        put(frames[i].n, frames[i].bytes);
        for (cut = 0; cut < frames[i].n; cut++) {
            t = begin(1000);
            chunk(&t, cut);
            chunk(&t, frames[i].n);
            told_in(&t, KAMZHOR_LINE_REFUSED, 1000 + frames[i].start, KAMZHOR_BAD_SUBSTITUTION, frames[i].in);
        }
    }
}

/* The longest frames: every byte of the message converted, but for a type of 5. With type 94 it has 494 bytes and is still
 * read; with one byte more it is too long, whatever stands in it. */
static size_t longest(uint8_t type, size_t more)
{
    static const uint8_t ends[2][8] = {{10, 94, 10, 10, 10, 13, 10, 10}, {13, 13, 13, 10, 10, 94, 94, 13}};
    static uint8_t message[246];
    size_t n;
    unsigned rest;
    memset(message, 94, sizeof message);
    message[2] = type;
    memcpy(message + 236, ends[type == 94], 8);
    rest = plain_remainder(message, 244);
    message[244] = (uint8_t)(rest / 256);
    message[245] = (uint8_t)(rest % 256);
    n = plain_framed(message, sizeof message, stream);
    memset(stream + n - 1, 65, more);
    stream[n - 1 + more] = 10;
    return n + more;
}

static void limits(void)
{
    static const struct {
        uint8_t type;
        size_t more, n;
        unsigned gives[2]; /* as it is, and with a bad substitution in it: the first 94, or the last byte before the end */
    } frames[] = {
        {5, 0, 493, {KAMZHOR_DONE, KAMZHOR_BAD_SUBSTITUTION}},
        {94, 0, 494, {KAMZHOR_UNKNOWN_TYPE, KAMZHOR_BAD_SUBSTITUTION}},
        {5, 1, 494, {KAMZHOR_LONG_MESSAGE, KAMZHOR_BAD_SUBSTITUTION}}, /* its message has 247 bytes */
        {94, 1, 495, {KAMZHOR_LONG_MESSAGE, KAMZHOR_LONG_MESSAGE}},
        {5, 2, 495, {KAMZHOR_LONG_MESSAGE, KAMZHOR_LONG_MESSAGE}},
    };
    size_t i, bad, cut;
    doing = "limits";
    for (i = 0; i < sizeof frames / sizeof *frames; i++) {
        for (bad = 0; bad < 3; bad++) {
            size_t n = longest(frames[i].type, frames[i].more), in = 0;
            unsigned gives = frames[i].gives[bad > 0];
            if (n != frames[i].n)
                fail("the longest frame has another length");
            if (bad == 1)
                stream[2] = 65;
            if (bad == 2)
                stream[n - 2] = 94;
            if (gives == KAMZHOR_BAD_SUBSTITUTION)
                in = bad == 1 ? 1 : frames[i].more ? n - 2 : n - 3; /* where nothing is put behind the message, its last byte is a pair's */
            for (cut = 488; cut <= n; cut++) {
                struct taken t = begin(7);
                chunk(&t, cut < n ? cut : 0);
                chunk(&t, n);
                told_in(&t, gives ? KAMZHOR_LINE_REFUSED : KAMZHOR_LINE_OK, 7, gives, in);
            }
        }
    }
}

static void runaways(void)
{
    const size_t n = 70000;
    struct taken t;
    doing = "runaways";
    memset(stream, 65, n);
    stream[0] = 13;
    t = whole(n, 5, MOST_CHUNK);
    if (t.receiver.size != KAMZHOR_MOST_KEPT || t.receiver.start != 5)
        fail("a runaway is not left open");
    stream[n] = 10;
    chunk(&t, n + 1);
    told(&t, KAMZHOR_LINE_REFUSED, 5, KAMZHOR_LONG_MESSAGE);
    t = whole(n, 5, MOST_CHUNK);
    stream[n] = 13;
    chunk(&t, n + 1);
    told(&t, KAMZHOR_LINE_DROPPED, 5, 0);
}

static void sixty(void)
{
    struct taken t;
    doing = "60";
    put(9, "\r\xA2\x0F\x03\x30\x48\x2F\n\r");
    t = begin(UINT64_MAX - 8); /* the last byte that has a place */
    if (!chunk(&t, 8))
        fail("the largest place is not reached");
    told(&t, KAMZHOR_LINE_OK, UINT64_MAX - 8, 0);
    if (!chunk(&t, 8) || chunk(&t, 9) || t.last.refusal != KAMZHOR_PAST_LARGEST || t.bytes != 8)
        fail("behind the largest place no byte, or more than none, is taken");
    t = begin(UINT64_MAX - 7); /* one byte fewer fits: the refused chunk leaves the receiver for it */
    if (chunk(&t, 8) || t.bytes != 0 || !chunk(&t, 7) || t.receiver.size != 7 || chunk(&t, 8))
        fail("a chunk is refused in another place");
}

/* ---- the tally: one line of each kind, whose number has room for one more, and then for none */

static struct taken tallied(uint64_t place, uint64_t read, uint64_t refused, uint64_t dropped)
{
    struct taken t = begin(place);
    t.tally.lines[1] = read;
    t.tally.lines[2] = refused;
    t.tally.lines[3] = dropped;
    t.clears = 0;
    return t;
}

static void numbers_are(const struct taken *t, uint64_t read, uint64_t refused, uint64_t dropped)
{
    if (t->tally.lines[1] != read || t->tally.lines[2] != refused || t->tally.lines[3] != dropped)
        fail("other numbers of the tally than the paper's");
}

/* that nothing of the step was done */
static void not_done(const struct taken *t, unsigned refusal, size_t bytes, uint64_t kept)
{
    if (t->last.refusal != refusal || t->last.taken != 0 || t->last.line != KAMZHOR_NO_LINE || t->last.place != 0 || t->last.frame.refusal != 0)
        fail("another refusal than the paper's");
    if (t->bytes != bytes || t->receiver.place != t->place + bytes || t->receiver.size != kept)
        fail("a step that is refused moves the receiver");
}

static void seventy_six(void)
{
    static const struct {
        size_t n;
        const char *bytes;
    } kinds[4] = {{2, "A\n"}, {8, "\r\xA2\x0F\x03\x30\x48\x2F\n"}, {2, "\r\n"}, {2, "\r\r"}};
    struct taken t;
    size_t kind, cut;
    doing = "76";
    for (kind = 0; kind < 4; kind++) {
        size_t n = kinds[kind].n;
        uint64_t open = kind == 3 ? 1 : 0; /* a second 13 opens another frame */
        put(n, kinds[kind].bytes);
        for (cut = 0; cut < n; cut++) { /* however it is cut; what comes before the line's last byte is taken */
            uint64_t kept = kind ? cut : 0;
            /* room for one more, though the other numbers are full */
            t = tallied(5, MOST - (kind == 1), MOST - (kind == 2), MOST - (kind == 3));
            if (!chunk(&t, cut) || !chunk(&t, n) || t.last.line != kind || t.receiver.size != open)
                fail("a line that the tally has room for is not told");
            numbers_are(&t, MOST, MOST, MOST);
            /* room for none: of this one number, and then of all */
            t = tallied(5, kind == 1 ? MOST : 0, kind == 2 ? MOST : 0, kind == 3 ? MOST : 0);
            if (!chunk(&t, cut) || chunk(&t, n) != (kind == 0))
                fail("a line that the tally has no room for is told, or no line refused");
            if (kind)
                not_done(&t, KAMZHOR_TALLY_FULL, cut, kept);
            numbers_are(&t, kind == 1 ? MOST : 0, kind == 2 ? MOST : 0, kind == 3 ? MOST : 0);
            t = tallied(5, MOST, MOST, MOST);
            if (!chunk(&t, cut) || chunk(&t, n) != (kind == 0))
                fail("a line that a full tally has no room for is told, or no line refused");
            numbers_are(&t, MOST, MOST, MOST);
            /* cleared, the same step is done */
            if (kind) {
                not_done(&t, KAMZHOR_TALLY_FULL, cut, kept);
                clear(&t);
                if (!chunk(&t, n) || t.last.line != kind || t.last.place != 5 || t.receiver.size != open)
                    fail("a step is not done once the tally is cleared");
                numbers_are(&t, kind == 1, kind == 2, kind == 3);
            }
            /* 76 goes ahead of 60; without a line, or with room for it, 60 is told */
            t = tallied(UINT64_MAX - n + 1, kind == 1 ? MOST : 0, kind == 2 ? MOST : 0, kind == 3 ? MOST : 0);
            if (!chunk(&t, cut) || chunk(&t, n))
                fail("a chunk past the largest place is taken");
            not_done(&t, kind ? KAMZHOR_TALLY_FULL : KAMZHOR_PAST_LARGEST, cut, kept);
            numbers_are(&t, kind == 1 ? MOST : 0, kind == 2 ? MOST : 0, kind == 3 ? MOST : 0);
            clear(&t);
            if (chunk(&t, n))
                fail("a chunk past the largest place is taken");
            not_done(&t, KAMZHOR_PAST_LARGEST, cut, kept);
            numbers_are(&t, 0, 0, 0);
        }
    }
    /* in the middle of a chunk: the steps before it stay done */
    put(15, "\r\xA2\x0F\x03\x30\x48\x2F\n\r\n\r\r\n\r\x41");
    t = tallied(0, 7, MOST, MOST - 1);
    if (chunk(&t, 15))
        fail("a line that the tally has no room for is told");
    not_done(&t, KAMZHOR_TALLY_FULL, 8, 0);
    numbers_are(&t, 8, MOST, MOST - 1);
    t.clears = 1;
    if (!chunk(&t, 15) || t.receiver.size != 2 || t.receiver.start != 13)
        fail("what is left of a chunk is not taken once the tally is cleared");
    numbers_are(&t, 0, 2, 1);
    if (t.told[1] != 1 || t.told[2] != 2 || t.told[3] != 1 || t.noted[1] != 8 || t.noted[2] != MOST || t.noted[3] != MOST - 1)
        fail("other lines are told than the paper's");
    /* no bytes at all */
    t = tallied(UINT64_MAX, MOST, MOST, MOST);
    if (!chunk(&t, 0))
        fail("an empty chunk is refused");
    numbers_are(&t, MOST, MOST, MOST);
}

/* ---- receivers that no call made */

static struct kamzhor_step step_of(struct kamzhor_receiver receiver, const struct plain_tally *from, const uint8_t *bytes, size_t n)
{
    static struct plain_step want;
    struct plain_tally to = *from;
    struct plain_receiver before;
    int at_end = (int)below(2);
    uint8_t *lent = lend(chunks, n, at_end);
    if (n)
        memcpy(lent, bytes, n);
    before.place = receiver.place;
    before.start = receiver.start;
    before.size = receiver.size;
    memcpy(before.bytes, receiver.bytes, sizeof before.bytes);
    plain_step_of(&before, &to, bytes, n, &want);
    return step(receiver, from, lent, n, &want, &to);
}

static void strangers(void)
{
    static const uint64_t sizes[] = {0, 1, 2, 8, 492, 493, 494, 495, 496, UINT64_MAX};
    struct kamzhor_receiver r = kamzhor_receiver(3);
    struct plain_tally tally = {{0, 0, 0, 0}};
    struct kamzhor_step a;
    size_t round, i, data;
    doing = "receivers that no call made";
    /* no frame is open, though bytes are there, and a start past the place */
    r.start = 9;
    memset(r.bytes, 7, sizeof r.bytes);
    a = step_of(r, &tally, (const uint8_t *)"A\n", 2);
    if (a.line != KAMZHOR_NO_LINE || a.taken != 2 || a.receiver.place != 5 || a.receiver.start != 9 || a.receiver.size != 0 || a.receiver.bytes[493] != 7)
        fail("what stands there outside a frame does not stay");
    a = step_of(r, &tally, (const uint8_t *)"A\r", 2);
    if (a.line != KAMZHOR_NO_LINE || a.receiver.start != 4 || a.receiver.size != 1 || a.receiver.bytes[0] != 13 || a.receiver.bytes[493] != 0)
        fail("a 13 does not open a frame of its own");
    /* more is kept than there is room for */
    r.size = UINT64_MAX;
    a = step_of(r, &tally, (const uint8_t *)"A\n\n", 3);
    if (a.line != KAMZHOR_LINE_REFUSED || a.taken != 2 || a.place != 9 || a.frame.refusal != KAMZHOR_LONG_MESSAGE || a.receiver.place != 5
        || a.receiver.start != 0)
        fail("a frame of more bytes than are kept is not refused 5");
    /* what is kept begins with no 13 */
    r.size = 1;
    a = step_of(r, &tally, (const uint8_t *)"\n", 1);
    if (a.line != KAMZHOR_LINE_REFUSED || a.place != 9 || a.frame.refusal != KAMZHOR_NOT_FRAMED)
        fail("what is kept is not read as it stands");
    for (round = 0; round < 50 * STREAMS; round++) {
        size_t n = some_frame(stream, &data), from = n > 0 ? below(2) : 0; /* with its 13 and without */
        r.place = below(4) ? random64() >> below(64) : UINT64_MAX - below(600);
        r.start = random64() >> below(64);
        r.size = below(4) ? sizes[below(sizeof sizes / sizeof *sizes)] : random64() >> below(64);
        for (i = 0; i < sizeof r.bytes; i++)
            r.bytes[i] = below(8) ? (uint8_t)(below(4) ? 65 : 13) : some_byte();
        if (below(2))
            r.bytes[0] = 13;
        some_tally(&tally);
        step_of(r, &tally, stream + from, n - from);
    }
}

/* ---- seeded streams: frames, noise and runaways */

static size_t some_stream(size_t most)
{
    size_t n = 0, data, i, length;
    while (n + 1200 < most)
        switch (below(8)) {
        case 0:
            length = below(60);
            for (i = 0; i < length; i++)
                stream[n++] = some_byte();
            break;
        case 1:
            length = 470 + below(700);
            memset(stream + n, 65, length);
            stream[n] = 13;
            stream[n + length - 1] = below(3) ? 10 : 66;
            n += length;
            break;
        default:
            n += some_frame(stream + n, &data);
        }
    return n;
}

static void seeded(void)
{
    static const size_t most[] = {1, 40, 600, MOST_CHUNK};
    struct taken t;
    size_t round, n;
    doing = "seeded streams";
    for (round = 0; round < STREAMS; round++) {
        size_t by = most[round % 4];
        n = some_stream(by == 1 ? 2000 : 9000);
        whole(n, below(4) ? 0 : below(2) ? random64() >> below(64) : UINT64_MAX - below(n), by);
    }
    doing = "a long stream";
    n = some_stream(LONG);
    whole(n, 0, MOST_CHUNK);
    t = begin(0);
    chunk(&t, n);
}

int main(void)
{
    static const unsigned wanted[] = {1, 2, 3, 4, 5, 7, 8, 9, 60, 76};
    size_t i;
    chunks = ground(LONG);
    tallies = ground(sizeof(struct kamzhor_tally));
    vectors();
    places();
    limits();
    runaways();
    sixty();
    seventy_six();
    strangers();
    seeded();
    doing = "count";
    for (i = 0; i < 4; i++) {
        printf("host: line %u told %lu times\n", (unsigned)i, lines[i]);
        if (lines[i] < STREAMS)
            fail("too few of one kind of line");
    }
    for (i = 0; i < sizeof wanted / sizeof *wanted; i++) {
        printf("host: number %u told %lu times\n", wanted[i], numbers[wanted[i]]);
        if (numbers[wanted[i]] < STREAMS / 10)
            fail("too few of one number");
    }
    printf("host: %lu steps compared, chunk and tally each with closed pages behind or before\n", calls);
    return 0;
}
