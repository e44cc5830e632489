#include "plain.h"
#include <string.h>

/* Long division, as on paper: one bit in each place, and the divisor 1 0001 0000 0010 0001 taken off wherever a one
 * leads. */
unsigned plain_remainder(const uint8_t *bytes, size_t n)
{
    static uint8_t bit[8 * PLAIN_LONGEST + 16];
    unsigned rest = 0;
    size_t i, k;
    for (i = 0; i < n; i++)
        for (k = 0; k < 8; k++)
            bit[8 * i + k] = (uint8_t)(bytes[i] >> (7 - k) & 1);
    for (k = 0; k < 16; k++)
        bit[8 * n + k] = 0;
    for (i = 0; i < 8 * n; i++)
        if (bit[i]) {
            bit[i] ^= 1;
            bit[i + 4] ^= 1;
            bit[i + 11] ^= 1;
            bit[i + 16] ^= 1;
        }
    for (k = 0; k < 16; k++)
        rest = rest * 2 + bit[8 * n + k];
    return rest;
}

size_t plain_framed(const uint8_t *message, size_t n, uint8_t *out)
{
    size_t i, to = 0;
    out[to++] = 13;
    for (i = 0; i < n; i++)
        switch (message[i]) {
        case 10:
        case 13:
        case 94:
            out[to++] = 94;
            out[to++] = (uint8_t)(message[i] + 64);
            break;
        default:
            out[to++] = message[i];
        }
    out[to++] = 10;
    return to;
}

/* the first 94 between the ends that none of 74, 77 and 158 follows; 0 where there is none. It looks from the end byte back. */
static size_t bad_94(const uint8_t *frame, size_t n)
{
    size_t i, bad = 0;
    for (i = n - 2; i > 0; i--)
        if (frame[i] == 94 && !(frame[i + 1] == 74 || frame[i + 1] == 77 || frame[i + 1] == 158))
            bad = i;
    return bad;
}

/* the first row that applies, with its place where it has one, and the message where there is one */
static unsigned rows(const uint8_t *frame, size_t n, size_t room, uint8_t *message, size_t *length, size_t *place)
{
    size_t i, m = 0;
    if (n < 2 || frame[0] != 13 || frame[n - 1] != 10)
        return 1;
    for (i = 1; i + 1 < n; i++)
        if (frame[i] == 10 || frame[i] == 13)
            return 2;
    *place = bad_94(frame, n);
    if (*place)
        return 3;
    for (i = 1; i + 1 < n; i++) {
        if (frame[i] == 94) {
            i++;
            message[m++] = (uint8_t)(frame[i] - 64);
        } else
            message[m++] = frame[i];
    }
    *length = m;
    if (m < 6)
        return 4;
    if (m > 246)
        return 5;
    if (room < m - 6)
        return 6;
    if (plain_remainder(message, m) != 0)
        return 7;
    if (message[0] == 0 || message[1] == 0)
        return 8;
    if (message[2] > 9)
        return 9;
    return 0;
}

void plain_read_frame(const uint8_t *frame, size_t n, size_t room, struct plain_frame *out)
{
    static uint8_t message[PLAIN_LONGEST];
    size_t m = 0;
    memset(out, 0, sizeof *out);
    out->refusal = rows(frame, n, room, message, &m, &out->place);
    if (out->refusal)
        return;
    out->destination = message[0];
    out->source = message[1];
    out->type = message[2];
    out->reg = message[3];
    out->size = m - 6;
    memcpy(out->data, message + 4, m - 6);
}

struct plain_value plain_read_value(uint64_t kind, const uint8_t *bytes, size_t n, uint64_t element)
{
    static const uint8_t sizes[8] = {0, 1, 1, 2, 2, 4, 4, 8};
    struct plain_value v = {0, 0, 0};
    uint64_t size, number = 0, k;
    if (kind < 1 || kind > 7) {
        v.refusal = 40;
        return v;
    }
    size = sizes[kind];
    if (n == 0 || n % size != 0) {
        v.refusal = 41;
        return v;
    }
    if (element >= n / size) {
        v.refusal = 42;
        return v;
    }
    for (k = 0; k < size; k++)
        number |= (uint64_t)bytes[element * size + k] << (8 * k);
    v.magnitude = number;
    if ((kind == 2 || kind == 4 || kind == 6) && number >> (8 * size - 1)) {
        v.negative = 1;
        v.magnitude = ((uint64_t)1 << (8 * size)) - number;
    }
    return v;
}

/* ---- a stream in chunks */

/* where the frame starts that is open behind the first n bytes; n where none is */
static size_t open_frame(const uint8_t *stream, size_t n)
{
    size_t i = n;
    while (i > 0 && stream[i - 1] != 10 && stream[i - 1] != 13)
        i--;
    return i > 0 && stream[i - 1] == 13 ? i - 1 : n;
}

/* the line that this byte ends, of the frame before it */
static void line_of(const uint8_t *frame, size_t n, uint64_t place, uint8_t end, struct plain_step *out)
{
    uint8_t closed[PLAIN_KEPT];
    out->place = place;
    if (end == 13) {
        out->line = 3;
        return;
    }
    if (n < PLAIN_KEPT) {
        memcpy(closed, frame, n);
        closed[n] = 10;
        plain_read_frame(closed, n + 1, 240, &out->frame);
    } else
        out->frame.refusal = 5;
    out->line = out->frame.refusal ? 2 : 1;
}

static void receiver_behind(const uint8_t *stream, size_t n, uint64_t place, struct plain_receiver *out)
{
    size_t start = open_frame(stream, n);
    memset(out, 0, sizeof *out);
    out->place = place + n;
    if (start == n)
        return;
    out->start = place + start;
    out->size = n - start < PLAIN_KEPT ? n - start : PLAIN_KEPT;
    memcpy(out->bytes, stream + start, (size_t)out->size);
}

/* The step as its bytes make it, wherever they lie, is done and its line counted, unless its number would pass 4294967295 or
 * a place the largest. Then all is as before, and the tally's number goes ahead of the place's. */
static void judge(const struct plain_receiver *before, int past, struct plain_tally *tally, struct plain_step *out)
{
    unsigned refusal = past ? 60 : 0;
    if (out->line && tally->lines[out->line] + 1 > 4294967295u)
        refusal = 76;
    if (refusal) {
        memset(out, 0, sizeof *out);
        out->refusal = refusal;
        out->receiver = *before;
    } else if (out->line)
        tally->lines[out->line]++;
}

void plain_step_in(const uint8_t *stream, size_t from, size_t to, uint64_t place, struct plain_tally *tally, struct plain_step *out)
{
    struct plain_receiver before;
    size_t i, start;
    memset(out, 0, sizeof *out);
    receiver_behind(stream, from, place, &before);
    for (i = from; i < to && !out->line; i++)
        if ((stream[i] == 10 || stream[i] == 13) && (start = open_frame(stream, i)) < i)
            line_of(stream + start, i - start, place + start, stream[i], out);
    out->taken = i - from;
    receiver_behind(stream, i, place, &out->receiver);
    judge(&before, to > UINT64_MAX - place, tally, out);
}

void plain_step_of(const struct plain_receiver *receiver, struct plain_tally *tally, const uint8_t *chunk, size_t n, struct plain_step *out)
{
    struct plain_receiver *r = &out->receiver;
    memset(out, 0, sizeof *out);
    *r = *receiver;
    while (out->taken < n && !out->line) {
        uint8_t byte = chunk[out->taken++];
        uint64_t place = r->place++;
        if (r->size > 0 && (byte == 10 || byte == 13))
            line_of(r->bytes, r->size < PLAIN_KEPT ? (size_t)r->size : PLAIN_KEPT, r->start, byte, out);
        if (byte == 13 || out->line) {
            memset(r, 0, sizeof *r);
            r->place = place + 1;
        }
        if (byte == 13) {
            r->start = place;
            r->size = 1;
            r->bytes[0] = 13;
        } else if (r->size > 0 && r->size < PLAIN_KEPT)
            r->bytes[r->size++] = byte;
    }
    judge(receiver, n > UINT64_MAX - receiver->place, tally, out);
}
