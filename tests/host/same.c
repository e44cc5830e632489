#include "same.h"
#include <string.h>

#define SAME(field) (a->field == b->field)

/* ---- states */

int same_request(const struct kamzhor_request *a, const struct kamzhor_request *b)
{
    return SAME(job) && SAME(module) && SAME(type) && SAME(reg) && SAME(wait) && SAME(folder);
}

static int same_ticket(const struct kamzhor_ticket *a, const struct kamzhor_ticket *b)
{
    return SAME(live) && same_request(&a->asked, &b->asked) && SAME(opened) && SAME(withdrawn) && SAME(closed);
}

int same_desk(const struct kamzhor_desk *a, const struct kamzhor_desk *b)
{
    size_t i;
    for (i = 0; i < KAMZHOR_HOSTS; i++)
        if (!same_ticket(&a->tickets[i], &b->tickets[i]))
            return 0;
    return SAME(turn) && SAME(marks.low) && SAME(marks.high);
}

static int same_waiting(const struct kamzhor_waiting *a, const struct kamzhor_waiting *b)
{
    return same_request(&a->asked, &b->asked) && SAME(size) && memcmp(a->bytes, b->bytes, sizeof a->bytes) == 0;
}

static int same_lane(const struct kamzhor_lane *a, const struct kamzhor_lane *b)
{
    size_t i;
    for (i = 0; i < 4; i++)
        if (!same_waiting(&a->waiting[i], &b->waiting[i]))
            return 0;
    return SAME(size);
}

int same_lanes(const struct kamzhor_lanes *a, const struct kamzhor_lanes *b)
{
    size_t i;
    for (i = 0; i < 16; i++)
        if (!same_lane(&a->lanes[i], &b->lanes[i]))
            return 0;
    return SAME(last);
}

int same_box(const struct kamzhor_box *a, const struct kamzhor_box *b)
{
    return SAME(job) && SAME(module) && SAME(short_pass.known) && SAME(short_pass.tenths) && SAME(long_pass.known) && SAME(long_pass.tenths)
        && SAME(out.edge) && SAME(out.address) && SAME(out.tenths);
}

int same_scan(const struct kamzhor_scan *a, const struct kamzhor_scan *b)
{
    return SAME(job) && SAME(turns) && SAME(out) && memcmp(a->results, b->results, sizeof a->results) == 0;
}

static int same_held(const struct kamzhor_held *a, const struct kamzhor_held *b)
{
    return SAME(number) && SAME(kind) && SAME(rights) && SAME(value);
}

int same_bench(const struct kamzhor_bench *a, const struct kamzhor_bench *b)
{
    size_t i;
    for (i = 0; i < 32; i++)
        if (!same_held(&a->registers[i], &b->registers[i]))
            return 0;
    return SAME(address) && SAME(count);
}

int same_receiver(const struct kamzhor_receiver *a, const struct kamzhor_receiver *b)
{
    return SAME(place) && SAME(start) && SAME(size) && memcmp(a->bytes, b->bytes, sizeof a->bytes) == 0;
}

int same_tally(const struct kamzhor_tally *a, const struct kamzhor_tally *b)
{
    return SAME(read) && SAME(refused) && SAME(dropped);
}

/* ---- answers */

int same_opened(const struct kamzhor_opened *a, const struct kamzhor_opened *b)
{
    return SAME(refusal) && SAME(address) && SAME(considered) && SAME(size);
}

int same_booked(const struct kamzhor_booked *a, const struct kamzhor_booked *b)
{
    return SAME(refusal) && SAME(job) && SAME(folder) && SAME(address) && SAME(type) && SAME(size) && SAME(place);
}

int same_closed(const struct kamzhor_closed *a, const struct kamzhor_closed *b)
{
    return SAME(refusal) && SAME(job) && SAME(folder) && SAME(address);
}

int same_seen(const struct kamzhor_seen *a, const struct kamzhor_seen *b)
{
    return SAME(state) && same_request(&a->asked, &b->asked) && SAME(opened) && SAME(closed);
}

int same_joined(const struct kamzhor_joined *a, const struct kamzhor_joined *b)
{
    return SAME(refusal) && SAME(lane) && SAME(place);
}

int same_granted(const struct kamzhor_granted *a, const struct kamzhor_granted *b)
{
    return SAME(refusal) && SAME(job) && SAME(address) && SAME(considered) && SAME(size);
}

int same_scanned(const struct kamzhor_scanned *a, const struct kamzhor_scanned *b)
{
    return SAME(refusal) && SAME(state) && SAME(address) && SAME(module) && SAME(considered) && SAME(size);
}

int same_taken(const struct kamzhor_taken *a, const struct kamzhor_taken *b)
{
    return SAME(refusal) && SAME(size) && SAME(place);
}

int same_register(const struct kamzhor_register *a, const struct kamzhor_register *b)
{
    return SAME(held) && SAME(number) && SAME(kind) && SAME(rights) && SAME(value);
}

int same_size(const struct kamzhor_size *a, const struct kamzhor_size *b)
{
    return SAME(refusal) && SAME(size);
}

int same_checked(const struct kamzhor_checked *a, const struct kamzhor_checked *b)
{
    return SAME(refusal) && SAME(count);
}

int same_record(const struct kamzhor_record *a, const struct kamzhor_record *b)
{
    return SAME(refusal) && SAME(setting.module) && SAME(setting.reg) && SAME(setting.kind) && SAME(setting.count) && SAME(size);
}
