/* The calls of a script on the desk and on the lanes. */
#include "calls.h"
#include <string.h>

/* ---- the desk */

static struct kamzhor_request take_request(struct words *w)
{
    struct kamzhor_request asked = {0, 0, 0, 0, 0, 0};
    asked.job = (uint32_t)take_number(w, MOST_32);
    asked.module = (uint8_t)take_number(w, 255);
    asked.type = (uint8_t)take_number(w, 255);
    asked.reg = (uint8_t)take_number(w, 255);
    take_lent(w, &first);
    asked.wait = (uint32_t)take_number(w, MOST_32);
    asked.folder = (uint32_t)take_number(w, MOST_32);
    return asked;
}

int desk_new(struct words *w)
{
    if (!all_taken(w))
        return 0;
    *desk = kamzhor_desk_fresh();
    *lanes = kamzhor_lanes_fresh();
    has_box = has_scan = 0;
    say("ok");
    return 1;
}

int desk_open(struct words *w)
{
    struct kamzhor_request asked = take_request(w);
    struct kamzhor_opened a;
    uint32_t clock = (uint32_t)take_number(w, MOST_32);
    int number;
    take_lent(w, &room);
    if (!all_taken(w))
        return 0;
    number = kamzhor_desk_open(desk, asked, first.bytes, first.n, clock, room.bytes, room.n, &a);
    say_opened(number, &a);
    return 1;
}

int desk_reply(struct words *w)
{
    struct kamzhor_booked a;
    int number;
    take_lent(w, &first);
    take_lent(w, &room);
    if (!all_taken(w))
        return 0;
    number = kamzhor_desk_reply(desk, first.bytes, first.n, room.bytes, room.n, &a);
    number_is(number, a.refusal);
    kamzhor_box_reply(box, a);
    kamzhor_scan_reply(scan, a);
    if (a.refusal) {
        say_refusal_at(a.refusal, a.place, (a.job | a.folder | a.address | a.type) == 0 && a.size == 0);
    } else {
        say_field("ok job=", a.job);
        say_field(" address=", a.address);
        say_field(" type=", a.type);
        say_field(" n=", a.size);
        say_field(" folder=", a.folder);
    }
    say_room();
    return 1;
}

static void say_closed(int number, const struct kamzhor_closed *a)
{
    number_is(number, a->refusal);
    kamzhor_box_close(box, *a);
    kamzhor_scan_close(scan, *a);
    if (a->refusal) {
        say_refusal(a->refusal, (a->job | a->folder | a->address) == 0);
        return;
    }
    say_field("ok job=", a->job);
    say_field(" address=", a->address);
    say_field(" folder=", a->folder);
}

int desk_cancel(struct words *w)
{
    uint32_t job = (uint32_t)take_number(w, MOST_32), clock;
    uint8_t address = (uint8_t)take_number(w, 255);
    struct kamzhor_closed a;
    int number;
    clock = (uint32_t)take_number(w, MOST_32);
    if (!all_taken(w))
        return 0;
    number = kamzhor_desk_cancel(desk, job, address, clock, &a);
    say_closed(number, &a);
    return 1;
}

int desk_expire(struct words *w)
{
    uint32_t clock = (uint32_t)take_number(w, MOST_32);
    struct kamzhor_closed a;
    int number;
    if (!all_taken(w))
        return 0;
    number = kamzhor_desk_expire(desk, clock, &a);
    say_closed(number, &a);
    return 1;
}

static void say_due(const struct kamzhor_due *due)
{
    say_number(due->job);
    say_field(":", due->address);
    say_field(":", due->folder);
    kamzhor_box_close(box, kamzhor_closed_of(*due));
    kamzhor_scan_close(scan, kamzhor_closed_of(*due));
}

/* the list's entries are all ones before, and those that stay are afterwards */
static void say_stayed(const struct kamzhor_due *due)
{
    if (due->job != MOST_32 || due->address != MOST_32 || due->folder != MOST_32)
        fail("an unused entry changed");
    say(".");
}

int desk_expall(struct words *w)
{
    uint32_t clock = (uint32_t)take_number(w, MOST_32);
    size_t entries = (size_t)take_number(w, MOST_ENTRIES), bytes = entries * sizeof(struct kamzhor_due), n, i;
    uint8_t *place = lend(list_ground, bytes, at_end);
    struct kamzhor_due *list = entries == 0 && !at_end ? NULL : (struct kamzhor_due *)(void *)place;
    if (!all_taken(w))
        return 0;
    memset(place, 255, bytes);
    n = kamzhor_desk_expire_all(desk, clock, list, entries);
    unharmed(place, bytes, at_end);
    say_field("ok n=", n);
    say(" list=");
    if (entries == 0)
        say("-");
    for (i = 0; i < entries; i++) {
        say(i ? "," : "");
        if (i < n)
            say_due(&list[i]);
        else
            say_stayed(&list[i]);
    }
    return 1;
}

static void say_ticket(uint32_t address, const struct kamzhor_seen *seen)
{
    say_number(address);
    say_field(":", seen->asked.job);
    say_field(":", seen->asked.module);
    say_field(":", seen->asked.type);
    say_field(":", seen->asked.reg);
    say_field(":", seen->asked.wait);
    say_field(":", seen->opened);
    say_field(":", seen->asked.folder);
}

/* the addresses in that state, by rising address */
static void say_addresses(uint32_t state)
{
    size_t from = said();
    uint32_t address;
    for (address = KAMZHOR_FIRST_HOST; address <= KAMZHOR_LAST_HOST; address++) {
        struct kamzhor_seen seen = kamzhor_desk_look(desk, (uint8_t)address);
        if (seen.state != state)
            continue;
        say(said() > from ? "," : "");
        if (state == KAMZHOR_SEEN_OPEN) {
            say_ticket(address, &seen);
        } else {
            say_number(address);
            say_field(":", seen.closed);
        }
    }
    if (said() == from)
        say("-");
}

int desk_dump(struct words *w)
{
    if (!all_taken(w))
        return 0;
    say_field("ok turn=", KAMZHOR_FIRST_HOST + (uint64_t)desk->turn);
    say(" tickets=");
    say_addresses(KAMZHOR_SEEN_OPEN);
    say(" closed=");
    say_addresses(KAMZHOR_SEEN_WITHDRAWN);
    return 1;
}

/* ---- the lanes */

int lane_join(struct words *w)
{
    struct kamzhor_request asked = take_request(w);
    struct kamzhor_joined a;
    int number;
    if (!all_taken(w))
        return 0;
    number = kamzhor_lanes_join(lanes, asked, first.bytes, first.n, &a);
    number_is(number, a.refusal);
    if (a.refusal) {
        say_refusal(a.refusal, a.lane == 0 && a.place == 0);
        return 1;
    }
    say_field("ok lane=", a.lane);
    say_field(" at=", a.place);
    return 1;
}

static void say_granted(const struct kamzhor_granted *a)
{
    if (a->refusal == KAMZHOR_GRANT_ROOM || a->refusal == KAMZHOR_NOTHING_WAITING) {
        say_refusal(a->refusal, a->job == 0 && a->address == 0 && a->considered == 0 && a->size == 0);
        return;
    }
    if (a->refusal == KAMZHOR_FOLDER_HELD) {
        say_refusal(a->refusal, a->address == 0 && a->size == 0);
        say_field(" job=", a->job);
        before.lanes = *lanes; /* the request was taken out */
    } else if (a->refusal) {
        say_refusal(a->refusal, a->job == 0 && a->address == 0 && a->size == 0);
    } else {
        say_field("ok job=", a->job);
        say_field(" address=", a->address);
        say_field(" n=", a->size);
    }
    say_field(" count=", a->considered);
}

int lane_grant(struct words *w)
{
    uint32_t clock = (uint32_t)take_number(w, MOST_32);
    struct kamzhor_granted a;
    int number;
    take_lent(w, &room);
    if (!all_taken(w))
        return 0;
    number = kamzhor_lanes_grant(lanes, desk, clock, room.bytes, room.n, &a);
    number_is(number, a.refusal);
    say_granted(&a);
    say_room();
    return 1;
}

int lane_withdraw(struct words *w)
{
    uint32_t job = (uint32_t)take_number(w, MOST_32);
    size_t place = (size_t)take_number(w, UINT64_MAX);
    if (!all_taken(w))
        return 0;
    return say_number_or_ok(kamzhor_lanes_withdraw(lanes, job, place));
}

static void say_waiting(const struct kamzhor_waiting *waiting)
{
    say_number(waiting->asked.job);
    say_field(":", waiting->asked.module);
    say_field(":", waiting->asked.type);
    say_field(":", waiting->asked.reg);
    say(":");
    say_hex(waiting->bytes, waiting->size);
    say_field(":", waiting->asked.wait);
    say_field(":", waiting->asked.folder);
}

int lane_dump(struct words *w)
{
    size_t k, i;
    if (!all_taken(w))
        return 0;
    say_field("ok last=", (uint64_t)lanes->last + 1);
    say(" lanes=");
    for (k = 0; k < 16; k++) {
        say(k ? "|" : "");
        if (lanes->lanes[k].size == 0)
            say("-");
        for (i = 0; i < lanes->lanes[k].size; i++) {
            say(i ? "," : "");
            say_waiting(&lanes->lanes[k].waiting[i]);
        }
    }
    return 1;
}
