/* The structs as the compiled archive has them: states are filled by hand with another number in every field, and each of these
 * numbers must be met again where the header says, in the answers of looks, in telegrams, in what the next call does, and in the
 * state that comes back. Answers lie right before a closed page and right behind one. Then empty strings of bytes that are null. */
#include "kamzhor.h"

#include "into.h"
#include "plain.h"
#include "same.h"
#include "shared.h"
#include <stdio.h>
#include <string.h>

#define CLOCK 70000u

static struct ground answers, room_ground;
static uint8_t *answer;
static size_t answer_size;
static int at_end;

static void *answer_at(size_t n)
{
    answer_size = n;
    answer = lend(answers, n, at_end);
    return answer;
}

/* one more call was made: its answer took no byte more, and this was so */
static void holds(int so, const char *what)
{
    calls++;
    unharmed(answer, answer_size, at_end);
    if (!so)
        fail(what);
}

static struct span room_of(size_t n)
{
    struct span room;
    room.bytes = lend(room_ground, n, at_end);
    room.n = n;
    return room;
}

static const struct span none = {NULL, 0};

/* ---- numbers that differ from field to field */

static uint32_t count32;
static uint8_t count8;

static uint32_t next32(void)
{
    return count32 += 0x01030507u;
}

static uint8_t next8(void)
{
    return count8 = (uint8_t)(count8 + 37);
}

/* any bytes: nothing in them looks like another field's */
static void fill(void *it, size_t n)
{
    uint8_t *bytes = (uint8_t *)it;
    size_t i;
    for (i = 0; i < n; i++)
        bytes[i] = (uint8_t)random64();
}

static struct kamzhor_request next_request(void)
{
    struct kamzhor_request asked;
    asked.job = next32();
    asked.module = next8();
    asked.type = next8();
    asked.reg = next8();
    asked.wait = next32();
    asked.folder = next32();
    return asked;
}

/* the telegram of these fields, by plain.c */
static size_t telegram(uint8_t *frame, uint8_t destination, uint8_t source, uint8_t type, uint8_t reg, const uint8_t *data, size_t n)
{
    uint8_t message[250] = {0};
    unsigned rest;
    message[0] = destination;
    message[1] = source;
    message[2] = type;
    message[3] = reg;
    memcpy(message + 4, data, n);
    rest = plain_remainder(message, 4 + n);
    message[4 + n] = (uint8_t)(rest / 256);
    message[5 + n] = (uint8_t)(rest % 256);
    return plain_framed(message, 6 + n, frame);
}

/* a frame whose first faulty 94 is at place 5 */
static uint8_t broken[] = {13, 1, 94, 74, 1, 94, 1, 10};
static const struct span broken_frame = {broken, sizeof broken};

/* ---- the desk */

static int is_marked(const struct kamzhor_desk *desk, size_t place)
{
    return (int)((place < 64 ? desk->marks.low >> place : desk->marks.high >> (place - 64)) & 1);
}

/* Every third place is open, every third closed without a reply, every third has nothing; the numbers in them are no less there.
 * No ticket is due at CLOCK: none is older than its waiting time. */
static void fill_desk(struct kamzhor_desk *desk)
{
    size_t i;
    memset(desk, 0, sizeof *desk);
    desk->turn = next8();
    for (i = 0; i < KAMZHOR_HOSTS; i++) {
        struct kamzhor_ticket *ticket = &desk->tickets[i];
        ticket->asked = next_request();
        ticket->asked.wait = 0x80000000u | next32();
        ticket->opened = CLOCK - 1 - (uint32_t)i;
        ticket->closed = next32();
        ticket->live = i % 3 == 0;
        ticket->withdrawn = i % 3 == 1;
        if (i % 3 == 0 && i < 64)
            desk->marks.low |= (uint64_t)1 << i;
        if (i % 3 == 0 && i >= 64)
            desk->marks.high |= (uint64_t)1 << (i - 64);
    }
}

static struct kamzhor_seen seen_at(const struct kamzhor_desk *desk, uint32_t address)
{
    struct kamzhor_seen seen;
    const struct kamzhor_ticket *ticket;
    memset(&seen, 0, sizeof seen);
    if (address < KAMZHOR_FIRST_HOST)
        return seen;
    ticket = &desk->tickets[address - KAMZHOR_FIRST_HOST];
    if (is_marked(desk, address - KAMZHOR_FIRST_HOST)) {
        seen.state = KAMZHOR_SEEN_OPEN;
        seen.asked = ticket->asked;
        seen.opened = ticket->opened;
    } else if (ticket->withdrawn) {
        seen.state = KAMZHOR_SEEN_WITHDRAWN;
        seen.closed = ticket->closed;
    }
    return seen;
}

static void desk_looks(const struct kamzhor_desk *desk)
{
    uint32_t address;
    for (address = 0; address < 256; address++) {
        struct kamzhor_seen want = seen_at(desk, address), *a = (struct kamzhor_seen *)answer_at(sizeof *a);
        struct kamzhor_seen b = kamzhor_desk_look(desk, (uint8_t)address);
        into_desk_look(a, desk, (uint8_t)address);
        holds(same_seen(a, &want) && same_seen(&b, &want), "another thing stands on an address than was put there");
    }
}

/* through each call that can be refused whatever stands on the desk */
static void desk_comes_back(const struct kamzhor_desk *desk)
{
    struct kamzhor_request asked = {.module = 1, .type = KAMZHOR_READ, .reg = 1, .wait = 1, .folder = 1};
    struct kamzhor_desk_opened *opened = (struct kamzhor_desk_opened *)answer_at(sizeof *opened);
    struct kamzhor_desk_booked *booked;
    struct kamzhor_desk_closed *closed;
    struct kamzhor_desk_swept *swept;
    into_desk_open(opened, desk, asked, none, CLOCK, none);
    holds(opened->answer.refusal == KAMZHOR_NO_JOB && same_desk(&opened->desk, desk), "opening changed the desk");
    booked = (struct kamzhor_desk_booked *)answer_at(sizeof *booked);
    into_desk_reply(booked, desk, none, none);
    holds(booked->answer.refusal == KAMZHOR_NOT_FRAMED && same_desk(&booked->desk, desk), "a reply changed the desk");
    closed = (struct kamzhor_desk_closed *)answer_at(sizeof *closed);
    into_desk_cancel(closed, desk, desk->tickets[1].asked.job, KAMZHOR_FIRST_HOST + 1, CLOCK);
    holds(closed->answer.refusal == KAMZHOR_NOT_THEIRS && same_desk(&closed->desk, desk), "a cancel changed the desk");
    closed = (struct kamzhor_desk_closed *)answer_at(sizeof *closed);
    into_desk_expire(closed, desk, CLOCK);
    holds(closed->answer.refusal == KAMZHOR_NOTHING_DUE && same_desk(&closed->desk, desk), "an expiry changed the desk");
    swept = (struct kamzhor_desk_swept *)answer_at(sizeof *swept);
    into_desk_expire_all(swept, desk, CLOCK, NULL, 0);
    holds(swept->count == 0 && same_desk(&swept->desk, desk), "an expiry of everything changed the desk");
}

static struct kamzhor_desk without(const struct kamzhor_desk *desk, size_t place, uint32_t clock)
{
    struct kamzhor_desk left = *desk;
    memset(&left.tickets[place], 0, sizeof left.tickets[place]);
    left.tickets[place].withdrawn = 1;
    left.tickets[place].closed = clock;
    if (place < 64)
        left.marks.low &= ~((uint64_t)1 << place);
    else
        left.marks.high &= ~((uint64_t)1 << (place - 64));
    return left;
}

/* each open ticket, by its own job alone; all others stay */
static void desk_cancels(const struct kamzhor_desk *desk)
{
    size_t i;
    for (i = 0; i < KAMZHOR_HOSTS; i += 3) {
        struct kamzhor_desk_closed *a = (struct kamzhor_desk_closed *)answer_at(sizeof *a);
        struct kamzhor_desk left = without(desk, i, CLOCK + (uint32_t)i);
        struct kamzhor_closed want = {.job = desk->tickets[i].asked.job, .folder = desk->tickets[i].asked.folder,
                                      .address = (uint8_t)(KAMZHOR_FIRST_HOST + i)};
        into_desk_cancel(a, desk, want.job, want.address, CLOCK + (uint32_t)i);
        holds(same_closed(&a->answer, &want) && same_desk(&a->desk, &left), "a cancel closed another ticket, or more than that");
    }
}

/* the same in place, with a list of entries */
static void expires_in_place(struct kamzhor_desk desk, const struct kamzhor_request *asked, uint32_t address)
{
    struct kamzhor_due list[2];
    struct kamzhor_closed closed;
    size_t n = kamzhor_desk_expire_all(&desk, CLOCK, list, 2);
    closed = kamzhor_closed_of(list[0]);
    holds(n == 1 && list[0].job == asked->job && list[0].address == address && list[0].folder == asked->folder && closed.refusal == 0
              && closed.job == asked->job && closed.address == address && closed.folder == asked->folder,
          "an entry of the list has other numbers");
}

/* one ticket is due, and alone on the desk that comes back it is gone */
static void desk_expires(const struct kamzhor_desk *desk)
{
    size_t i;
    for (i = 0; i < KAMZHOR_HOSTS; i += 3) {
        struct kamzhor_desk due = *desk, left;
        struct kamzhor_desk_swept *a = (struct kamzhor_desk_swept *)answer_at(sizeof *a);
        uint32_t list[6];
        due.tickets[i].asked.wait = CLOCK - due.tickets[i].opened;
        left = without(&due, i, CLOCK);
        memset(list, 255, sizeof list);
        into_desk_expire_all(a, &due, CLOCK, list, 5);
        holds(a->count == 1 && same_desk(&a->desk, &left), "another ticket expired");
        if (list[0] != due.tickets[i].asked.job || list[1] != KAMZHOR_FIRST_HOST + i || list[2] != due.tickets[i].asked.folder
            || (list[3] & list[4] & list[5]) != 4294967295u)
            fail("the list has other numbers, or in another order");
        expires_in_place(due, &due.tickets[i].asked, (uint32_t)(KAMZHOR_FIRST_HOST + i));
    }
}

/* each open ticket, by a reply with data that fits it alone */
static void desk_books(struct kamzhor_desk desk)
{
    uint8_t frame[40], data[5];
    size_t i;
    for (i = 0; i < KAMZHOR_HOSTS; i += 3) {
        struct kamzhor_desk_booked *a = (struct kamzhor_desk_booked *)answer_at(sizeof *a);
        struct kamzhor_request *asked = &desk.tickets[i].asked;
        struct span reply = {frame, 0}, room = room_of(5);
        struct kamzhor_desk left;
        asked->module = (uint8_t)(1 + i);
        asked->type = KAMZHOR_READ;
        fill(data, sizeof data);
        reply.n = telegram(frame, (uint8_t)(KAMZHOR_FIRST_HOST + i), asked->module, KAMZHOR_DATAGRAM, asked->reg, data, sizeof data);
        left = without(&desk, i, 0);
        left.tickets[i].withdrawn = 0;
        into_desk_reply(a, &desk, reply, room);
        holds(a->answer.refusal == 0 && a->answer.job == asked->job && a->answer.folder == asked->folder
                  && a->answer.address == KAMZHOR_FIRST_HOST + i && a->answer.type == KAMZHOR_DATAGRAM && a->answer.size == 5
                  && a->answer.place == 0 && memcmp(room.bytes, data, 5) == 0 && same_desk(&a->desk, &left),
              "a reply is booked otherwise");
        into_desk_reply(a, &desk, broken_frame, room);
        holds(a->answer.refusal == KAMZHOR_BAD_SUBSTITUTION && a->answer.place == 5 && a->answer.size == 0 && same_desk(&a->desk, &desk),
              "a broken reply is told otherwise");
    }
}

/* a request with other numbers in every field reaches the ticket and the telegram */
static void desk_opens(void)
{
    static const uint8_t types[] = {5, 6, 7, 9};
    struct kamzhor_desk desk = kamzhor_desk_fresh(), want;
    size_t i;
    for (i = 0; i < KAMZHOR_HOSTS; i++) {
        struct kamzhor_desk_opened *a = (struct kamzhor_desk_opened *)answer_at(sizeof *a);
        struct kamzhor_request asked = next_request();
        struct span room = room_of(KAMZHOR_MOST_KEPT);
        uint8_t frame[40], data[3], address = (uint8_t)(KAMZHOR_FIRST_HOST + i);
        struct span bytes;
        asked.module = (uint8_t)(1 + i);
        asked.type = types[i % 4];
        asked.wait = (uint32_t)(1000 + i);
        fill(data, sizeof data);
        bytes.bytes = data;
        bytes.n = sizeof data;
        into_desk_open(a, &desk, asked, bytes, CLOCK + (uint32_t)i, room);
        holds(a->answer.refusal == 0 && a->answer.address == address && a->answer.considered == 1
                  && a->answer.size == telegram(frame, asked.module, address, asked.type, asked.reg, data, sizeof data)
                  && memcmp(room.bytes, frame, (size_t)a->answer.size) == 0,
              "another telegram than was asked for");
        want = desk;
        want.turn = (uint8_t)((i + 1) % KAMZHOR_HOSTS);
        want.tickets[i].live = 1;
        want.tickets[i].asked = asked;
        want.tickets[i].opened = CLOCK + (uint32_t)i;
        if (i < 64)
            want.marks.low |= (uint64_t)1 << i;
        else
            want.marks.high |= (uint64_t)1 << (i - 64);
        desk = a->desk;
        if (!same_desk(&desk, &want))
            fail("another ticket than was asked for");
    }
    desk_looks(&desk);
}

static void desks(void)
{
    static struct kamzhor_desk desk;
    doing = "desks by hand";
    fill_desk(&desk);
    desk_looks(&desk);
    desk_comes_back(&desk);
    desk_cancels(&desk);
    desk_expires(&desk);
    desk_books(desk);
    desk_opens();
}

/* ---- the lanes */

/* any numbers, but requests that may be sent */
static void fill_lanes(struct kamzhor_lanes *lanes)
{
    static const uint8_t types[] = {5, 6, 7, 9};
    size_t i;
    fill(lanes, sizeof *lanes);
    lanes->last = 15;
    for (i = 0; i < 64; i++) {
        struct kamzhor_waiting *waiting = &lanes->lanes[i / 4].waiting[i % 4];
        lanes->lanes[i / 4].size = 4;
        waiting->asked = next_request();
        waiting->asked.module = (uint8_t)(1 + 2 * i);
        waiting->asked.type = types[i % 4];
        waiting->asked.wait = (uint32_t)(5000 + i);
        waiting->size = (uint8_t)(i * 241 / 64);
    }
}

static void lanes_come_back(const struct kamzhor_lanes *lanes, const struct kamzhor_desk *desk)
{
    struct kamzhor_request asked = {.module = 1, .type = KAMZHOR_READ, .reg = 1, .wait = 1, .folder = 1};
    struct kamzhor_lanes_joined *joined = (struct kamzhor_lanes_joined *)answer_at(sizeof *joined);
    struct kamzhor_lanes_granted *granted;
    struct kamzhor_lanes_withdrawn *withdrawn;
    into_lanes_join(joined, lanes, asked, none);
    holds(joined->answer.refusal == KAMZHOR_NO_JOB && same_lanes(&joined->lanes, lanes), "joining changed the lanes");
    granted = (struct kamzhor_lanes_granted *)answer_at(sizeof *granted);
    into_lanes_grant(granted, lanes, desk, CLOCK, none);
    holds(granted->answer.refusal == KAMZHOR_GRANT_ROOM && same_lanes(&granted->lanes, lanes) && same_desk(&granted->desk, desk),
          "a grant changed lanes or desk");
    withdrawn = (struct kamzhor_lanes_withdrawn *)answer_at(sizeof *withdrawn);
    into_lanes_withdraw(withdrawn, lanes, 0, 0);
    holds(withdrawn->refusal == KAMZHOR_NO_SUCH_REQUEST && same_lanes(&withdrawn->lanes, lanes), "a withdrawal changed the lanes");
}

/* the one at that place is gone, the later ones moved up, and behind them is nothing */
static void take_out(struct kamzhor_lane *lane, size_t place)
{
    lane->size--;
    memmove(&lane->waiting[place], &lane->waiting[place + 1], (3 - place) * sizeof lane->waiting[0]);
    memset(&lane->waiting[3], 0, sizeof lane->waiting[3]);
}

/* all 64, each of which is met on the desk, and its data in the telegram */
static void lanes_grant(struct kamzhor_lanes lanes)
{
    static struct plain_frame told;
    struct kamzhor_desk desk = kamzhor_desk_fresh();
    size_t i;
    for (i = 0; i < 64; i++) {
        struct kamzhor_lanes_granted *a = (struct kamzhor_lanes_granted *)answer_at(sizeof *a);
        struct kamzhor_waiting served = lanes.lanes[i % 16].waiting[0];
        struct span room = room_of(KAMZHOR_MOST_KEPT);
        struct kamzhor_seen seen;
        into_lanes_grant(a, &lanes, &desk, CLOCK + (uint32_t)i, room);
        holds(a->answer.refusal == 0 && a->answer.job == served.asked.job && a->answer.address == KAMZHOR_FIRST_HOST + i
                  && a->answer.considered == 1,
              "another request was granted");
        plain_read_frame(room.bytes, (size_t)a->answer.size, 240, &told);
        if (told.refusal || told.destination != served.asked.module || told.source != a->answer.address || told.type != served.asked.type
            || told.reg != served.asked.reg || told.size != served.size || memcmp(told.data, served.bytes, served.size))
            fail("another telegram than the request that waited");
        take_out(&lanes.lanes[i % 16], 0);
        lanes.last = (uint8_t)(i % 16);
        desk = a->desk;
        seen = kamzhor_desk_look(&desk, a->answer.address);
        if (!same_lanes(&a->lanes, &lanes) || !same_request(&seen.asked, &served.asked) || seen.opened != CLOCK + i)
            fail("lanes or desk have other numbers than the request that waited");
    }
}

/* each of the 64, by the job of its lane's first */
static void lanes_withdraw(const struct kamzhor_lanes *lanes)
{
    size_t i;
    for (i = 0; i < 64; i++) {
        struct kamzhor_lanes_withdrawn *a = (struct kamzhor_lanes_withdrawn *)answer_at(sizeof *a);
        struct kamzhor_lanes left = *lanes;
        take_out(&left.lanes[i / 4], i % 4);
        into_lanes_withdraw(a, lanes, lanes->lanes[i / 4].waiting[0].asked.job, i % 4 + 1);
        holds(a->refusal == 0 && same_lanes(&a->lanes, &left), "another request was withdrawn");
    }
}

static void lanes_join(void)
{
    struct kamzhor_lanes lanes = kamzhor_lanes_fresh(), want = lanes;
    size_t i;
    for (i = 0; i < 64; i++) {
        struct kamzhor_lanes_joined *a = (struct kamzhor_lanes_joined *)answer_at(sizeof *a);
        struct kamzhor_waiting *waiting = &want.lanes[i / 4].waiting[i % 4];
        struct span data;
        waiting->asked = next_request();
        waiting->asked.job = (uint32_t)(1 + i / 4);
        waiting->asked.module = (uint8_t)(1 + i);
        waiting->asked.type = KAMZHOR_WRITE;
        waiting->asked.wait = (uint32_t)(1 + i);
        waiting->size = (uint8_t)(240 - i);
        fill(waiting->bytes, waiting->size);
        want.lanes[i / 4].size = (uint8_t)(i % 4 + 1);
        data.bytes = waiting->bytes;
        data.n = waiting->size;
        into_lanes_join(a, &lanes, waiting->asked, data);
        holds(a->answer.refusal == 0 && a->answer.lane == i / 4 + 1 && a->answer.place == i % 4 + 1 && same_lanes(&a->lanes, &want),
              "a request waits elsewhere, or with other numbers");
        lanes = a->lanes;
    }
}

static void all_lanes(void)
{
    static struct kamzhor_lanes lanes;
    static struct kamzhor_desk desk;
    doing = "lanes by hand";
    fill_desk(&desk);
    fill(&lanes, sizeof lanes);
    lanes_come_back(&lanes, &desk);
    fill_lanes(&lanes);
    lanes_come_back(&lanes, &desk);
    lanes_grant(lanes);
    lanes_withdraw(&lanes);
    lanes_join();
}

/* ---- the filter box */

static struct kamzhor_box some_box(uint8_t out)
{
    struct kamzhor_box box;
    memset(&box, 0, sizeof box);
    box.job = next32();
    box.module = 16;
    box.short_pass.known = box.long_pass.known = 1;
    box.short_pass.tenths = 6001;
    box.long_pass.tenths = 5002;
    box.out.edge = out;
    box.out.address = out ? 163 : 0;
    box.out.tenths = out ? 7003 : 0;
    return box;
}

static void box_asks(enum asking asking, struct kamzhor_box box, const struct kamzhor_desk *desk, uint16_t value, uint32_t wait,
                     unsigned number)
{
    struct kamzhor_box_asked *a = (struct kamzhor_box_asked *)answer_at(sizeof *a);
    struct kamzhor_opened want = {.refusal = number};
    into_box_ask(a, asking, &box, desk, value, wait, CLOCK, none);
    holds(same_opened(&a->answer, &want) && same_box(&a->box, &box) && same_desk(&a->desk, desk), "a refusal changed box or desk");
}

static void box_comes_back(const struct kamzhor_desk *desk)
{
    box_asks(SET_SHORT, some_box(1), desk, 8000, 1, KAMZHOR_EDGE_OUT);
    box_asks(SET_LONG, some_box(2), desk, 1, 1, KAMZHOR_EDGE_OUT);
    box_asks(SET_SHORT, some_box(0), desk, 5002, 1, KAMZHOR_OUT_OF_ORDER);
    box_asks(SET_LONG, some_box(0), desk, 6001, 1, KAMZHOR_OUT_OF_ORDER);
    box_asks(SET_SHORT, some_box(0), desk, 5003, 0, KAMZHOR_WRONG_WAIT);
    box_asks(SET_LONG, some_box(0), desk, 6000, 0, KAMZHOR_WRONG_WAIT);
    box_asks(ATTENUATE, some_box(1), desk, 1001, 1, KAMZHOR_TOO_MUCH);
    box_asks(ATTENUATE, some_box(1), desk, 1000, 0, KAMZHOR_WRONG_WAIT);
    box_asks(READ_MONITOR, some_box(2), desk, 0, 0, KAMZHOR_WRONG_WAIT);
    box_asks(READ_STATUS, some_box(2), desk, 0, 0, KAMZHOR_WRONG_WAIT);
}

/* the ticket and the telegram that each request asks for */
static void box_opens(enum asking asking, uint8_t type, uint8_t reg, uint8_t edge)
{
    static struct plain_frame told;
    struct kamzhor_desk desk = kamzhor_desk_fresh();
    struct kamzhor_box box = some_box(0), want = box;
    struct kamzhor_box_asked *a = (struct kamzhor_box_asked *)answer_at(sizeof *a);
    struct span room = room_of(40);
    struct kamzhor_seen seen;
    uint16_t value = asking == SET_SHORT ? 60123 : asking == SET_LONG ? 1234 : 321;
    into_box_ask(a, asking, &box, &desk, value, 500, CLOCK, room);
    if (edge) {
        want.out.edge = edge;
        want.out.address = KAMZHOR_FIRST_HOST;
        want.out.tenths = value;
    }
    holds(a->answer.refusal == 0 && a->answer.address == KAMZHOR_FIRST_HOST && a->answer.considered == 1 && same_box(&a->box, &want),
          "the box is another than it should be");
    plain_read_frame(room.bytes, (size_t)a->answer.size, 240, &told);
    seen = kamzhor_desk_look(&a->desk, KAMZHOR_FIRST_HOST);
    if (told.refusal || told.destination != 16 || told.source != KAMZHOR_FIRST_HOST || told.type != type || told.reg != reg
        || told.size != (type == KAMZHOR_WRITE ? 2 : 0) || (told.size && (told.data[0] != value % 256 || told.data[1] != value / 256)))
        fail("the box sent another telegram");
    if (seen.state != KAMZHOR_SEEN_OPEN || seen.asked.job != box.job || seen.asked.module != 16 || seen.asked.wait != 500
        || seen.asked.folder != 0 || seen.opened != CLOCK)
        fail("the box opened another ticket");
}

/* an edge that was out: acknowledged, refused by the module, closed; and another's answer */
static void box_hears(uint8_t out)
{
    struct kamzhor_box box = some_box(out), kept = box, *a = (struct kamzhor_box *)answer_at(sizeof *a);
    struct kamzhor_booked booked = {.job = 1, .folder = 2, .address = 163, .type = KAMZHOR_ACK};
    struct kamzhor_closed closed = {.job = 1, .folder = 2, .address = 163};
    struct kamzhor_edge set = {.known = 1, .tenths = 7003}, unknown = {.known = 0};
    memset(&kept.out, 0, sizeof kept.out);
    into_box_reply(a, &box, booked);
    if (out == 1)
        kept.short_pass = set;
    else
        kept.long_pass = set;
    holds(same_box(a, &kept), "an ack is not heard");
    kept = box;
    memset(&kept.out, 0, sizeof kept.out);
    booked.type = KAMZHOR_NACK;
    into_box_reply(a, &box, booked);
    holds(same_box(a, &kept), "a nack is not heard");
    into_box_close(a, &box, closed);
    if (out == 1)
        kept.short_pass = unknown;
    else
        kept.long_pass = unknown;
    holds(same_box(a, &kept), "a closing is not heard");
    booked.address = closed.address = 164;
    into_box_reply(a, &box, booked);
    holds(same_box(a, &box), "another's reply is heard");
    into_box_close(a, &box, closed);
    holds(same_box(a, &box), "another's closing is heard");
    booked.address = closed.address = 163;
    booked.refusal = closed.refusal = KAMZHOR_NO_TICKET;
    into_box_reply(a, &box, booked);
    holds(same_box(a, &box), "a refusal is heard");
    into_box_close(a, &box, closed);
    holds(same_box(a, &box), "a refusal is heard");
}

/* numbers that no call puts there count as the header says, and come back as what they count as */
static void odd_box(void)
{
    struct kamzhor_closed other = {.job = 1, .folder = 2, .address = 99};
    struct kamzhor_box box = some_box(3), want = some_box(0), *a = (struct kamzhor_box *)answer_at(sizeof *a);
    box.job = want.job;
    box.short_pass.known = 65535;
    box.long_pass.known = 0;
    want.long_pass.known = want.long_pass.tenths = 0;
    into_box_close(a, &box, other);
    holds(same_box(a, &want), "a box of other numbers counts as another");
}

static void boxes(void)
{
    static struct kamzhor_desk desk;
    doing = "boxes by hand";
    fill_desk(&desk);
    box_comes_back(&desk);
    box_opens(SET_SHORT, KAMZHOR_WRITE, 0x33, 1);
    box_opens(SET_LONG, KAMZHOR_WRITE, 0x34, 2);
    box_opens(ATTENUATE, KAMZHOR_WRITE, 0x32, 0);
    box_opens(READ_MONITOR, KAMZHOR_READ, 0x13, 0);
    box_opens(READ_STATUS, KAMZHOR_READ, 0x66, 0);
    box_hears(1);
    box_hears(2);
    odd_box();
}

/* ---- the scan */

static struct kamzhor_scan some_scan(uint8_t turns, uint8_t out)
{
    struct kamzhor_scan scan;
    memset(&scan, 0, sizeof scan);
    scan.job = next32();
    scan.turns = turns;
    scan.out = out;
    fill(scan.results, sizeof scan.results);
    return scan;
}

static void scan_steps(struct kamzhor_scan scan, const struct kamzhor_desk *desk, struct kamzhor_scanned want)
{
    struct kamzhor_scan_asked *a = (struct kamzhor_scan_asked *)answer_at(sizeof *a);
    into_scan_step(a, &scan, desk, CLOCK, none);
    holds(same_scanned(&a->answer, &want) && same_scan(&a->scan, &scan) && same_desk(&a->desk, desk), "a step changed scan or desk");
}

static void scan_comes_back(const struct kamzhor_desk *desk)
{
    struct kamzhor_scanned done = {.state = KAMZHOR_SCAN_DONE}, waiting = {.state = KAMZHOR_SCAN_WAITING, .address = 201};
    struct kamzhor_scanned refused = {.refusal = KAMZHOR_NO_JOB};
    struct kamzhor_scan scan = some_scan(100, 0);
    scan_steps(some_scan(160, 0), desk, done);
    scan_steps(some_scan(101, 201), desk, waiting);
    scan.job = 0;
    scan_steps(scan, desk, refused);
}

static void scan_asks(void)
{
    struct kamzhor_desk desk = kamzhor_desk_fresh();
    struct kamzhor_scan scan = some_scan(102, 0), want = scan;
    struct kamzhor_scan_asked *a = (struct kamzhor_scan_asked *)answer_at(sizeof *a);
    struct kamzhor_scanned asked = {.state = KAMZHOR_SCAN_ASKED, .address = 161, .module = 103, .considered = 1, .size = 8};
    struct kamzhor_seen seen;
    want.out = 161;
    into_scan_step(a, &scan, &desk, CLOCK, room_of(10));
    holds(same_scanned(&a->answer, &asked) && same_scan(&a->scan, &want), "another module was asked");
    seen = kamzhor_desk_look(&a->desk, 161);
    if (seen.state != KAMZHOR_SEEN_OPEN || seen.asked.job != scan.job || seen.asked.module != 103 || seen.asked.type != KAMZHOR_READ
        || seen.asked.reg != 0x61 || seen.asked.wait != 100 || seen.asked.folder != 0)
        fail("the scan opened another ticket");
}

static void scan_hears(void)
{
    struct kamzhor_scan scan = some_scan(77, 180), next = scan, *a = (struct kamzhor_scan *)answer_at(sizeof *a);
    struct kamzhor_booked booked = {.job = 1, .folder = 2, .address = 180, .type = KAMZHOR_DATAGRAM, .size = 3};
    struct kamzhor_closed closed = {.job = 1, .folder = 2, .address = 180};
    next.turns = 78;
    next.out = 0;
    next.results[77] = 1;
    into_scan_reply(a, &scan, booked);
    holds(same_scan(a, &next), "a datagram is not heard");
    next.results[77] = 2;
    booked.type = KAMZHOR_BUSY;
    into_scan_reply(a, &scan, booked);
    holds(same_scan(a, &next), "a busy is not heard");
    next.results[77] = 0;
    into_scan_close(a, &scan, closed);
    holds(same_scan(a, &next), "a closing is not heard");
    booked.refusal = closed.refusal = KAMZHOR_NO_TICKET;
    into_scan_reply(a, &scan, booked);
    holds(same_scan(a, &scan), "a refusal is heard");
    into_scan_close(a, &scan, closed);
    holds(same_scan(a, &scan), "a refusal is heard");
}

static void scan_looks(uint8_t turns)
{
    struct kamzhor_scan scan = some_scan(turns, 0);
    uint32_t module, want;
    for (module = 0; module < 256; module++) {
        want = module == 0 || module > turns || module > 160 ? KAMZHOR_FOUND_NOT_YET : scan.results[module - 1];
        holds(kamzhor_scan_look(&scan, (uint8_t)module) == want, "another thing was found at a module");
    }
}

static void scans(void)
{
    static struct kamzhor_desk desk;
    doing = "scans by hand";
    fill_desk(&desk);
    scan_comes_back(&desk);
    scan_asks();
    scan_hears();
    scan_looks(160);
    scan_looks(93);
    scan_looks(255);
}

/* ---- the bench */

static struct kamzhor_bench some_bench(void)
{
    struct kamzhor_bench bench;
    size_t i;
    memset(&bench, 0, sizeof bench);
    bench.address = 15;
    bench.count = 32;
    for (i = 0; i < 32; i++) {
        bench.registers[i].number = (uint8_t)(7 * i + 3);
        bench.registers[i].kind = (uint8_t)(1 + i % 7);
        bench.registers[i].rights = (uint8_t)(i % 8);
        bench.registers[i].value = (uint64_t)next32() << 32 | next32();
    }
    return bench;
}

static void bench_looks(const struct kamzhor_bench *bench)
{
    uint32_t number;
    size_t i;
    for (number = 0; number < 256; number++) {
        struct kamzhor_register want = {.held = 0}, seen = kamzhor_bench_look(bench, (uint8_t)number);
        for (i = 0; i < 32; i++)
            if (bench->registers[i].number == number) {
                want.held = 1;
                want.number = (uint8_t)number;
                want.kind = bench->registers[i].kind;
                want.rights = bench->registers[i].rights;
                want.value = bench->registers[i].value;
            }
        holds(same_register(&seen, &want), "a register is another than was put there");
    }
}

static void bench_comes_back(const struct kamzhor_bench *bench)
{
    struct kamzhor_bench_built *built = (struct kamzhor_bench_built *)answer_at(sizeof *built);
    struct kamzhor_bench_answered *taken;
    into_bench_add(built, bench, 1, 0, 0);
    holds(built->refusal == KAMZHOR_BENCH_KIND && same_bench(&built->bench, bench), "adding changed the bench");
    into_bench_add(built, bench, 1, 1, 1);
    holds(built->refusal == KAMZHOR_BENCH_FULL && same_bench(&built->bench, bench), "adding changed the bench");
    into_bench_set(built, bench, 1, 0, 0);
    holds(built->refusal == KAMZHOR_NOT_HELD && same_bench(&built->bench, bench), "setting changed the bench");
    taken = (struct kamzhor_bench_answered *)answer_at(sizeof *taken);
    into_bench_take(taken, bench, none, none);
    holds(taken->answer.refusal == KAMZHOR_NOT_FRAMED && same_bench(&taken->bench, bench), "a telegram changed the bench");
}

/* each register set, and nothing else; the unsigned 64-bit ones to a number with another in each byte */
static void bench_sets(const struct kamzhor_bench *bench)
{
    size_t i;
    for (i = 0; i < 32; i++) {
        struct kamzhor_bench want = *bench;
        struct kamzhor_bench_built *a = (struct kamzhor_bench_built *)answer_at(sizeof *a);
        want.registers[i].value = want.registers[i].kind == KAMZHOR_U64 ? 0x8877665544332211u : 0x5A;
        into_bench_set(a, bench, want.registers[i].number, 0, want.registers[i].value);
        holds(a->refusal == 0 && same_bench(&a->bench, &want), "another register was set");
    }
}

/* each register that may be read: its bytes in the reply */
static void bench_answers(const struct kamzhor_bench *bench)
{
    static const size_t sizes[8] = {0, 1, 1, 2, 2, 4, 4, 8};
    static struct plain_frame told;
    uint8_t question[40];
    size_t i, k;
    for (i = 1; i < 32; i += 2) {
        struct kamzhor_bench_answered *a = (struct kamzhor_bench_answered *)answer_at(sizeof *a);
        const struct kamzhor_held *held = &bench->registers[i];
        struct span frame = {question, 0}, room = room_of(40);
        frame.n = telegram(question, bench->address, 200, KAMZHOR_READ, held->number, question, 0);
        into_bench_take(a, bench, frame, room);
        plain_read_frame(room.bytes, (size_t)a->answer.size, 240, &told);
        holds(a->answer.refusal == 0 && a->answer.place == 0 && told.refusal == 0 && told.destination == 200 && told.source == 15
                  && told.type == KAMZHOR_DATAGRAM && told.reg == held->number && told.size == sizes[held->kind],
              "another reply of the bench");
        for (k = 0; k < told.size; k++)
            if (told.data[k] != (uint8_t)(held->value >> (8 * k)))
                fail("the reply has another value than the register");
        into_bench_take(a, bench, broken_frame, room);
        holds(a->answer.refusal == KAMZHOR_BAD_SUBSTITUTION && a->answer.place == 5 && a->answer.size == 0 && same_bench(&a->bench, bench),
              "a broken telegram is told otherwise");
    }
}

static void bench_adds(void)
{
    struct kamzhor_bench_built *a = (struct kamzhor_bench_built *)answer_at(sizeof *a);
    struct kamzhor_bench bench, want;
    size_t i;
    memset(&want, 0, sizeof want);
    into_bench_made(a, 160);
    want.address = 160;
    for (i = 0; i < 32; i++) {
        holds(a->refusal == 0 && same_bench(&a->bench, &want), "another bench was built");
        bench = a->bench;
        want.registers[i].number = (uint8_t)(200 - i);
        want.registers[i].kind = (uint8_t)(7 - i % 7);
        want.registers[i].rights = (uint8_t)(i % 8);
        want.count++;
        into_bench_add(a, &bench, (uint8_t)(200 - i), (uint8_t)(7 - i % 7), (uint8_t)(i % 8));
    }
    holds(a->refusal == 0 && same_bench(&a->bench, &want), "another bench was built");
}

static void benches(void)
{
    struct kamzhor_bench bench = some_bench();
    doing = "benches by hand";
    bench_looks(&bench);
    bench_comes_back(&bench);
    bench_sets(&bench);
    bench_answers(&bench);
    bench_adds();
}

/* ---- sheets and the catalogue */

/* a sheet of 100 settings with other numbers in each; every record is read, thrown out, and added again */
static void sheets(void)
{
    static uint8_t rows[800], values[300], sheet[2000], copy[2000];
    struct kamzhor_size size, shorter, longer;
    struct kamzhor_checked checked;
    uint8_t value[2];
    size_t i;
    doing = "sheets";
    fill(values, sizeof values);
    for (i = 0; i < 100; i++) {
        rows[8 * i] = (uint8_t)(1 + i);
        rows[8 * i + 1] = next8();
        rows[8 * i + 2] = i % 2 ? KAMZHOR_I8 : KAMZHOR_U16;
        rows[8 * i + 3] = 1;
        rows[8 * i + 4] = i % 2 ? 1 : 2;
    }
    size = kamzhor_sheet_write(rows, sizeof rows, values, 150, sheet, sizeof sheet);
    checked = kamzhor_sheet_check(sheet, (size_t)size.size);
    holds(size.refusal == 0 && size.size == 12 + 800 + 150 && checked.refusal == 0 && checked.count == 100, "another sheet was written");
    for (i = 0; i < 100; i++) {
        struct kamzhor_record a = kamzhor_sheet_read(sheet, (size_t)size.size, i, value, sizeof value);
        size_t at = i / 2 * 3 + (i % 2) * 2;
        holds(a.refusal == 0 && a.setting.module == rows[8 * i] && a.setting.reg == rows[8 * i + 1] && a.setting.kind == rows[8 * i + 2]
                  && a.setting.count == 1 && a.size == rows[8 * i + 4] && memcmp(value, values + at, (size_t)a.size) == 0,
              "another record was read");
        memcpy(copy, sheet, sizeof sheet);
        shorter = i % 3 ? kamzhor_sheet_remove(copy, sizeof copy, (size_t)size.size, i)
                        : kamzhor_sheet_remove_module(copy, sizeof copy, (size_t)size.size, a.setting.module);
        longer = kamzhor_sheet_add(copy, sizeof copy, (size_t)shorter.size, a.setting, value, (size_t)a.size);
        holds(shorter.refusal == 0 && shorter.size == size.size - 8 - a.size && longer.refusal == 0 && longer.size == size.size
                  && memcmp(copy, sheet, sizeof sheet) == 0,
              "a setting thrown out and added again makes another sheet");
    }
}

/* rows and values that are not what they say: no call script has such */
static void misstated_sheets(void)
{
    static const uint8_t rows[16] = {15, 48, KAMZHOR_U8, 1, 1, 0, 0, 0, 15, 49, KAMZHOR_U8, 1, 1, 0, 0, 0}, values[3] = {7, 8, 9};
    uint8_t room[40], row[8];
    size_t rows_length, values_length, i;
    doing = "sheets";
    for (rows_length = 1; rows_length < 17; rows_length++)
        for (values_length = 0; values_length < 4; values_length++) {
            struct kamzhor_size a;
            memset(room, 0xEE, sizeof room);
            a = kamzhor_sheet_write(rows, rows_length, values, values_length, room, sizeof room);
            if (rows_length == 8 * values_length)
                holds(a.refusal == 0 && a.size == 12 + rows_length + values_length && room[a.size] == 0xEE, "a sheet is refused");
            else
                holds(a.refusal == KAMZHOR_RECORD_REFUSED && a.size == 0 && room[0] == 0xEE, "misstated rows or values are written");
        }
    for (i = 4; i < 8; i++) {
        memcpy(row, rows, sizeof row);
        row[i] = (uint8_t)(row[i] + 1);
        holds(kamzhor_sheet_write(row, 8, values, 1, room, sizeof room).refusal == KAMZHOR_RECORD_REFUSED, "another length is written");
    }
}

/* numbers that are wider than a call script has them: none is cut, minus is any number but 0, and there is no minus 0 */
static void wide_values(void)
{
    static const uint64_t kinds[] = {0, 8, 255, 256, 257, 263, (uint64_t)1 << 32 | 1, (uint64_t)1 << 56 | 7, UINT64_MAX};
    struct kamzhor_bench bench;
    uint8_t room[8];
    size_t i;
    doing = "wide values";
    memset(room, 0xEE, sizeof room);
    for (i = 0; i < sizeof kinds / sizeof *kinds; i++)
        holds(kamzhor_write_value(kinds[i], 0, 1, room, 8) == KAMZHOR_UNKNOWN_KIND && room[0] == 0xEE, "a kind was cut");
    holds(kamzhor_write_value(KAMZHOR_I32, 1, 2147483649u, room, 8) == KAMZHOR_DOES_NOT_FIT && room[0] == 0xEE, "a value was cut");
    holds(kamzhor_write_value(KAMZHOR_I32, 1, UINT64_MAX, room, 8) == KAMZHOR_DOES_NOT_FIT && room[0] == 0xEE, "a value was cut");
    holds(kamzhor_write_value(KAMZHOR_U64, 1, 1, room, 8) == KAMZHOR_DOES_NOT_FIT && room[0] == 0xEE, "minus 1 is written without a sign");
    holds(kamzhor_write_value(KAMZHOR_I32, 0x80000000u, 2147483648u, room, 8) == 0 && room[0] == 0 && room[3] == 0x80 && room[4] == 0xEE,
          "minus is another number than not 0");
    holds(kamzhor_write_value(KAMZHOR_U64, 1, 0, room, 8) == 0 && room[3] == 0 && room[7] == 0, "minus 0 is not 0");
    kamzhor_bench_make(&bench, 15);
    kamzhor_bench_add(&bench, 1, KAMZHOR_I8, 0);
    holds(kamzhor_bench_set(&bench, 1, 1, UINT64_MAX) == KAMZHOR_DOES_NOT_FIT, "a register's value was cut");
    holds(kamzhor_bench_set(&bench, 1, 1, 129) == KAMZHOR_DOES_NOT_FIT, "a register's value was cut");
    holds(kamzhor_bench_set(&bench, 1, 256, 128) == 0 && kamzhor_bench_look(&bench, 1).value == 128, "minus is another number than not 0");
    holds(kamzhor_bench_set(&bench, 1, 256, 0) == 0 && kamzhor_bench_look(&bench, 1).value == 0, "minus 0 is not 0");
}

/* rows of the paper */
static void catalogue(void)
{
    static const struct {
        uint8_t model, reg;
        struct kamzhor_entry entry;
    } rows[] = {
        {0x74, 0x24, {.kind = KAMZHOR_U16, .writable = 1, .lowest = 0, .highest = 4095}},
        {0x74, 0x33, {.kind = KAMZHOR_U32, .writable = 1, .lowest = 1, .highest = 4294967295u}},
        {0x74, 0x1B, {.kind = KAMZHOR_I16, .writable = 0, .lowest = 0, .highest = 0}},
        {0x68, 0x34, {.kind = KAMZHOR_U16, .writable = 1, .lowest = 0, .highest = 65535}},
        {0x67, 0x34, {.kind = KAMZHOR_U8, .writable = 1, .lowest = 0, .highest = 1}},
        {0x67, 0x36, {.refusal = KAMZHOR_NO_SUCH_ROW}},
    };
    size_t i;
    doing = "the catalogue";
    for (i = 0; i < sizeof rows / sizeof *rows; i++) {
        struct kamzhor_entry *a = (struct kamzhor_entry *)answer_at(sizeof *a);
        const struct kamzhor_entry *want = &rows[i].entry;
        into_find_register(a, rows[i].model, rows[i].reg);
        holds(a->refusal == want->refusal && a->kind == want->kind && a->writable == want->writable && a->lowest == want->lowest
                  && a->highest == want->highest,
              "another row");
    }
}

/* ---- null is an empty string of bytes, in every place of every call */

static void null_bytes(void)
{
    uint8_t eight[8] = {0};
    struct kamzhor_tally tally = {.read = 1, .refused = 2, .dropped = 3};
    struct kamzhor_step step = kamzhor_step(kamzhor_receiver(5), &tally, NULL, 0);
    doing = "null bytes";
    holds(kamzhor_remainder(NULL, 0) == 0 && kamzhor_read_frame(NULL, 0, NULL, 0).refusal == KAMZHOR_NOT_FRAMED, "null is no empty string");
    holds(kamzhor_read_value(KAMZHOR_U8, NULL, 0, 0).refusal == KAMZHOR_WRONG_LENGTH, "null is no empty string");
    holds(step.refusal == 0 && step.taken == 0 && step.receiver.place == 5 && tally.dropped == 3, "null is no empty chunk");
    holds(kamzhor_write_frame(15, 162, KAMZHOR_READ, 102, NULL, 0, eight, 8).size == 8 && eight[7] == 10, "null is no empty data");
    holds(kamzhor_write_frame(15, 162, KAMZHOR_READ, 102, NULL, 0, NULL, 0).refusal == KAMZHOR_NO_ROOM, "null is no empty room");
    holds(kamzhor_write_value(KAMZHOR_U8, 0, 1, NULL, 0) == KAMZHOR_SHORT_BUFFER, "null is no empty room");
    holds(kamzhor_which_to_display(NULL, 0, NULL, 0) == KAMZHOR_NEITHER && kamzhor_display(NULL, 0, eight, 2) == eight
              && kamzhor_display(eight, 2, NULL, 0) == eight && kamzhor_display(NULL, 0, NULL, 0) == NULL,
          "null is no empty string to display");
}

static void null_sheets(void)
{
    static const uint8_t empty[12] = {1, 0, 0, 0, 12, 0, 0, 0, 12, 0, 0, 0};
    struct kamzhor_setting setting = {.module = 1, .reg = 1, .kind = KAMZHOR_U8, .count = 1};
    uint8_t room[12] = {0};
    doing = "null sheets";
    holds(kamzhor_sheet_write(NULL, 0, NULL, 0, room, 12).size == 12 && memcmp(room, empty, 12) == 0, "null is no empty list of settings");
    holds(kamzhor_sheet_write(NULL, 0, NULL, 0, NULL, 0).refusal == KAMZHOR_SHEET_NO_ROOM, "null is no empty room");
    holds(kamzhor_sheet_check(NULL, 0).refusal == KAMZHOR_SHORT_SHEET, "null is no empty sheet");
    holds(kamzhor_sheet_read(NULL, 0, 0, NULL, 0).refusal == KAMZHOR_SHORT_SHEET, "null is no empty sheet");
    holds(kamzhor_sheet_read(room, 12, 0, NULL, 0).refusal == KAMZHOR_NO_SUCH_RECORD, "null is no empty room");
    holds(kamzhor_sheet_remove(NULL, 0, 0, 0).refusal == KAMZHOR_SHORT_SHEET, "null is no empty room");
    holds(kamzhor_sheet_remove(NULL, 0, 1, 0).refusal == KAMZHOR_SHEET_ROOM, "null is no empty room");
    holds(kamzhor_sheet_remove_module(NULL, 0, 0, 1).refusal == KAMZHOR_SHORT_SHEET, "null is no empty room");
    holds(kamzhor_sheet_add(NULL, 0, 0, setting, room, 1).refusal == KAMZHOR_SHORT_SHEET, "null is no empty room");
    holds(kamzhor_sheet_add(room, 12, 12, setting, NULL, 0).refusal == KAMZHOR_RECORD_REFUSED, "null is no empty value");
}

static void null_states(void)
{
    struct kamzhor_desk desk = kamzhor_desk_fresh(), fresh = desk;
    struct kamzhor_lanes lanes = kamzhor_lanes_fresh();
    struct kamzhor_box box = kamzhor_box_fresh(1, 16);
    struct kamzhor_scan scan = kamzhor_scan_fresh(1);
    struct kamzhor_bench bench;
    struct kamzhor_request asked = {.job = 1, .module = 15, .type = KAMZHOR_WRITE, .reg = 48, .wait = 100};
    uint8_t room[16];
    doing = "null bytes with states";
    kamzhor_bench_make(&bench, 15);
    holds(kamzhor_desk_open(&desk, asked, NULL, 0, 0, NULL, 0, NULL) == KAMZHOR_SHORT_ROOM, "null is no empty room");
    holds(kamzhor_desk_reply(&desk, NULL, 0, NULL, 0, NULL) == KAMZHOR_NOT_FRAMED, "null is no empty frame");
    holds(kamzhor_desk_expire_all(&desk, 0, NULL, 0) == 0, "null is no empty list");
    holds(kamzhor_lanes_join(&lanes, asked, NULL, 0, NULL) == KAMZHOR_DONE, "null is no empty data");
    holds(kamzhor_lanes_grant(&lanes, &desk, 0, NULL, 0, NULL) == KAMZHOR_GRANT_ROOM, "null is no empty room");
    holds(kamzhor_box_set_short(&box, &desk, 1, 1, 0, NULL, 0, NULL) == KAMZHOR_SHORT_ROOM, "null is no empty room");
    holds(kamzhor_box_set_long(&box, &desk, 1, 1, 0, NULL, 0, NULL) == KAMZHOR_SHORT_ROOM, "null is no empty room");
    holds(kamzhor_box_attenuate(&box, &desk, 1, 1, 0, NULL, 0, NULL) == KAMZHOR_SHORT_ROOM, "null is no empty room");
    holds(kamzhor_box_read_monitor(&box, &desk, 1, 0, NULL, 0, NULL) == KAMZHOR_SHORT_ROOM, "null is no empty room");
    holds(kamzhor_box_read_status(&box, &desk, 1, 0, NULL, 0, NULL) == KAMZHOR_SHORT_ROOM, "null is no empty room");
    holds(kamzhor_scan_step(&scan, &desk, 0, NULL, 0, NULL) == KAMZHOR_SHORT_ROOM, "null is no empty room");
    holds(kamzhor_bench_take(&bench, NULL, 0, NULL, 0, NULL) == KAMZHOR_NOT_FRAMED, "null is no empty frame");
    holds(same_desk(&desk, &fresh), "a refusal changed the desk");
    holds(kamzhor_desk_open(&desk, asked, NULL, 0, 0, room, sizeof room, NULL) == KAMZHOR_DONE, "null is no empty data");
    holds(kamzhor_bench_take(&bench, room, 8, NULL, 0, NULL) == KAMZHOR_BENCH_SHORT_ROOM, "null is no empty room");
}

int main(void)
{
    answers = ground(sizeof(struct kamzhor_lanes_granted));
    room_ground = ground(KAMZHOR_MOST_KEPT);
    for (at_end = 0; at_end < 2; at_end++) {
        answer_at(1);
        desks();
        all_lanes();
        boxes();
        scans();
        benches();
        sheets();
        misstated_sheets();
        wide_values();
        catalogue();
        null_bytes();
        null_sheets();
        null_states();
    }
    printf("host: %lu calls on states made by hand: every number is where the header says\n", calls);
    return 0;
}
