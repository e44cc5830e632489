/* Each call on a state in three ways, on the same state, in seeded walks: by value, with its answer right before a closed page or
 * right behind one; in place; and in place without an answer. State, answer, number and every lent byte must come out alike; a
 * refusal leaves state and bytes, and says nothing else. Empty strings of bytes are null now and then. */
#include "kamzhor.h"

#include "into.h"
#include "same.h"
#include "shared.h"
#include <stdio.h>
#include <string.h>

#ifndef TRIES
#define TRIES 5000
#endif
#define MOST_ROOM 600
#define MOST_LIST 300 /* numbers */

/* ---- one state, and what each way makes of it */

struct world {
    struct kamzhor_desk desk;
    struct kamzhor_lanes lanes;
    struct kamzhor_box box;
    struct kamzhor_scan scan;
    struct kamzhor_bench bench;
};

static struct world now, valued, placed, quiet;
static unsigned long seen[100];
static uint32_t now_clock = 4294960000u; /* it runs over in each walk */

static int same_world(const struct world *a, const struct world *b)
{
    return same_desk(&a->desk, &b->desk) && same_lanes(&a->lanes, &b->lanes) && same_box(&a->box, &b->box) && same_scan(&a->scan, &b->scan)
        && same_bench(&a->bench, &b->bench);
}

/* ---- what is lent */

static struct ground answer_ground, data_ground, room_grounds[3];
static uint8_t *answer, *data, room_before[MOST_ROOM];
static size_t answer_size, data_size;
static struct span rooms[3];
static int at_end;

static void *answer_at(size_t n)
{
    answer_size = n;
    answer = lend(answer_ground, n, at_end);
    return answer;
}

/* a string of bytes, which is null where it is empty, half of the time */
static struct span lent(struct ground from, const uint8_t *bytes, size_t n)
{
    struct span span;
    span.bytes = lend(from, n, at_end);
    span.n = n;
    if (n)
        memcpy(span.bytes, bytes, n);
    else if (below(2))
        span.bytes = NULL;
    return span;
}

static struct span lent_data(const uint8_t *bytes, size_t n)
{
    data = lend(data_ground, n, at_end);
    data_size = n;
    return lent(data_ground, bytes, n);
}

static void begin(size_t room_length)
{
    size_t i;
    at_end = (int)below(2);
    valued = placed = quiet = now;
    for (i = 0; i < room_length; i++)
        room_before[i] = (uint8_t)random64();
    for (i = 0; i < 3; i++)
        rooms[i] = lent(room_grounds[i], room_before, room_length);
    data_size = answer_size = 0;
}

static void same_rooms(int refused)
{
    size_t i;
    for (i = 0; i < 3 && rooms[i].n; i++) {
        unharmed(rooms[i].bytes, rooms[i].n, at_end);
        if (memcmp(rooms[i].bytes, refused ? room_before : rooms[0].bytes, rooms[i].n))
            fail(refused ? "a refusal changed the room" : "the rooms differ");
    }
}

/* The three are alike, and go on as one. A refusal left everything, but for a request that was taken out of its lane. */
static void end(uint32_t refusal, int number, int quiet_number, int same_answer, int silent)
{
    calls++;
    seen[refusal]++;
    if (number != (int)refusal || quiet_number != (int)refusal)
        fail("the numbers differ");
    if (!same_answer)
        fail("the answers differ");
    if (refusal && !silent)
        fail("a refusal says more than its number");
    if (!same_world(&valued, &placed) || !same_world(&valued, &quiet))
        fail("the states differ");
    if (refusal == KAMZHOR_FOLDER_HELD && !same_lanes(&now.lanes, &placed.lanes))
        now.lanes = placed.lanes;
    if (refusal && !same_world(&now, &placed))
        fail("a refusal changed the state");
    same_rooms(refusal != KAMZHOR_DONE);
    unharmed(answer, answer_size, at_end);
    if (data_size)
        unharmed(data, data_size, at_end);
    now = placed;
}

/* ---- seeded parameters, most of them such that something happens */

static uint32_t some_clock(void)
{
    now_clock += (uint32_t)(below(40) == 0 ? 900 + below(400) : below(12));
    return now_clock;
}

/* often the first, so that it has a lane that is full */
static uint32_t some_job(void)
{
    return (uint32_t)(below(30) == 0 ? 0 : below(3) ? 1 + below(20) : 1);
}

static size_t some_room(void)
{
    switch (below(6)) {
    case 0:
        return below(12);
    case 1:
        return 490 + below(10);
    default:
        return 494 + below(80);
    }
}

static struct kamzhor_request some_request(void)
{
    static const uint8_t types[] = {4, 5, 6, 7, 9}, modules[] = {0, 160, 161, 255};
    struct kamzhor_request asked;
    memset(&asked, 0, sizeof asked);
    asked.job = some_job();
    asked.module = (uint8_t)(below(30) ? 1 + below(5) : modules[below(4)]);
    asked.type = below(30) ? types[below(5)] : (uint8_t)random64();
    asked.reg = some_byte();
    asked.wait = (uint32_t)(below(30) ? 1 + below(300) : 60000 * below(2) + below(2));
    asked.folder = (uint32_t)(below(2) ? 0 : below(8));
    return asked;
}

static struct span some_data(const struct kamzhor_request *asked)
{
    static uint8_t bytes[256];
    size_t n = asked->type == KAMZHOR_READ && below(20) ? 0 : below(12) ? below(8) : 235 + below(8), i;
    for (i = 0; i < n; i++)
        bytes[i] = some_byte();
    return lent_data(bytes, n);
}

/* often that of the ticket that the box or the scan waits for */
static uint8_t some_address(void)
{
    switch (below(4)) {
    case 0:
        return now.box.out.address;
    case 1:
        return now.scan.out;
    default:
        return (uint8_t)(below(20) ? KAMZHOR_FIRST_HOST + below(KAMZHOR_HOSTS) : below(256));
    }
}

/* a reply to a ticket, often the fitting one */
static size_t some_reply(uint8_t *frame, size_t most)
{
    static const uint8_t kinds[] = {0, 1, 2, 3, 8};
    uint8_t bytes[8], address = some_address(), module, reg;
    struct kamzhor_seen there = kamzhor_desk_look(&now.desk, address);
    size_t i, n = below(sizeof bytes);
    if (below(4) == 0)
        return some_frame(frame, &n);
    for (i = 0; i < n; i++)
        bytes[i] = some_byte();
    module = (uint8_t)(there.asked.module ? there.asked.module + (below(20) == 0) : 1);
    reg = (uint8_t)(there.asked.reg + (below(10) == 0));
    return (size_t)kamzhor_write_frame(address ? address : 200, module, kinds[below(5)], reg, bytes, n, frame, most).size;
}

/* ---- the desk */

static int silent_opened(const struct kamzhor_opened *a)
{
    int considered_0 = a->refusal != KAMZHOR_NONE_FREE && a->refusal != KAMZHOR_SHORT_ROOM;
    return a->address == 0 && a->size == 0 && (considered_0 ? a->considered == 0 : a->considered > 0);
}

static void try_open(void)
{
    struct kamzhor_request asked = some_request();
    struct kamzhor_desk_opened *a;
    struct kamzhor_opened b;
    struct span bytes;
    uint32_t clock = some_clock();
    int number, again;
    begin(some_room());
    bytes = some_data(&asked);
    a = (struct kamzhor_desk_opened *)answer_at(sizeof *a);
    into_desk_open(a, &now.desk, asked, bytes, clock, rooms[0]);
    valued.desk = a->desk;
    number = kamzhor_desk_open(&placed.desk, asked, bytes.bytes, bytes.n, clock, rooms[1].bytes, rooms[1].n, &b);
    again = kamzhor_desk_open(&quiet.desk, asked, bytes.bytes, bytes.n, clock, rooms[2].bytes, rooms[2].n, NULL);
    end(b.refusal, number, again, same_opened(&a->answer, &b), silent_opened(&b));
}

/* box and scan are told, in both ways; a refusal is nothing to them */
static void tell_reply(struct kamzhor_booked told)
{
    struct kamzhor_box *box = (struct kamzhor_box *)answer_at(sizeof *box), old_box = now.box;
    struct kamzhor_scan *scan, old_scan = now.scan;
    into_box_reply(box, &now.box, told);
    kamzhor_box_reply(&now.box, told);
    if (!same_box(box, &now.box))
        fail("the boxes differ");
    unharmed(answer, answer_size, at_end);
    scan = (struct kamzhor_scan *)answer_at(sizeof *scan);
    into_scan_reply(scan, &now.scan, told);
    kamzhor_scan_reply(&now.scan, told);
    if (!same_scan(scan, &now.scan))
        fail("the scans differ");
    unharmed(answer, answer_size, at_end);
    if (told.refusal && (!same_box(&old_box, &now.box) || !same_scan(&old_scan, &now.scan)))
        fail("a refusal changed the box or the scan");
}

static void tell_close(struct kamzhor_closed told)
{
    struct kamzhor_box *box = (struct kamzhor_box *)answer_at(sizeof *box), old_box = now.box;
    struct kamzhor_scan *scan, old_scan = now.scan;
    into_box_close(box, &now.box, told);
    kamzhor_box_close(&now.box, told);
    if (!same_box(box, &now.box))
        fail("the boxes differ");
    unharmed(answer, answer_size, at_end);
    scan = (struct kamzhor_scan *)answer_at(sizeof *scan);
    into_scan_close(scan, &now.scan, told);
    kamzhor_scan_close(&now.scan, told);
    if (!same_scan(scan, &now.scan))
        fail("the scans differ");
    unharmed(answer, answer_size, at_end);
    if (told.refusal && (!same_box(&old_box, &now.box) || !same_scan(&old_scan, &now.scan)))
        fail("a refusal changed the box or the scan");
}

static void try_reply(void)
{
    static uint8_t bytes[MOST_ROOM];
    struct kamzhor_desk_booked *a;
    struct kamzhor_booked b;
    struct span frame;
    int number, again;
    begin(below(3) ? 240 + below(20) : below(10));
    frame = lent_data(bytes, some_reply(bytes, sizeof bytes));
    a = (struct kamzhor_desk_booked *)answer_at(sizeof *a);
    into_desk_reply(a, &now.desk, frame, rooms[0]);
    valued.desk = a->desk;
    number = kamzhor_desk_reply(&placed.desk, frame.bytes, frame.n, rooms[1].bytes, rooms[1].n, &b);
    again = kamzhor_desk_reply(&quiet.desk, frame.bytes, frame.n, rooms[2].bytes, rooms[2].n, NULL);
    end(b.refusal, number, again, same_booked(&a->answer, &b),
        (b.job | b.folder | b.address | b.type) == 0 && b.size == 0 && (b.refusal == KAMZHOR_BAD_SUBSTITUTION || b.place == 0));
    tell_reply(b);
}

static void try_cancel(void)
{
    uint8_t address = some_address();
    struct kamzhor_seen there = kamzhor_desk_look(&now.desk, address);
    uint32_t job = below(4) ? there.asked.job : some_job(), clock = some_clock();
    struct kamzhor_desk_closed *a;
    struct kamzhor_closed b;
    int number, again;
    begin(0);
    a = (struct kamzhor_desk_closed *)answer_at(sizeof *a);
    into_desk_cancel(a, &now.desk, job, address, clock);
    valued.desk = a->desk;
    number = kamzhor_desk_cancel(&placed.desk, job, address, clock, &b);
    again = kamzhor_desk_cancel(&quiet.desk, job, address, clock, NULL);
    end(b.refusal, number, again, same_closed(&a->answer, &b), (b.job | b.folder | b.address) == 0);
    tell_close(b);
}

static void try_expire(void)
{
    uint32_t clock = some_clock();
    struct kamzhor_desk_closed *a;
    struct kamzhor_closed b;
    int number, again;
    begin(0);
    a = (struct kamzhor_desk_closed *)answer_at(sizeof *a);
    into_desk_expire(a, &now.desk, clock);
    valued.desk = a->desk;
    number = kamzhor_desk_expire(&placed.desk, clock, &b);
    again = kamzhor_desk_expire(&quiet.desk, clock, NULL);
    end(b.refusal, number, again, same_closed(&a->answer, &b), (b.job | b.folder | b.address) == 0);
    tell_close(b);
}

/* the list of the call by value may end with a part of an entry, which stays */
static void try_expire_all(void)
{
    uint32_t clock = some_clock() + (uint32_t)below(200), ones[MOST_LIST];
    size_t entries = below(3) ? below(6) : below(99), numbers = 3 * entries + below(3), i, n;
    struct kamzhor_desk_swept *a;
    struct kamzhor_due list[MOST_LIST / 3];
    struct kamzhor_closed single = {0, 0, 0, 0};
    struct span given;
    begin(0);
    memset(ones, 255, sizeof ones);
    memset(list, 255, sizeof list);
    given = lent_data((const uint8_t *)ones, 4 * numbers);
    a = (struct kamzhor_desk_swept *)answer_at(sizeof *a);
    into_desk_expire_all(a, &now.desk, clock, (uint32_t *)(void *)given.bytes, numbers);
    valued.desk = a->desk;
    n = kamzhor_desk_expire_all(&placed.desk, clock, list, entries);
    for (i = 0; i < n; i++) {
        struct kamzhor_closed told = kamzhor_closed_of(list[i]);
        if (kamzhor_desk_expire(&quiet.desk, clock, &single) || !same_closed(&single, &told))
            fail("an entry of the list is not what a single expiry answers");
    }
    if (n < entries && kamzhor_desk_expire(&quiet.desk, clock, NULL) == KAMZHOR_DONE)
        fail("something is still due, and the list has room");
    if (numbers && (memcmp(given.bytes, list, 12 * entries) || memcmp(given.bytes + 12 * n, ones, 4 * numbers - 12 * n)))
        fail("the lists differ, or what is not used changed");
    end(0, 0, 0, a->count == n, 1);
    for (i = 0; i < n; i++)
        tell_close(kamzhor_closed_of(list[i]));
}

static void try_look(void)
{
    uint8_t address = some_address(), module = some_byte(), number = (uint8_t)below(40);
    struct kamzhor_seen *a, b = kamzhor_desk_look(&now.desk, address);
    struct kamzhor_register held = kamzhor_bench_look(&now.bench, number), by_value = kamzhor_look_at_bench(now.bench, number);
    begin(0);
    a = (struct kamzhor_seen *)answer_at(sizeof *a);
    into_desk_look(a, &now.desk, address);
    end(0, 0, 0, same_seen(a, &b) && same_register(&held, &by_value), 1);
    if (kamzhor_scan_look(&now.scan, module) != kamzhor_look_at_scan(now.scan, module))
        fail("the looks at the scan differ");
}

/* ---- the lanes */

static void try_join(void)
{
    struct kamzhor_request asked = some_request();
    struct kamzhor_lanes_joined *a;
    struct kamzhor_joined b;
    struct span bytes;
    int number, again;
    begin(0);
    bytes = some_data(&asked);
    a = (struct kamzhor_lanes_joined *)answer_at(sizeof *a);
    into_lanes_join(a, &now.lanes, asked, bytes);
    valued.lanes = a->lanes;
    number = kamzhor_lanes_join(&placed.lanes, asked, bytes.bytes, bytes.n, &b);
    again = kamzhor_lanes_join(&quiet.lanes, asked, bytes.bytes, bytes.n, NULL);
    end(b.refusal, number, again, same_joined(&a->answer, &b), b.lane == 0 && b.place == 0);
}

static int silent_granted(const struct kamzhor_granted *a)
{
    return a->address == 0 && a->size == 0 && (a->refusal == KAMZHOR_FOLDER_HELD) == (a->job != 0)
        && a->considered == (a->refusal == KAMZHOR_NONE_FREE ? KAMZHOR_HOSTS : 0);
}

static void try_grant(void)
{
    uint32_t clock = some_clock();
    struct kamzhor_lanes_granted *a;
    struct kamzhor_granted b;
    int number, again;
    begin(some_room());
    a = (struct kamzhor_lanes_granted *)answer_at(sizeof *a);
    into_lanes_grant(a, &now.lanes, &now.desk, clock, rooms[0]);
    valued.lanes = a->lanes;
    valued.desk = a->desk;
    number = kamzhor_lanes_grant(&placed.lanes, &placed.desk, clock, rooms[1].bytes, rooms[1].n, &b);
    again = kamzhor_lanes_grant(&quiet.lanes, &quiet.desk, clock, rooms[2].bytes, rooms[2].n, NULL);
    end(b.refusal, number, again, same_granted(&a->answer, &b), silent_granted(&b));
}

static void try_withdraw(void)
{
    uint32_t job = some_job();
    size_t place = below(20) ? below(6) : (size_t)random64();
    struct kamzhor_lanes_withdrawn *a;
    int number;
    begin(0);
    a = (struct kamzhor_lanes_withdrawn *)answer_at(sizeof *a);
    into_lanes_withdraw(a, &now.lanes, job, place);
    valued.lanes = a->lanes;
    number = kamzhor_lanes_withdraw(&placed.lanes, job, place);
    quiet.lanes = placed.lanes;
    end(a->refusal, number, number, 1, 1);
}

/* ---- the filter box */

static int ask_in_place(enum asking asking, struct world *world, uint16_t value, uint32_t wait, uint32_t clock, struct span room,
                        struct kamzhor_opened *b)
{
    switch (asking) {
    case SET_SHORT:
        return kamzhor_box_set_short(&world->box, &world->desk, value, wait, clock, room.bytes, room.n, b);
    case SET_LONG:
        return kamzhor_box_set_long(&world->box, &world->desk, value, wait, clock, room.bytes, room.n, b);
    case ATTENUATE:
        return kamzhor_box_attenuate(&world->box, &world->desk, value, wait, clock, room.bytes, room.n, b);
    case READ_MONITOR:
        return kamzhor_box_read_monitor(&world->box, &world->desk, wait, clock, room.bytes, room.n, b);
    case READ_STATUS:
        break;
    }
    return kamzhor_box_read_status(&world->box, &world->desk, wait, clock, room.bytes, room.n, b);
}

static void try_ask(void)
{
    enum asking asking = (enum asking)below(5);
    uint16_t value = (uint16_t)(below(4) ? 990 + below(20) : random64());
    uint32_t wait = (uint32_t)(below(10) ? 1 + below(200) : 0), clock = some_clock();
    struct kamzhor_box_asked *a;
    struct kamzhor_opened b;
    int number, again;
    begin(some_room());
    a = (struct kamzhor_box_asked *)answer_at(sizeof *a);
    into_box_ask(a, asking, &now.box, &now.desk, value, wait, clock, rooms[0]);
    valued.box = a->box;
    valued.desk = a->desk;
    number = ask_in_place(asking, &placed, value, wait, clock, rooms[1], &b);
    again = ask_in_place(asking, &quiet, value, wait, clock, rooms[2], NULL);
    end(b.refusal, number, again, same_opened(&a->answer, &b), silent_opened(&b));
}

/* ---- the scan */

static int silent_scanned(const struct kamzhor_scanned *a)
{
    return a->state == 0 && a->address == 0 && a->module == 0 && a->size == 0
        && (a->refusal == KAMZHOR_NONE_FREE || a->refusal == KAMZHOR_SHORT_ROOM || a->considered == 0);
}

static void try_scan(void)
{
    uint32_t clock = some_clock();
    struct kamzhor_scan_asked *a;
    struct kamzhor_scanned b;
    int number, again;
    begin(some_room());
    a = (struct kamzhor_scan_asked *)answer_at(sizeof *a);
    into_scan_step(a, &now.scan, &now.desk, clock, rooms[0]);
    valued.scan = a->scan;
    valued.desk = a->desk;
    number = kamzhor_scan_step(&placed.scan, &placed.desk, clock, rooms[1].bytes, rooms[1].n, &b);
    again = kamzhor_scan_step(&quiet.scan, &quiet.desk, clock, rooms[2].bytes, rooms[2].n, NULL);
    end(b.refusal, number, again, same_scanned(&a->answer, &b), silent_scanned(&b));
}

/* ---- the bench */

static void try_make(void)
{
    uint8_t address = (uint8_t)(below(3) ? 1 + below(160) : below(2) ? 0 : 161 + below(95));
    struct kamzhor_bench_built *a;
    int number;
    begin(0);
    a = (struct kamzhor_bench_built *)answer_at(sizeof *a);
    into_bench_made(a, address);
    valued.bench = a->bench;
    number = kamzhor_bench_make(&placed.bench, address);
    quiet.bench = placed.bench;
    if (number) /* there is no bench that it could leave */
        now.bench = placed.bench;
    end(a->refusal, number, number, 1, placed.bench.address == 0 && placed.bench.count == 0);
}

static void try_add(void)
{
    uint8_t reg = (uint8_t)below(40), kind = (uint8_t)(below(20) ? 1 + below(7) : 8 * below(2));
    uint8_t rights = (uint8_t)below(below(20) ? 8 : 256);
    struct kamzhor_bench_built *a;
    int number;
    begin(0);
    a = (struct kamzhor_bench_built *)answer_at(sizeof *a);
    into_bench_add(a, &now.bench, reg, kind, rights);
    valued.bench = a->bench;
    number = kamzhor_bench_add(&placed.bench, reg, kind, rights);
    quiet.bench = placed.bench;
    end(a->refusal, number, number, 1, 1);
}

static void try_set(void)
{
    uint8_t reg = (uint8_t)below(40);
    uint32_t negative = (uint32_t)(below(2) ? 0 : below(2) ? 1 : random64());
    uint64_t magnitude = random64() >> below(65) % 64;
    struct kamzhor_bench_built *a;
    int number;
    begin(0);
    a = (struct kamzhor_bench_built *)answer_at(sizeof *a);
    into_bench_set(a, &now.bench, reg, negative, magnitude);
    valued.bench = a->bench;
    number = kamzhor_bench_set(&placed.bench, reg, negative, magnitude);
    quiet.bench = placed.bench;
    end(a->refusal, number, number, 1, 1);
}

/* a request to the bench, mostly one that fits a register */
static size_t some_question(uint8_t *frame, size_t most)
{
    static const size_t sizes[8] = {0, 1, 1, 2, 2, 4, 4, 8};
    uint8_t bytes[8], type = (uint8_t)(below(12) ? 4 + below(6) : below(4)), reg = (uint8_t)below(40);
    size_t kind = kamzhor_bench_look(&now.bench, reg).kind, i, n = type == KAMZHOR_READ ? 0 : sizes[kind % 8];
    uint8_t to = (uint8_t)(now.bench.address && below(12) ? now.bench.address : 1 + below(255));
    if (below(4) == 0)
        return some_frame(frame, &n);
    for (i = 0; i < n; i++)
        bytes[i] = some_byte();
    return (size_t)kamzhor_write_frame(to, (uint8_t)(1 + below(255)), type, reg, bytes, n, frame, most).size;
}

static void try_take(void)
{
    static uint8_t bytes[MOST_ROOM];
    struct kamzhor_bench_answered *a;
    struct kamzhor_taken b;
    struct span frame;
    int number, again;
    begin(below(4) ? 20 + below(20) : below(10));
    frame = lent_data(bytes, some_question(bytes, sizeof bytes));
    a = (struct kamzhor_bench_answered *)answer_at(sizeof *a);
    into_bench_take(a, &now.bench, frame, rooms[0]);
    valued.bench = a->bench;
    number = kamzhor_bench_take(&placed.bench, frame.bytes, frame.n, rooms[1].bytes, rooms[1].n, &b);
    again = kamzhor_bench_take(&quiet.bench, frame.bytes, frame.n, rooms[2].bytes, rooms[2].n, NULL);
    end(b.refusal, number, again, same_taken(&a->answer, &b), b.size == 0 && (b.refusal == KAMZHOR_BAD_SUBSTITUTION || b.place == 0));
}

/* ---- walks */

/* all states anew, in both ways */
static void anew(void)
{
    uint32_t job = some_job();
    uint8_t module = (uint8_t)(1 + below(160));
    at_end = (int)below(2);
    into_desk_fresh((struct kamzhor_desk *)answer_at(sizeof now.desk));
    now.desk = kamzhor_desk_fresh();
    if (!same_desk((struct kamzhor_desk *)(void *)answer, &now.desk))
        fail("fresh desks differ");
    unharmed(answer, answer_size, at_end);
    into_lanes_fresh((struct kamzhor_lanes *)answer_at(sizeof now.lanes));
    now.lanes = kamzhor_lanes_fresh();
    if (!same_lanes((struct kamzhor_lanes *)(void *)answer, &now.lanes))
        fail("fresh lanes differ");
    unharmed(answer, answer_size, at_end);
    into_box_fresh((struct kamzhor_box *)answer_at(sizeof now.box), job, module);
    now.box = kamzhor_box_fresh(job, module);
    if (!same_box((struct kamzhor_box *)(void *)answer, &now.box))
        fail("fresh boxes differ");
    unharmed(answer, answer_size, at_end);
    into_scan_fresh((struct kamzhor_scan *)answer_at(sizeof now.scan), job);
    now.scan = kamzhor_scan_fresh(job);
    if (!same_scan((struct kamzhor_scan *)(void *)answer, &now.scan))
        fail("fresh scans differ");
    unharmed(answer, answer_size, at_end);
    try_make();
    try_make();
    try_make();
    kamzhor_bench_make(&now.bench, module);
    try_grant();
    try_grant();
}

/* States that no call made, but for the desk: they are answered all the same. A box comes back as what it counts as, so it is that. */
static void any_numbers(void)
{
    uint8_t bytes[sizeof now.lanes];
    size_t i;
    for (i = 0; i < sizeof bytes; i++)
        bytes[i] = (uint8_t)random64();
    memcpy(&now.lanes, bytes, sizeof now.lanes);
    memcpy(&now.box, bytes + 100, sizeof now.box);
    memcpy(&now.scan, bytes + 200, sizeof now.scan);
    memcpy(&now.bench, bytes + 400, sizeof now.bench);
    now.box.long_pass.known = 1;
    now.box.short_pass.known = (uint16_t)below(2);
    if (now.box.short_pass.known == 0)
        now.box.short_pass.tenths = 0;
    now.box.out.edge = (uint8_t)(1 + below(2));
    if (below(2))
        memset(&now.box.out, 0, sizeof now.box.out);
    if (below(2)) {
        now.scan.turns = (uint8_t)below(160);
        now.scan.out = 0;
    }
}

/* opens tickets that are due late until no address is free, and adds registers until no more are held */
static void crowd(void)
{
    static uint8_t room[MOST_ROOM];
    struct kamzhor_request asked = {9, 9, KAMZHOR_READ, 9, 60000, 0};
    uint8_t reg = 0;
    while (kamzhor_desk_open(&now.desk, asked, NULL, 0, now_clock, room, sizeof room, NULL) == KAMZHOR_DONE)
        ;
    while (kamzhor_bench_add(&now.bench, reg, KAMZHOR_U16, KAMZHOR_MAY_READ) != KAMZHOR_BENCH_FULL)
        reg++;
    try_open();
    try_grant();
    try_scan();
}

static void walk(void)
{
    static void (*const tries[])(void) = {try_open, try_open, try_open, try_reply, try_reply, try_reply, try_reply, try_cancel, try_expire,
                                          try_expire_all, try_look, try_join, try_join, try_grant, try_withdraw, try_ask, try_ask, try_scan,
                                          try_add, try_set, try_take, try_take, try_take};
    size_t i;
    for (i = 0; i < TRIES; i++) {
        if (i % 500 == 0)
            anew();
        if (i % 500 == 0 && below(3) == 0)
            any_numbers();
        if (i % 500 == 250)
            crowd();
        tries[below(sizeof tries / sizeof *tries)]();
    }
}

int main(void)
{
    static const unsigned wanted[] = {0, 1, 2, 3, 4, 5, 6, 7, 8, 9, 10, 11, 12, 13, 14, 15, 16, 17, 18, 19, 20, 21, 22, 30, 31, 32, 33,
                                      34, 35, 36, 37, 38, 43, 55, 59, 61, 62, 63, 71, 72, 73, 74, 75};
    size_t i;
    doing = "three forms";
    answer_ground = ground(sizeof(struct kamzhor_lanes_granted));
    data_ground = ground(4 * MOST_LIST);
    for (i = 0; i < 3; i++)
        room_grounds[i] = ground(MOST_ROOM);
    walk();
    for (i = 0; TRIES >= 5000 && i < sizeof wanted / sizeof *wanted; i++)
        if (seen[wanted[i]] == 0) {
            printf("host: number %u was never given\n", wanted[i]);
            fail("too few of one number");
        }
    printf("host: %lu calls on states, by value, in place and without an answer, come out alike\n", calls);
    return 0;
}
