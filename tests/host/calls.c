/* calls [low]: the language of the program `rehearsal`, over include/kamzhor.h alone. Reads call lines from standard input and
 * writes an answer line for each, byte for byte as rehearsal does: tests/host/run lays the two beside each other. States and
 * lent buffers end right before a closed page, or, with `low`, begin right behind one and are null where they are empty; what
 * stands on their other side is looked at after each call. So is that a refusal says nothing else and changes nothing. */
#include "calls.h"

#include "same.h"
#include <stdio.h>
#include <string.h>

/* ---- what is lent */

int at_end;
struct lent first, second, room;
struct ground list_ground;

void lay(struct lent *lent, size_t n)
{
    lent->n = n;
    lent->place = lend(lent->ground, n, at_end);
    lent->bytes = n == 0 && !at_end ? NULL : lent->place;
    if (n)
        memcpy(lent->bytes, lent->before, n);
}

void take_lent(struct words *w, struct lent *lent)
{
    lay(lent, take_bytes(w, lent->before));
}

static void unchanged(const struct lent *lent)
{
    if (lent->n && memcmp(lent->bytes, lent->before, lent->n))
        fail("lent bytes changed");
}

void say_room(void)
{
    say(" buf=");
    say_hex(room.bytes, room.n);
}

/* ---- the states */

struct kamzhor_desk *desk;
struct kamzhor_lanes *lanes;
struct kamzhor_box *box;
struct kamzhor_scan *scan;
struct kamzhor_bench *bench;
struct kamzhor_receiver *receiver;
struct kamzhor_tally *tally;
int has_box, has_scan, has_bench;
struct states before;

/* where each of them lies */
static struct {
    uint8_t *place;
    size_t n;
} stands[7];
static size_t standing;

static void *stand(size_t n)
{
    uint8_t *place = lend(ground(n), n, at_end);
    stands[standing].place = place;
    stands[standing++].n = n;
    return place;
}

static void make_states(void)
{
    desk = (struct kamzhor_desk *)stand(sizeof *desk);
    lanes = (struct kamzhor_lanes *)stand(sizeof *lanes);
    box = (struct kamzhor_box *)stand(sizeof *box);
    scan = (struct kamzhor_scan *)stand(sizeof *scan);
    bench = (struct kamzhor_bench *)stand(sizeof *bench);
    receiver = (struct kamzhor_receiver *)stand(sizeof *receiver);
    tally = (struct kamzhor_tally *)stand(sizeof *tally);
    *desk = kamzhor_desk_fresh();
    *lanes = kamzhor_lanes_fresh();
    *box = kamzhor_box_fresh(0, 0);
    *scan = kamzhor_scan_fresh(0);
    memset(bench, 0, sizeof *bench);
    *receiver = kamzhor_receiver(0);
    memset(tally, 0, sizeof *tally);
}

static void keep_states(void)
{
    before.desk = *desk;
    before.lanes = *lanes;
    before.box = *box;
    before.scan = *scan;
    before.bench = *bench;
    before.receiver = *receiver;
    before.tally = *tally;
}

static void states_stayed(void)
{
    if (!same_desk(desk, &before.desk) || !same_lanes(lanes, &before.lanes) || !same_box(box, &before.box) || !same_scan(scan, &before.scan)
        || !same_bench(bench, &before.bench) || !same_receiver(receiver, &before.receiver) || !same_tally(tally, &before.tally))
        fail("a refusal changed a state");
}

/* ---- answers */

void say_refusal(uint32_t refusal, int all_else_is_0)
{
    if (!all_else_is_0)
        fail("a refusal says more than its number");
    say_field("no ", refusal);
}

void say_refusal_at(uint32_t refusal, uint64_t place, int all_else_is_0)
{
    say_refusal(refusal, all_else_is_0 && (refusal == KAMZHOR_BAD_SUBSTITUTION || place == 0));
    if (refusal == KAMZHOR_BAD_SUBSTITUTION)
        say_field(" place=", place);
}

void number_is(int number, uint32_t refusal)
{
    if (number != (int)refusal)
        fail("the number that is given is not the answer's");
}

void say_size(struct kamzhor_size a)
{
    if (a.refusal)
        say_refusal(a.refusal, a.size == 0);
    else
        say_field("ok n=", a.size);
    say_room();
}

int say_number_or_ok(int number)
{
    if (number)
        say_refusal((uint32_t)number, 1);
    else
        say("ok");
    return 1;
}

void say_opened(int number, const struct kamzhor_opened *a)
{
    number_is(number, a->refusal);
    if (a->refusal == KAMZHOR_EDGE_OUT || a->refusal == KAMZHOR_TOO_MUCH || a->refusal == KAMZHOR_OUT_OF_ORDER) {
        say_refusal(a->refusal, a->address == 0 && a->considered == 0 && a->size == 0);
    } else if (a->refusal) {
        say_refusal(a->refusal, a->address == 0 && a->size == 0);
        say_field(" count=", a->considered);
    } else {
        say_field("ok address=", a->address);
        say_field(" n=", a->size);
        say_field(" count=", a->considered);
    }
    say_room();
}

/* ---- line by line */

static const struct {
    const char *name;
    int (*call)(struct words *w); /* answers whether the line is a call */
} known[] = {
    {"rem", rem_call}, {"read", read_call}, {"write", write_call}, {"val.get", get_call}, {"val.put", put_call}, {"cat", cat_call},
    {"bench.new", bench_new}, {"bench.add", bench_add}, {"bench.set", bench_set}, {"bench.tele", bench_tele}, {"bench.dump", bench_dump},
    {"desk.new", desk_new}, {"desk.open", desk_open}, {"desk.reply", desk_reply}, {"desk.cancel", desk_cancel},
    {"desk.expire", desk_expire}, {"desk.expall", desk_expall}, {"desk.dump", desk_dump},
    {"lane.join", lane_join}, {"lane.grant", lane_grant}, {"lane.withdraw", lane_withdraw}, {"lane.dump", lane_dump},
    {"varia.new", varia_new}, {"varia.short", varia_short}, {"varia.long", varia_long}, {"varia.att", varia_att},
    {"varia.monitor", varia_monitor}, {"varia.status", varia_status}, {"varia.display", varia_display},
    {"varia.moving", varia_moving}, {"varia.dump", varia_dump},
    {"scan.new", scan_new}, {"scan.step", scan_step}, {"scan.dump", scan_dump},
    {"sheet.write", sheet_write}, {"sheet.check", sheet_check}, {"sheet.read", sheet_read}, {"sheet.rem", sheet_rem},
    {"sheet.remmod", sheet_remmod}, {"sheet.add", sheet_add},
    {"rx.new", rx_new}, {"rx.feed", rx_feed}, {"rx.end", rx_end}, {"tally.set", tally_set}, {"tally.get", tally_get},
};

static int answer(const uint8_t *line, size_t length)
{
    struct words words = words_of(line, length, ' ');
    struct word name = take_word(&words);
    size_t i;
    for (i = 0; i < sizeof known / sizeof *known; i++)
        if (is_word(name, known[i].name)) {
            doing = known[i].name;
            return known[i].call(&words);
        }
    return 0;
}

/* nothing was lent yet */
static void lend_anew(void)
{
    lay(&first, 0);
    lay(&second, 0);
    lay(&room, 0);
}

static void looked_at(void)
{
    size_t i;
    unchanged(&first);
    unchanged(&second);
    unharmed(first.place, first.n, at_end);
    unharmed(second.place, second.n, at_end);
    unharmed(room.place, room.n, at_end);
    for (i = 0; i < standing; i++)
        unharmed(stands[i].place, stands[i].n, at_end);
    if (begins_with("no ") || begins_with("bad line")) {
        unchanged(&room);
        states_stayed();
    }
}

/* a line that is longer than the longest is no call */
static void end_line(const uint8_t *line, size_t length)
{
    calls++;
    keep_states();
    lend_anew();
    say_anew();
    if (length > LONGEST_LINE || !answer(line, length)) {
        say_anew();
        say("bad line");
    }
    looked_at();
    say_out();
}

int main(int argc, char **argv)
{
    static uint8_t chunk[4096], line[LONGEST_LINE];
    size_t used = 0, got, i;
    at_end = argc < 2 || strcmp(argv[1], "low") != 0;
    first.ground = ground(MOST_BYTES);
    second.ground = ground(MOST_BYTES);
    room.ground = ground(MOST_BYTES);
    list_ground = ground(MOST_ENTRIES * sizeof(struct kamzhor_due));
    make_states();
    while ((got = fread(chunk, 1, sizeof chunk, stdin)) > 0)
        for (i = 0; i < got; i++) {
            if (chunk[i] == '\n') {
                end_line(line, used);
                used = 0;
            } else {
                if (used < LONGEST_LINE)
                    line[used] = chunk[i];
                used++;
            }
        }
    if (used)
        end_line(line, used);
    if (ferror(stdin) || fflush(stdout))
        fail("the calls could not be read, or the answers not written");
    return 0;
}
