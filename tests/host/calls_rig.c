/* The calls of a script on the filter box, the scan and the bench. */
#include "calls.h"

/* ---- the filter box */

static int no_box(void)
{
    say("no box");
    return 1;
}

int varia_new(struct words *w)
{
    uint32_t job = (uint32_t)take_number(w, MOST_32);
    uint8_t module = (uint8_t)take_number(w, 255);
    if (!all_taken(w))
        return 0;
    *box = kamzhor_box_fresh(job, module);
    has_box = 1;
    say("ok");
    return 1;
}

typedef int set_form(struct kamzhor_box *, struct kamzhor_desk *, uint16_t, uint32_t, uint32_t, uint8_t *, size_t, struct kamzhor_opened *);
typedef int ask_form(struct kamzhor_box *, struct kamzhor_desk *, uint32_t, uint32_t, uint8_t *, size_t, struct kamzhor_opened *);

static int set_by(set_form *set, struct words *w)
{
    uint16_t value = (uint16_t)take_number(w, 65535);
    uint32_t wait = (uint32_t)take_number(w, MOST_32), clock = (uint32_t)take_number(w, MOST_32);
    struct kamzhor_opened a;
    int number;
    take_lent(w, &room);
    if (!all_taken(w))
        return 0;
    if (!has_box)
        return no_box();
    number = set(box, desk, value, wait, clock, room.bytes, room.n, &a);
    say_opened(number, &a);
    return 1;
}

static int ask_by(ask_form *ask, struct words *w)
{
    uint32_t wait = (uint32_t)take_number(w, MOST_32), clock = (uint32_t)take_number(w, MOST_32);
    struct kamzhor_opened a;
    int number;
    take_lent(w, &room);
    if (!all_taken(w))
        return 0;
    if (!has_box)
        return no_box();
    number = ask(box, desk, wait, clock, room.bytes, room.n, &a);
    say_opened(number, &a);
    return 1;
}

int varia_short(struct words *w)
{
    return set_by(kamzhor_box_set_short, w);
}

int varia_long(struct words *w)
{
    return set_by(kamzhor_box_set_long, w);
}

int varia_att(struct words *w)
{
    return set_by(kamzhor_box_attenuate, w);
}

int varia_monitor(struct words *w)
{
    return ask_by(kamzhor_box_read_monitor, w);
}

int varia_status(struct words *w)
{
    return ask_by(kamzhor_box_read_status, w);
}

int varia_display(struct words *w)
{
    const uint8_t *two;
    uint32_t which;
    take_lent(w, &first);
    take_lent(w, &second);
    if (!all_taken(w))
        return 0;
    if (!has_box)
        return no_box();
    which = kamzhor_which_to_display(first.bytes, first.n, second.bytes, second.n);
    two = kamzhor_display(first.bytes, first.n, second.bytes, second.n);
    if (which == KAMZHOR_NEITHER) {
        say_refusal(which, two == NULL);
        return 1;
    }
    say(two == first.bytes && which == KAMZHOR_DISPLAY_FRESH ? "ok which=fresh" : "ok which=kept");
    say(" two=");
    say_hex(two, 2);
    return 1;
}

int varia_moving(struct words *w)
{
    uint16_t status = (uint16_t)take_number(w, 65535);
    if (!all_taken(w))
        return 0;
    if (!has_box)
        return no_box();
    say_field("ok moving=", kamzhor_box_moving(status));
    return 1;
}

static void say_edge(const char *name, struct kamzhor_edge edge)
{
    if (edge.known) {
        say_field(name, edge.tenths);
    } else {
        say(name);
        say("?");
    }
}

int varia_dump(struct words *w)
{
    if (!all_taken(w))
        return 0;
    if (!has_box)
        return no_box();
    say_edge("ok short=", box->short_pass);
    say_edge(" long=", box->long_pass);
    say(" out=");
    if (box->out.edge == 0) {
        say("-");
        return 1;
    }
    say_number(box->out.address);
    say_field(box->out.edge == 1 ? ":short:" : ":long:", box->out.tenths);
    return 1;
}

/* ---- the scan */

static int no_scan(void)
{
    say("no scan");
    return 1;
}

int scan_new(struct words *w)
{
    uint32_t job = (uint32_t)take_number(w, MOST_32);
    if (!all_taken(w))
        return 0;
    *scan = kamzhor_scan_fresh(job);
    has_scan = 1;
    say("ok");
    return 1;
}

static void say_scanned(const struct kamzhor_scanned *a)
{
    if (a->refusal) {
        say_refusal(a->refusal, a->state == 0 && a->address == 0 && a->module == 0 && a->size == 0);
        say_field(" count=", a->considered);
    } else if (a->state == KAMZHOR_SCAN_ASKED) {
        say_field("ok address=", a->address);
        say_field(" module=", a->module);
        say_field(" n=", a->size);
        say_field(" count=", a->considered);
    } else {
        if (a->module || a->considered || a->size)
            fail("a step that asked nobody says whom");
        if (a->state == KAMZHOR_SCAN_WAITING)
            say_field("ok waiting=", a->address);
        else
            say(a->state == KAMZHOR_SCAN_DONE && a->address == 0 ? "ok done=1" : "neither");
    }
}

int scan_step(struct words *w)
{
    uint32_t clock = (uint32_t)take_number(w, MOST_32);
    struct kamzhor_scanned a;
    int number;
    take_lent(w, &room);
    if (!all_taken(w))
        return 0;
    if (!has_scan)
        return no_scan();
    number = kamzhor_scan_step(scan, desk, clock, room.bytes, room.n, &a);
    number_is(number, a.refusal);
    say_scanned(&a);
    say_room();
    return 1;
}

int scan_dump(struct words *w)
{
    uint32_t module, found;
    if (!all_taken(w))
        return 0;
    if (!has_scan)
        return no_scan();
    say_field("ok done=", scan->turns == 160);
    say_field(" turns=", scan->turns);
    if (scan->out)
        say_field(" out=", scan->out);
    else
        say(" out=-");
    say(scan->turns ? " results=" : " results=-");
    for (module = 1; module <= 160; module++) {
        found = kamzhor_scan_look(scan, (uint8_t)module);
        if (found == KAMZHOR_FOUND_ABSENT)
            say("a");
        else if (found != KAMZHOR_FOUND_NOT_YET)
            say_number(found);
    }
    return 1;
}

/* ---- the bench */

static int no_bench(void)
{
    say("no bench");
    return 1;
}

/* one that is refused leaves the bench that there was */
int bench_new(struct words *w)
{
    uint8_t address = (uint8_t)take_number(w, 255);
    struct kamzhor_bench made;
    int number;
    if (!all_taken(w))
        return 0;
    number = kamzhor_bench_make(&made, address);
    if (number == KAMZHOR_DONE) {
        *bench = made;
        has_bench = 1;
    } else if (made.address || made.count) {
        fail("a bench that was refused has an address, or registers");
    }
    return say_number_or_ok(number);
}

int bench_add(struct words *w)
{
    uint8_t reg = (uint8_t)take_number(w, 255), kind = (uint8_t)take_number(w, 255), rights = (uint8_t)take_number(w, 255);
    if (!all_taken(w))
        return 0;
    return has_bench ? say_number_or_ok(kamzhor_bench_add(bench, reg, kind, rights)) : no_bench();
}

int bench_set(struct words *w)
{
    uint8_t reg = (uint8_t)take_number(w, 255);
    uint32_t negative;
    uint64_t magnitude = take_signed(w, &negative);
    if (!all_taken(w))
        return 0;
    return has_bench ? say_number_or_ok(kamzhor_bench_set(bench, reg, negative, magnitude)) : no_bench();
}

int bench_tele(struct words *w)
{
    struct kamzhor_taken a;
    int number;
    take_lent(w, &first);
    take_lent(w, &room);
    if (!all_taken(w))
        return 0;
    if (!has_bench)
        return no_bench();
    number = kamzhor_bench_take(bench, first.bytes, first.n, room.bytes, room.n, &a);
    number_is(number, a.refusal);
    if (a.refusal)
        say_refusal_at(a.refusal, a.place, a.size == 0);
    else
        say_field("ok n=", a.size);
    say_room();
    return 1;
}

static void say_register(uint32_t number, const struct kamzhor_register *held)
{
    static const size_t sizes[8] = {0, 1, 1, 2, 2, 4, 4, 8};
    uint8_t bytes[8];
    size_t i;
    if (held->number != number)
        fail("another register than was asked for");
    for (i = 0; i < 8; i++)
        bytes[i] = (uint8_t)(held->value >> (8 * i));
    say_number(number);
    say_field(":", held->kind);
    say_field(":", held->rights);
    say(":");
    say_hex(bytes, held->kind < 8 ? sizes[held->kind] : 0);
}

int bench_dump(struct words *w)
{
    uint32_t number;
    size_t from;
    if (!all_taken(w))
        return 0;
    if (!has_bench)
        return no_bench();
    say_field("ok address=", bench->address);
    say(" regs=");
    from = said();
    for (number = 0; number < 256; number++) {
        struct kamzhor_register held = kamzhor_bench_look(bench, (uint8_t)number);
        if (held.held) {
            say(said() > from ? "," : "");
            say_register(number, &held);
        }
    }
    if (said() == from)
        say("-");
    return 1;
}
