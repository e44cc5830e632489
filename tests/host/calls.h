/* What the parts of tests/host/calls.c share: what is lent to a call, the states that a script has led to, and pieces of answers. */
#ifndef CALLS_H
#define CALLS_H

#include "kamzhor.h"

#include "shared.h"
#include "words.h"

#define MOST_32 4294967295u
#define MOST_ENTRIES 200 /* that desk.expall may ask for */

struct lent {
    struct ground ground;
    uint8_t *place, *bytes; /* where it lies, and what is handed over: the same, or null */
    size_t n;
    uint8_t before[MOST_BYTES];
};

extern int at_end; /* before a closed page, or behind one */
extern struct lent first, second, room;
extern struct ground list_ground;

/* puts the n bytes that stand in `before` where they are lent from; the same with those of the next word */
void lay(struct lent *lent, size_t n);
void take_lent(struct words *w, struct lent *lent);

struct states {
    struct kamzhor_desk desk;
    struct kamzhor_lanes lanes;
    struct kamzhor_box box;
    struct kamzhor_scan scan;
    struct kamzhor_bench bench;
    struct kamzhor_receiver receiver;
    struct kamzhor_tally tally;
};

extern struct kamzhor_desk *desk;
extern struct kamzhor_lanes *lanes;
extern struct kamzhor_box *box;
extern struct kamzhor_scan *scan;
extern struct kamzhor_bench *bench;
extern struct kamzhor_receiver *receiver;
extern struct kamzhor_tally *tally;
extern int has_box, has_scan, has_bench;

/* as they were before the call: after a refusal they are so still; what a refused call may change, it notes here */
extern struct states before;

void say_room(void);
void say_size(struct kamzhor_size a);

/* a refusal's number, where all other fields of its answer are 0; with the place that comes with number 3; or ok */
void say_refusal(uint32_t refusal, int all_else_is_0);
void say_refusal_at(uint32_t refusal, uint64_t place, int all_else_is_0);
int say_number_or_ok(int number);

/* an opening, whoever asked for it */
void say_opened(int number, const struct kamzhor_opened *a);

/* the number that an in-place form gives is that of its answer */
void number_is(int number, uint32_t refusal);

/* The calls. Each takes its words, and answers whether the line is a call. */
int rem_call(struct words *w);
int read_call(struct words *w);
int write_call(struct words *w);
int get_call(struct words *w);
int put_call(struct words *w);
int cat_call(struct words *w);
int sheet_write(struct words *w);
int sheet_check(struct words *w);
int sheet_read(struct words *w);
int sheet_rem(struct words *w);
int sheet_remmod(struct words *w);
int sheet_add(struct words *w);
int rx_new(struct words *w);
int rx_feed(struct words *w);
int rx_end(struct words *w);
int tally_set(struct words *w);
int tally_get(struct words *w);
int desk_new(struct words *w);
int desk_open(struct words *w);
int desk_reply(struct words *w);
int desk_cancel(struct words *w);
int desk_expire(struct words *w);
int desk_expall(struct words *w);
int desk_dump(struct words *w);
int lane_join(struct words *w);
int lane_grant(struct words *w);
int lane_withdraw(struct words *w);
int lane_dump(struct words *w);
int varia_new(struct words *w);
int varia_short(struct words *w);
int varia_long(struct words *w);
int varia_att(struct words *w);
int varia_monitor(struct words *w);
int varia_status(struct words *w);
int varia_display(struct words *w);
int varia_moving(struct words *w);
int varia_dump(struct words *w);
int scan_new(struct words *w);
int scan_step(struct words *w);
int scan_dump(struct words *w);
int bench_new(struct words *w);
int bench_add(struct words *w);
int bench_set(struct words *w);
int bench_tele(struct words *w);
int bench_dump(struct words *w);

#endif
