/* The calls that give back a struct too large for registers, as the machine makes them: the answer goes to a place that the
 * caller names, so that it can lie right before a closed page. A state is read where it lies and handed over by value. */
#ifndef INTO_H
#define INTO_H

#include "kamzhor.h"

/* a string of bytes */
struct span {
    uint8_t *bytes;
    size_t n;
};

void into_desk_fresh(struct kamzhor_desk *to);
void into_desk_open(struct kamzhor_desk_opened *to, const struct kamzhor_desk *desk, struct kamzhor_request asked, struct span data,
                    uint32_t clock, struct span room);
void into_desk_reply(struct kamzhor_desk_booked *to, const struct kamzhor_desk *desk, struct span frame, struct span room);
void into_desk_cancel(struct kamzhor_desk_closed *to, const struct kamzhor_desk *desk, uint32_t job, uint8_t address, uint32_t clock);
void into_desk_expire(struct kamzhor_desk_closed *to, const struct kamzhor_desk *desk, uint32_t clock);
void into_desk_expire_all(struct kamzhor_desk_swept *to, const struct kamzhor_desk *desk, uint32_t clock, uint32_t *list, size_t numbers);
void into_desk_look(struct kamzhor_seen *to, const struct kamzhor_desk *desk, uint8_t address);

void into_lanes_fresh(struct kamzhor_lanes *to);
void into_lanes_join(struct kamzhor_lanes_joined *to, const struct kamzhor_lanes *lanes, struct kamzhor_request asked, struct span data);
void into_lanes_grant(struct kamzhor_lanes_granted *to, const struct kamzhor_lanes *lanes, const struct kamzhor_desk *desk, uint32_t clock,
                      struct span room);
void into_lanes_withdraw(struct kamzhor_lanes_withdrawn *to, const struct kamzhor_lanes *lanes, uint32_t job, size_t place);

/* the five requests of a box, in the header's order; the last two have no value */
enum asking { SET_SHORT, SET_LONG, ATTENUATE, READ_MONITOR, READ_STATUS };

void into_box_fresh(struct kamzhor_box *to, uint32_t job, uint8_t module);
void into_box_ask(struct kamzhor_box_asked *to, enum asking asking, const struct kamzhor_box *box, const struct kamzhor_desk *desk,
                  uint16_t value, uint32_t wait, uint32_t clock, struct span room);
void into_box_reply(struct kamzhor_box *to, const struct kamzhor_box *box, struct kamzhor_booked answer);
void into_box_close(struct kamzhor_box *to, const struct kamzhor_box *box, struct kamzhor_closed answer);

void into_scan_fresh(struct kamzhor_scan *to, uint32_t job);
void into_scan_step(struct kamzhor_scan_asked *to, const struct kamzhor_scan *scan, const struct kamzhor_desk *desk, uint32_t clock,
                    struct span room);
void into_scan_reply(struct kamzhor_scan *to, const struct kamzhor_scan *scan, struct kamzhor_booked answer);
void into_scan_close(struct kamzhor_scan *to, const struct kamzhor_scan *scan, struct kamzhor_closed answer);

void into_bench_made(struct kamzhor_bench_built *to, uint8_t address);
void into_bench_add(struct kamzhor_bench_built *to, const struct kamzhor_bench *bench, uint8_t number, uint8_t kind, uint8_t rights);
void into_bench_set(struct kamzhor_bench_built *to, const struct kamzhor_bench *bench, uint8_t number, uint32_t negative,
                    uint64_t magnitude);
void into_bench_take(struct kamzhor_bench_answered *to, const struct kamzhor_bench *bench, struct span frame, struct span room);

void into_find_register(struct kamzhor_entry *to, uint8_t model, uint8_t reg);

#endif
