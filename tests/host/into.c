#include "into.h"

/* These are the header's calls under names of our own: a struct that does not come back in registers is written to a place whose
 * address is handed over ahead of all parameters. The header's own declarations are not used in this file, so that the compiler
 * sees each call in one way only. */
#define CALL(call) __asm__("kamzhor_" #call)

void raw_desk_fresh(struct kamzhor_desk *) CALL(desk_fresh);
void raw_desk_open(struct kamzhor_desk_opened *, struct kamzhor_desk, struct kamzhor_request, const uint8_t *, size_t, uint32_t, uint8_t *,
                   size_t) CALL(after_desk_open);
void raw_desk_reply(struct kamzhor_desk_booked *, struct kamzhor_desk, const uint8_t *, size_t, uint8_t *, size_t) CALL(after_desk_reply);
void raw_desk_cancel(struct kamzhor_desk_closed *, struct kamzhor_desk, uint32_t, uint8_t, uint32_t) CALL(after_desk_cancel);
void raw_desk_expire(struct kamzhor_desk_closed *, struct kamzhor_desk, uint32_t) CALL(after_desk_expire);
void raw_desk_expire_all(struct kamzhor_desk_swept *, struct kamzhor_desk, uint32_t, uint32_t *, size_t) CALL(after_desk_expire_all);
void raw_desk_look(struct kamzhor_seen *, struct kamzhor_desk, uint8_t) CALL(look_at_desk);
void raw_lanes_fresh(struct kamzhor_lanes *) CALL(lanes_fresh);
void raw_lanes_join(struct kamzhor_lanes_joined *, struct kamzhor_lanes, struct kamzhor_request, const uint8_t *, size_t)
    CALL(after_lanes_join);
void raw_lanes_grant(struct kamzhor_lanes_granted *, struct kamzhor_lanes, struct kamzhor_desk, uint32_t, uint8_t *, size_t)
    CALL(after_lanes_grant);
void raw_lanes_withdraw(struct kamzhor_lanes_withdrawn *, struct kamzhor_lanes, uint32_t, size_t) CALL(after_lanes_withdraw);
void raw_box_fresh(struct kamzhor_box *, uint32_t, uint8_t) CALL(box_fresh);
void raw_box_set_short(struct kamzhor_box_asked *, struct kamzhor_box, struct kamzhor_desk, uint16_t, uint32_t, uint32_t, uint8_t *, size_t)
    CALL(after_box_set_short);
void raw_box_set_long(struct kamzhor_box_asked *, struct kamzhor_box, struct kamzhor_desk, uint16_t, uint32_t, uint32_t, uint8_t *, size_t)
    CALL(after_box_set_long);
void raw_box_attenuate(struct kamzhor_box_asked *, struct kamzhor_box, struct kamzhor_desk, uint16_t, uint32_t, uint32_t, uint8_t *, size_t)
    CALL(after_box_attenuate);
void raw_box_read_monitor(struct kamzhor_box_asked *, struct kamzhor_box, struct kamzhor_desk, uint32_t, uint32_t, uint8_t *, size_t)
    CALL(after_box_read_monitor);
void raw_box_read_status(struct kamzhor_box_asked *, struct kamzhor_box, struct kamzhor_desk, uint32_t, uint32_t, uint8_t *, size_t)
    CALL(after_box_read_status);
void raw_box_reply(struct kamzhor_box *, struct kamzhor_box, struct kamzhor_booked) CALL(after_box_reply);
void raw_box_close(struct kamzhor_box *, struct kamzhor_box, struct kamzhor_closed) CALL(after_box_close);
void raw_scan_fresh(struct kamzhor_scan *, uint32_t) CALL(scan_fresh);
void raw_scan_step(struct kamzhor_scan_asked *, struct kamzhor_scan, struct kamzhor_desk, uint32_t, uint8_t *, size_t)
    CALL(after_scan_step);
void raw_scan_reply(struct kamzhor_scan *, struct kamzhor_scan, struct kamzhor_booked) CALL(after_scan_reply);
void raw_scan_close(struct kamzhor_scan *, struct kamzhor_scan, struct kamzhor_closed) CALL(after_scan_close);
void raw_bench_made(struct kamzhor_bench_built *, uint8_t) CALL(bench_made);
void raw_bench_add(struct kamzhor_bench_built *, struct kamzhor_bench, uint8_t, uint8_t, uint8_t) CALL(after_bench_add);
void raw_bench_set(struct kamzhor_bench_built *, struct kamzhor_bench, uint8_t, uint32_t, uint64_t) CALL(after_bench_set);
void raw_bench_take(struct kamzhor_bench_answered *, struct kamzhor_bench, const uint8_t *, size_t, uint8_t *, size_t)
    CALL(after_bench_take);
void raw_find_register(struct kamzhor_entry *, uint8_t, uint8_t) CALL(find_register);

/* ---- the desk */

void into_desk_fresh(struct kamzhor_desk *to)
{
    raw_desk_fresh(to);
}

void into_desk_open(struct kamzhor_desk_opened *to, const struct kamzhor_desk *desk, struct kamzhor_request asked, struct span data,
                    uint32_t clock, struct span room)
{
    raw_desk_open(to, *desk, asked, data.bytes, data.n, clock, room.bytes, room.n);
}

void into_desk_reply(struct kamzhor_desk_booked *to, const struct kamzhor_desk *desk, struct span frame, struct span room)
{
    raw_desk_reply(to, *desk, frame.bytes, frame.n, room.bytes, room.n);
}

void into_desk_cancel(struct kamzhor_desk_closed *to, const struct kamzhor_desk *desk, uint32_t job, uint8_t address, uint32_t clock)
{
    raw_desk_cancel(to, *desk, job, address, clock);
}

void into_desk_expire(struct kamzhor_desk_closed *to, const struct kamzhor_desk *desk, uint32_t clock)
{
    raw_desk_expire(to, *desk, clock);
}

void into_desk_expire_all(struct kamzhor_desk_swept *to, const struct kamzhor_desk *desk, uint32_t clock, uint32_t *list, size_t numbers)
{
    raw_desk_expire_all(to, *desk, clock, list, numbers);
}

void into_desk_look(struct kamzhor_seen *to, const struct kamzhor_desk *desk, uint8_t address)
{
    raw_desk_look(to, *desk, address);
}

/* ---- the lanes */

void into_lanes_fresh(struct kamzhor_lanes *to)
{
    raw_lanes_fresh(to);
}

void into_lanes_join(struct kamzhor_lanes_joined *to, const struct kamzhor_lanes *lanes, struct kamzhor_request asked, struct span data)
{
    raw_lanes_join(to, *lanes, asked, data.bytes, data.n);
}

void into_lanes_grant(struct kamzhor_lanes_granted *to, const struct kamzhor_lanes *lanes, const struct kamzhor_desk *desk, uint32_t clock,
                      struct span room)
{
    raw_lanes_grant(to, *lanes, *desk, clock, room.bytes, room.n);
}

void into_lanes_withdraw(struct kamzhor_lanes_withdrawn *to, const struct kamzhor_lanes *lanes, uint32_t job, size_t place)
{
    raw_lanes_withdraw(to, *lanes, job, place);
}

/* ---- the filter box */

void into_box_fresh(struct kamzhor_box *to, uint32_t job, uint8_t module)
{
    raw_box_fresh(to, job, module);
}

void into_box_ask(struct kamzhor_box_asked *to, enum asking asking, const struct kamzhor_box *box, const struct kamzhor_desk *desk,
                  uint16_t value, uint32_t wait, uint32_t clock, struct span room)
{
    switch (asking) {
    case SET_SHORT:
        raw_box_set_short(to, *box, *desk, value, wait, clock, room.bytes, room.n);
        break;
    case SET_LONG:
        raw_box_set_long(to, *box, *desk, value, wait, clock, room.bytes, room.n);
        break;
    case ATTENUATE:
        raw_box_attenuate(to, *box, *desk, value, wait, clock, room.bytes, room.n);
        break;
    case READ_MONITOR:
        raw_box_read_monitor(to, *box, *desk, wait, clock, room.bytes, room.n);
        break;
    case READ_STATUS:
        raw_box_read_status(to, *box, *desk, wait, clock, room.bytes, room.n);
        break;
    }
}

void into_box_reply(struct kamzhor_box *to, const struct kamzhor_box *box, struct kamzhor_booked answer)
{
    raw_box_reply(to, *box, answer);
}

void into_box_close(struct kamzhor_box *to, const struct kamzhor_box *box, struct kamzhor_closed answer)
{
    raw_box_close(to, *box, answer);
}

/* ---- the scan */

void into_scan_fresh(struct kamzhor_scan *to, uint32_t job)
{
    raw_scan_fresh(to, job);
}

void into_scan_step(struct kamzhor_scan_asked *to, const struct kamzhor_scan *scan, const struct kamzhor_desk *desk, uint32_t clock,
                    struct span room)
{
    raw_scan_step(to, *scan, *desk, clock, room.bytes, room.n);
}

void into_scan_reply(struct kamzhor_scan *to, const struct kamzhor_scan *scan, struct kamzhor_booked answer)
{
    raw_scan_reply(to, *scan, answer);
}

void into_scan_close(struct kamzhor_scan *to, const struct kamzhor_scan *scan, struct kamzhor_closed answer)
{
    raw_scan_close(to, *scan, answer);
}

/* ---- the bench, and the catalogue */

void into_bench_made(struct kamzhor_bench_built *to, uint8_t address)
{
    raw_bench_made(to, address);
}

void into_bench_add(struct kamzhor_bench_built *to, const struct kamzhor_bench *bench, uint8_t number, uint8_t kind, uint8_t rights)
{
    raw_bench_add(to, *bench, number, kind, rights);
}

void into_bench_set(struct kamzhor_bench_built *to, const struct kamzhor_bench *bench, uint8_t number, uint32_t negative,
                    uint64_t magnitude)
{
    raw_bench_set(to, *bench, number, negative, magnitude);
}

void into_bench_take(struct kamzhor_bench_answered *to, const struct kamzhor_bench *bench, struct span frame, struct span room)
{
    raw_bench_take(to, *bench, frame.bytes, frame.n, room.bytes, room.n);
}

void into_find_register(struct kamzhor_entry *to, uint8_t model, uint8_t reg)
{
    raw_find_register(to, model, reg);
}
