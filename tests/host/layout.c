/* Writes the alignment and the size of every struct of include/kamzhor.h, and the place and the size of every field in it, as the
 * C compiler lays them out: tests/host/layout.py lays them beside the library's own. */
#include "kamzhor.h"
#include <stdio.h>

#define WHOLE(type) {"kamzhor_" #type, "-", __alignof__(struct kamzhor_##type), sizeof(struct kamzhor_##type)}
#define IN(type, field) {"kamzhor_" #type, #field, offsetof(struct kamzhor_##type, field), sizeof(((struct kamzhor_##type *)0)->field)}

static const struct {
    const char *type, *field;
    size_t at, size;
} told[] = {
    WHOLE(frame), IN(frame, refusal), IN(frame, destination), IN(frame, source), IN(frame, type), IN(frame, reg),
        IN(frame, size), IN(frame, place),
    WHOLE(value), IN(value, refusal), IN(value, negative), IN(value, magnitude),
    WHOLE(receiver), IN(receiver, place), IN(receiver, start), IN(receiver, size), IN(receiver, bytes),
    WHOLE(tally), IN(tally, read), IN(tally, refused), IN(tally, dropped),
    WHOLE(step), IN(step, refusal), IN(step, line), IN(step, taken), IN(step, place), IN(step, frame),
        IN(step, receiver),
    WHOLE(size), IN(size, refusal), IN(size, size),
    WHOLE(entry), IN(entry, refusal), IN(entry, kind), IN(entry, writable), IN(entry, lowest), IN(entry, highest),
    WHOLE(request), IN(request, job), IN(request, module), IN(request, type), IN(request, reg), IN(request, wait),
        IN(request, folder),
    WHOLE(ticket), IN(ticket, live), IN(ticket, asked), IN(ticket, opened), IN(ticket, withdrawn), IN(ticket, closed),
    WHOLE(desk), IN(desk, turn), IN(desk, tickets), IN(desk, marks), IN(desk, marks.low), IN(desk, marks.high),
    WHOLE(opened), IN(opened, refusal), IN(opened, address), IN(opened, considered), IN(opened, size),
    WHOLE(booked), IN(booked, refusal), IN(booked, job), IN(booked, folder), IN(booked, address), IN(booked, type),
        IN(booked, size), IN(booked, place),
    WHOLE(closed), IN(closed, refusal), IN(closed, job), IN(closed, folder), IN(closed, address),
    WHOLE(due), IN(due, job), IN(due, address), IN(due, folder),
    WHOLE(seen), IN(seen, state), IN(seen, asked), IN(seen, opened), IN(seen, closed),
    WHOLE(desk_opened), IN(desk_opened, desk), IN(desk_opened, answer),
    WHOLE(desk_booked), IN(desk_booked, desk), IN(desk_booked, answer),
    WHOLE(desk_closed), IN(desk_closed, desk), IN(desk_closed, answer),
    WHOLE(desk_swept), IN(desk_swept, desk), IN(desk_swept, count),
    WHOLE(waiting), IN(waiting, asked), IN(waiting, size), IN(waiting, bytes),
    WHOLE(lane), IN(lane, size), IN(lane, waiting),
    WHOLE(lanes), IN(lanes, last), IN(lanes, lanes),
    WHOLE(joined), IN(joined, refusal), IN(joined, lane), IN(joined, place),
    WHOLE(granted), IN(granted, refusal), IN(granted, job), IN(granted, address), IN(granted, considered),
        IN(granted, size),
    WHOLE(lanes_joined), IN(lanes_joined, lanes), IN(lanes_joined, answer),
    WHOLE(lanes_granted), IN(lanes_granted, lanes), IN(lanes_granted, desk), IN(lanes_granted, answer),
    WHOLE(lanes_withdrawn), IN(lanes_withdrawn, lanes), IN(lanes_withdrawn, refusal),
    WHOLE(edge), IN(edge, known), IN(edge, tenths),
    WHOLE(edge_out), IN(edge_out, edge), IN(edge_out, address), IN(edge_out, tenths),
    WHOLE(box), IN(box, job), IN(box, module), IN(box, short_pass), IN(box, long_pass), IN(box, out),
    WHOLE(box_asked), IN(box_asked, box), IN(box_asked, desk), IN(box_asked, answer),
    WHOLE(scan), IN(scan, job), IN(scan, turns), IN(scan, out), IN(scan, results),
    WHOLE(scanned), IN(scanned, refusal), IN(scanned, state), IN(scanned, address), IN(scanned, module),
        IN(scanned, considered), IN(scanned, size),
    WHOLE(scan_asked), IN(scan_asked, scan), IN(scan_asked, desk), IN(scan_asked, answer),
    WHOLE(setting), IN(setting, module), IN(setting, reg), IN(setting, kind), IN(setting, count),
    WHOLE(checked), IN(checked, refusal), IN(checked, count),
    WHOLE(record), IN(record, refusal), IN(record, setting), IN(record, size),
    WHOLE(held), IN(held, number), IN(held, kind), IN(held, rights), IN(held, value),
    WHOLE(bench), IN(bench, address), IN(bench, count), IN(bench, registers),
    WHOLE(taken), IN(taken, refusal), IN(taken, size), IN(taken, place),
    WHOLE(register), IN(register, held), IN(register, number), IN(register, kind), IN(register, rights),
        IN(register, value),
    WHOLE(bench_built), IN(bench_built, bench), IN(bench_built, refusal),
    WHOLE(bench_answered), IN(bench_answered, bench), IN(bench_answered, answer),
};

int main(void)
{
    size_t i;
    for (i = 0; i < sizeof told / sizeof *told; i++)
        printf("%s %s %lu %lu\n", told[i].type, told[i].field, (unsigned long)told[i].at, (unsigned long)told[i].size);
    return 0;
}
