/* The library from C++, with neither its headers nor its library: that the header's names are C's there too, and that all
 * answers come back whole. */
#include "kamzhor.h"
#include "kamzhor.h"

#include "constants.h"

extern "C" int puts(const char *text);

static bool frame_read()
{
    const uint8_t frame[] = {13, 0xA2, 0x5E, 0x4A, 0x08, 0x11, 0x5E, 0x9E, 0x91, 0x63, 0x7E, 10};
    uint8_t room[KAMZHOR_MOST_DATA] = {0};
    kamzhor_frame t = kamzhor_read_frame(frame, sizeof frame, room, sizeof room);
    if (t.refusal != KAMZHOR_DONE || t.destination != 162 || t.source != 10 || t.type != KAMZHOR_DATAGRAM || t.reg != 17 || t.size != 2 || t.place != 0)
        return false;
    kamzhor_value v = kamzhor_read_value(KAMZHOR_U16, room, (size_t)t.size, 0);
    return v.refusal == KAMZHOR_DONE && v.negative == 0 && v.magnitude == 37214;
}

static bool refused()
{
    const uint8_t frame[] = {13, 0x0F, 0xA2, 0x04, 0x66, 0xC7, 0xB7, 10}, bad[] = {13, 0xA2, 94, 74, 94, 65, 10}, below[] = {0x00, 0x80};
    kamzhor_frame t = kamzhor_read_frame(frame, sizeof frame, 0, 0);
    kamzhor_value v = kamzhor_read_value(KAMZHOR_I16, below, sizeof below, 0);
    kamzhor_frame b = kamzhor_read_frame(bad, sizeof bad, 0, 0);
    return t.refusal == KAMZHOR_CHECK_FAULT && t.size == 0 && t.place == 0 && b.refusal == KAMZHOR_BAD_SUBSTITUTION && b.place == 4
        && v.negative == 1 && v.magnitude == 32768
        && kamzhor_read_value(8, below, sizeof below, 0).refusal == KAMZHOR_UNKNOWN_KIND;
}

/* a receiver and a step have the names of their calls, so that `struct` is needed here */
static bool received()
{
    const uint8_t line[] = {65, 13, 0xA2, 0x0F, 0x03, 0x30, 0x48, 0x2F, 10, 13};
    kamzhor_tally tally = {4294967294u, 4294967295u, 4294967295u};
    struct kamzhor_step cut = kamzhor_step(kamzhor_receiver(7), &tally, line, 5);
    struct kamzhor_step ended = kamzhor_step(cut.receiver, &tally, line + 5, 5);
    struct kamzhor_step opened = kamzhor_step(ended.receiver, &tally, line + 9, 1);
    struct kamzhor_step full = kamzhor_step(kamzhor_receiver(UINT64_MAX), &tally, line, 9);
    return cut.line == KAMZHOR_NO_LINE && cut.taken == 5 && cut.receiver.start == 8 && cut.receiver.size == 4 && cut.receiver.bytes[3] == 3
        && ended.line == KAMZHOR_LINE_OK && ended.taken == 4 && ended.place == 8 && ended.frame.reg == 48 && ended.receiver.size == 0
        && opened.line == KAMZHOR_NO_LINE && opened.receiver.place == 17 && opened.receiver.start == 16
        && full.refusal == KAMZHOR_TALLY_FULL && full.taken == 0 && full.receiver.place == UINT64_MAX
        && tally.read == 4294967295u && tally.refused == 4294967295u && tally.dropped == 4294967295u
        && kamzhor_step(kamzhor_receiver(UINT64_MAX), &tally, line, 1).refusal == KAMZHOR_PAST_LARGEST;
}

static bool written()
{
    uint8_t room[8] = {0}, two[2] = {0};
    kamzhor_size n = kamzhor_write_frame(15, 162, KAMZHOR_READ, 102, 0, 0, room, sizeof room);
    kamzhor_entry row = kamzhor_find_register(0x74, 0x24);
    return n.refusal == KAMZHOR_DONE && n.size == 8 && room[5] == 0xC7 && room[6] == 0xB6
        && kamzhor_write_value(KAMZHOR_I16, 1, 2, two, sizeof two) == KAMZHOR_DONE && two[0] == 0xFE && two[1] == 0xFF
        && row.refusal == KAMZHOR_DONE && row.kind == KAMZHOR_U16 && row.writable == 1 && row.highest == 4095;
}

/* a request and its reply; one that is cancelled, one that expires, and the rest at once */
static bool at_the_desk()
{
    const uint8_t ack[] = {13, 0xA1, 0x0F, 0x03, 0x30, 0xD3, 0xF3, 10};
    uint8_t room[16] = {0};
    kamzhor_desk desk = kamzhor_desk_fresh();
    kamzhor_request asked = {7, 15, KAMZHOR_WRITE, 48, 100, 3};
    kamzhor_opened opened;
    kamzhor_booked booked;
    kamzhor_closed cancelled, expired;
    kamzhor_due rest[2];
    if (kamzhor_desk_open(&desk, asked, 0, 0, 0, room, sizeof room, &opened) || opened.address != 161 || opened.considered != 1)
        return false;
    if (kamzhor_desk_look(&desk, 161).state != KAMZHOR_SEEN_OPEN || kamzhor_desk_look(&desk, 161).asked.folder != 3)
        return false;
    if (kamzhor_desk_reply(&desk, ack, sizeof ack, 0, 0, &booked) || booked.job != 7 || booked.folder != 3 || booked.type != KAMZHOR_ACK)
        return false;
    for (int i = 0; i < 3; i++)
        if (kamzhor_desk_open(&desk, asked, 0, 0, 0, room, sizeof room, 0))
            return false;
    return !kamzhor_desk_cancel(&desk, 7, 162, 1, &cancelled) && cancelled.address == 162 && !kamzhor_desk_expire(&desk, 100, &expired)
        && expired.address == 163 && kamzhor_desk_expire_all(&desk, 100, rest, 2) == 1 && rest[0].job == 7 && rest[0].address == 164
        && kamzhor_closed_of(rest[0]).folder == 3 && kamzhor_desk_look(&desk, 164).state == KAMZHOR_SEEN_WITHDRAWN;
}

static bool in_the_lanes()
{
    static uint8_t room[KAMZHOR_MOST_KEPT];
    kamzhor_lanes lanes = kamzhor_lanes_fresh();
    kamzhor_desk desk = kamzhor_desk_fresh();
    kamzhor_request asked = {7, 15, KAMZHOR_READ, 102, 100, 0};
    kamzhor_joined joined;
    kamzhor_granted granted;
    return !kamzhor_lanes_join(&lanes, asked, 0, 0, &joined) && joined.lane == 1 && !kamzhor_lanes_join(&lanes, asked, 0, 0, &joined)
        && joined.place == 2 && !kamzhor_lanes_withdraw(&lanes, 7, 2) && !kamzhor_lanes_grant(&lanes, &desk, 0, room, sizeof room, &granted)
        && granted.job == 7 && granted.address == 161 && granted.size == 8
        && kamzhor_lanes_grant(&lanes, &desk, 0, room, sizeof room, 0) == KAMZHOR_NOTHING_WAITING;
}

static bool at_the_filters()
{
    const uint8_t two[] = {0x34, 0x12};
    uint8_t room[16] = {0};
    kamzhor_desk desk = kamzhor_desk_fresh();
    kamzhor_box box = kamzhor_box_fresh(9, 16);
    kamzhor_opened opened;
    kamzhor_booked ack = {0, 9, 0, 161, KAMZHOR_ACK, 0, 0};
    kamzhor_closed closed = {0, 9, 0, 162};
    if (kamzhor_box_set_short(&box, &desk, 6000, 500, 0, room, sizeof room, &opened) || opened.address != 161 || box.out.tenths != 6000)
        return false;
    kamzhor_box_reply(&box, ack);
    if (box.short_pass.known != 1 || kamzhor_box_set_long(&box, &desk, 6000, 500, 0, room, sizeof room, 0) != KAMZHOR_OUT_OF_ORDER)
        return false;
    if (kamzhor_box_set_long(&box, &desk, 5999, 500, 0, room, sizeof room, &opened) || box.out.address != 162)
        return false;
    kamzhor_box_close(&box, closed);
    return box.out.edge == 0 && kamzhor_box_attenuate(&box, &desk, 1001, 500, 0, room, sizeof room, 0) == KAMZHOR_TOO_MUCH
        && !kamzhor_box_read_monitor(&box, &desk, 500, 0, room, sizeof room, 0)
        && !kamzhor_box_read_status(&box, &desk, 500, 0, room, sizeof room, 0) && kamzhor_box_moving(0x4000) == 1
        && kamzhor_which_to_display(two, 2, 0, 0) == KAMZHOR_DISPLAY_FRESH && kamzhor_display(0, 0, two, 2) == two;
}

static bool scanned()
{
    uint8_t room[16] = {0};
    kamzhor_desk desk = kamzhor_desk_fresh();
    kamzhor_scan scan = kamzhor_scan_fresh(5);
    kamzhor_scanned step;
    kamzhor_booked datagram = {0, 5, 0, 161, KAMZHOR_DATAGRAM, 1, 0};
    kamzhor_closed closed = {0, 5, 0, 162};
    if (kamzhor_scan_step(&scan, &desk, 0, room, sizeof room, &step) || step.state != KAMZHOR_SCAN_ASKED || step.module != 1)
        return false;
    kamzhor_scan_reply(&scan, datagram);
    if (kamzhor_scan_step(&scan, &desk, 0, room, sizeof room, &step) || step.address != 162)
        return false;
    kamzhor_scan_close(&scan, closed);
    return kamzhor_scan_look(&scan, 1) == KAMZHOR_FOUND_DATAGRAM && kamzhor_scan_look(&scan, 2) == KAMZHOR_FOUND_ABSENT
        && kamzhor_scan_look(&scan, 3) == KAMZHOR_FOUND_NOT_YET;
}

static bool on_a_sheet()
{
    const uint8_t rows[] = {15, 48, KAMZHOR_U16, 1, 2, 0, 0, 0}, value[] = {0x34, 0x12};
    const kamzhor_setting more = {15, 50, KAMZHOR_U16, 1};
    uint8_t sheet[40] = {0}, room[2] = {0};
    kamzhor_size n = kamzhor_sheet_write(rows, sizeof rows, value, sizeof value, sheet, sizeof sheet);
    kamzhor_size longer = kamzhor_sheet_add(sheet, sizeof sheet, (size_t)n.size, more, value, sizeof value);
    kamzhor_checked checked = kamzhor_sheet_check(sheet, (size_t)longer.size);
    kamzhor_record record = kamzhor_sheet_read(sheet, (size_t)longer.size, 1, room, sizeof room);
    kamzhor_size shorter = kamzhor_sheet_remove(sheet, sizeof sheet, (size_t)longer.size, 0);
    return n.size == 22 && longer.size == 32 && checked.count == 2 && record.setting.reg == 50 && record.size == 2 && room[1] == 0x12
        && shorter.size == 22 && kamzhor_sheet_remove_module(sheet, sizeof sheet, (size_t)shorter.size, 15).size == 12;
}

static bool on_the_bench()
{
    const uint8_t question[] = {13, 0x0F, 0xA2, 0x04, 0x66, 0xC7, 0xB6, 10};
    uint8_t room[16] = {0};
    kamzhor_bench bench;
    kamzhor_taken taken;
    return kamzhor_bench_make(&bench, 161) == KAMZHOR_BENCH_ADDRESS && !kamzhor_bench_make(&bench, 15)
        && !kamzhor_bench_add(&bench, 102, KAMZHOR_I8, KAMZHOR_MAY_READ) && !kamzhor_bench_set(&bench, 102, 1, 1)
        && !kamzhor_bench_take(&bench, question, sizeof question, room, sizeof room, &taken) && taken.size == 9 && room[5] == 255
        && kamzhor_bench_look(&bench, 102).value == 255 && kamzhor_bench_look(&bench, 103).held == 0;
}

int main()
{
    const uint8_t bytes[] = {0x0F, 0xA2, 0x04, 0x66};
    if (kamzhor_remainder(bytes, sizeof bytes) != 0xC7B6 || !frame_read() || !refused() || !received() || !written() || !at_the_desk()
        || !in_the_lanes() || !at_the_filters() || !scanned() || !on_a_sheet() || !on_the_bench()) {
        puts("host: FAILED from C++");
        return 1;
    }
    puts("host: the same calls from C++");
    return 0;
}
