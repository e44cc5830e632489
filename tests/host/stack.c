/* That no call needs more stack than include/kamzhor.h and docs/C.md say: each is made on a painted stack, and what is painted no
 * longer is counted. That takes in the answer, and the states that are handed over, as a host's own function has them. */
#include "kamzhor.h"
#include <stdio.h>
#include <string.h>

#define PAINT 0xC5
#define SHALLOW 16384 /* as much as is painted for calls on bytes, and on states */
#define DEEP 262144
#define BYTES 1024 /* what is said of the calls on each */
#define STEP 8192
#define DESK 32768
#define BOX 40960
#define LANES 196608
#define BENCH 8192

static uint8_t stack[DEEP] __attribute__((aligned(16)));
static uint8_t bytes[600], room[KAMZHOR_MOST_KEPT], rows[8 * 127], sheet[KAMZHOR_MOST_SHEET], telegram[KAMZHOR_MOST_KEPT];
static size_t room_length, telegram_length;
static struct kamzhor_receiver receiver;
static struct kamzhor_tally tally;
static struct kamzhor_frame frame;
static struct kamzhor_value value;
static struct kamzhor_step step;
static unsigned rest;

/* ---- calls on bytes and numbers */

static void remainder_of(void)
{
    rest = kamzhor_remainder(bytes, sizeof bytes);
}

static void read_frame(void)
{
    frame = kamzhor_read_frame(bytes, sizeof bytes, room, KAMZHOR_MOST_DATA);
}

static void read_value(void)
{
    value = kamzhor_read_value(KAMZHOR_U64, bytes, sizeof bytes, 0);
}

static void begin(void)
{
    receiver = kamzhor_receiver(0);
}

static void take(void)
{
    step = kamzhor_step(receiver, &tally, bytes, sizeof bytes);
}

/* a step that is refused: with 60, and with 76 where it would end a line */
static void refuse(void)
{
    receiver.place = UINT64_MAX;
    tally.read = tally.refused = tally.dropped = 4294967295u;
    step = kamzhor_step(receiver, &tally, bytes, sizeof bytes);
    tally.read = tally.refused = tally.dropped = 0;
}

static struct kamzhor_size size;
static struct kamzhor_entry entry;
static struct kamzhor_checked checked;
static struct kamzhor_record record;
static const struct kamzhor_setting setting = {160, 255, KAMZHOR_U8, 240};

static void write_frame(void)
{
    size = kamzhor_write_frame(1, 255, KAMZHOR_WRITE, 10, bytes, KAMZHOR_MOST_DATA, room, sizeof room);
}

static void write_value(void)
{
    rest = kamzhor_write_value(KAMZHOR_I32, 1, 5, room, sizeof room);
}

static void find_register(void)
{
    entry = kamzhor_find_register(0x74, 0x3E);
}

static void which(void)
{
    rest = kamzhor_which_to_display(bytes, 2, bytes, 2) + kamzhor_box_moving(4096);
}

/* a sheet of one setting less than the most, in the room of the longest */
static void sheet_write(void)
{
    size_t i;
    for (i = 0; i < 127; i++) {
        rows[8 * i] = 1;
        rows[8 * i + 1] = (uint8_t)i;
        rows[8 * i + 2] = KAMZHOR_U8;
        rows[8 * i + 3] = rows[8 * i + 4] = 1;
    }
    size = kamzhor_sheet_write(rows, sizeof rows, bytes, 127, sheet, sizeof sheet);
}

static void sheet_check(void)
{
    checked = kamzhor_sheet_check(sheet, (size_t)size.size);
}

static void sheet_read(void)
{
    record = kamzhor_sheet_read(sheet, (size_t)size.size, 126, room, sizeof room);
}

static void sheet_add(void)
{
    size = kamzhor_sheet_add(sheet, sizeof sheet, (size_t)size.size, setting, bytes, 240);
}

static void sheet_remove(void)
{
    size = kamzhor_sheet_remove(sheet, sizeof sheet, (size_t)size.size, 3);
}

static void sheet_remove_module(void)
{
    size = kamzhor_sheet_remove_module(sheet, sizeof sheet, (size_t)size.size, 1);
}

/* ---- calls on states, in place */

static struct kamzhor_desk desk;
static struct kamzhor_lanes lanes;
static struct kamzhor_box box;
static struct kamzhor_scan scan;
static struct kamzhor_bench bench;
static struct kamzhor_request asked;
static struct kamzhor_opened opened;
static struct kamzhor_booked booked;
static struct kamzhor_closed closed;
static struct kamzhor_seen seen;
static struct kamzhor_joined joined;
static struct kamzhor_granted granted;
static struct kamzhor_scanned scanned;
static struct kamzhor_taken taken;
static struct kamzhor_register held;
static struct kamzhor_due list[KAMZHOR_HOSTS];

static void desk_fresh(void)
{
    desk = kamzhor_desk_fresh();
}

static void desk_open(void)
{
    kamzhor_desk_open(&desk, asked, bytes, KAMZHOR_MOST_DATA, 5, room, room_length, &opened);
}

static void desk_reply(void)
{
    kamzhor_desk_reply(&desk, telegram, telegram_length, room, room_length, &booked);
}

static void desk_cancel(void)
{
    kamzhor_desk_cancel(&desk, 1, KAMZHOR_FIRST_HOST, 5, &closed);
}

static void desk_expire(void)
{
    kamzhor_desk_expire(&desk, 200, &closed);
}

static void desk_expire_all(void)
{
    kamzhor_desk_expire_all(&desk, 200, list, KAMZHOR_HOSTS);
}

static void desk_look(void)
{
    seen = kamzhor_desk_look(&desk, KAMZHOR_FIRST_HOST);
}

static void lanes_fresh(void)
{
    lanes = kamzhor_lanes_fresh();
}

static void lanes_join(void)
{
    kamzhor_lanes_join(&lanes, asked, bytes, KAMZHOR_MOST_DATA, &joined);
}

static void lanes_grant(void)
{
    kamzhor_lanes_grant(&lanes, &desk, 5, room, room_length, &granted);
}

static void lanes_withdraw(void)
{
    kamzhor_lanes_withdraw(&lanes, 1, 1);
}

static void box_fresh(void)
{
    box = kamzhor_box_fresh(1, 16);
}

static void box_set_short(void)
{
    kamzhor_box_set_short(&box, &desk, 6000, 100, 5, room, room_length, &opened);
}

static void box_set_long(void)
{
    kamzhor_box_set_long(&box, &desk, 6000, 100, 5, room, room_length, &opened);
}

static void box_attenuate(void)
{
    kamzhor_box_attenuate(&box, &desk, 1000, 100, 5, room, room_length, &opened);
}

static void box_read_monitor(void)
{
    kamzhor_box_read_monitor(&box, &desk, 100, 5, room, room_length, &opened);
}

static void box_read_status(void)
{
    kamzhor_box_read_status(&box, &desk, 100, 5, room, room_length, &opened);
}

static void box_hear(void)
{
    kamzhor_box_reply(&box, booked);
    kamzhor_box_close(&box, closed);
}

static void scan_fresh(void)
{
    scan = kamzhor_scan_fresh(1);
}

static void scan_step(void)
{
    kamzhor_scan_step(&scan, &desk, 5, room, room_length, &scanned);
}

static void scan_hear(void)
{
    kamzhor_scan_reply(&scan, booked);
    kamzhor_scan_close(&scan, closed);
    rest = kamzhor_scan_look(&scan, 1);
}

static void bench_make(void)
{
    kamzhor_bench_make(&bench, 15);
}

static void bench_add(void)
{
    kamzhor_bench_add(&bench, 31, KAMZHOR_U64, 7);
}

static void bench_set(void)
{
    kamzhor_bench_set(&bench, 0, 0, 7);
}

static void bench_take(void)
{
    kamzhor_bench_take(&bench, telegram, telegram_length, room, room_length, &taken);
}

static void bench_look(void)
{
    held = kamzhor_bench_look(&bench, 30);
}

/* What the calls are made on: hardly anything, or crowded; a telegram that the bench takes, or the desk; with room, or without. */
static void prepare(unsigned variant)
{
    struct kamzhor_request asks = {1, 15, KAMZHOR_WRITE, 0, 100, 0};
    uint8_t i;
    desk = kamzhor_desk_fresh();
    lanes = kamzhor_lanes_fresh();
    box = kamzhor_box_fresh(1, 15);
    scan = kamzhor_scan_fresh(1);
    kamzhor_bench_make(&bench, 15);
    memset(bytes, 94, sizeof bytes);
    for (asked = asks; asked.job < (variant & 1 ? 96u : 2u); asked.job++) {
        kamzhor_desk_open(&desk, asked, bytes, 0, 0, room, sizeof room, NULL);
        kamzhor_lanes_join(&lanes, asked, bytes, KAMZHOR_MOST_DATA, NULL);
    }
    asked.job = 2;
    for (i = 0; i < 31; i++)
        kamzhor_bench_add(&bench, i, KAMZHOR_U64, 7);
    size = variant & 2 ? kamzhor_write_frame(KAMZHOR_FIRST_HOST, 15, KAMZHOR_NACK, 0, bytes, 240, telegram, sizeof telegram)
                       : kamzhor_write_frame(15, KAMZHOR_FIRST_HOST, KAMZHOR_WRITE, 0, bytes, 8, telegram, sizeof telegram);
    telegram_length = (size_t)size.size;
    room_length = variant & 4 ? 4 : sizeof room;
    sheet_write();
}

/* ---- measured */

/* how many bytes of a stack that is painted so deep this needs, its return address among them */
static size_t needs(void (*call)(void), size_t depth)
{
    uint8_t *from = stack + sizeof stack - depth;
    size_t i = 0;
    memset(from, PAINT, depth);
    __asm__ volatile("movq %%rsp, %%rbx\n\tmovq %0, %%rsp\n\tcall *%1\n\tmovq %%rbx, %%rsp"
                     :
                     : "r"(stack + sizeof stack), "r"(call)
                     : "rax", "rbx", "rcx", "rdx", "rsi", "rdi", "r8", "r9", "r10", "r11", "xmm0", "xmm1", "xmm2", "xmm3", "xmm4", "xmm5",
                       "xmm6", "xmm7", "xmm8", "xmm9", "xmm10", "xmm11", "xmm12", "xmm13", "xmm14", "xmm15", "cc", "memory");
    while (i < depth && from[i] == PAINT)
        i++;
    return depth - i;
}

static int told(const char *name, size_t deepest, size_t most)
{
    printf("host: %s needs %lu bytes of stack\n", name, (unsigned long)deepest);
    return deepest < most;
}

/* the most of it, over frames of all lengths, whole and cut short; a step also goes on inside a frame */
static int within(const char *name, void (*call)(void), size_t most)
{
    size_t end, n, deepest = 0;
    call(); /* once before, so that the loader has nothing left to look up */
    for (end = 1; end < sizeof bytes; end++) {
        memset(bytes, 65, sizeof bytes);
        bytes[0] = 13;
        bytes[end] = end % 3 == 0 ? 10 : end % 3 == 1 ? 13 : 65;
        n = needs(call, SHALLOW);
        deepest = n > deepest ? n : deepest;
        receiver = step.receiver;
    }
    return told(name, deepest, most);
}

/* where there is nothing to prepare */
static int once(const char *name, void (*call)(void), size_t most)
{
    call();
    return told(name, needs(call, DEEP), most);
}

/* the most of it, over the states that are prepared */
static int on_states(const char *name, void (*call)(void), size_t most)
{
    size_t n, deepest = 0;
    unsigned variant;
    prepare(0);
    call();
    for (variant = 0; variant < 8; variant++) {
        prepare(variant);
        n = needs(call, DEEP);
        deepest = n > deepest ? n : deepest;
    }
    return told(name, deepest, most);
}

int main(void)
{
    static const struct {
        const char *name;
        void (*call)(void);
        int (*measure)(const char *name, void (*call)(void), size_t most);
        size_t most;
    } calls[] = {
        {"kamzhor_remainder", remainder_of, within, BYTES},
        {"kamzhor_read_frame", read_frame, within, BYTES},
        {"kamzhor_read_value", read_value, within, BYTES},
        {"kamzhor_receiver", begin, within, BYTES},
        {"kamzhor_step", take, within, STEP},
        {"kamzhor_step, refused,", refuse, within, STEP},
        {"kamzhor_write_frame", write_frame, once, BYTES},
        {"kamzhor_write_value", write_value, once, BYTES},
        {"kamzhor_find_register", find_register, once, BYTES},
        {"kamzhor_which_to_display", which, once, BYTES},
        {"kamzhor_sheet_write", sheet_write, on_states, BYTES},
        {"kamzhor_sheet_check", sheet_check, on_states, BYTES},
        {"kamzhor_sheet_read", sheet_read, on_states, BYTES},
        {"kamzhor_sheet_add", sheet_add, on_states, BYTES},
        {"kamzhor_sheet_remove", sheet_remove, on_states, BYTES},
        {"kamzhor_sheet_remove_module", sheet_remove_module, on_states, BYTES},
        {"kamzhor_desk_fresh", desk_fresh, once, DESK},
        {"kamzhor_desk_open", desk_open, on_states, DESK},
        {"kamzhor_desk_reply", desk_reply, on_states, DESK},
        {"kamzhor_desk_cancel", desk_cancel, on_states, DESK},
        {"kamzhor_desk_expire", desk_expire, on_states, DESK},
        {"kamzhor_desk_expire_all", desk_expire_all, on_states, DESK},
        {"kamzhor_desk_look", desk_look, on_states, DESK},
        {"kamzhor_lanes_fresh", lanes_fresh, once, LANES},
        {"kamzhor_lanes_join", lanes_join, on_states, LANES},
        {"kamzhor_lanes_grant", lanes_grant, on_states, LANES},
        {"kamzhor_lanes_withdraw", lanes_withdraw, on_states, LANES},
        {"kamzhor_box_fresh", box_fresh, once, BYTES},
        {"kamzhor_box_set_short", box_set_short, on_states, BOX},
        {"kamzhor_box_set_long", box_set_long, on_states, BOX},
        {"kamzhor_box_attenuate", box_attenuate, on_states, BOX},
        {"kamzhor_box_read_monitor", box_read_monitor, on_states, BOX},
        {"kamzhor_box_read_status", box_read_status, on_states, BOX},
        {"kamzhor_box_reply, _close", box_hear, on_states, BYTES},
        {"kamzhor_scan_fresh", scan_fresh, once, BYTES},
        {"kamzhor_scan_step", scan_step, on_states, DESK},
        {"kamzhor_scan_reply, _close, _look", scan_hear, on_states, BYTES},
        {"kamzhor_bench_make", bench_make, once, BENCH},
        {"kamzhor_bench_add", bench_add, on_states, BENCH},
        {"kamzhor_bench_set", bench_set, on_states, BENCH},
        {"kamzhor_bench_take", bench_take, on_states, BENCH},
        {"kamzhor_bench_look", bench_look, on_states, BENCH},
    };
    size_t i;
    for (i = 0; i < sizeof calls / sizeof *calls; i++)
        if (!calls[i].measure(calls[i].name, calls[i].call, calls[i].most)) {
            printf("host: FAILED, that is more than is said\n");
            return 1;
        }
    return 0;
}
