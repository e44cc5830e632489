/* The calls of a script on frames, values, the catalogue, settings sheets, the receiver and its tally. */
#include "calls.h"
#include "same.h"
#include <string.h>

#define MOST_SETTINGS 200 /* that a line may name; so 79 can be seen */

/* ---- frames, values and the catalogue */

int rem_call(struct words *w)
{
    take_lent(w, &first);
    if (!all_taken(w))
        return 0;
    say_field("ok rem=", kamzhor_remainder(first.bytes, first.n));
    return 1;
}

int read_call(struct words *w)
{
    struct kamzhor_frame a;
    take_lent(w, &first);
    take_lent(w, &room);
    if (!all_taken(w))
        return 0;
    a = kamzhor_read_frame(first.bytes, first.n, room.bytes, room.n);
    if (a.refusal) {
        say_refusal_at(a.refusal, a.place, (a.destination | a.source | a.type | a.reg) == 0 && a.size == 0);
    } else {
        say_field("ok dest=", a.destination);
        say_field(" src=", a.source);
        say_field(" type=", a.type);
        say_field(" reg=", a.reg);
        say_field(" n=", a.size);
    }
    say_room();
    return 1;
}

int write_call(struct words *w)
{
    uint8_t destination = (uint8_t)take_number(w, 255), source = (uint8_t)take_number(w, 255);
    uint8_t type = (uint8_t)take_number(w, 255), reg = (uint8_t)take_number(w, 255);
    take_lent(w, &first);
    take_lent(w, &room);
    if (!all_taken(w))
        return 0;
    say_size(kamzhor_write_frame(destination, source, type, reg, first.bytes, first.n, room.bytes, room.n));
    return 1;
}

int get_call(struct words *w)
{
    uint64_t kind = take_number(w, 255), element;
    struct kamzhor_value a;
    take_lent(w, &first);
    element = take_number(w, UINT64_MAX);
    if (!all_taken(w))
        return 0;
    a = kamzhor_read_value(kind, first.bytes, first.n, element);
    if (a.refusal)
        say_refusal(a.refusal, a.negative == 0 && a.magnitude == 0);
    else
        say_field(a.negative ? "ok value=-" : "ok value=", a.magnitude);
    return 1;
}

int put_call(struct words *w)
{
    uint64_t kind = take_number(w, 255), magnitude;
    uint32_t negative;
    magnitude = take_signed(w, &negative);
    take_lent(w, &room);
    if (!all_taken(w))
        return 0;
    say_number_or_ok((int)kamzhor_write_value(kind, negative, magnitude, room.bytes, room.n));
    say_room();
    return 1;
}

int cat_call(struct words *w)
{
    uint8_t model = (uint8_t)take_number(w, 255), reg = (uint8_t)take_number(w, 255);
    struct kamzhor_entry a;
    if (!all_taken(w))
        return 0;
    a = kamzhor_find_register(model, reg);
    if (a.refusal) {
        say_refusal(a.refusal, a.kind == 0 && a.writable == 0 && a.lowest == 0 && a.highest == 0);
        return 1;
    }
    say_field("ok kind=", a.kind);
    say_field(" write=", a.writable);
    say_field(" lo=", a.lowest);
    say_field(" hi=", a.highest);
    return 1;
}

/* ---- settings sheets */

/* MODULE:REG:KIND:COUNT:HEX */
static struct kamzhor_setting take_setting(struct words *w, struct word text, uint8_t *value, size_t *size)
{
    struct kamzhor_setting setting = {0, 0, 0, 0};
    struct words parts = words_of(text.from, text.length, ':');
    setting.module = (uint8_t)take_number(&parts, 255);
    setting.reg = (uint8_t)take_number(&parts, 255);
    setting.kind = (uint8_t)take_number(&parts, 255);
    setting.count = (uint8_t)take_number(&parts, 255);
    *size = take_bytes(&parts, value);
    w->good = w->good && all_taken(&parts);
    return setting;
}

/* the row of a setting whose value has that many bytes: no line holds more than 65,535 of them */
static void lay_row(uint8_t *row, struct kamzhor_setting setting, size_t size)
{
    row[0] = setting.module;
    row[1] = setting.reg;
    row[2] = setting.kind;
    row[3] = setting.count;
    row[4] = (uint8_t)(size % 256);
    row[5] = (uint8_t)(size / 256);
    row[6] = row[7] = 0;
}

/* the settings of a word, parted by `;`: rows into the first string of bytes, values into the second */
static void take_settings(struct words *w)
{
    struct word text = take_word(w);
    struct words list = words_of(text.from, text.length, ';');
    size_t rows = 0, values = 0, size;
    while (w->good && !is_word(text, "-") && !all_taken(&list)) {
        struct kamzhor_setting setting = take_setting(w, take_word(&list), second.before + values, &size);
        w->good = w->good && rows < MOST_SETTINGS;
        if (w->good)
            lay_row(first.before + 8 * rows++, setting, size);
        values += size;
    }
    lay(&first, 8 * rows);
    lay(&second, values);
}

int sheet_write(struct words *w)
{
    take_settings(w);
    take_lent(w, &room);
    if (!all_taken(w))
        return 0;
    say_size(kamzhor_sheet_write(first.bytes, first.n, second.bytes, second.n, room.bytes, room.n));
    return 1;
}

int sheet_check(struct words *w)
{
    struct kamzhor_checked a;
    take_lent(w, &first);
    if (!all_taken(w))
        return 0;
    a = kamzhor_sheet_check(first.bytes, first.n);
    if (a.refusal)
        say_refusal(a.refusal, a.count == 0);
    else
        say_field("ok count=", a.count);
    return 1;
}

int sheet_read(struct words *w)
{
    struct kamzhor_record a;
    size_t index;
    take_lent(w, &first);
    index = (size_t)take_number(w, UINT64_MAX);
    take_lent(w, &room);
    if (!all_taken(w))
        return 0;
    a = kamzhor_sheet_read(first.bytes, first.n, index, room.bytes, room.n);
    if (a.refusal) {
        say_refusal(a.refusal, (a.setting.module | a.setting.reg | a.setting.kind | a.setting.count) == 0 && a.size == 0);
    } else {
        say_field("ok module=", a.setting.module);
        say_field(" reg=", a.setting.reg);
        say_field(" kind=", a.setting.kind);
        say_field(" count=", a.setting.count);
        say_field(" n=", a.size);
    }
    say_room();
    return 1;
}

/* by the index; module and register only parse */
int sheet_rem(struct words *w)
{
    size_t size, index;
    take_lent(w, &room);
    size = (size_t)take_number(w, UINT64_MAX);
    index = (size_t)take_number(w, UINT64_MAX);
    take_number(w, 255);
    take_number(w, 255);
    if (!all_taken(w))
        return 0;
    say_size(kamzhor_sheet_remove(room.bytes, room.n, size, index));
    return 1;
}

int sheet_remmod(struct words *w)
{
    size_t size;
    uint8_t module;
    take_lent(w, &room);
    size = (size_t)take_number(w, UINT64_MAX);
    module = (uint8_t)take_number(w, 255);
    if (!all_taken(w))
        return 0;
    say_size(kamzhor_sheet_remove_module(room.bytes, room.n, size, module));
    return 1;
}

int sheet_add(struct words *w)
{
    struct kamzhor_setting setting;
    struct word text;
    size_t size, n;
    take_lent(w, &room);
    size = (size_t)take_number(w, UINT64_MAX);
    text = take_word(w);
    if (!all_taken(w))
        return 0;
    setting = take_setting(w, text, first.before, &n);
    if (!w->good)
        return 0;
    lay(&first, n);
    say_size(kamzhor_sheet_add(room.bytes, room.n, size, setting, first.bytes, first.n));
    return 1;
}

/* ---- the receiver and the tally */

static uint64_t lines[4]; /* of each kind, since the receiver was made */

static void say_line(const struct kamzhor_step *step)
{
    const struct kamzhor_frame *frame = &step->frame;
    say_field("at ", step->place);
    if (step->line == KAMZHOR_LINE_OK) {
        say_field(" ok ", frame->destination);
        say_field(" ", frame->source);
        say_field(" ", frame->type);
        say_field(" ", frame->reg);
        say_field(" ", frame->size);
    } else if (step->line == KAMZHOR_LINE_REFUSED) {
        say_field(" refused ", frame->refusal);
        if (frame->refusal == KAMZHOR_BAD_SUBSTITUTION)
            say_field(" in ", frame->place);
    } else {
        say(" dropped");
    }
}

/* one step, on what is left of the chunk behind so many bytes */
static struct kamzhor_step step_from(struct kamzhor_receiver *from, struct kamzhor_tally *lent, size_t taken)
{
    static uint8_t data[KAMZHOR_MOST_DATA], frame[KAMZHOR_MOST_KEPT];
    struct kamzhor_tally was = *lent;
    struct kamzhor_receiver old = *from;
    struct kamzhor_step step;
    struct kamzhor_frame read;
    size_t size;
    int number = kamzhor_receive(from, lent, taken ? first.bytes + taken : first.bytes, first.n - taken, frame, &size, &step);
    number_is(number, step.refusal);
    read = kamzhor_read_frame(frame, size, data, sizeof data);
    if (step.line == KAMZHOR_LINE_OK ? memcmp(&read, &step.frame, sizeof read) != 0 : size != 0)
        fail("the frame is not that of the line");
    if (step.refusal && (step.line || step.taken || step.place || !same_receiver(from, &old) || !same_tally(lent, &was)))
        fail("a step that was refused was done, or says more than its number");
    return step;
}

/* The chunk by steps, until one takes nothing; answers how many bytes, and the number of the last step. */
static size_t take_chunk(struct kamzhor_receiver *from, struct kamzhor_tally *lent, uint32_t *refusal, int telling)
{
    size_t taken = 0, told = 0;
    struct kamzhor_step step;
    do {
        step = step_from(from, lent, taken);
        taken += (size_t)step.taken;
        if (telling && step.line) {
            say(told++ ? ";" : "");
            say_line(&step);
            lines[step.line]++;
        }
    } while (step.taken);
    *refusal = step.refusal;
    return taken;
}

/* taken twice from the same receiver: first on copies, since the answer begins with how it ends */
int rx_feed(struct words *w)
{
    struct kamzhor_receiver copy = *receiver;
    struct kamzhor_tally counted = *tally;
    uint32_t refusal, again;
    size_t taken;
    take_lent(w, &first);
    if (!all_taken(w))
        return 0;
    taken = take_chunk(&copy, &counted, &refusal, 0);
    if (refusal) {
        say_refusal(refusal, 1);
        say_field(" taken=", taken);
        say(" lines=");
    } else {
        say("ok lines=");
    }
    if (take_chunk(receiver, tally, &again, 1) != taken || again != refusal)
        fail("the same chunk was taken otherwise");
    if (!same_receiver(&copy, receiver) || !same_tally(&counted, tally))
        fail("the same chunk leaves another receiver or tally");
    if (taken) {
        before.receiver = *receiver;
        before.tally = *tally;
    }
    return 1;
}

int rx_new(struct words *w)
{
    uint64_t place = take_number(w, UINT64_MAX);
    if (!all_taken(w))
        return 0;
    *receiver = kamzhor_receiver(place);
    memset(lines, 0, sizeof lines);
    say("ok");
    return 1;
}

int rx_end(struct words *w)
{
    if (!all_taken(w))
        return 0;
    say("ok text=");
    if (receiver->size) {
        say_field("at ", receiver->start);
        say(" open\\n");
    }
    say_field("ok ", lines[KAMZHOR_LINE_OK]);
    say_field(" refused ", lines[KAMZHOR_LINE_REFUSED]);
    say_field(" dropped ", lines[KAMZHOR_LINE_DROPPED]);
    say("\\n");
    return 1;
}

int tally_set(struct words *w)
{
    struct kamzhor_tally set = {0, 0, 0};
    set.read = (uint32_t)take_number(w, MOST_32);
    set.refused = (uint32_t)take_number(w, MOST_32);
    set.dropped = (uint32_t)take_number(w, MOST_32);
    if (!all_taken(w))
        return 0;
    *tally = set;
    say("ok");
    return 1;
}

int tally_get(struct words *w)
{
    if (!all_taken(w))
        return 0;
    say_field("ok read=", tally->read);
    say_field(" refused=", tally->refused);
    say_field(" dropped=", tally->dropped);
    return 1;
}
