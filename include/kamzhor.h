/* Kamzhor for C: everything that a capture host needs of the Interbus line. Frames and values read and written, the register
 * catalogue, a receiver that finds the frames of a line however its bytes come, the desk that gives each request a host address
 * of its own and books each reply on one ticket, lanes in front of it, a filter box, a scan of the line, settings sheets, and a
 * bench to test against. docs/C.md is the guide: the life of a ticket, which call when, and what each number asks of the host.
 *
 * Link with libkamzhor.a, which `tools/archive` writes to target/staticlib (x86-64 Linux):
 *
 *     cc -I include host.c target/staticlib/libkamzhor.a -o host
 *
 * Every call of the archive is proved to answer as its part of the library does, whatever it is given. The library keeps no
 * state, takes no memory and holds no lock. A desk, a receiver, lanes, a box, a scan and a bench are structs of the caller's. A
 * call named kamzhor_after_.. takes one by value and gives back the one that is next, beside its answer. The form to use is the
 * one below it that takes a pointer, as kamzhor_desk_open(&desk, ..): it calls the other and assigns the state back, so that no
 * old copy is left about. A copy of a desk is a second desk, and two desks give out the same host addresses: that was the accident.
 *
 * Answers are numbers. refusal is 0 (KAMZHOR_DONE) or the specification's number of what can't be done; docs/NUMBERS.md says
 * what to do about each. A refusal changes nothing, no state and no byte of a lent buffer, and every other field of its
 * answer is 0. Where it is otherwise, it is said: the place with 3, the count of addresses, the job with 75, a bench that is not
 * made, and a box with odd numbers, which comes back as the numbers of the same box.
 *
 * Threads: any number of them may call at once, as long as no two share a state, a tally, or a buffer that one of them lends as
 * room. One desk belongs to one thread, or to one lock, together with its lanes, boxes and scan.
 *
 * Stack, with what passes by value: under 1 KiB for the calls on bytes and numbers and for sheets, under 8 KiB for kamzhor_step and a
 * bench, under 32 KiB for the desk and a scan, under 40 KiB for a box, under 192 KiB for lanes. A thread that calls these needs more than the least.
 *
 * Memory: every pointer to bytes comes with its length, in bytes, and one to a list with its entries; one to a tally or a state
 * is to one whole struct. What is lent stays the caller's; the library reads and writes it during the call only, never past its
 * length, and keeps no pointer. A null pointer with length 0 is an empty string of bytes; a tally's or a state's pointer is never
 * null. A pointer to an answer may be null where only the number is asked for.
 *
 * Six things nobody checks, so the caller must see to them:
 *   - lengths are true: that many bytes can be read there, and in a room also be written;
 *   - every length is below 2^63;
 *   - a tally's or a state's pointer is that of a whole struct whose numbers were set, which lives as long as the call;
 *   - a desk comes from kamzhor_desk_fresh and the calls on it: live and withdrawn of a ticket are 0 or 1, and no other number.
 *     Every other struct may hold any numbers;
 *   - no two lent strings of bytes overlap where one of them is a room, nor a chunk and the tally;
 *   - nobody else changes lent bytes, a lent tally or a state during the call, nor reads a lent room or tally.
 * And one that a compiler can check: C cuts a number that is too wide for its parameter, so that module 257 becomes module 1.
 * Compile with -Wconversion.
 *
 *     uint8_t room[KAMZHOR_MOST_DATA];
 *     struct kamzhor_frame t = kamzhor_read_frame(frame, length, room, sizeof room);
 *     if (t.refusal == KAMZHOR_DONE) {
 *         struct kamzhor_value v = kamzhor_read_value(KAMZHOR_U16, room, (size_t)t.size, 0);
 *         if (v.refusal == KAMZHOR_DONE)
 *             printf("register %u is %s%llu\n", (unsigned)t.reg, v.negative ? "-" : "", (unsigned long long)v.magnitude);
 *     }
 *
 * A line that comes in chunks is taken by steps, each on what the one before it left of the chunk. The receiver goes from
 * each answer into the next step, the tally is lent to each and counts its lines where it lies, and no other memory is
 * needed, whatever comes:
 *
 *     struct kamzhor_receiver receiver = kamzhor_receiver(0);
 *     struct kamzhor_tally tally = {0, 0, 0};
 *     unsigned long long ok = 0;
 *     ssize_t length;
 *     while ((length = read(line, chunk, sizeof chunk)) > 0) {
 *         size_t from = 0;
 *         while (from < (size_t)length) {
 *             struct kamzhor_step step = kamzhor_step(receiver, &tally, chunk + from, (size_t)length - from);
 *             if (step.refusal == KAMZHOR_TALLY_FULL) {
 *                 ok += tally.read;
 *                 memset(&tally, 0, sizeof tally);
 *                 continue;
 *             }
 *             if (step.refusal != KAMZHOR_DONE)
 *                 return step.refusal;
 *             receiver = step.receiver;
 *             from += (size_t)step.taken;
 *             if (step.line == KAMZHOR_LINE_OK)
 *                 printf("at %llu from %u\n", (unsigned long long)step.place, (unsigned)step.frame.source);
 *         }
 *     }
 *     if (receiver.size > 0)
 *         printf("at %llu open\n", (unsigned long long)receiver.start);
 *     printf("ok %llu\n", ok + tally.read);
 */
#ifndef KAMZHOR_H
#define KAMZHOR_H

#include <stddef.h>
#include <stdint.h>

#ifdef __cplusplus
extern "C" {
#endif

/* Why a call was refused. All faults of one call are ranked, and the first that applies is the answer: by number, except where a call
 * says otherwise. */
enum {
    KAMZHOR_DONE = 0,
    /* frames: the reader, by number; the writer in the order 5, 8, 9, 6 */
    KAMZHOR_NOT_FRAMED = 1,       /* under 2 bytes, or not from 13 to 10 */
    KAMZHOR_STRAY_END = 2,        /* a 10 or 13 between the ends */
    KAMZHOR_BAD_SUBSTITUTION = 3, /* a 94 that is not followed by 74, 77 or 158 */
    KAMZHOR_SHORT_MESSAGE = 4,    /* under 6 bytes */
    KAMZHOR_LONG_MESSAGE = 5,     /* over 246 bytes, a writer: over 240 data bytes; for a receiver also any frame over 494 */
    KAMZHOR_NO_ROOM = 6,          /* the room is shorter than the data, a writer: than the telegram */
    KAMZHOR_CHECK_FAULT = 7,      /* the remainder of the message is not 0 */
    KAMZHOR_ZERO_ADDRESS = 8,     /* destination or source 0 */
    KAMZHOR_UNKNOWN_TYPE = 9,     /* type over 9 */
    /* the desk */
    KAMZHOR_NO_JOB = 10,           /* job 0 */
    KAMZHOR_NOT_A_MODULE = 11,     /* module not 1 to 160 */
    KAMZHOR_NOT_A_REQUEST = 12,    /* type not 4, 5, 6, 7 or 9 */
    KAMZHOR_WRONG_DATA = 13,       /* over 240 data bytes, or a read with data */
    KAMZHOR_WRONG_WAIT = 14,       /* wait not 1 to 60000 ms */
    KAMZHOR_NONE_FREE = 15,        /* every host address is open or rests */
    KAMZHOR_SHORT_ROOM = 16,       /* the room is shorter than the request telegram */
    KAMZHOR_NO_TICKET = 17,        /* a reply to an address without a ticket */
    KAMZHOR_OTHER_MODULE = 18,     /* a reply from another module than the one asked */
    KAMZHOR_OTHER_KIND = 19,       /* a reply of a kind that does not answer the request */
    KAMZHOR_OTHER_REGISTER = 20,   /* a datagram of another register */
    KAMZHOR_NOT_THEIRS = 21,       /* that job has no ticket on that address */
    KAMZHOR_NOTHING_DUE = 22,      /* no ticket is due */
    KAMZHOR_TICKET_WITHDRAWN = 61, /* a reply to an address whose last ticket was cancelled or expired; ahead of 17 */
    KAMZHOR_FOLDER_HELD = 75,      /* another job has a ticket on that folder; after 14 and ahead of 15 */
    /* the bench */
    KAMZHOR_BENCH_KIND = 30,          /* kind not 1 to 7 */
    KAMZHOR_BENCH_RIGHTS = 31,        /* rights over 7 */
    KAMZHOR_BENCH_ALREADY_THERE = 32, /* the register is there already */
    KAMZHOR_BENCH_FULL = 33,          /* 32 registers held */
    KAMZHOR_BENCH_ADDRESS = 34,       /* own address not 1 to 160 */
    KAMZHOR_OTHER_ADDRESS = 35,       /* a telegram for another address */
    KAMZHOR_BENCH_NO_REQUEST = 36,    /* a telegram that is no request */
    KAMZHOR_BENCH_SHORT_ROOM = 37,    /* the room is shorter than the reply */
    KAMZHOR_NOT_HELD = 38,            /* the register to set is not held */
    /* values and the catalogue */
    KAMZHOR_UNKNOWN_KIND = 40,    /* no kind of value */
    KAMZHOR_WRONG_LENGTH = 41,    /* length 0, or no multiple of the kind's size */
    KAMZHOR_NO_SUCH_ELEMENT = 42, /* the bytes end before that element does */
    KAMZHOR_DOES_NOT_FIT = 43,    /* the value does not fit the kind */
    KAMZHOR_SHORT_BUFFER = 44,    /* the room is shorter than the kind's size */
    KAMZHOR_NO_SUCH_ROW = 50,     /* the catalogue has no such register of such a module */
    /* the filter box */
    KAMZHOR_EDGE_OUT = 59,     /* a request to set an edge is out */
    KAMZHOR_TOO_MUCH = 62,     /* attenuation over 1000 permille */
    KAMZHOR_OUT_OF_ORDER = 63, /* the short-pass edge would not be above the long-pass edge */
    KAMZHOR_NEITHER = 64,      /* neither string has exactly two bytes */
    /* settings sheets */
    KAMZHOR_NO_SUCH_RECORD = 56,    /* the sheet has no such record */
    KAMZHOR_SHEET_NO_ROOM = 57,     /* the room is too short for the value, or for the sheet */
    KAMZHOR_SHORT_SHEET = 65,       /* under 12 bytes */
    KAMZHOR_OTHER_VERSION = 66,     /* version not 1 */
    KAMZHOR_WRONG_HEADER = 67,      /* a header that does not fit */
    KAMZHOR_RECORD_ORDER = 68,      /* a record that is not above the one before */
    KAMZHOR_RECORD_REFUSED = 69,    /* module, kind, count or value length not allowed */
    KAMZHOR_WRONG_PLACES = 70,      /* a record that does not say where its value stands, or bytes missing or left over */
    KAMZHOR_NOTHING_TO_REMOVE = 77, /* no such record, or none of that module */
    KAMZHOR_SETTING_THERE = 78,     /* module and register are in the sheet already */
    KAMZHOR_TOO_MANY = 79,          /* over 128 settings */
    KAMZHOR_SHEET_ROOM = 80,        /* the stated length is over the room, or the room is too short for the longer sheet */
    /* the lanes */
    KAMZHOR_NO_SUCH_REQUEST = 55, /* the job has no waiting request at that place */
    KAMZHOR_NO_LANE_FREE = 71,    /* the job has no lane, and none is empty */
    KAMZHOR_LANE_FULL = 72,       /* four requests of the job wait already */
    KAMZHOR_GRANT_ROOM = 73,      /* a grant's room is under 494 bytes */
    KAMZHOR_NOTHING_WAITING = 74, /* nothing waits in any lane */
    /* the receiver: 76 goes ahead of 60 */
    KAMZHOR_PAST_LARGEST = 60, /* the chunk would carry the place past 2^64 - 1 */
    KAMZHOR_TALLY_FULL = 76    /* the step's line would carry its number of the tally past 4294967295 */
};

/* Types of a message. */
enum {
    KAMZHOR_NACK = 0,
    KAMZHOR_CHECK_ERROR = 1,
    KAMZHOR_BUSY = 2,
    KAMZHOR_ACK = 3,
    KAMZHOR_READ = 4,
    KAMZHOR_WRITE = 5,
    KAMZHOR_SET_BITS = 6,
    KAMZHOR_CLEAR_BITS = 7,
    KAMZHOR_DATAGRAM = 8,
    KAMZHOR_TOGGLE_BITS = 9
};

/* Kinds of a value: lowest byte first, the signed ones in two's complement. */
enum {
    KAMZHOR_U8 = 1,
    KAMZHOR_I8 = 2,
    KAMZHOR_U16 = 3,
    KAMZHOR_I16 = 4,
    KAMZHOR_U32 = 5,
    KAMZHOR_I32 = 6,
    KAMZHOR_U64 = 7
};

/* What became of the frame whose line a step ended. */
enum {
    KAMZHOR_NO_LINE = 0,      /* the step ended none */
    KAMZHOR_LINE_OK = 1,      /* it is a telegram */
    KAMZHOR_LINE_REFUSED = 2, /* a 10 closed it, and it is no telegram */
    KAMZHOR_LINE_DROPPED = 3  /* a second 13 came before a 10, and opened another frame */
};

/* A telegram has at most so many data bytes: a room of this length is never too short. */
#define KAMZHOR_MOST_DATA 240

/* A telegram has at most so many bytes, both ends included: a room of this length is never too short for one, and a receiver
 * keeps no more of a frame. */
#define KAMZHOR_MOST_KEPT 494

/* Host addresses, and how many there are; modules have 1 to 160. */
#define KAMZHOR_FIRST_HOST 161
#define KAMZHOR_LAST_HOST 255
#define KAMZHOR_HOSTS 95

/* Where refusal is not KAMZHOR_DONE, every other field is 0, but for place with KAMZHOR_BAD_SUBSTITUTION. */
struct kamzhor_frame {
    uint32_t refusal;
    uint8_t destination;
    uint8_t source;
    uint8_t type;
    uint8_t reg;
    uint64_t size;  /* how many data bytes there are */
    uint64_t place; /* with refusal 3 the place in the frame of the first faulty 94, its start byte being at 0; else 0 */
};

/* The value is minus magnitude where negative is 1, and magnitude where it is 0. There is no minus 0.
 * Where refusal is not KAMZHOR_DONE, every other field is 0. */
struct kamzhor_value {
    uint32_t refusal;
    uint32_t negative;
    uint64_t magnitude;
};

/* What is kept of the bytes so far: all that a step needs of them. It is the caller's, to copy, to save and to go on with
 * later; a copy goes on as the first would. Every value is answered, but only kamzhor_receiver and kamzhor_step make one
 * that stands for bytes that came. Outside a frame start, size and bytes are 0. Compare two by their fields: two bytes of
 * padding stand at the end. In C++ it is `struct kamzhor_receiver`, as its call has the same name; so with kamzhor_step. */
struct kamzhor_receiver {
    uint64_t place;                   /* of the next byte */
    uint64_t start;                   /* of the open frame: the place of its 13 */
    uint64_t size;                    /* how many of its bytes are kept; KAMZHOR_MOST_KEPT: it is too long, whatever comes */
    uint8_t bytes[KAMZHOR_MOST_KEPT]; /* these bytes, from the 13 on; 0 behind them */
};

/* How many lines of each kind steps have told since it was cleared. Set all three numbers to 0 to begin with, and to clear
 * it at any time between two calls; any other numbers are counted on from. It is the caller's: kamzhor_step is lent its
 * address, changes it there, and keeps nothing of it, so it may lie anywhere, as long as it outlives the call. One tally may
 * serve several receivers, one call after another, but not two threads at once. An open frame is in none of the numbers. */
struct kamzhor_tally {
    uint32_t read;    /* KAMZHOR_LINE_OK */
    uint32_t refused; /* KAMZHOR_LINE_REFUSED */
    uint32_t dropped; /* KAMZHOR_LINE_DROPPED */
};

/* What a step did, and the receiver behind it. Where refusal is not KAMZHOR_DONE, nothing was taken, the receiver is the one
 * that was handed over, every other field is 0, and the tally is as it was. */
struct kamzhor_step {
    uint32_t refusal;
    uint32_t line;              /* what became of the frame whose line the last byte taken ended, or KAMZHOR_NO_LINE */
    uint64_t taken;             /* how many bytes of the chunk: at least one, but of an empty chunk */
    uint64_t place;             /* of that frame's 13; 0 without a line */
    struct kamzhor_frame frame; /* as kamzhor_read_frame tells it; 0 without a line, and where it was dropped */
    struct kamzhor_receiver receiver;
};

/* The remainder of the bytes: their bits as a polynomial, times x^16, divided by x^16 + x^12 + x^5 + 1. 0 of no bytes,
 * and 0 of a whole right message. */
uint16_t kamzhor_remainder(const uint8_t *bytes, size_t length);

/* Reads a frame, from its start byte 13 to its end byte 10, and puts its data into the first bytes of the room. The rest
 * of the room stays; a refusal leaves all of it. Gives 0 to 9. */
struct kamzhor_frame kamzhor_read_frame(const uint8_t *frame, size_t length, uint8_t *room, size_t room_length);

/* Reads the value of that kind at an element of the bytes, counted from 0. Gives 0, 40, 41 or 42. No number is cut:
 * kind 257 is no kind. */
struct kamzhor_value kamzhor_read_value(uint64_t kind, const uint8_t *bytes, size_t length, uint64_t element);

/* A receiver before any byte, the next of which has that place: 0 at the start of a line. */
struct kamzhor_receiver kamzhor_receiver(uint64_t place);

/* Takes the bytes of a chunk up to and including the one that ends the next line, or all of them where none does. A chunk
 * may have any length, 0 too, and however the bytes were cut, the lines are those of all of them joined. A frame over 494
 * bytes is refused 5 when its 10 comes, whatever stands in it; until then it is open like any other.
 *
 * Where the step tells a line, the tally's number of that kind is one more; a step without one leaves the tally, and a frame
 * that is refused is a line like the others. Gives 0, 76 or 60, and after 76 and 60 nothing was done. 76, ahead of 60: this
 * step's own line has no room in its number, which stands at 4294967295. Note the three numbers, clear the tally, and step
 * again with the same receiver and chunk; steps before it on the same chunk stay done. A step without a line is never 76.
 * After 60 the same receiver goes on with a chunk that is shorter.
 *
 * The frame of a line is in the bytes kept before the step, if any were, and then in the chunk's up to the last one taken;
 * or, if none were, in the chunk's from place minus the receiver's place on. Joined, kamzhor_read_frame reads its data. */
struct kamzhor_step kamzhor_step(struct kamzhor_receiver receiver, struct kamzhor_tally *tally, const uint8_t *chunk, size_t length);

/* A step in place: the receiver becomes the one behind it. Where the step's line is a telegram, its frame is put into frame, which has
 * KAMZHOR_MOST_KEPT bytes, and *size is its length: hand it to kamzhor_desk_reply. Else *size is 0. Gives 0, 76 or 60. */
static inline int kamzhor_receive(struct kamzhor_receiver *receiver, struct kamzhor_tally *tally, const uint8_t *chunk, size_t length, uint8_t *frame,
                                  size_t *size, struct kamzhor_step *answer)
{
    struct kamzhor_step step = kamzhor_step(*receiver, tally, chunk, length);
    *size = 0;
    if (step.line == KAMZHOR_LINE_OK) {
        size_t i;
        for (i = 0; i < receiver->size; i++)
            frame[(*size)++] = receiver->bytes[i];
        for (i = *size > 0 ? 0 : (size_t)(step.place - receiver->place); i < step.taken; i++)
            frame[(*size)++] = chunk[i];
    }
    *receiver = step.receiver;
    if (answer)
        *answer = step;
    return (int)step.refusal;
}

/* ---- Writing: frames and values, and what the catalogue says of a register */

/* How long what was written is. Where refusal is not KAMZHOR_DONE, it is 0. */
struct kamzhor_size {
    uint32_t refusal;
    uint64_t size;
};

/* A row of the catalogue. Where the register may not be written, both limits are 0. Where refusal is not KAMZHOR_DONE, every other
 * field is 0. */
struct kamzhor_entry {
    uint32_t refusal;
    uint8_t kind;
    uint8_t writable; /* 1 or 0 */
    uint64_t lowest;
    uint64_t highest;
};

/* Writes the telegram into the first bytes of the room; the rest of the room stays. Gives 0, 5, 8, 9 or 6, in this order. */
struct kamzhor_size kamzhor_write_frame(uint8_t destination, uint8_t source, uint8_t type, uint8_t reg, const uint8_t *data, size_t data_length,
                                        uint8_t *room, size_t room_length);

/* Writes a value of that kind into the first bytes of the room, lowest byte first; the rest of the room stays. The value is minus
 * magnitude where negative is not 0; minus 0 is 0. Gives 0, 40, 43 or 44. No number is cut: kind 257 is no kind. */
uint32_t kamzhor_write_value(uint64_t kind, uint32_t negative, uint64_t magnitude, uint8_t *room, size_t room_length);

/* The catalogue's row for a register of a type of module. Gives 0 or 50. */
struct kamzhor_entry kamzhor_find_register(uint8_t model, uint8_t reg);

/* ---- The desk: each request has a host address of its own, and each reply is booked on one ticket */

/* What is asked for. folder is the number of the job's output folder, 0 for none. */
struct kamzhor_request {
    uint32_t job;
    uint8_t module;
    uint8_t type; /* KAMZHOR_READ, _WRITE, _SET_BITS, _CLEAR_BITS or _TOGGLE_BITS */
    uint8_t reg;
    uint32_t wait; /* in ms: when the ticket may be expired */
    uint32_t folder;
};

/* What the desk keeps of an address. Its own: ask kamzhor_desk_look what stands there. */
struct kamzhor_ticket {
    uint8_t live; /* 0 or 1, as withdrawn */
    struct kamzhor_request asked;
    uint32_t opened;
    uint8_t withdrawn;
    uint32_t closed;
};

/* The desk. Only kamzhor_desk_fresh and the calls that are handed one make it: change none of its numbers. */
struct kamzhor_desk {
    uint8_t turn; /* of the address that is looked at first, less 161 */
    struct kamzhor_ticket tickets[KAMZHOR_HOSTS];
    struct {
        uint64_t low;
        uint64_t high;
    } marks;
};

/* An opening. considered is how many addresses were looked at, and comes with a refusal too: 95 with 15, 0 with 10 to 14 and 75. */
struct kamzhor_opened {
    uint32_t refusal;
    uint8_t address;    /* the host address that was given: with the desk it names the ticket */
    uint8_t considered;
    uint64_t size;      /* how long the request telegram in the room is: send these bytes */
};

/* A reply that was booked: whose ticket it was, and what came. Its data are in the room. It came from the module that the ticket asked, and a
 * datagram is of the register that it asked for. */
struct kamzhor_booked {
    uint32_t refusal;
    uint32_t job;
    uint32_t folder;
    uint8_t address;
    uint8_t type;
    uint64_t size;  /* how many data bytes there are */
    uint64_t place; /* with refusal 3 the place in the frame of the first faulty 94; else 0 */
};

/* A ticket that was cancelled or has expired. */
struct kamzhor_closed {
    uint32_t refusal;
    uint32_t job;
    uint32_t folder;
    uint8_t address;
};

/* The same as an entry of the list of kamzhor_desk_expire_all. */
struct kamzhor_due {
    uint32_t job;
    uint32_t address;
    uint32_t folder;
};

/* What stands on an address. */
enum {
    KAMZHOR_SEEN_NOTHING = 0,
    KAMZHOR_SEEN_OPEN = 1,     /* a ticket waits for its reply */
    KAMZHOR_SEEN_WITHDRAWN = 2 /* the last ticket there was cancelled or expired */
};

/* What is not said is 0. */
struct kamzhor_seen {
    uint32_t state;
    struct kamzhor_request asked; /* of an open ticket */
    uint32_t opened;              /* the clock when it was opened */
    uint32_t closed;              /* the clock when the last one was cancelled or expired */
};

struct kamzhor_desk_opened {
    struct kamzhor_desk desk;
    struct kamzhor_opened answer;
};

struct kamzhor_desk_booked {
    struct kamzhor_desk desk;
    struct kamzhor_booked answer;
};

struct kamzhor_desk_closed {
    struct kamzhor_desk desk;
    struct kamzhor_closed answer;
};

struct kamzhor_desk_swept {
    struct kamzhor_desk desk;
    uint64_t count;
};

/* A desk without a ticket, its turn at 161. */
struct kamzhor_desk kamzhor_desk_fresh(void);

struct kamzhor_desk_opened kamzhor_after_desk_open(struct kamzhor_desk desk, struct kamzhor_request asked, const uint8_t *data, size_t data_length,
                                                   uint32_t clock, uint8_t *room, size_t room_length);
struct kamzhor_desk_booked kamzhor_after_desk_reply(struct kamzhor_desk desk, const uint8_t *frame, size_t length, uint8_t *room, size_t room_length);
struct kamzhor_desk_closed kamzhor_after_desk_cancel(struct kamzhor_desk desk, uint32_t job, uint8_t address, uint32_t clock);
struct kamzhor_desk_closed kamzhor_after_desk_expire(struct kamzhor_desk desk, uint32_t clock);
/* numbers is how many numbers the list has, three for each entry. */
struct kamzhor_desk_swept kamzhor_after_desk_expire_all(struct kamzhor_desk desk, uint32_t clock, uint32_t *list, size_t numbers);
struct kamzhor_seen kamzhor_look_at_desk(struct kamzhor_desk desk, uint8_t address);

/* Opens a ticket: gives it a host address, and writes the request telegram from there into the room. clock is the host's, in ms, and may
 * run over. Gives 0, 10 to 14, 75, 15 or 16, in this order. */
static inline int kamzhor_desk_open(struct kamzhor_desk *desk, struct kamzhor_request asked, const uint8_t *data, size_t data_length, uint32_t clock,
                                    uint8_t *room, size_t room_length, struct kamzhor_opened *answer)
{
    struct kamzhor_desk_opened after = kamzhor_after_desk_open(*desk, asked, data, data_length, clock, room, room_length);
    *desk = after.desk;
    if (answer)
        *answer = after.answer;
    return (int)after.answer.refusal;
}

/* Books a frame that came, on the ticket of its destination and where module, kind and register fit it, and puts its data into the room.
 * A room of KAMZHOR_MOST_DATA bytes is never too short. Gives 0, the frame reader's 1 to 9, 61, or 17 to 20, in this order. */
static inline int kamzhor_desk_reply(struct kamzhor_desk *desk, const uint8_t *frame, size_t length, uint8_t *room, size_t room_length,
                                     struct kamzhor_booked *answer)
{
    struct kamzhor_desk_booked after = kamzhor_after_desk_reply(*desk, frame, length, room, room_length);
    *desk = after.desk;
    if (answer)
        *answer = after.answer;
    return (int)after.answer.refusal;
}

/* Closes that job's ticket on the address, which then rests for 1000 ms. Gives 0 or 21. */
static inline int kamzhor_desk_cancel(struct kamzhor_desk *desk, uint32_t job, uint8_t address, uint32_t clock, struct kamzhor_closed *answer)
{
    struct kamzhor_desk_closed after = kamzhor_after_desk_cancel(*desk, job, address, clock);
    *desk = after.desk;
    if (answer)
        *answer = after.answer;
    return (int)after.answer.refusal;
}

/* Closes one ticket whose age, clock minus opening modulo 2^32, is at least its wait, the one with the lowest address; that address then
 * rests for 1000 ms. Gives 0 or 22. */
static inline int kamzhor_desk_expire(struct kamzhor_desk *desk, uint32_t clock, struct kamzhor_closed *answer)
{
    struct kamzhor_desk_closed after = kamzhor_after_desk_expire(*desk, clock);
    *desk = after.desk;
    if (answer)
        *answer = after.answer;
    return (int)after.answer.refusal;
}

/* The same until nothing is due or the list is full. Gives how many; entries behind them stay. With KAMZHOR_HOSTS entries it is never full. */
static inline size_t kamzhor_desk_expire_all(struct kamzhor_desk *desk, uint32_t clock, struct kamzhor_due *list, size_t entries)
{
    struct kamzhor_desk_swept after = kamzhor_after_desk_expire_all(*desk, clock, (uint32_t *)list, 3 * entries);
    *desk = after.desk;
    return (size_t)after.count;
}

/* An entry of that list as the answer of the single expiry, for a box and a scan that must hear of it. */
static inline struct kamzhor_closed kamzhor_closed_of(struct kamzhor_due due)
{
    struct kamzhor_closed closed = {0, due.job, due.folder, (uint8_t)due.address};
    return closed;
}

/* What stands on an address, any number: under 161 there is nothing. */
static inline struct kamzhor_seen kamzhor_desk_look(const struct kamzhor_desk *desk, uint8_t address)
{
    return kamzhor_look_at_desk(*desk, address);
}

/* ---- Lanes: a fair turn for every job, in front of the desk */

/* A request that waits, with its data. */
struct kamzhor_waiting {
    struct kamzhor_request asked;
    uint8_t size;
    uint8_t bytes[KAMZHOR_MOST_DATA];
};

struct kamzhor_lane {
    uint8_t size; /* how many wait */
    struct kamzhor_waiting waiting[4];
};

struct kamzhor_lanes {
    uint8_t last; /* the lane last served, from 0 */
    struct kamzhor_lane lanes[16];
};

/* Lane and place in it, both from 1. Where refusal is not KAMZHOR_DONE, both are 0. */
struct kamzhor_joined {
    uint32_t refusal;
    uint8_t lane;
    uint8_t place;
};

/* Whose request was opened, and how, as in kamzhor_opened. With 75 job is the one whose request was taken out of its lane, because another
 * job holds its folder: ask for it again, on another folder or later. considered comes with every number of the desk's. */
struct kamzhor_granted {
    uint32_t refusal;
    uint32_t job;
    uint8_t address;
    uint8_t considered;
    uint64_t size;
};

struct kamzhor_lanes_joined {
    struct kamzhor_lanes lanes;
    struct kamzhor_joined answer;
};

struct kamzhor_lanes_granted {
    struct kamzhor_lanes lanes;
    struct kamzhor_desk desk;
    struct kamzhor_granted answer;
};

struct kamzhor_lanes_withdrawn {
    struct kamzhor_lanes lanes;
    uint32_t refusal;
};

/* Empty lanes; the first is served first. */
struct kamzhor_lanes kamzhor_lanes_fresh(void);

struct kamzhor_lanes_joined kamzhor_after_lanes_join(struct kamzhor_lanes lanes, struct kamzhor_request asked, const uint8_t *data, size_t data_length);
struct kamzhor_lanes_granted kamzhor_after_lanes_grant(struct kamzhor_lanes lanes, struct kamzhor_desk desk, uint32_t clock, uint8_t *room, size_t room_length);
struct kamzhor_lanes_withdrawn kamzhor_after_lanes_withdraw(struct kamzhor_lanes lanes, uint32_t job, size_t place);

/* A request joins its job's lane, or the lowest empty one. Its data are copied. Gives 0, 10 to 14, 71 or 72. */
static inline int kamzhor_lanes_join(struct kamzhor_lanes *lanes, struct kamzhor_request asked, const uint8_t *data, size_t data_length,
                                     struct kamzhor_joined *answer)
{
    struct kamzhor_lanes_joined after = kamzhor_after_lanes_join(*lanes, asked, data, data_length);
    *lanes = after.lanes;
    if (answer)
        *answer = after.answer;
    return (int)after.answer.refusal;
}

/* The next lane's oldest request is opened at the desk. Its waiting time starts now. The room has KAMZHOR_MOST_KEPT bytes or more. Gives 0,
 * 73, 74, 15 or 75: with 15 nothing changes, and with 75 the request is taken out and its lane has had its turn. Lanes that no call made
 * may hold requests that the desk refuses with another number. */
static inline int kamzhor_lanes_grant(struct kamzhor_lanes *lanes, struct kamzhor_desk *desk, uint32_t clock, uint8_t *room, size_t room_length,
                                      struct kamzhor_granted *answer)
{
    struct kamzhor_lanes_granted after = kamzhor_after_lanes_grant(*lanes, *desk, clock, room, room_length);
    *lanes = after.lanes;
    *desk = after.desk;
    if (answer)
        *answer = after.answer;
    return (int)after.answer.refusal;
}

/* Takes the job's waiting request at that place, from 1, out of its lane; later ones move up. Gives 0 or 55. */
static inline int kamzhor_lanes_withdraw(struct kamzhor_lanes *lanes, uint32_t job, size_t place)
{
    struct kamzhor_lanes_withdrawn after = kamzhor_after_lanes_withdraw(*lanes, job, place);
    *lanes = after.lanes;
    return (int)after.refusal;
}

/* ---- A filter box: two edges and an attenuation, through the desk */

/* An edge as last acknowledged, in tenths of a nanometre; 0 where it is not known. */
struct kamzhor_edge {
    uint16_t known; /* 1 or 0 */
    uint16_t tenths;
};

/* The request for an edge that is out: 1 the short-pass one, 2 the long-pass one, 0 none; its ticket's address and the value it asks for. */
struct kamzhor_edge_out {
    uint8_t edge;
    uint8_t address;
    uint16_t tenths;
};

/* Any numbers are a box: known counts as 1 where it is not 0, and edge as 0 where it is over 2. So it comes back from the first call on it,
 * a refused one too. */
struct kamzhor_box {
    uint32_t job;
    uint8_t module;
    struct kamzhor_edge short_pass;
    struct kamzhor_edge long_pass;
    struct kamzhor_edge_out out;
};

struct kamzhor_box_asked {
    struct kamzhor_box box;
    struct kamzhor_desk desk;
    struct kamzhor_opened answer;
};

/* Which bytes are to be displayed. */
enum {
    KAMZHOR_DISPLAY_FRESH = 1,
    KAMZHOR_DISPLAY_KEPT = 2
};

/* The box of a job at a module, both edges unknown. */
struct kamzhor_box kamzhor_box_fresh(uint32_t job, uint8_t module);

struct kamzhor_box_asked kamzhor_after_box_set_short(struct kamzhor_box box, struct kamzhor_desk desk, uint16_t tenths, uint32_t wait, uint32_t clock,
                                                     uint8_t *room, size_t room_length);
struct kamzhor_box_asked kamzhor_after_box_set_long(struct kamzhor_box box, struct kamzhor_desk desk, uint16_t tenths, uint32_t wait, uint32_t clock,
                                                    uint8_t *room, size_t room_length);
struct kamzhor_box_asked kamzhor_after_box_attenuate(struct kamzhor_box box, struct kamzhor_desk desk, uint16_t permille, uint32_t wait, uint32_t clock,
                                                     uint8_t *room, size_t room_length);
struct kamzhor_box_asked kamzhor_after_box_read_monitor(struct kamzhor_box box, struct kamzhor_desk desk, uint32_t wait, uint32_t clock, uint8_t *room,
                                                        size_t room_length);
struct kamzhor_box_asked kamzhor_after_box_read_status(struct kamzhor_box box, struct kamzhor_desk desk, uint32_t wait, uint32_t clock, uint8_t *room,
                                                       size_t room_length);
struct kamzhor_box kamzhor_after_box_reply(struct kamzhor_box box, struct kamzhor_booked answer);
struct kamzhor_box kamzhor_after_box_close(struct kamzhor_box box, struct kamzhor_closed answer);

/* Whether a filter is moving, by what was read of the status: 1 or 0. */
uint32_t kamzhor_box_moving(uint16_t status);

/* Which of two strings has exactly two bytes, the fresh one first. Gives KAMZHOR_DISPLAY_FRESH, KAMZHOR_DISPLAY_KEPT or 64. */
uint32_t kamzhor_which_to_display(const uint8_t *fresh, size_t fresh_length, const uint8_t *kept, size_t kept_length);

/* For the five calls below. */
static inline int kamzhor_box_put_back(struct kamzhor_box *box, struct kamzhor_desk *desk, struct kamzhor_box_asked after, struct kamzhor_opened *answer)
{
    *box = after.box;
    *desk = after.desk;
    if (answer)
        *answer = after.answer;
    return (int)after.answer.refusal;
}

/* Asks to set the short-pass edge. Gives 0, 59, 63, or a number of the desk's. */
static inline int kamzhor_box_set_short(struct kamzhor_box *box, struct kamzhor_desk *desk, uint16_t tenths, uint32_t wait, uint32_t clock, uint8_t *room,
                                        size_t room_length, struct kamzhor_opened *answer)
{
    return kamzhor_box_put_back(box, desk, kamzhor_after_box_set_short(*box, *desk, tenths, wait, clock, room, room_length), answer);
}

/* Asks to set the long-pass edge. Gives the same. */
static inline int kamzhor_box_set_long(struct kamzhor_box *box, struct kamzhor_desk *desk, uint16_t tenths, uint32_t wait, uint32_t clock, uint8_t *room,
                                       size_t room_length, struct kamzhor_opened *answer)
{
    return kamzhor_box_put_back(box, desk, kamzhor_after_box_set_long(*box, *desk, tenths, wait, clock, room, room_length), answer);
}

/* Asks to set the attenuation, 0 to 1000 permille. Gives 0, 62, or a number of the desk's. */
static inline int kamzhor_box_attenuate(struct kamzhor_box *box, struct kamzhor_desk *desk, uint16_t permille, uint32_t wait, uint32_t clock, uint8_t *room,
                                        size_t room_length, struct kamzhor_opened *answer)
{
    return kamzhor_box_put_back(box, desk, kamzhor_after_box_attenuate(*box, *desk, permille, wait, clock, room, room_length), answer);
}

/* Asks for the monitor's reading. Gives 0, or a number of the desk's. */
static inline int kamzhor_box_read_monitor(struct kamzhor_box *box, struct kamzhor_desk *desk, uint32_t wait, uint32_t clock, uint8_t *room,
                                           size_t room_length, struct kamzhor_opened *answer)
{
    return kamzhor_box_put_back(box, desk, kamzhor_after_box_read_monitor(*box, *desk, wait, clock, room, room_length), answer);
}

/* Asks for the status, for kamzhor_box_moving. Gives the same. */
static inline int kamzhor_box_read_status(struct kamzhor_box *box, struct kamzhor_desk *desk, uint32_t wait, uint32_t clock, uint8_t *room,
                                          size_t room_length, struct kamzhor_opened *answer)
{
    return kamzhor_box_put_back(box, desk, kamzhor_after_box_read_status(*box, *desk, wait, clock, room, room_length), answer);
}

/* Tells the box what the desk answered to a reply. Tell it every one; it knows its own, and a refused one changes nothing. */
static inline void kamzhor_box_reply(struct kamzhor_box *box, struct kamzhor_booked answer)
{
    *box = kamzhor_after_box_reply(*box, answer);
}

/* Tells the box what the desk answered to a cancel or an expiry; likewise every one, those of kamzhor_desk_expire_all too. */
static inline void kamzhor_box_close(struct kamzhor_box *box, struct kamzhor_closed answer)
{
    *box = kamzhor_after_box_close(*box, answer);
}

/* The two bytes to be displayed, or null where neither string has exactly two. */
static inline const uint8_t *kamzhor_display(const uint8_t *fresh, size_t fresh_length, const uint8_t *kept, size_t kept_length)
{
    uint32_t which = kamzhor_which_to_display(fresh, fresh_length, kept, kept_length);
    return which == KAMZHOR_DISPLAY_FRESH ? fresh : which == KAMZHOR_DISPLAY_KEPT ? kept : NULL;
}

/* ---- A scan: who is on the line, one module after the other, through the desk */

struct kamzhor_scan {
    uint32_t job;
    uint8_t turns;        /* how many turns are over */
    uint8_t out;          /* the host address of the ticket that is out, 0 where none is */
    uint8_t results[160]; /* of the turns that are over, module 1's first; 0 for all others */
};

/* What a step did, where it was not refused. */
enum {
    KAMZHOR_SCAN_ASKED = 1,   /* a ticket was opened: send its telegram */
    KAMZHOR_SCAN_WAITING = 2, /* the last one is still out */
    KAMZHOR_SCAN_DONE = 3     /* all 160 turns are over */
};

/* What was found at a module. */
enum {
    KAMZHOR_FOUND_ABSENT = 0,
    KAMZHOR_FOUND_DATAGRAM = 1, /* it answered */
    KAMZHOR_FOUND_OTHER = 2,    /* it answered nack, check error or busy */
    KAMZHOR_FOUND_NOT_YET = 3   /* its turn is not over */
};

/* With a refusal state is 0, and considered comes as in kamzhor_opened. What is not said is 0. */
struct kamzhor_scanned {
    uint32_t refusal;
    uint8_t state;
    uint8_t address; /* asked or waiting: the host address of the ticket */
    uint8_t module;  /* asked: which one */
    uint8_t considered;
    uint64_t size;   /* asked: how long the telegram in the room is */
};

struct kamzhor_scan_asked {
    struct kamzhor_scan scan;
    struct kamzhor_desk desk;
    struct kamzhor_scanned answer;
};

/* A scan before its first turn. */
struct kamzhor_scan kamzhor_scan_fresh(uint32_t job);

struct kamzhor_scan_asked kamzhor_after_scan_step(struct kamzhor_scan scan, struct kamzhor_desk desk, uint32_t clock, uint8_t *room, size_t room_length);
struct kamzhor_scan kamzhor_after_scan_reply(struct kamzhor_scan scan, struct kamzhor_booked answer);
struct kamzhor_scan kamzhor_after_scan_close(struct kamzhor_scan scan, struct kamzhor_closed answer);
uint32_t kamzhor_look_at_scan(struct kamzhor_scan scan, uint8_t module);

/* Asks the next module, if the last one's turn is over. Gives 0, or a number of the desk's: the turn is tried again at the next step. */
static inline int kamzhor_scan_step(struct kamzhor_scan *scan, struct kamzhor_desk *desk, uint32_t clock, uint8_t *room, size_t room_length,
                                    struct kamzhor_scanned *answer)
{
    struct kamzhor_scan_asked after = kamzhor_after_scan_step(*scan, *desk, clock, room, room_length);
    *scan = after.scan;
    *desk = after.desk;
    if (answer)
        *answer = after.answer;
    return (int)after.answer.refusal;
}

/* Tells the scan what the desk answered, as a box is told. */
static inline void kamzhor_scan_reply(struct kamzhor_scan *scan, struct kamzhor_booked answer)
{
    *scan = kamzhor_after_scan_reply(*scan, answer);
}

static inline void kamzhor_scan_close(struct kamzhor_scan *scan, struct kamzhor_closed answer)
{
    *scan = kamzhor_after_scan_close(*scan, answer);
}

/* What was found at a module: one of KAMZHOR_FOUND_.. Modules 0 and over 160 have no turn, and are not yet for ever. */
static inline uint32_t kamzhor_scan_look(const struct kamzhor_scan *scan, uint8_t module)
{
    return kamzhor_look_at_scan(*scan, module);
}

/* ---- Settings sheets */

/* The longest sheet has so many bytes, and the most records. */
#define KAMZHOR_MOST_SHEET 31756
#define KAMZHOR_MOST_RECORDS 128

/* What a setting is for: a register of a module, and how many elements of which kind it is given. */
struct kamzhor_setting {
    uint8_t module;
    uint8_t reg;
    uint8_t kind;
    uint8_t count;
};

/* How many records a right sheet has. */
struct kamzhor_checked {
    uint32_t refusal;
    uint64_t count;
};

/* What a record says; its value's bytes are in the room. Where refusal is not KAMZHOR_DONE, every other field is 0. */
struct kamzhor_record {
    uint32_t refusal;
    struct kamzhor_setting setting;
    uint64_t size; /* how many bytes the value has */
};

/* Writes a sheet into the first bytes of the room. A row of 8 bytes stands for each setting: module, register, kind, count, and the
 * length of its value as 4 bytes, lowest first. The values stand one after the other. Gives 0, 79, 68, 69 or 57, in this order; 69 also where a
 * row is not whole, or a length or their sum is not what the rows say. */
struct kamzhor_size kamzhor_sheet_write(const uint8_t *rows, size_t rows_length, const uint8_t *values, size_t values_length, uint8_t *room,
                                        size_t room_length);

/* Checks a whole sheet. Gives 0 or 65 to 70. */
struct kamzhor_checked kamzhor_sheet_check(const uint8_t *sheet, size_t length);

/* Reads the record at an index, from 0, and puts its value into the first bytes of the room. Gives 0, 65 to 70, 56 or 57, in this order. */
struct kamzhor_record kamzhor_sheet_read(const uint8_t *sheet, size_t length, size_t index, uint8_t *room, size_t room_length);

/* Changes the sheet in the first size bytes of the room, and tells its new length; bytes behind its new end stay. Remove gives 0, 80, 65 to
 * 70 or 77, add 0, 80, 65 to 70, 69, 78, 79 or 80, in this order. */
struct kamzhor_size kamzhor_sheet_remove(uint8_t *room, size_t room_length, size_t size, size_t index);
struct kamzhor_size kamzhor_sheet_remove_module(uint8_t *room, size_t room_length, size_t size, uint8_t module);
struct kamzhor_size kamzhor_sheet_add(uint8_t *room, size_t room_length, size_t size, struct kamzhor_setting setting, const uint8_t *value,
                                      size_t value_length);

/* ---- A bench: a module to test against */

/* Rights of a register, added up. */
enum {
    KAMZHOR_MAY_READ = 1,
    KAMZHOR_MAY_WRITE = 2,
    KAMZHOR_MAY_CHANGE = 4 /* bit writes */
};

struct kamzhor_held {
    uint8_t number;
    uint8_t kind;
    uint8_t rights;
    uint64_t value;
};

struct kamzhor_bench {
    uint8_t address;
    uint8_t count; /* how many registers are held */
    struct kamzhor_held registers[32];
};

/* How long the reply is; a refusal means silence. */
struct kamzhor_taken {
    uint32_t refusal;
    uint64_t size;
    uint64_t place; /* with refusal 3 the place in the frame of the first faulty 94; else 0 */
};

/* A register, where held is 1; else all is 0. value is its bytes as a number without a sign. */
struct kamzhor_register {
    uint32_t held;
    uint8_t number;
    uint8_t kind;
    uint8_t rights;
    uint64_t value;
};

struct kamzhor_bench_built {
    struct kamzhor_bench bench;
    uint32_t refusal;
};

struct kamzhor_bench_answered {
    struct kamzhor_bench bench;
    struct kamzhor_taken answer;
};

struct kamzhor_bench_built kamzhor_bench_made(uint8_t address);
struct kamzhor_bench_built kamzhor_after_bench_add(struct kamzhor_bench bench, uint8_t number, uint8_t kind, uint8_t rights);
struct kamzhor_bench_built kamzhor_after_bench_set(struct kamzhor_bench bench, uint8_t number, uint32_t negative, uint64_t magnitude);
struct kamzhor_bench_answered kamzhor_after_bench_take(struct kamzhor_bench bench, const uint8_t *frame, size_t length, uint8_t *room, size_t room_length);
struct kamzhor_register kamzhor_look_at_bench(struct kamzhor_bench bench, uint8_t number);

/* Makes a bench without registers. Gives 0 or 34; after 34 it has address 0, which no telegram is for. */
static inline int kamzhor_bench_make(struct kamzhor_bench *bench, uint8_t address)
{
    struct kamzhor_bench_built made = kamzhor_bench_made(address);
    *bench = made.bench;
    return (int)made.refusal;
}

/* Adds a register with the value 0. Gives 0 or 30 to 33. */
static inline int kamzhor_bench_add(struct kamzhor_bench *bench, uint8_t number, uint8_t kind, uint8_t rights)
{
    struct kamzhor_bench_built after = kamzhor_after_bench_add(*bench, number, kind, rights);
    *bench = after.bench;
    return (int)after.refusal;
}

/* Sets a register, whatever its rights; the value is told as in kamzhor_write_value. Gives 0, 38 or 43. */
static inline int kamzhor_bench_set(struct kamzhor_bench *bench, uint8_t number, uint32_t negative, uint64_t magnitude)
{
    struct kamzhor_bench_built after = kamzhor_after_bench_set(*bench, number, negative, magnitude);
    *bench = after.bench;
    return (int)after.refusal;
}

/* Hands the bench a frame, and its reply is in the first bytes of the room. Gives 0, 1 to 5, 7 to 9, 35, 36 or 37, in this order: all but 0
 * mean silence. */
static inline int kamzhor_bench_take(struct kamzhor_bench *bench, const uint8_t *frame, size_t length, uint8_t *room, size_t room_length,
                                     struct kamzhor_taken *answer)
{
    struct kamzhor_bench_answered after = kamzhor_after_bench_take(*bench, frame, length, room, room_length);
    *bench = after.bench;
    if (answer)
        *answer = after.answer;
    return (int)after.answer.refusal;
}

/* A register of the bench. */
static inline struct kamzhor_register kamzhor_bench_look(const struct kamzhor_bench *bench, uint8_t number)
{
    return kamzhor_look_at_bench(*bench, number);
}

#ifdef __cplusplus
}
#endif

#endif
