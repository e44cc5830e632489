/* A night in the lab, without a rig: five jobs ask four rigs through the lanes and the desk, the line back is bad, and every ticket's
 * fate is printed. README.md beside this file says what happens; the comments below name its parts.
 *
 *     examples/lab/build && tools/launch target/lab
 *     cc -I include -o lab examples/lab/lab.c target/staticlib/libkamzhor.a     (with the archive there, as tools/archive writes it)
 *
 * To make a host of it: put your port into port_write and port_read, your clock into play and your jobs into ask. The draws, the
 * benches and the bad line then go away, and the rest stays as it is.
 */
#include "kamzhor.h"
#include <stdio.h>
#include <stdlib.h>
#include <string.h>

#define FIRST_CLOCK 4294965000u /* in ms; it runs over during the night, and nobody has to care */
#define ROUNDS 600
#define ASKING_ROUNDS 500
#define CANCELLED_JOB 101
#define RIGS 4
#define LATE_BY 40          /* rounds */
#define SLOTS (LATE_BY + 1) /* this round, and as many as a reply may be on its way */

/* the registers of every rig */
enum { REG_BITS = 48, REG_LEVEL = 55, REG_READING = 102 };
/* what the line does to a reply, by a draw below FATES; with the others it leaves it alone */
enum { LOST = 0, DAMAGED = 1, LATE = 2, CROSSED = 3, FATES = 12 };

struct job {
    uint32_t number;
    uint8_t module;
    uint32_t folder;
};

/* What comes in one round: at most six replies, one from each of the five rounds before and a late one, and the night's last byte. */
struct arrival {
    size_t size;
    size_t read; /* how many of the bytes the host has read */
    uint8_t bytes[6 * KAMZHOR_MOST_KEPT + 1];
};

struct night {
    uint32_t chance;
    unsigned round;
    unsigned elapsed; /* since round 0, in ms: what every line begins with */
    uint32_t clock;   /* what the desk is told */
    struct kamzhor_lanes lanes;
    struct kamzhor_desk desk;
    struct kamzhor_receiver receiver;
    struct kamzhor_tally tally;
    unsigned last_on[KAMZHOR_HOSTS]; /* which ticket was opened last on each host address */
    unsigned tickets, booked, cancelled, expired;
    /* what stands in for the lab's port: the rigs, and the line from them back to the host */
    struct kamzhor_bench rigs[RIGS];
    struct arrival arrivals[SLOTS]; /* round r's is at r modulo SLOTS */
};

/* For what cannot be refused as it is called here: a refusal would be this program's own fault, and stops it. */
static void must(int refusal, const char *what)
{
    if (refusal == KAMZHOR_DONE)
        return;
    fprintf(stderr, "lab: %s: refused %d\n", what, refusal);
    exit(2);
}

/* Draws */
static uint32_t draw(struct night *n, uint32_t below)
{
    n->chance = n->chance * 1664525u + 1013904223u;
    return (n->chance >> 16) % below;
}

/* How every line about a ticket begins. The desk names a ticket by its address, and the night by its number. */
static void tell(const struct night *n, uint32_t address, uint32_t job)
{
    printf("%u ticket %u job %u ", n->elapsed, n->last_on[address - KAMZHOR_FIRST_HOST], (unsigned)job);
}

/* ---- The port, or here what stands in for it: the rigs, and the bad line */

/* The rigs */
static void set_up_rig(struct kamzhor_bench *rig, uint8_t module)
{
    must(kamzhor_bench_make(rig, module), "making a rig");
    must(kamzhor_bench_add(rig, REG_BITS, KAMZHOR_U8, KAMZHOR_MAY_READ | KAMZHOR_MAY_WRITE | KAMZHOR_MAY_CHANGE), "adding the bits");
    must(kamzhor_bench_add(rig, REG_LEVEL, KAMZHOR_U16, KAMZHOR_MAY_READ | KAMZHOR_MAY_WRITE), "adding the level");
    must(kamzhor_bench_add(rig, REG_READING, KAMZHOR_U16, KAMZHOR_MAY_READ), "adding the reading");
    must(kamzhor_bench_set(rig, REG_LEVEL, 0, 1000), "setting the level");
    must(kamzhor_bench_set(rig, REG_READING, 0, 256u * module), "setting the reading");
}

/* Granting, a crossed reply: the same message to the next host address, as a telegram of its own. Gives its length. */
static size_t cross(uint8_t reply[KAMZHOR_MOST_KEPT], size_t size)
{
    uint8_t data[KAMZHOR_MOST_DATA];
    struct kamzhor_frame t = kamzhor_read_frame(reply, size, data, sizeof data);
    uint8_t next = t.destination == KAMZHOR_LAST_HOST ? KAMZHOR_FIRST_HOST : (uint8_t)(t.destination + 1);
    struct kamzhor_size written;
    must((int)t.refusal, "reading a reply");
    written = kamzhor_write_frame(next, t.source, t.type, t.reg, data, (size_t)t.size, reply, KAMZHOR_MOST_KEPT);
    must((int)written.refusal, "writing a crossed reply");
    return (size_t)written.size;
}

/* Puts bytes on the line that come so many rounds from now, behind those that come in the same round already. As replies are sent in
 * the order of their tickets, they come in it. */
static void put_on_line(struct night *n, uint32_t rounds, const uint8_t *bytes, size_t size)
{
    struct arrival *arrival = &n->arrivals[(n->round + rounds) % SLOTS];
    memcpy(arrival->bytes + arrival->size, bytes, size);
    arrival->size += size;
}

/* Granting, what the line does to the reply, and when it comes. */
static void send_back(struct night *n, uint8_t reply[KAMZHOR_MOST_KEPT], size_t size)
{
    uint32_t fate = draw(n, FATES), rounds = LATE_BY;
    if (fate == LOST)
        return;
    if (fate == DAMAGED) {
        uint32_t place = draw(n, (uint32_t)size);
        reply[place] ^= (uint8_t)(1u << draw(n, 8));
    }
    if (fate == CROSSED)
        size = cross(reply, size);
    if (fate != LATE)
        rounds = 1 + draw(n, 5);
    put_on_line(n, rounds, reply, size);
}

/* Sends a request telegram. YOUR PORT: write these bytes to it, as write(port, telegram, length), and no more. Here the four rigs take
 * it in order. All but the one that is asked refuse it with 35: they are silent, and leave the buffer as it was. */
static void port_write(struct night *n, const uint8_t *telegram, size_t length)
{
    uint8_t reply[KAMZHOR_MOST_KEPT];
    struct kamzhor_taken taken;
    size_t size = 0, i;
    for (i = 0; i < RIGS; i++)
        if (kamzhor_bench_take(&n->rigs[i], telegram, length, reply, sizeof reply, &taken) == KAMZHOR_DONE)
            size = (size_t)taken.size;
    if (size > 0)
        send_back(n, reply, size);
}

/* Gives the next bytes that came, at most so many, and how many they are: 0 where there are none for now. YOUR PORT: read it here
 * without waiting, as read(port, piece, most). A piece may begin and end anywhere. */
static size_t port_read(struct night *n, uint8_t *piece, uint32_t most)
{
    struct arrival *arrival = &n->arrivals[n->round % SLOTS];
    size_t left = arrival->size - arrival->read, size;
    if (left == 0) {
        arrival->size = arrival->read = 0; /* free for round r + SLOTS */
        return 0;
    }
    size = 1 + draw(n, most);
    if (size > left)
        size = left;
    memcpy(piece, arrival->bytes + arrival->read, size);
    arrival->read += size;
    return size;
}

/* ---- 1. Asking */

static void ask(struct night *n, const struct job *job)
{
    struct kamzhor_request asked = {job->number, job->module, KAMZHOR_READ, REG_READING, 0, job->folder};
    uint8_t data[2] = {0, 0};
    size_t size = 0;
    uint32_t what = draw(n, 3);
    int refusal;
    if (what == 1) {
        asked.type = KAMZHOR_WRITE;
        asked.reg = REG_LEVEL;
        size = 2;
        must((int)kamzhor_write_value(KAMZHOR_U16, 0, draw(n, 65536), data, size), "writing a level");
    } else if (what == 2) {
        asked.type = KAMZHOR_TOGGLE_BITS;
        asked.reg = REG_BITS;
        size = 1;
        must((int)kamzhor_write_value(KAMZHOR_U8, 0, draw(n, 256), data, size), "writing bits");
    }
    asked.wait = 50 + draw(n, 250);
    refusal = kamzhor_lanes_join(&n->lanes, asked, data, size, NULL);
    if (refusal != KAMZHOR_DONE) /* 72: four requests of the job wait already; it may ask again later */
        printf("%u job %u not joined %d\n", n->elapsed, (unsigned)job->number, refusal);
}

static void asking(struct night *n)
{
    /* The jobs. The last was given the first one's folder: see 75 below. */
    static const struct job jobs[] = {{101, 15, 1}, {102, 16, 2}, {103, 13, 3}, {104, 94, 4}, {105, 16, 1}};
    size_t i;
    for (i = 0; i < sizeof jobs / sizeof jobs[0]; i++)
        if (draw(n, 5) == 0)
            ask(n, &jobs[i]);
}

/* ---- 2. Granting */
static void granting(struct night *n)
{
    uint8_t telegram[KAMZHOR_MOST_KEPT];
    struct kamzhor_granted granted;
    int refusal = kamzhor_lanes_grant(&n->lanes, &n->desk, n->clock, telegram, sizeof telegram, &granted);
    switch (refusal) {
    case KAMZHOR_DONE:
        n->tickets++;
        n->last_on[granted.address - KAMZHOR_FIRST_HOST] = n->tickets;
        tell(n, granted.address, granted.job);
        printf("asks from %u\n", (unsigned)granted.address);
        port_write(n, telegram, (size_t)granted.size);
        break;
    case KAMZHOR_NOTHING_WAITING:
        break;
    case KAMZHOR_FOLDER_HELD: /* another job has a ticket on that folder: the request is gone, and its job may ask again */
        printf("%u job %u taken out %d\n", n->elapsed, (unsigned)granted.job, refusal);
        break;
    default: /* 15: no host address is free; the request waits on in its lane, and a later round grants it */
        printf("%u not granted %d\n", n->elapsed, refusal);
    }
}

/* ---- 3. Listening */

/* Brings a telegram to the desk. Where it is booked, the desk says whose it is, and its data belong in that folder and in no other.
 * Where it is refused it is nobody's, and its data belong nowhere. */
static void book(struct night *n, const uint8_t *frame, size_t length)
{
    uint8_t data[KAMZHOR_MOST_DATA];
    struct kamzhor_booked booked;
    size_t i;
    int refusal = kamzhor_desk_reply(&n->desk, frame, length, data, sizeof data, &booked);
    if (refusal != KAMZHOR_DONE) {
        printf("%u reply refused %d\n", n->elapsed, refusal);
        return;
    }
    n->booked++;
    tell(n, booked.address, booked.job);
    printf("booked type %u data %s", (unsigned)booked.type, booked.size == 0 ? "-" : "");
    for (i = 0; i < booked.size; i++)
        printf("%02x", (unsigned)data[i]);
    printf(" folder %u\n", (unsigned)booked.folder);
}

/* Takes a chunk by steps, each on what the one before it left. No step is refused in one night: 76 comes after 4294967295 lines, and
 * examples/host/stream.c shows what to do then; 60 comes later still. */
static void take(struct night *n, const uint8_t *chunk, size_t length)
{
    uint8_t frame[KAMZHOR_MOST_KEPT];
    while (length > 0) {
        struct kamzhor_step step;
        size_t size;
        must(kamzhor_receive(&n->receiver, &n->tally, chunk, length, frame, &size, &step), "taking a chunk");
        if (size > 0) {
            book(n, frame, size);
        } else if (step.line == KAMZHOR_LINE_REFUSED) {
            printf("%u line refused %u", n->elapsed, (unsigned)step.frame.refusal);
            if (step.frame.refusal == KAMZHOR_BAD_SUBSTITUTION)
                printf(" in %u", (unsigned)step.frame.place);
            printf("\n");
        } else if (step.line == KAMZHOR_LINE_DROPPED) {
            printf("%u line dropped\n", n->elapsed);
        }
        chunk += step.taken;
        length -= (size_t)step.taken;
    }
}

static void listening(struct night *n)
{
    static const uint8_t start = 13;
    uint8_t piece[16];
    size_t size;
    if (n->round == ROUNDS - 1)
        put_on_line(n, 0, &start, 1); /* the start of a frame that the night does not see the end of */
    while ((size = port_read(n, piece, sizeof piece)) > 0)
        take(n, piece, size);
}

/* ---- 4. Cancelling: job 101's open ticket with the lowest address, if there is one */
static void cancelling(struct night *n)
{
    struct kamzhor_closed closed;
    unsigned address;
    for (address = KAMZHOR_FIRST_HOST; address <= KAMZHOR_LAST_HOST; address++) {
        struct kamzhor_seen seen = kamzhor_desk_look(&n->desk, (uint8_t)address);
        if (seen.state == KAMZHOR_SEEN_OPEN && seen.asked.job == CANCELLED_JOB)
            break;
    }
    if (address > KAMZHOR_LAST_HOST)
        return;
    must(kamzhor_desk_cancel(&n->desk, CANCELLED_JOB, (uint8_t)address, n->clock, &closed), "cancelling an open ticket");
    n->cancelled++;
    tell(n, closed.address, closed.job);
    printf("cancelled folder %u\n", (unsigned)closed.folder);
}

/* ---- 5. Expiring */
static void expiring(struct night *n)
{
    struct kamzhor_due list[KAMZHOR_HOSTS]; /* never too short */
    size_t count = kamzhor_desk_expire_all(&n->desk, n->clock, list, KAMZHOR_HOSTS), i;
    n->expired += (unsigned)count;
    for (i = 0; i < count; i++) {
        tell(n, list[i].address, list[i].job);
        printf("expired folder %u\n", (unsigned)list[i].folder);
    }
}

/* ---- The night, round by round, and its end */

static void play(struct night *n)
{
    n->elapsed = 10 * n->round;
    n->clock = FIRST_CLOCK + n->elapsed; /* YOUR CLOCK: milliseconds from anywhere on */
    if (n->round < ASKING_ROUNDS)
        asking(n);
    granting(n);
    listening(n);
    if (n->round % 50 == 49)
        cancelling(n);
    expiring(n);
}

static void finish(const struct night *n)
{
    unsigned open = 0, address, i;
    for (address = KAMZHOR_FIRST_HOST; address <= KAMZHOR_LAST_HOST; address++)
        open += kamzhor_desk_look(&n->desk, (uint8_t)address).state == KAMZHOR_SEEN_OPEN;
    printf("tickets %u booked %u cancelled %u expired %u open %u\n", n->tickets, n->booked, n->cancelled, n->expired, open);
    for (i = 0; i < RIGS; i++) {
        struct kamzhor_register bits = kamzhor_bench_look(&n->rigs[i], REG_BITS), level = kamzhor_bench_look(&n->rigs[i], REG_LEVEL);
        printf("rig %u 48=%u 55=%u\n", (unsigned)n->rigs[i].address, (unsigned)bits.value, (unsigned)level.value);
    }
    if (n->receiver.size > 0)
        printf("open at %llu\n", (unsigned long long)n->receiver.start);
    printf("line ok %u refused %u dropped %u\n", (unsigned)n->tally.read, (unsigned)n->tally.refused, (unsigned)n->tally.dropped);
}

int main(void)
{
    static const uint8_t modules[RIGS] = {15, 16, 13, 94}; /* the last two are substituted in every telegram */
    static struct night night;                             /* all 0; 140 KB, nearly all of it arrivals */
    size_t i;
    night.chance = 20261126;
    night.lanes = kamzhor_lanes_fresh();
    night.desk = kamzhor_desk_fresh();
    night.receiver = kamzhor_receiver(0);
    for (i = 0; i < RIGS; i++)
        set_up_rig(&night.rigs[i], modules[i]);
    for (; night.round < ROUNDS; night.round++)
        play(&night);
    finish(&night);
    return fflush(stdout) || ferror(stdout) ? 1 : 0;
}
