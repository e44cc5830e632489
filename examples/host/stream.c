/* Lists a line as it comes: reads standard input in whatever pieces it gives, and prints the line of each frame as soon as
 * it ends, however long the input goes on. The text is that of ./list.
 *
 *     examples/host/build && driver | tools/launch target/host/stream
 *
 * Once `tools/archive` has written the archive, this builds it too:
 *
 *     cc -I include -o stream examples/host/stream.c target/staticlib/libkamzhor.a
 */
#include "kamzhor.h"
#include <stdio.h>
#include <string.h>
#include <unistd.h>

/* what the line came to so far: the tally counts its lines, and the totals what the tally held whenever it was cleared */
struct listing {
    struct kamzhor_receiver receiver;
    struct kamzhor_tally tally;
    unsigned long long ok, refused, dropped;
};

static void clear(struct listing *l)
{
    l->ok += l->tally.read;
    l->refused += l->tally.refused;
    l->dropped += l->tally.dropped;
    memset(&l->tally, 0, sizeof l->tally);
}

static void show(const struct kamzhor_step *step)
{
    const struct kamzhor_frame *t = &step->frame;
    if (step->line == KAMZHOR_NO_LINE)
        return;
    printf("at %llu ", (unsigned long long)step->place);
    switch (step->line) {
    case KAMZHOR_LINE_OK:
        printf("ok %u %u %u %u %llu\n", (unsigned)t->destination, (unsigned)t->source, (unsigned)t->type, (unsigned)t->reg, (unsigned long long)t->size);
        break;
    case KAMZHOR_LINE_REFUSED:
        printf("refused %u", (unsigned)t->refusal);
        if (t->refusal == KAMZHOR_BAD_SUBSTITUTION)
            printf(" in %llu", (unsigned long long)t->place);
        printf("\n");
        break;
    default:
        printf("dropped\n");
    }
}

/* by steps, each on what the one before it left of the chunk; answers the number of a refusal, or 0. A full tally is cleared
 * and the step made again, so that none but 60 is left. */
static uint32_t take(struct listing *l, const uint8_t *chunk, size_t length)
{
    while (length > 0) {
        struct kamzhor_step step = kamzhor_step(l->receiver, &l->tally, chunk, length);
        if (step.refusal == KAMZHOR_TALLY_FULL) {
            clear(l);
            continue;
        }
        if (step.refusal != KAMZHOR_DONE)
            return step.refusal;
        l->receiver = step.receiver;
        chunk += step.taken;
        length -= (size_t)step.taken;
        show(&step);
    }
    return KAMZHOR_DONE;
}

int main(void)
{
    static uint8_t chunk[4000];
    struct listing l = {kamzhor_receiver(0), {0, 0, 0}, 0, 0, 0};
    ssize_t length;
    printf("Interbus capture\n");
    while ((length = read(STDIN_FILENO, chunk, sizeof chunk)) > 0) {
        uint32_t refusal = take(&l, chunk, (size_t)length);
        if (refusal != KAMZHOR_DONE) {
            fprintf(stderr, "the line goes on past the largest place: refused %u\n", (unsigned)refusal);
            return 1;
        }
        fflush(stdout); /* nobody has to wait for the next piece */
    }
    if (length < 0) {
        fprintf(stderr, "the line cannot be read\n");
        return 1;
    }
    if (l.receiver.size > 0)
        printf("at %llu open\n", (unsigned long long)l.receiver.start);
    clear(&l);
    printf("ok %llu refused %llu dropped %llu\n", l.ok, l.refused, l.dropped);
    return fflush(stdout) ? 1 : 0;
}
