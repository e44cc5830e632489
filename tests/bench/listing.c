/* The night listing of a capture of any length in plain C with stdio, for the comparison of whole programs. */
#include "straight.h"
#include <stdio.h>

#define LONGEST 494

static uint8_t piece[65536], frame[LONGEST], room[240];

int main(void)
{
    unsigned long long place = 0, at = 0, ok = 0, refused = 0, dropped = 0;
    size_t n, i, kept = 0; /* of the open frame; one over LONGEST where it ran away, 0 where none is open */
    printf("Interbus capture\n");
    while ((n = fread(piece, 1, sizeof piece, stdin)) > 0)
        for (i = 0; i < n; i++, place++) {
            if (piece[i] == 13) {
                if (kept) {
                    printf("at %llu dropped\n", at);
                    dropped++;
                }
                at = place;
                frame[0] = 13;
                kept = 1;
            } else if (kept) {
                if (kept < LONGEST)
                    frame[kept++] = piece[i];
                else
                    kept = LONGEST + 1;
                if (piece[i] == 10) {
                    struct straight_frame t = { 5, 0, 0, 0, 0, 0, 0 };
                    if (kept <= LONGEST)
                        t = straight_read_frame(frame, kept, room, sizeof room);
                    if (t.refusal) {
                        if (t.refusal == 3)
                            printf("at %llu refused 3 in %llu\n", at, (unsigned long long)t.place);
                        else
                            printf("at %llu refused %u\n", at, t.refusal);
                        refused++;
                    } else {
                        printf("at %llu ok %u %u %u %u %llu\n", at, t.destination, t.source, t.type, t.reg, (unsigned long long)t.size);
                        ok++;
                    }
                    kept = 0;
                }
            }
        }
    if (kept)
        printf("at %llu open\n", at);
    printf("ok %llu refused %llu dropped %llu\n", ok, refused, dropped);
    return 0;
}
