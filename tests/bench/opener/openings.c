/* openings ROUNDS: how long an opening takes on desks that are more or less crowded, in nanoseconds of processor time.
   Built twice by tests/bench/openings, over the desk before marks and over the desk as it is. */
typedef unsigned int uint32;
typedef unsigned char uint8;
uint32 openings(uint8 free, uint32 n);
long clock(void);
int printf(const char *, ...);
int atoi(const char *);

int main(int count, char **words)
{
    static const struct {
        const char *name;
        uint8 free;
    } desks[] = {{"empty", 95}, {"half", 47}, {"nearly", 1}, {"full", 0}};
    uint32 rounds = count > 1 ? (uint32)atoi(words[1]) : 20000;
    unsigned i;
    for (i = 0; i < sizeof desks / sizeof *desks; i++) {
        long from, once, all;
        uint32 told;
        from = clock();
        openings(desks[i].free, 1);
        once = clock() - from;
        from = clock();
        told = openings(desks[i].free, rounds);
        all = clock() - from;
        printf("%s %.1f %u\n", desks[i].name, (double)(all - once) * 1000 / (rounds - 1), told);
    }
    return 0;
}
