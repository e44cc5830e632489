/* The language of call scripts: a line's words, taken one after the other, and the answer line, put together piece by piece. */
#ifndef WORDS_H
#define WORDS_H

#include <stddef.h>
#include <stdint.h>

#define LONGEST_LINE 65536
#define MOST_BYTES (LONGEST_LINE / 2) /* no word of a line names more */

/* a string of bytes that something parts into words; good until a word is missing or does not parse */
struct words {
    const uint8_t *line;
    size_t length, at; /* where the next word begins; past the length behind the last one */
    uint8_t between;
    int good;
};

struct word {
    const uint8_t *from;
    size_t length;
};

struct words words_of(const uint8_t *line, size_t length, char between);

/* whether all went well and no word is left */
int all_taken(const struct words *words);

struct word take_word(struct words *words);
int is_word(struct word word, const char *text);

/* a number up to the most; one with a sign, from -2^63 to 2^64-1; bytes in hex, `-` for none, and how many */
uint64_t take_number(struct words *words, uint64_t most);
uint64_t take_signed(struct words *words, uint32_t *negative);
size_t take_bytes(struct words *words, uint8_t *into);

/* the answer: begun anew, added to, looked at, and written with a newline */
void say_anew(void);
void say(const char *text);
void say_number(uint64_t n);
void say_field(const char *name, uint64_t n);
void say_hex(const uint8_t *bytes, size_t n);
size_t said(void);
int begins_with(const char *text);
void say_out(void);

#endif
