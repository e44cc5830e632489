#include "words.h"
#include "shared.h"
#include <stdio.h>
#include <string.h>

/* ---- a line's words */

struct words words_of(const uint8_t *line, size_t length, char between)
{
    struct words words = {NULL, 0, 0, 0, 1};
    words.line = line;
    words.length = length;
    words.between = (uint8_t)between;
    return words;
}

int all_taken(const struct words *words)
{
    return words->good && words->at > words->length;
}

struct word take_word(struct words *words)
{
    struct word word = {NULL, 0};
    size_t to = words->at;
    if (words->at > words->length) {
        words->good = 0;
        return word;
    }
    while (to < words->length && words->line[to] != words->between)
        to++;
    word.from = words->line + words->at;
    word.length = to - words->at;
    words->at = to + 1;
    return word;
}

int is_word(struct word word, const char *text)
{
    size_t i;
    for (i = 0; i < word.length; i++)
        if (text[i] == 0 || word.from[i] != (uint8_t)text[i])
            return 0;
    return text[i] == 0;
}

static uint64_t digits(struct words *words, struct word word, uint64_t most)
{
    uint64_t value = 0, digit;
    size_t i;
    if (word.length == 0)
        words->good = 0;
    for (i = 0; i < word.length; i++) {
        digit = (uint64_t)word.from[i] - '0';
        if (digit > 9 || digit > most || value > (most - digit) / 10) {
            words->good = 0;
            return 0;
        }
        value = 10 * value + digit;
    }
    return value;
}

uint64_t take_number(struct words *words, uint64_t most)
{
    return digits(words, take_word(words), most);
}

uint64_t take_signed(struct words *words, uint32_t *negative)
{
    struct word word = take_word(words);
    *negative = word.length > 0 && word.from[0] == '-';
    if (*negative == 0)
        return digits(words, word, UINT64_MAX);
    word.from++;
    word.length--;
    return digits(words, word, (uint64_t)1 << 63);
}

static int nibble(uint8_t c)
{
    if (c >= '0' && c <= '9')
        return c - '0';
    return c >= 'a' && c <= 'f' ? c - 'a' + 10 : -1;
}

size_t take_bytes(struct words *words, uint8_t *into)
{
    struct word word = take_word(words);
    size_t i;
    if (is_word(word, "-"))
        return 0;
    if (word.length == 0 || word.length % 2 == 1)
        words->good = 0;
    for (i = 0; i + 1 < word.length; i += 2) {
        int high = nibble(word.from[i]), low = nibble(word.from[i + 1]);
        if (high < 0 || low < 0) {
            words->good = 0;
            return 0;
        }
        into[i / 2] = (uint8_t)(16 * high + low);
    }
    return word.length / 2;
}

/* ---- the answer */

/* That of rx.feed is the longest: at most 32 bytes, an `at P dropped;`, for each two characters of its line. */
static char answer[16 * LONGEST_LINE + 64];
static size_t length;

void say_anew(void)
{
    length = 0;
}

static void say_byte(char byte)
{
    if (length == sizeof answer)
        fail("an answer is too long");
    answer[length++] = byte;
}

void say(const char *text)
{
    while (*text)
        say_byte(*text++);
}

void say_number(uint64_t n)
{
    if (n > 9)
        say_number(n / 10);
    say_byte((char)('0' + n % 10));
}

void say_field(const char *name, uint64_t n)
{
    say(name);
    say_number(n);
}

void say_hex(const uint8_t *bytes, size_t n)
{
    static const char hex[] = "0123456789abcdef";
    size_t i;
    if (n == 0)
        say("-");
    for (i = 0; i < n; i++) {
        say_byte(hex[bytes[i] / 16]);
        say_byte(hex[bytes[i] % 16]);
    }
}

size_t said(void)
{
    return length;
}

int begins_with(const char *text)
{
    size_t i;
    for (i = 0; text[i]; i++)
        if (i == length || answer[i] != text[i])
            return 0;
    return 1;
}

void say_out(void)
{
    say_byte('\n');
    if (fwrite(answer, 1, length, stdout) != length)
        fail("an answer could not be written");
}
