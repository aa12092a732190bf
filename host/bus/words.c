/* Reading lines and taking their words. */
#include "bus/words.h"

#include <stdarg.h>
#include <string.h>

void words_begin(struct words *words)
{
    memset(words, 0, sizeof *words);
}

void words_wrong(struct words *words, const char *form, ...)
{
    if (words_are_wrong(words)) {
        return;
    }
    va_list rest;
    va_start(rest, form);
    (void)vsnprintf(words->wrong, sizeof words->wrong, form, rest);
    va_end(rest);
}

bool words_are_wrong(const struct words *words)
{
    return words->wrong[0] != '\0';
}

/* Reads a line up to its end or the end of the file; false where nothing is left. */
static bool read_line(struct words *words, FILE *file)
{
    size_t length = 0;
    bool text = true;
    int c = getc(file);
    if (c == EOF) {
        return false;
    }
    for (; c != EOF && c != '\n'; c = getc(file)) {
        text = text && c != '\0';
        if (length < sizeof words->text - 1) {
            words->text[length] = (char)c;
        }
        length++;
    }
    words->text[length < sizeof words->text ? length : 0] = '\0';
    words->count = words->next = 0;
    words->wrong[0] = '\0';
    words->line++;
    if (!text) {
        words_wrong(words, "expected text, found a zero byte");
    } else if (length >= sizeof words->text) {
        words_wrong(words, "expected at most %zu characters in a line, found %zu", sizeof words->text - 1, length);
    }
    return true;
}

static void cut(struct words *words)
{
    static const char blanks[] = " \t\r";
    char *at = words->text;
    words->text[strcspn(words->text, "#")] = '\0';
    for (at += strspn(at, blanks); *at != '\0'; at += strspn(at, blanks)) {
        if (words->count == WORDS_MOST) {
            words_wrong(words, "expected at most %d words in a line, found more", WORDS_MOST);
            return;
        }
        words->word[words->count++] = at;
        at += strcspn(at, blanks);
        if (*at != '\0') {
            *at++ = '\0';
        }
    }
}

bool words_next(struct words *words, FILE *file)
{
    while (read_line(words, file)) {
        if (!words_are_wrong(words)) {
            cut(words);
        }
        if (words_are_wrong(words) || words->count > 0) {
            return true;
        }
    }
    return false;
}

bool words_more(const struct words *words)
{
    return !words_are_wrong(words) && words->next < words->count;
}

const char *words_look(const struct words *words)
{
    return words_more(words) ? words->word[words->next] : "";
}

const char *words_found(const struct words *words)
{
    return words_more(words) ? words_look(words) : "the end of the line";
}

bool words_take_if(struct words *words, const char *word)
{
    if (!words_more(words) || strcmp(words_look(words), word) != 0) {
        return false;
    }
    words->next++;
    return true;
}

void words_must(struct words *words, const char *word)
{
    if (!words_take_if(words, word)) {
        words_wrong(words, "expected %s, found %s", word, words_found(words));
    }
}

void words_end(struct words *words)
{
    if (words_more(words)) {
        words_wrong(words, "expected the end of the line, found %s", words_look(words));
    }
}

static bool number(const char *word, unsigned base, uint32_t most, uint32_t *value)
{
    uint64_t sum = 0;
    for (const char *at = word; *at != '\0'; at++) {
        unsigned digit = 16;
        if (*at >= '0' && *at <= '9') {
            digit = (unsigned)(*at - '0');
        } else if (*at >= 'A' && *at <= 'F') {
            digit = (unsigned)(*at - 'A') + 10;
        } else if (*at >= 'a' && *at <= 'f') {
            digit = (unsigned)(*at - 'a') + 10;
        }
        sum = sum * base + digit;
        if (digit >= base || sum > most) {
            return false;
        }
    }
    *value = (uint32_t)sum;
    return *word != '\0';
}

uint32_t words_decimal(struct words *words, uint32_t most)
{
    uint32_t value = 0;
    if (!number(words_look(words), 10, most, &value)) {
        words_wrong(words, "expected a decimal number of at most %u, found %s", (unsigned)most, words_found(words));
        return 0;
    }
    words->next++;
    return value;
}

uint32_t words_hex(struct words *words, uint32_t most)
{
    uint32_t value = 0;
    if (!number(words_look(words), 16, most, &value)) {
        words_wrong(words, "expected a hexadecimal number of at most %X, found %s", (unsigned)most, words_found(words));
        return 0;
    }
    words->next++;
    return value;
}

size_t words_bytes(struct words *words, uint8_t *bytes, size_t most)
{
    size_t count = 0;
    while (words_more(words) && strcmp(words_look(words), "=") != 0 && count < most) {
        bytes[count++] = (uint8_t)words_hex(words, 0xFF);
    }
    return count;
}
