/* Cutting source files into words. */
#include "test/words.h"

#include <ctype.h>
#include <stddef.h>
#include <stdio.h>
#include <stdlib.h>
#include <string.h>

enum { MOST_WORDS = 40000, MOST_BYTES = 1 << 20 };

struct word {
    char text[WORD_ROOM];
    struct word_place place;
};

static struct word words[MOST_WORDS]; /* of the file that was read last */
static size_t count;
static size_t at; /* the word that is looked at */

static _Noreturn void give_up_at(const char *what, struct word_place place)
{
    printf("layout_test: %s:%d: %s\nlayout_test: 0 passed, 1 failed\n", place.file, place.line, what);
    exit(EXIT_FAILURE);
}

static char *whole_file(const char *path)
{
    const struct word_place top = { path, 0 };
    FILE *file = fopen(path, "rb");
    if (file == NULL) {
        give_up_at("expected a file that can be read, found none", top);
    }
    char *text = malloc(MOST_BYTES);
    if (text == NULL) {
        give_up_at("no memory for it", top);
    }
    const size_t length = fread(text, 1, MOST_BYTES - 1, file);
    if (length == MOST_BYTES - 1 || ferror(file) != 0) {
        give_up_at("expected a file of less than a megabyte", top);
    }
    fclose(file);
    text[length] = '\0';
    return text;
}

static bool is_of_name(char letter)
{
    return isalnum((unsigned char)letter) != 0 || letter == '_';
}

/* Where a word that begins here ends. */
static const char *word_end(const char *from)
{
    if (*from == '"') {
        const char *end = strchr(from + 1, '"');
        return end == NULL ? from + strlen(from) : end + 1;
    }
    if (!is_of_name(*from)) {
        return from + 1;
    }
    while (is_of_name(*from)) {
        from++;
    }
    return from;
}

/* Behind the mark, or on it where it is the end of a line. */
static const char *skip_to(const char *from, const char *mark, int *line)
{
    for (; *from != '\0' && strncmp(from, mark, strlen(mark)) != 0; from++) {
        *line += *from == '\n' ? 1 : 0;
    }
    return *from == '\0' || *mark == '\n' ? from : from + strlen(mark);
}

static void add_word(const char *from, const char *end, struct word_place place)
{
    if (count == MOST_WORDS) {
        give_up_at("more words than this test has room for", place);
    }
    struct word *word = &words[count++];
    snprintf(word->text, sizeof word->text, "%.*s", (int)(end - from), from);
    word->place = place;
}

void words_read(const char *path, bool is_c)
{
    char *text = whole_file(path);
    int line = 1;
    count = at = 0;
    for (const char *from = text; *from != '\0';) {
        if (isspace((unsigned char)*from) != 0) {
            line += *from == '\n' ? 1 : 0;
            from++;
        } else if (strncmp(from, "//", 2) == 0 || (is_c && *from == '#')) {
            from = skip_to(from, "\n", &line);
        } else if (strncmp(from, "/*", 2) == 0) {
            from = skip_to(from, "*/", &line);
        } else {
            const char *end = word_end(from);
            add_word(from, end, (struct word_place){ path, line });
            from = end;
        }
    }
    free(text);
}

bool words_left(void)
{
    return at < count;
}

bool word_is(const char *text)
{
    return words_left() && strcmp(words[at].text, text) == 0;
}

bool word_take(const char *text)
{
    const bool is = word_is(text);
    at += is ? 1 : 0;
    return is;
}

/* The word that is looked at, or the last where none is left. */
static const struct word *nearest(void)
{
    return &words[words_left() ? at : count - 1];
}

void word_want(const char *text)
{
    if (!word_take(text)) {
        char what[2 * WORD_ROOM + 32];
        snprintf(what, sizeof what, "expected '%s', found '%s'", text, nearest()->text);
        give_up_at(what, nearest()->place);
    }
}

void word_skip(void)
{
    at++;
}

void words_skip_past(const char *text)
{
    while (words_left() && !word_is(text)) {
        at++;
    }
    word_want(text);
}

void word_take_name(char name[WORD_ROOM])
{
    if (!words_left() || !is_of_name(words[at].text[0])) {
        give_up_at("expected a name or a number", nearest()->place);
    }
    snprintf(name, WORD_ROOM, "%s", words[at].text);
    at++;
}

unsigned long word_take_number(void)
{
    char name[WORD_ROOM];
    char *end = NULL;
    word_take_name(name);
    const unsigned long number = strtoul(name, &end, 0);
    if (*end != '\0') {
        words_give_up("expected a number");
    }
    return number;
}

struct word_place word_last(void)
{
    return words[at - 1].place;
}

void words_give_up(const char *what)
{
    give_up_at(what, word_last());
}
