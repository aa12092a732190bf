/* A file of text line by line, and the words of a line taken one after the other. */
#ifndef BUS_WORDS_H
#define BUS_WORDS_H

#include <stdbool.h>
#include <stddef.h>
#include <stdint.h>
#include <stdio.h>

enum { WORDS_MOST = 64, WORDS_LINE_MOST = 512 };

/* The line that was read last. wrong: what is not understood in it, "" where all is. Only the first such thing is kept,
 * and from then on no further word is given. */
struct words {
    unsigned line;
    const char *word[WORDS_MOST];
    size_t count;
    size_t next;
    char text[WORDS_LINE_MOST];
    char wrong[256];
};

void words_begin(struct words *words);

/* Goes on to the next line that has words or cannot be read as words; false at the end of the file. A word ends at a
 * blank, and # begins a comment. */
bool words_next(struct words *words, FILE *file);

/* Says what is not understood. */
void words_wrong(struct words *words, const char *form, ...) __attribute__((format(printf, 2, 3)));
bool words_are_wrong(const struct words *words);

/* Whether there is a further word; the word, or ""; and the word for a complaint, or that the line ends. */
bool words_more(const struct words *words);
const char *words_look(const struct words *words);
const char *words_found(const struct words *words);

/* Takes the word if it is this one; takes the word, which has to be this one; wants no further word. */
bool words_take_if(struct words *words, const char *word);
void words_must(struct words *words, const char *word);
void words_end(struct words *words);

/* Takes a number of at most `most`; 0 where it is none. */
uint32_t words_decimal(struct words *words, uint32_t most);
uint32_t words_hex(struct words *words, uint32_t most);

/* Takes bytes in hexadecimal up to "=" or the end of the line, at most so many; gives their count. */
size_t words_bytes(struct words *words, uint8_t *bytes, size_t most);

#endif
