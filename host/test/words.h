/* A source file as words: names, numbers, texts and single marks, without comments. */
#ifndef TEST_WORDS_H
#define TEST_WORDS_H

#include <stdbool.h>

enum { WORD_ROOM = 48 };

/* Where a word stands. */
struct word_place {
    const char *file;
    int line;
};

/* Reads a file, in place of the one before, and looks at its first word. Lines of the preprocessor are passed over
 * where it is C. The path is kept. */
void words_read(const char *path, bool is_c);

/* Whether a word is left to be looked at. */
bool words_left(void);

/* Whether the word that is looked at is this one; the same, and passes over it; the same, and must be. */
bool word_is(const char *text);
bool word_take(const char *text);
void word_want(const char *text);

/* Passes over whatever stands there. */
void word_skip(void);

/* Passes over all words up to this one, and over it. */
void words_skip_past(const char *text);

/* Takes a name or a number, which must stand there. */
void word_take_name(char name[WORD_ROOM]);
unsigned long word_take_number(void);

/* The last word taken. */
struct word_place word_last(void);

/* Ends the program with one failure, since something cannot be read at all at the last word taken. */
_Noreturn void words_give_up(const char *what);

#endif
