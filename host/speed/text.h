/* The text of tables. */
#ifndef SPEED_TEXT_H
#define SPEED_TEXT_H

#include <stddef.h>
#include <stdint.h>

enum { NAME_WIDTH = 42 }; /* columns of the names at the left of a table */

/* A word to the left in so many columns. */
void print_left(const char *word, int columns);

/* The line below a table's title. */
void print_rule(const int *columns, size_t count);

/* A number with a comma between its thousands. It stands until the next is asked for. */
const char *with_commas(uint64_t number);

/* What stands behind the colon in the first line of a file that begins with a word. */
void print_from(const char *path, const char *word, const char *otherwise);

#endif
