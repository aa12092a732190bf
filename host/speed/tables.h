/* Tables of streams: how fast each way takes each row. */
#ifndef SPEED_TABLES_H
#define SPEED_TABLES_H

#include "speed/streams.h"
#include "speed/ways.h"

#include <stddef.h>

enum { MOST_ROWS = 20 };

/* Times some ways of all rows and prints million clocks in a second of each, and its ratio to the first; where a row is
 * the one before it once more on LPC, the ratio of the two as well. */
void print_streams(const struct row *rows, size_t row_count, const enum way *these, size_t count);

#endif
