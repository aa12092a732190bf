/* Counted comparisons: all sides of a row are to give the same. */
#ifndef SPEED_SIDES_H
#define SPEED_SIDES_H

#include <stdbool.h>
#include <stdint.h>

struct sides {
    uint32_t passed, failed;
};
extern struct sides sides;

/* Counts one comparison; where the sides differ, says in what and in which row. */
void sides_check(bool same, const char *what, const char *row);

#endif
