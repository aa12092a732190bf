/* Counting comparisons. */
#include "speed/sides.h"

#include <stdio.h>

struct sides sides;

void sides_check(bool same, const char *what, const char *row)
{
    if (same) {
        sides.passed++;
        return;
    }
    sides.failed++;
    printf("speed: %s: expected the same from both sides, found %s to differ\n", row, what);
}
