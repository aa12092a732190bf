/* One turn: an input handed to bay in a child, which is watched and judged. */
#ifndef FUZZ_CHILD_H
#define FUZZ_CHILD_H

#include "fuzz/kinds.h"

#include <limits.h>

/* What a turn came to. wrong: what is held against it, null where it holds. */
struct verdict {
    int status;
    const char *wrong;
};

/* The private folder of the turns: `told` has what the last child printed. leaks: whether this machine can look for
 * memory that was not given back. */
struct place {
    char folder[PATH_MAX];
    char told[PATH_MAX];
    char turn[PATH_MAX];
    bool leaks;
};

/* Makes the folder and what all turns share, and goes there and back. False after a message. */
bool place_make(struct place *place);
void place_remove(const struct place *place);

/* One turn. With `loud` the child prints where the driver does. */
struct verdict turn(const struct place *place, const struct kind *kind, const struct input *input, bool loud);

#endif
