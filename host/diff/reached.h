/* What a clock or a settle reached, seen from the model before and after it, and counted. */
#ifndef DIFF_REACHED_H
#define DIFF_REACHED_H

#include "model.h"

#include <stdint.h>

/* The bytes of the image that a clock may have changed. */
struct changed {
    uint32_t place;
    uint32_t length;
};

struct changed count_clock(const struct model *before, const struct model *after, uint16_t sample);

/* A settle's limit, the number that it gave and the clocks that it took. */
struct settling {
    uint32_t limit;
    uint32_t number;
    uint32_t count;
};

void count_settle(const struct model *before, const struct model *after, const struct settling *settling);

#endif
