/* Time: rounds of work, the best of which counts. Nanoseconds. */
#ifndef SPEED_TIMING_H
#define SPEED_TIMING_H

#include <stdint.h>

enum {
    ROUNDS = 30,
    ROUND_NS = 3000000,  /* the least that a round takes */
    SIDE_NS = 2000000000 /* a side that has taken this long has no further round */
};

/* Processor time of this program, which other programs on the machine do not lengthen by their own. */
uint64_t time_now(void);

/* The best round of a side, and what its rounds took together. */
struct measure {
    double best, spent;
};

/* Notes a round in which the work was done so many times. */
void measure_note(struct measure *measure, double spent, uint64_t times);

#endif
