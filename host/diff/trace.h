/* The trace in progress, and the departure that ends it and the program. */
#ifndef DIFF_TRACE_H
#define DIFF_TRACE_H

#include "model.h"
#include "pod.h"

#include <stdbool.h>
#include <stdint.h>

enum {
    MAX_SAMPLES = POD_STREAM_BYTES / 2,
    SPARE = 64,    /* bytes behind each buffer, to see writes past its end and to lend lengths that are too long */
    FILLER = 0xA5, /* what stands in a buffer before a call */
    LAST_SAMPLES = 32,
    FAVOURITES = 3
};

struct trace {
    uint64_t seed;
    bool after_all;           /* it comes after all that have seeds */
    uint32_t part;            /* at its power-up */
    uint32_t straps;          /* the same */
    struct model_times times; /* the same */
    uint32_t length;          /* clocks that it is to have */
    uint32_t done;            /* clocks of it that are done */
    uint64_t all_done;        /* clocks of all traces that are done */
    uint16_t dirty;           /* bit b: block b may have been changed */

    /* How it behaves. */
    bool runnable;                   /* it has nothing but samples, so that run can follow it */
    uint16_t pins;                   /* an idle sample with its pins as they are; RP and INIT stay high */
    uint32_t nervous;                /* pins change on one in so many samples, 0 for never */
    uint32_t patience;               /* longest wait in idle samples */
    uint32_t settle_clocks;          /* clocks that its settles may still take at once */
    uint32_t favourites[FAVOURITES]; /* blocks that it is about */

    /* What has happened. */
    uint16_t last[LAST_SAMPLES];              /* the last samples, that of clock c at c % LAST_SAMPLES */
    uint8_t stream[POD_STREAM_BYTES + SPARE]; /* where it is runnable, all of them */
    uint8_t answers[MAX_SAMPLES];             /* and what the model answered */
    const struct pod_device *tried;           /* a device of wild bytes or of one fault that is being tried, or null */
};
extern struct trace trace;

/* Says where the sides part and ends the program. */
_Noreturn void departure(const char *format, ...) __attribute__((format(printf, 1, 2)));

void expect(const char *what, uint32_t expected, uint32_t found);

/* The same for the number of a call, which is counted. */
void expect_number(const char *what, uint32_t expected, uint32_t found);

#endif
