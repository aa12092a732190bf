/* Settles on all sides. */
#ifndef DIFF_SETTLE_H
#define DIFF_SETTLE_H

#include <stdint.h>

/* A settle with a limit about what it comes to. */
void settle(void);

/* A settle that starts inside a frame, mostly a write that would act on the operation it waits for. */
void settle_in_frame(void);

/* A settle with this sample and limit, where the trace has clocks for it. It comes to `count` or fewer. */
void settle_with(uint16_t sample, uint32_t limit, uint32_t count);

#endif
