/* Waits that come close to the end of what runs. */
#ifndef DIFF_WAITS_H
#define DIFF_WAITS_H

#include <stdint.h>

/* The number of the sample, from the next one as 1, on which something ends. */
uint32_t distance(void);

/* So many idle clocks, or a settle of that limit where they are many; nothing where neither may be. */
void wait_for(uint32_t clocks);

/* Waits until what follows comes within three clocks of an end: its sample number `offset` is meant to meet it. */
void approach(uint32_t offset);

#endif
