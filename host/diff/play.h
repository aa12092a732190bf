/* Playing traces from power-up to their end. */
#ifndef DIFF_PLAY_H
#define DIFF_PLAY_H

#include <stdint.h>

/* The trace of a seed, which alone decides what happens in it. */
void play_trace(uint64_t seed);

/* An erase at its ordinary time, too long for a trace. */
void play_whole_erase(void);

#endif
