/* Settle beside the clocks that it stands for. */
#ifndef SPEED_WAITS_H
#define SPEED_WAITS_H

#include "bus/frames.h"

/* Clocks of a write frame behind the one on which it acts, with which a wait begins. */
enum { AFTER_ACTING = FRAME_WRITE_CLOCKS - FRAME_CLOCK_ACT };

/* Compares all waits on both parts, but the one that is too long to be stepped whole. */
void waits_check(void);

/* Compares and times all waits and prints what they took; prints nothing where a comparison failed. On FWH alone: the
 * bus is idle, where the parts are the same. */
void print_waits(void);

#endif
