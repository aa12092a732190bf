/* Any devices and any traffic, chosen so that something is often about to happen. */
#ifndef TEST_EDGES_H
#define TEST_EDGES_H

#include "bus/frames.h"
#include "pod.h"

#include <stddef.h>
#include <stdint.h>

/* A device of the part that is tested and of any kind, on the edge of something, perhaps over it. */
struct pod_device edge_device(void);

/* Any sample but those of voltage class 3, seldom a reset. */
uint16_t edge_sample(void);

/* Lays a frame, a wait, or part of one, with a mind to start, suspend and resume operations in the blocks from 13 on;
 * gives its clocks. */
size_t edge_traffic(uint16_t samples[FRAME_MOST_CLOCKS]);

#endif
