/* The ways to take a stream: the library's and the model's, as a run and step by step. */
#ifndef SPEED_WAYS_H
#define SPEED_WAYS_H

#include "pod.h"
#include "speed/streams.h"

#include <stdint.h>

enum way { MODEL_RUN, POD_RUN, MODEL_STEP, POD_STEP, POD_CLOCK, WAYS };

const char *way_name(enum way way);

/* The image that every side is lent in turn. */
extern uint8_t *lent_image;
void ways_new(void);
void ways_free(void);

/* Takes a stream one way, with the buffers lent. */
struct pod_report way_take(enum way way, const struct stream *stream);

/* Puts the blocks that a stream changed back as they were. */
void way_restore(uint16_t blocks);

/* Compares every way of every stream with the model's run, and notes the blocks that a stream changes. */
void ways_check(const struct row *row);

#endif
