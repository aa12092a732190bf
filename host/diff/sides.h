/* The three sides under comparison: the model, pod_step and pod_clock. */
#ifndef DIFF_SIDES_H
#define DIFF_SIDES_H

#include "model.h"
#include "pod.h"

#include <stdbool.h>
#include <stdint.h>

extern struct model model;             /* the second opinion */
extern struct pod_device step_device;  /* what pod_step takes and gives by value */
extern struct pod_device clock_device; /* what pod_clock changes in place */
extern bool step_rests;                /* a settle does the part of pod_step in the samples that come */

/* All of them fresh from power-up on the image that a trace begins with; gives the library's number. */
uint32_t sides_power_up(uint32_t part, uint32_t straps, struct model_times times);

/* One sample through the three of them, compared; none where the trace has all its clocks. */
void tick(uint16_t sample);

/* The devices have the model's part, straps, frame, status and marks, and are the same. */
void expect_same_state(void);

/* An image against the model's, byte by byte. */
void expect_image(const char *whose, const uint8_t *image, uint32_t from, uint32_t length);

/* The same for both sides of the library. */
void expect_images(uint32_t from, uint32_t length);

/* The same for the blocks that operations may have changed since the model was so; they count as dirty from now on. */
void expect_blocks(const struct model *before);

#endif
