/* What the host of a trace does on the bus: pins, idle samples, frames and resets. */
#ifndef DIFF_TRAFFIC_H
#define DIFF_TRAFFIC_H

#include "bus/frames.h"

#include <stdint.h>

/* One of the pins that a trace changes set otherwise, or those set that let operations begin. */
void change_pins(void);
void good_pins(void);

/* The next idle sample, with this on the lines. Pins of a nervous trace may have changed for it. */
uint16_t next_sample(unsigned lines);

void idle(uint32_t clocks);

/* One clock of a frame; the whole frame, with something or nothing left on the lines in its turnarounds. */
void lay_clock(const struct frame *frame, unsigned clock);
void lay_frame(struct frame frame);

/* A frame that is as it should be, all but one in `odd`. */
void send_read(uint32_t address, uint32_t odd);
void send_write(uint32_t address, uint8_t byte, uint32_t odd);

/* Some clocks with RP, INIT or both low. */
void reset_device(void);

/* Samples that have nothing to do with each other. */
void garbage(void);

#endif
