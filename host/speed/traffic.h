/* Streams laid frame by frame as a host would, beside a part that it watches. */
#ifndef SPEED_TRAFFIC_H
#define SPEED_TRAFFIC_H

#include "model.h"
#include "pod.h"
#include "speed/streams.h"

#include <stdint.h>

/* The part that the host sees at the other end of the stream being laid. */
struct far_end {
    struct model model;
    uint8_t *image;
};
extern struct far_end far_end;

/* A new stream, from power-up of a part with straps 0 on the base image. */
void traffic_begin(uint32_t part, struct pod_times times);

void traffic_unlock(uint32_t block);
void traffic_begin_program(uint32_t place, uint8_t byte);
void traffic_begin_erase(uint32_t block);
void traffic_suspend(void);

/* What was laid since. */
struct stream traffic_end(void);

/* The kinds of traffic that are measured, a row of one stream each, and behind each that has frames the same on
 * LPC. */
enum { TRAFFIC_ROWS = 15 };
void traffic_rows(struct row rows[TRAFFIC_ROWS]);

void traffic_free(void);

#endif
