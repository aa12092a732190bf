/* The streams that speed is measured on, in rows, and the image that each of them begins with. */
#ifndef SPEED_STREAMS_H
#define SPEED_STREAMS_H

#include "pod.h"

#include <stdbool.h>
#include <stddef.h>
#include <stdint.h>

enum { MOST_SAMPLES = POD_STREAM_BYTES / 2 };

/* bytes and samples: the same twice, as a run takes it and as steps do, so that no time goes into taking bytes apart.
 * changed: bit b where block b of the image is not as it was, once the stream is through. */
struct stream {
    uint32_t part;
    uint32_t straps;
    struct pod_times times;
    size_t count;
    uint16_t changed;
    uint8_t *bytes;
    uint16_t *samples;
};

/* A copy of so many samples. */
struct stream stream_of(uint32_t part, uint32_t straps, struct pod_times times, const uint8_t *bytes, size_t count);
void stream_free(struct stream *stream);

/* Streams that are taken one after the other. again: the row before it on the LPC bus; samples: those of all of
 * them. */
struct row {
    const char *name;
    bool again;
    struct stream *streams;
    size_t count;
    size_t samples;
};

void row_add(struct row *row, struct stream stream);
void row_free(struct row *row);

/* What every stream begins with. */
extern uint8_t *base_image;
void base_image_new(void);
void base_image_free(void);

#endif
