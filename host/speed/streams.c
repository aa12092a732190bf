/* Keeping streams. */
#include "speed/streams.h"

#include "bus/pins.h"
#include "speed/room.h"

#include <stdlib.h>
#include <string.h>

struct stream stream_of(uint32_t part, uint32_t straps, struct pod_times times, const uint8_t *bytes, size_t count)
{
    struct stream stream = { .part = part, .straps = straps, .times = times, .count = count };
    stream.bytes = room_for(2 * count);
    stream.samples = room_for(count * sizeof stream.samples[0]);
    memcpy(stream.bytes, bytes, 2 * count);
    for (size_t i = 0; i < count; i++) {
        stream.samples[i] = sample_at(bytes, i);
    }
    return stream;
}

void stream_free(struct stream *stream)
{
    free(stream->bytes);
    free(stream->samples);
    *stream = (struct stream){ .count = 0 };
}

void row_add(struct row *row, struct stream stream)
{
    row->streams = more_room(row->streams, (row->count + 1) * sizeof row->streams[0]);
    row->streams[row->count++] = stream;
    row->samples += stream.count;
}

void row_free(struct row *row)
{
    for (size_t i = 0; i < row->count; i++) {
        stream_free(&row->streams[i]);
    }
    free(row->streams);
    *row = (struct row){ .name = row->name };
}

uint8_t *base_image;

void base_image_new(void)
{
    uint32_t seed = 1;
    base_image = room_for(POD_IMAGE_BYTES);
    for (size_t i = 0; i < POD_IMAGE_BYTES; i++) {
        seed = seed * 1664525u + 1013904223u;
        base_image[i] = (uint8_t)(seed >> 24);
    }
}

void base_image_free(void)
{
    free(base_image);
    base_image = NULL;
}
