/* A harness track: what one harness does, clock by clock, to the pins of every bay that hangs on it. */
#ifndef BAY_TRACK_H
#define BAY_TRACK_H

#include <stddef.h>
#include <stdint.h>

/* From `clock` on, the bits under `mask` are those of `value`. */
struct pull {
    uint32_t clock;
    uint16_t mask;
    uint16_t value;
};

struct track {
    struct pull *pulls;
    size_t count;
};

/* Reads a track file: lines of `at CLOCK` and then pairs of `wp high|low`, `tbl high|low` and `voltage 0..3`, clocks
 * not falling, `#` before a remark. Gives 0 or a status after a message. */
int track_read(const char *path, struct track *out);

/* Lays the track over a stream. Pins that it does not name stay as the stream has them. */
void track_lay(const struct track *track, uint8_t *stream, size_t samples);

void track_free(struct track *track);

#endif
