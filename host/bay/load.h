/* What run, trace and rack begin with: an image, a stream and the settings, and the library's first word on them. */
#ifndef BAY_LOAD_H
#define BAY_LOAD_H

#include "bay/files.h"
#include "bay/settings.h"
#include "bay/words.h"
#include "pod.h"

/* before: the image as read; after: the copy that the stream ran on. */
struct load {
    const char *image;
    const char *stream;
    struct settings settings;
    struct bytes before;
    struct bytes samples;
    uint8_t *after;
    uint8_t *answers;
};

/* Takes the settings and reads image and stream. Gives 0 or a status after a message; either way the load is to be
 * freed. */
int load_begin(struct load *load, const struct settings_options *from);

/* Runs the stream on a copy of the image. Gives 0, or the refusal after a message. */
int load_run(struct load *load, struct pod_report *report);

void load_free(struct load *load);

#endif
