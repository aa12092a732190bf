/* Reading what a run needs, and running it. */
#include "bay/load.h"

#include "bay/options.h"
#include "bay/text.h"

#include <stdlib.h>
#include <string.h>

int load_begin(struct load *load, const struct settings_options *from)
{
    const char *const inputs[] = { load->image, load->stream, from->sheet };
    int status = one_standard("input", inputs, sizeof inputs / sizeof inputs[0]);
    if (status == 0) {
        status = settings_take(from, &load->settings);
    }
    if (status == 0) {
        status = file_read(load->image, POD_IMAGE_BYTES, &load->before);
    }
    if (status == 0) {
        status = file_read(load->stream, POD_STREAM_BYTES, &load->samples);
    }
    return status;
}

int load_run(struct load *load, struct pod_report *report)
{
    const struct settings *s = &load->settings;
    size_t room = load->samples.length / 2;
    load->after = must_have(load->before.length);
    load->answers = must_have(room);
    memcpy(load->after, load->before.at, load->before.length);
    *report = pod_run(load->after, load->before.length, load->samples.at, load->samples.length, load->answers, room,
                      s->part, s->straps, s->program, s->slice, s->pause);
    if (report->number == POD_DONE) {
        return 0;
    }
    return refused(report->number, &(struct facts){ .image = load->image,
                                                    .image_length = load->before.length,
                                                    .image_more = load->before.more,
                                                    .stream = load->stream,
                                                    .samples = load->samples.at,
                                                    .stream_length = load->samples.length,
                                                    .stream_more = load->samples.more,
                                                    .settings = *s });
}

void load_free(struct load *load)
{
    bytes_free(&load->before);
    bytes_free(&load->samples);
    free(load->after);
    free(load->answers);
    load->after = NULL;
    load->answers = NULL;
}
