/* Taking streams one way or the other, and comparing what comes of it. */
#include "speed/ways.h"

#include "model.h"
#include "speed/room.h"
#include "speed/sides.h"

#include <stdbool.h>
#include <stdlib.h>
#include <string.h>

enum { FILLER = 0xA5 };

uint8_t *lent_image;
static uint8_t *lent_answers;
static uint8_t *wanted_image, *wanted_answers; /* what model_run made of the same */

void ways_new(void)
{
    lent_image = room_for(POD_IMAGE_BYTES);
    lent_answers = room_for(MOST_SAMPLES);
    wanted_image = room_for(POD_IMAGE_BYTES);
    wanted_answers = room_for(MOST_SAMPLES);
    memcpy(lent_image, base_image, POD_IMAGE_BYTES);
    memcpy(wanted_image, base_image, POD_IMAGE_BYTES);
}

void ways_free(void)
{
    free(lent_image);
    free(lent_answers);
    free(wanted_image);
    free(wanted_answers);
}

static struct model_times model_times_of(const struct stream *s)
{
    return (struct model_times){ s->times.program, s->times.slice, s->times.pause };
}

static struct pod_report by_model_run(const struct stream *s, uint8_t *image, uint8_t *answers)
{
    const struct model_report r = model_run(image, POD_IMAGE_BYTES, s->bytes, 2 * s->count, answers, s->count,
                                            s->part, s->straps, model_times_of(s));
    return (struct pod_report){ r.number, r.samples, r.status, r.marks };
}

static struct pod_report by_pod_run(const struct stream *s, uint8_t *image, uint8_t *answers)
{
    return pod_run(image, POD_IMAGE_BYTES, s->bytes, 2 * s->count, answers, s->count, s->part, s->straps,
                   s->times.program, s->times.slice, s->times.pause);
}

static struct pod_report by_model_step(const struct stream *s, uint8_t *image, uint8_t *answers)
{
    struct model m;
    uint32_t number = model_power_up(&m, s->part, s->straps, model_times_of(s));
    for (size_t n = 0; n < s->count; n++) {
        number |= model_step(&m, image, POD_IMAGE_BYTES, s->samples[n], &answers[n]);
    }
    return (struct pod_report){ number, (uint32_t)s->count, model_status(&m), model_marks(&m) };
}

static struct pod_powered power_up(const struct stream *s)
{
    return pod_power_up(s->part, s->straps, s->times.program, s->times.slice, s->times.pause);
}

static struct pod_report by_pod_step(const struct stream *s, uint8_t *image, uint8_t *answers)
{
    const struct pod_powered up = power_up(s);
    struct pod_device device = up.device;
    uint32_t number = up.number;
    for (size_t n = 0; n < s->count; n++) {
        const struct pod_stepped stepped = pod_step(device, image, POD_IMAGE_BYTES, s->samples[n]);
        number |= stepped.number;
        answers[n] = (uint8_t)stepped.answer;
        device = stepped.device;
    }
    return (struct pod_report){ number, (uint32_t)s->count, pod_status(device), pod_marks(device) };
}

static struct pod_report by_pod_clock(const struct stream *s, uint8_t *image, uint8_t *answers)
{
    const struct pod_powered up = power_up(s);
    struct pod_device device = up.device;
    uint32_t number = up.number;
    for (size_t n = 0; n < s->count; n++) {
        const struct pod_clocked clocked = pod_clock(&device, image, POD_IMAGE_BYTES, s->samples[n]);
        number |= clocked.number;
        answers[n] = (uint8_t)clocked.answer;
    }
    return (struct pod_report){ number, (uint32_t)s->count, pod_status(device), pod_marks(device) };
}

static const struct {
    const char *name;
    struct pod_report (*take)(const struct stream *, uint8_t *, uint8_t *);
} ways[WAYS] = {
    [MODEL_RUN] = { "model_run", by_model_run },
    [POD_RUN] = { "pod_run", by_pod_run },
    [MODEL_STEP] = { "model_step", by_model_step },
    [POD_STEP] = { "pod_step", by_pod_step },
    [POD_CLOCK] = { "pod_clock", by_pod_clock },
};

const char *way_name(enum way way)
{
    return ways[way].name;
}

struct pod_report way_take(enum way way, const struct stream *stream)
{
    return ways[way].take(stream, lent_image, lent_answers);
}

static void restore(uint8_t *image, uint16_t blocks)
{
    for (size_t b = 0; b < POD_BLOCKS; b++) {
        if ((blocks >> b & 1) != 0) {
            memcpy(image + b * POD_BLOCK_BYTES, base_image + b * POD_BLOCK_BYTES, POD_BLOCK_BYTES);
        }
    }
}

void way_restore(uint16_t blocks)
{
    restore(lent_image, blocks);
}

static uint16_t changed_blocks(const uint8_t *image)
{
    uint32_t changed = 0;
    for (size_t b = 0; b < POD_BLOCKS; b++) {
        if (memcmp(image + b * POD_BLOCK_BYTES, base_image + b * POD_BLOCK_BYTES, POD_BLOCK_BYTES) != 0) {
            changed |= 1u << b;
        }
    }
    return (uint16_t)changed;
}

static bool same_report(struct pod_report x, struct pod_report y)
{
    return x.number == y.number && x.samples == y.samples && x.status == y.status && x.marks == y.marks;
}

/* One way of a stream beside what model_run made of it. */
static bool takes_alike(const struct stream *s, enum way way, struct pod_report wanted)
{
    memset(lent_answers, FILLER, MOST_SAMPLES);
    const struct pod_report found = way_take(way, s);
    const bool alike = same_report(wanted, found) && memcmp(lent_answers, wanted_answers, MOST_SAMPLES) == 0 &&
                       memcmp(lent_image, wanted_image, POD_IMAGE_BYTES) == 0;
    memcpy(lent_image, base_image, POD_IMAGE_BYTES);
    return alike;
}

void ways_check(const struct row *row)
{
    bool same[WAYS];
    for (enum way way = MODEL_RUN; way < WAYS; way++) {
        same[way] = true;
    }
    for (size_t i = 0; i < row->count; i++) {
        struct stream *s = &row->streams[i];
        memset(wanted_answers, FILLER, MOST_SAMPLES);
        const struct pod_report wanted = by_model_run(s, wanted_image, wanted_answers);
        same[MODEL_RUN] = same[MODEL_RUN] && wanted.number == POD_DONE;
        for (enum way way = POD_RUN; way < WAYS; way++) {
            same[way] = takes_alike(s, way, wanted) && same[way];
        }
        s->changed = changed_blocks(wanted_image);
        restore(wanted_image, s->changed);
    }
    for (enum way way = MODEL_RUN; way < WAYS; way++) {
        sides_check(same[way], ways[way].name, row->name);
    }
}
