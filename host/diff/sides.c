/* One sample through the three sides, and comparing them. */
#include "diff/sides.h"

#include "bus/addresses.h"
#include "bus/frames.h"
#include "bus/pins.h"
#include "diff/images.h"
#include "diff/play.h"
#include "diff/reached.h"
#include "diff/trace.h"
#include "test/same_device.h"

#include <inttypes.h>
#include <stddef.h>
#include <string.h>

enum { FULL_COMPARE = 8192 /* clocks between two comparisons of the whole image */ };

struct model model;
struct pod_device step_device, clock_device;
bool step_rests;

static bool pinpoint; /* looking for the clock of a departure that was found late */

uint32_t sides_power_up(uint32_t part, uint32_t straps, struct model_times times)
{
    image_restore(images.model, trace.dirty);
    image_restore(images.step, trace.dirty);
    image_restore(images.clock, trace.dirty);
    trace.dirty = 0;
    trace.part = part;
    trace.straps = straps;
    trace.times = times;
    trace.done = 0;
    const struct pod_powered up = pod_power_up(part, straps, times.program, times.slice, times.pause);
    expect("number of the model's power-up", POD_DONE, model_power_up(&model, part, straps, times));
    step_device = up.device;
    clock_device = up.device;
    return up.number;
}

void expect_image(const char *whose, const uint8_t *image, uint32_t from, uint32_t length)
{
    if (memcmp(image + from, images.model + from, length) == 0) {
        return;
    }
    while (image[from] == images.model[from]) {
        from++;
    }
    const unsigned expected = images.model[from], found = image[from];
    if (!pinpoint && !trace.after_all && length > POD_SLICE_BYTES) {
        /* The trace is played once more, with the images compared on every clock. */
        pinpoint = true;
        images_restore();
        play_trace(trace.seed);
    }
    departure("image of %s at %05" PRIX32 "h: expected %02Xh, found %02Xh", whose, from, expected, found);
}

void expect_images(uint32_t from, uint32_t length)
{
    expect_image("pod_clock", images.clock, from, length);
    if (!step_rests) {
        expect_image("pod_step", images.step, from, length);
    }
}

void expect_blocks(const struct model *before)
{
    const uint32_t blocks[] = { before->erase.block, block_of(before->program.address), model.erase.block };
    for (size_t i = 0; i < sizeof blocks / sizeof blocks[0]; i++) {
        trace.dirty = (uint16_t)(trace.dirty | 1u << blocks[i]);
        expect_images(blocks[i] * POD_BLOCK_BYTES, POD_BLOCK_BYTES);
    }
}

/* The frame in progress; its address counts from the clock on that empties it. */
static void expect_same_frame(const struct pod_frame *frame)
{
    expect("kind of the frame", model.frame, frame->kind);
    if (model.frame == FRAME_NONE) {
        return;
    }
    expect("clock of the frame", model.clock, frame->clock);
    if (model.clock >= FRAME_CLOCK_SELECT) {
        expect("address of the frame", model.address, frame->address);
    }
}

void expect_same_state(void)
{
    expect("part of pod_clock's device", model.part, clock_device.part);
    expect("straps of pod_clock's device", model.straps, clock_device.straps);
    expect_same_frame(&clock_device.frame);
    expect("status of pod_clock's device", model_status(&model), pod_status(clock_device));
    expect("marks of pod_clock's device", model_marks(&model), pod_marks(clock_device));
    if (!step_rests && !same_device(&clock_device, &step_device)) {
        departure("the devices of pod_clock and pod_step differ");
    }
}

void tick(uint16_t sample)
{
    const struct model before = model;
    uint8_t answer = 0;
    if (trace.done >= trace.length) {
        return;
    }
    trace.last[trace.done % LAST_SAMPLES] = sample;
    if (trace.runnable) {
        sample_put(trace.stream, trace.done, sample);
    }

    expect("number of the model", POD_DONE, model_step(&model, images.model, POD_IMAGE_BYTES, sample, &answer));
    if (trace.runnable) {
        trace.answers[trace.done] = answer;
    }
    trace.done++;
    trace.all_done++;

    const struct pod_clocked clocked = pod_clock(&clock_device, images.clock, POD_IMAGE_BYTES, sample);
    expect_number("number of pod_clock", POD_DONE, clocked.number);
    expect("answer of pod_clock", answer, clocked.answer);
    if (!step_rests) {
        const struct pod_stepped stepped = pod_step(step_device, images.step, POD_IMAGE_BYTES, sample);
        expect_number("number of pod_step", POD_DONE, stepped.number);
        expect("answer of pod_step", answer, stepped.answer);
        step_device = stepped.device;
    }
    expect_same_state();

    const struct changed changed = count_clock(&before, &model, sample);
    if (changed.length != 0) {
        trace.dirty = (uint16_t)(trace.dirty | 1u << block_of(changed.place));
        expect_images(changed.place, changed.length);
    }
    if (pinpoint || trace.done % FULL_COMPARE == 0) {
        expect_images(0, POD_IMAGE_BYTES);
    }
}
