/* Devices of wild bytes. */
#include "diff/wild.h"

#include "bus/addresses.h"
#include "bus/frames.h"
#include "bus/pins.h"
#include "diff/choices.h"
#include "diff/counts.h"
#include "diff/images.h"
#include "diff/meant.h"
#include "diff/random.h"
#include "diff/refusals.h"
#include "diff/sides.h"
#include "diff/trace.h"
#include "model.h"
#include "pod.h"
#include "test/same_device.h"
#include "test/scope.h"

#include <stdbool.h>
#include <stddef.h>
#include <string.h>

/* A number about a range: mostly in it, often at its ends, sometimes just outside. */
static uint32_t about(uint32_t low, uint32_t high)
{
    switch (rnd(6)) {
    case 0:
        return low;
    case 1:
        return high;
    case 2:
        return one_in(4) ? low - 1 : one_in(3) ? high + 1 : low;
    default:
        return low + rnd(high - low + 1);
    }
}

/* The first clock number that is too high for what takes so many microseconds. */
static uint32_t clocks_above(uint32_t micros)
{
    return POD_CLOCKS_PER_MICROSECOND * micros + 1;
}

static void wild_operation(struct pod_operation *o)
{
    const struct model_times t = some_times();
    switch (rnd(6)) {
    case 0:
        o->kind = (uint8_t)rnd(POD_OPERATION_ERASE + 1);
        break;
    case 1:
        o->state = (uint8_t)about(POD_STATE_RUNNING, POD_STATE_SUSPENDED);
        break;
    case 2:
        o->address = about(0, POD_IMAGE_BYTES - 1);
        break;
    case 3:
        o->times.program = (uint16_t)t.program;
        o->times.slice = (uint16_t)t.slice;
        o->times.pause = (uint16_t)t.pause;
        break;
    default:
        break;
    }
    if (one_in(2)) {
        const bool erase = o->kind == POD_OPERATION_ERASE;
        o->slices = erase ? about(1, POD_SLICES) : about(0, 0);
        o->left = about(1, clocks_above(erase ? o->times.slice : o->times.program));
        o->left -= one_in(2);
        o->pause = o->state == POD_STATE_PAUSING ? about(1, clocks_above(o->times.pause)) : 0;
    }
}

static void wild_frame(struct pod_frame *frame, uint32_t part)
{
    const uint32_t first = part == POD_PART_LPC ? FRAME_CLOCK_SELECT : 1;
    frame->kind = (uint8_t)rnd(POD_FRAME_BEGUN + 1);
    frame->clock = (uint8_t)about(1, 1);
    if (frame->kind == POD_FRAME_READ) {
        frame->clock = (uint8_t)about(first, FRAME_READ_CLOCKS - 1);
    } else if (frame->kind == POD_FRAME_WRITE) {
        frame->clock = (uint8_t)about(first, FRAME_WRITE_CLOCKS - 1);
    }
    frame->byte = rnd_byte();
    frame->address = about(0, ADDRESS_MOST);
    if (part == POD_PART_LPC && one_in(2)) {
        frame->address = about(ADDRESS_LPC_HIGH, ADDRESS_LPC_MOST);
    }
}

/* A field of a device, or some that go together, set to what may or may not be sound. */
static void wild_field(struct pod_device *d)
{
    uint8_t lock = 0;
    switch (rnd(10)) {
    case 0:
    case 1:
        wild_frame(&d->frame, d->part);
        break;
    case 2:
    case 3:
        wild_operation(&d->controller.outer);
        break;
    case 4:
        wild_operation(&d->controller.inner);
        break;
    case 5:
        d->controller.setup = (uint8_t)about(POD_SETUP_NONE, POD_SETUP_ERASE);
        break;
    case 6:
        d->controller.mode = (uint8_t)about(POD_MODE_ARRAY, POD_MODE_SIGNATURE);
        d->controller.errors = rnd_byte() & POD_STATUS_ERRORS;
        break;
    case 7:
        lock = (uint8_t)about(0, 7);
        d->locks[rnd(POD_BLOCKS)] = lock;
        break;
    case 8:
        d->straps = (uint8_t)about(0, straps_most(d->part));
        break;
    default:
        d->part = (uint8_t)about(POD_PART_FWH, POD_PART_LPC);
        break;
    }
}

/* The present device with wild bytes, or with nothing but such. */
static struct pod_device wild_device(void)
{
    struct pod_device d = step_device;
    uint8_t *bytes = (uint8_t *)&d;
    const uint32_t changes = 1 + rnd(3);
    if (one_in(8)) {
        for (size_t i = 0; i < sizeof d; i++) {
            bytes[i] = one_in(3) ? rnd_byte() : (uint8_t)rnd(3);
        }
    } else if (one_in(4)) {
        for (uint32_t i = 0; i < changes; i++) {
            const uint32_t at = rnd(sizeof d);
            bytes[at] = one_in(2) ? rnd_byte() : (uint8_t)(bytes[at] ^ 1u << rnd(8));
        }
    } else {
        for (uint32_t i = 0; i < changes; i++) {
            wild_field(&d);
        }
    }
    return d;
}

/* The lines that let a frame go on, if this is one of its first clocks. */
static unsigned likely_lines(const struct pod_device *d)
{
    if (d->part == POD_PART_FWH) {
        return one_in(2) ? d->straps : 0;
    }
    return one_in(2) ? FRAME_TYPE_READ + rnd(4) : one_in(2) ? FRAME_START_LPC : 0xF;
}

/* A sample of any bits, but mostly one that lets a device go on. */
static uint16_t wild_sample(const struct pod_device *d)
{
    uint16_t sample = (uint16_t)rnd(65536);
    if (sample_voltage(sample) > POD_VOLTAGE_TWELVE) {
        sample = sample_with_voltage(sample, POD_VOLTAGE_TWELVE);
    }
    if (!one_in(40)) {
        sample |= POD_SAMPLE_FRAME;
    }
    if (!one_in(60)) {
        sample |= POD_SAMPLE_RP | POD_SAMPLE_INIT;
    }
    return one_in(3) ? sample_with_lines(sample, likely_lines(d)) : sample;
}

/* One clock of the model beside what the library made of it. */
static void step_model(struct model *m, uint16_t sample, const struct pod_stepped *stepped)
{
    const struct pod_device *d = &stepped->device;
    uint8_t answer = 0;
    expect("number of the model on wild bytes", POD_DONE,
           model_step(m, images.wild_model, POD_IMAGE_BYTES, sample, &answer));
    expect("answer of pod_step on wild bytes", answer, stepped->answer);
    expect("status of wild bytes", model_status(m), pod_status(*d));
    expect("marks of wild bytes", model_marks(m), pod_marks(*d));
    expect("part of wild bytes", m->part, d->part);
    expect("straps of wild bytes", m->straps, d->straps);
    expect("mode of wild bytes", m->mode, d->controller.mode);
    expect("setup of wild bytes", m->setup, d->controller.setup);
    expect("frame of wild bytes", m->frame, d->frame.kind);
    if (m->frame != FRAME_NONE && m->clock >= FRAME_CLOCK_JUDGED) {
        expect("address of the frame of wild bytes", m->address, d->frame.address);
    }
    if (memcmp(m->locks, d->locks, sizeof m->locks) != 0) {
        departure("the locks of wild bytes");
    }
}

static void step_wild(struct pod_device d)
{
    struct pod_device kept = d;
    struct model meant = model_meant(&d);
    const uint32_t clocks = 1 + rnd(60);
    for (uint32_t i = 0; i < clocks; i++) {
        const uint16_t sample = wild_sample(&d);
        const struct pod_stepped stepped = pod_step(d, images.wild, POD_IMAGE_BYTES, sample);
        const struct pod_clocked clocked = pod_clock(&kept, images.wild_clock, POD_IMAGE_BYTES, sample);
        expect("number of pod_step on wild bytes", POD_DONE, stepped.number);
        expect("number of pod_clock on wild bytes", POD_DONE, clocked.number);
        expect("answer of pod_clock on wild bytes", stepped.answer, clocked.answer);
        step_model(&meant, sample, &stepped);
        d = stepped.device;
        if (!same_device(&d, &kept)) {
            departure("the devices of pod_clock and pod_step differ on wild bytes");
        }
    }
    if (memcmp(images.wild, images.wild_clock, POD_IMAGE_BYTES) != 0) {
        departure("the images of pod_clock and pod_step differ on wild bytes");
    }
    if (memcmp(images.wild, images.wild_model, POD_IMAGE_BYTES) != 0) {
        departure("the images of pod_step and the model differ on wild bytes");
    }
}

/* A write that has taken one nibble of its byte holds no more than that. What becomes of more, nothing says. */
static void keep_one_nibble(struct pod_frame *frame)
{
    if (frame->kind == POD_FRAME_WRITE && frame->clock == FRAME_CLOCK_WRITTEN) {
        frame->byte &= POD_SAMPLE_LINES;
    }
}

void try_wild_device(void)
{
    struct pod_device d = wild_device();
    keep_one_nibble(&d.frame);
    const struct pod_powered set = pod_set_times(d, 1, 1, 1);
    trace.tried = &d;
    if (!is_sound(&d)) {
        expect_refused("wild bytes", &d);
        tally(WILD_REFUSED);
    } else {
        expect("number of pod_set_times on wild bytes", POD_DONE, set.number);
        step_wild(d);
        tally(d.part == POD_PART_LPC ? WILD_STEPPED_LPC : WILD_STEPPED_FWH);
    }
    trace.tried = NULL;
}
