/* Devices of one fault. */
#include "diff/faults.h"

#include "bus/addresses.h"
#include "bus/frames.h"
#include "diff/choices.h"
#include "diff/condition.h"
#include "diff/counts.h"
#include "diff/random.h"
#include "diff/refusals.h"
#include "diff/sides.h"
#include "diff/trace.h"
#include "pod.h"

#include <stdbool.h>
#include <stddef.h>

/* A time that is 0 or above the most it may be. */
static uint16_t no_time(uint32_t most)
{
    return (uint16_t)(one_in(3) ? 0 : one_in(2) ? most + 1 : most + 1 + rnd(UINT16_MAX - most));
}

/* A number that a field of so many meanings, from 0, does not have. */
static uint8_t no_meaning(uint32_t meanings)
{
    return (uint8_t)(meanings + rnd(256 - meanings));
}

static uint32_t clocks_of(uint32_t micros)
{
    return POD_CLOCKS_PER_MICROSECOND * micros;
}

static bool is_inside(void)
{
    return model.condition == PROGRAM_INSIDE;
}

/* Faults of the part and its straps. They put themselves into the device and give their name, or none where they do not
 * fit. */
static const char *fault_of_part(struct pod_device *d, uint32_t roll)
{
    const bool lpc = model.part == POD_PART_LPC;
    if (roll == 0) {
        d->straps = no_meaning(straps_most(model.part) + 1);
        tally(lpc ? FAULT_LPC_STRAPS : FAULT_FWH_STRAPS);
        return lpc ? "straps above 3" : "straps above 15";
    }
    d->part = no_meaning(POD_PART_LPC + 1);
    tally(FAULT_PART);
    return "a third part";
}

/* Where no frame is in progress, one that could be. */
static void frame_if_none(struct pod_frame *frame)
{
    const uint32_t first = model.part == POD_PART_LPC ? FRAME_CLOCK_SELECT : 1;
    if (model.frame != FRAME_NONE) {
        return;
    }
    frame->kind = (uint8_t)(POD_FRAME_READ + rnd(2));
    frame->clock = (uint8_t)(first + rnd(FRAME_WRITE_CLOCKS - first));
    frame->address = array_address(model.part, model.straps, rnd(POD_IMAGE_BYTES));
}

/* Faults of a frame, on FWH and on LPC. */
static const char *fault_of_fwh_frame(struct pod_frame *frame, uint32_t roll)
{
    if (roll == 0) {
        *frame = (struct pod_frame){ .kind = POD_FRAME_BEGUN, .clock = 1 };
        tally(FAULT_BEGUN_ON_FWH);
        return "a frame of unknown direction on FWH";
    }
    frame_if_none(frame);
    frame->address |= 1u << (28 + rnd(4));
    tally(FAULT_FWH_ADDRESS);
    return "a frame address beyond 28 bits";
}

static const char *fault_of_lpc_frame(struct pod_frame *frame, uint32_t roll)
{
    if (roll == 0) {
        frame->kind = POD_FRAME_BEGUN;
        frame->clock = one_in(2) ? 2 : one_in(2) ? 0 : (uint8_t)(2 + rnd(254));
        tally(FAULT_BEGUN_CLOCK);
        return "a frame of unknown direction at another clock than 1";
    }
    frame->kind = (uint8_t)(POD_FRAME_READ + rnd(2));
    frame->clock = 1;
    tally(FAULT_LPC_CLOCK_1);
    return "a frame of known direction at clock 1";
}

static const char *fault_of_frame(struct pod_frame *frame, uint32_t roll)
{
    uint32_t clocks = 0;
    switch (roll) {
    case 2:
        frame->kind = no_meaning(POD_FRAME_BEGUN + 1);
        return "a fourth kind of frame";
    case 3:
        frame_if_none(frame);
        clocks = frame->kind == POD_FRAME_READ ? FRAME_READ_CLOCKS : FRAME_WRITE_CLOCKS;
        frame->clock = one_in(4) ? 0 : (uint8_t)(clocks + rnd(200));
        return "no such stage of a frame";
    default:
        return model.part == POD_PART_LPC ? fault_of_lpc_frame(frame, roll) : fault_of_fwh_frame(frame, roll);
    }
}

/* Faults of what else a device has besides its operations. */
static const char *fault_of_fields(struct pod_device *d, uint32_t roll)
{
    static const uint8_t no_errors[] = { 0x01, 0x04, 0x40, 0x80 };
    uint8_t lock = 0;
    switch (roll) {
    case 0:
        return fault_of_part(d, rnd(2));
    case 1:
        lock = no_meaning(8);
        d->locks[rnd(POD_BLOCKS)] = lock;
        return "a lock register above 7";
    case 2:
        d->times.program = no_time(POD_PROGRAM_MOST);
        return "program time out of range";
    case 3:
        d->times.slice = no_time(POD_SLICE_MOST);
        return "slice time out of range";
    case 4:
        d->times.pause = no_time(POD_PAUSE_MOST);
        return "pause time out of range";
    case 5:
        d->controller.mode = no_meaning(POD_MODE_SIGNATURE + 1);
        return "a fourth read mode";
    case 6:
        d->controller.errors |= no_errors[rnd(sizeof no_errors)];
        return "an error bit outside 3Ah";
    case 7:
    case 8:
    case 9:
        return fault_of_frame(&d->frame, rnd(4));
    default:
        d->controller.setup = no_meaning(POD_SETUP_ERASE + 1);
        return "a third kind of setup";
    }
}

static void fault_of_times(struct pod_times *times)
{
    switch (rnd(3)) {
    case 0:
        times->program = no_time(POD_PROGRAM_MOST);
        break;
    case 1:
        times->slice = no_time(POD_SLICE_MOST);
        break;
    default:
        times->pause = no_time(POD_PAUSE_MOST);
        break;
    }
}

/* Faults of an operation, whatever it is. */
static const char *fault_of_operation(struct pod_operation *o, uint32_t roll)
{
    if (model.condition == READY) {
        return NULL;
    }
    switch (roll) {
    case 11:
        o->kind = no_meaning(POD_OPERATION_ERASE + 1);
        return "a third kind of operation";
    case 12:
        o->state = no_meaning(POD_STATE_SUSPENDED + 1);
        return "a fourth state of an operation";
    case 13:
        o->address |= 1u << (20 + rnd(12));
        return "an operation beyond the array";
    case 14:
        fault_of_times(&o->times);
        return "an operation's time out of range";
    default:
        o->left = 0;
        return "no clocks left";
    }
}

/* Faults of what is left of a program, of an erase or of a pause; `over` is how much too far a number goes. */
static const char *fault_of_rest(struct pod_controller *c, uint32_t roll, uint32_t over)
{
    struct pod_operation *program = is_inside() ? &c->inner : &c->outer, *outer = &c->outer;
    const bool any = model.condition != READY;
    switch (roll) {
    case 16:
        if (!any || is_erase(&model)) {
            return NULL;
        }
        program->left = clocks_of(program->times.program) + over;
        return "a program with more clocks left than it takes";
    case 17:
        if (!any || !is_erase(&model)) {
            return NULL;
        }
        outer->slices = POD_SLICES;
        outer->left = clocks_of(outer->times.slice) + over;
        return "an erase with more clocks left than it takes";
    case 18:
        if (!any || !is_erase(&model)) {
            return NULL;
        }
        outer->slices = one_in(2) ? 0 : POD_SLICES + over;
        return "an erase with no slices left, or more than there are";
    default:
        if (model.condition != PAUSING) {
            return NULL;
        }
        outer->pause = one_in(2) ? 0 : clocks_of(outer->times.pause) + over;
        return "a pause out of range";
    }
}

/* Faults of a program inside a suspended erase. */
static const char *fault_inside(struct pod_controller *c, uint32_t roll)
{
    if (!is_inside()) {
        return NULL;
    }
    switch (roll) {
    case 20:
        c->inner.state = (uint8_t)(POD_STATE_PAUSING + rnd(2));
        c->inner.pause = 1;
        return "a program inside that does not run";
    case 21:
        c->outer.state = (uint8_t)rnd(POD_STATE_SUSPENDED);
        c->outer.pause = c->outer.state;
        return "a program inside an erase that is not suspended";
    default:
        c->inner.address = model.erase.block * (uint32_t)POD_BLOCK_BYTES + rnd(POD_BLOCK_BYTES);
        return "a program inside its own erase's block";
    }
}

/* Faults of two things that do not go together. */
static const char *fault_of_two(struct pod_controller *c, uint32_t roll)
{
    switch (roll) {
    case 23:
        if (!is_busy(&model) && model.condition != PROGRAM_SUSPENDED) {
            return NULL;
        }
        c->setup = (uint8_t)(POD_SETUP_PROGRAM + rnd(2));
        return "a setup beside an operation";
    case 24:
        if (model.condition != ERASE_SUSPENDED) {
            return NULL;
        }
        c->setup = POD_SETUP_ERASE;
        return "an erase setup beside a suspended erase";
    default:
        if (model.condition == READY || is_inside() || model.condition == ERASE_SUSPENDED) {
            return NULL;
        }
        c->inner = c->outer;
        c->inner.kind = POD_OPERATION_PROGRAM;
        c->inner.state = POD_STATE_RUNNING;
        c->inner.slices = 0;
        c->inner.pause = 0;
        c->inner.left = 1;
        c->inner.address ^= POD_BLOCK_BYTES;
        return "a second operation";
    }
}

static const char *one_fault(struct pod_device *d)
{
    struct pod_controller *c = &d->controller;
    struct pod_operation *some = is_inside() && one_in(2) ? &c->inner : &c->outer;
    const uint32_t over = one_in(2) ? 1 : 1 + rnd(1000000);
    const uint32_t roll = rnd(26);
    if (roll <= 10) {
        return fault_of_fields(d, roll);
    }
    if (roll <= 15) {
        return fault_of_operation(some, roll);
    }
    if (roll <= 19) {
        return fault_of_rest(c, roll, over);
    }
    return roll <= 22 ? fault_inside(c, roll) : fault_of_two(c, roll);
}

void try_fault(void)
{
    struct pod_device d = step_device;
    const char *what = one_fault(&d);
    if (what == NULL) {
        return;
    }
    trace.tried = &d;
    expect_refused(what, &d);
    tally(FAULTS_REFUSED);
    trace.tried = NULL;
}
