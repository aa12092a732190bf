/* The rules of documents 01 and 02 on one device, each beside the words that it stands for. */
#include "test/scope.h"

#include "bus/addresses.h"
#include "bus/frames.h"
#include "test/tested.h"

#include <string.h>

static bool in_range(uint32_t number, uint32_t least, uint32_t most)
{
    return least <= number && number <= most;
}

uint32_t in_clocks(uint32_t micros)
{
    return POD_CLOCKS_PER_MICROSECOND * micros;
}

bool times_in_range(struct asked times)
{
    return in_range(times.program, 1, POD_PROGRAM_MOST) && in_range(times.slice, 1, POD_SLICE_MOST) &&
           in_range(times.pause, 1, POD_PAUSE_MOST);
}

struct pod_times times_kept(struct asked times)
{
    return (struct pod_times){ (uint16_t)times.program, (uint16_t)times.slice, (uint16_t)times.pause };
}

static bool times_are_sound(struct pod_times times)
{
    return times_in_range((struct asked){ times.program, times.slice, times.pause });
}

bool straps_are_allowed(uint32_t part, uint32_t straps)
{
    return part == POD_PART_LPC ? straps <= POD_LPC_STRAPS_MOST : part == POD_PART_FWH && straps <= POD_STRAPS_MOST;
}

/* "the frame stage is one of those below, its address within 28 bits", "on LPC a frame address within 32 bits". The
 * direction of an LPC frame is not known at clock 1, and known from clock 2 on. */
static bool frame_is_sound(uint32_t part, struct pod_frame frame)
{
    const bool lpc = part == POD_PART_LPC;
    const uint32_t first = lpc ? FRAME_CLOCK_SELECT : 1;
    switch (frame.kind) {
    case POD_FRAME_NONE:
        return true;
    case POD_FRAME_READ:
        return in_range(frame.clock, first, FRAME_READ_CLOCKS - 1) && frame.address <= address_most(part);
    case POD_FRAME_WRITE:
        return in_range(frame.clock, first, FRAME_WRITE_CLOCKS - 1) && frame.address <= address_most(part);
    case POD_FRAME_BEGUN:
        return lpc && frame.clock == 1;
    default:
        return false;
    }
}

/* "any operation's address is below 1,048,576, its own times are in range, and its clocks left and, if pausing, pause
 * clocks left are between 1 and the full number of those times" */
static bool operation_is_sound(struct pod_operation operation)
{
    if (operation.kind > POD_OPERATION_ERASE || operation.state > POD_STATE_SUSPENDED) {
        return false;
    }
    if (operation.address >= POD_IMAGE_BYTES || !times_are_sound(operation.times)) {
        return false;
    }
    if (operation.state == POD_STATE_PAUSING && !in_range(operation.pause, 1, in_clocks(operation.times.pause))) {
        return false;
    }
    return operation.kind == POD_OPERATION_PROGRAM
               ? in_range(operation.left, 1, in_clocks(operation.times.program))
               : in_range(operation.left, 1, in_clocks(operation.times.slice)) &&
                     in_range(operation.slices, 1, POD_SLICES);
}

static bool is_suspended(const struct pod_device *device, uint32_t kind)
{
    const struct pod_operation *outer = &device->controller.outer;
    return outer->kind == kind && outer->state == POD_STATE_SUSPENDED;
}

/* "a program inside a suspended erase is running, neither pausing nor suspended; nothing beyond one operation exists
 * except a program inside a suspended erase of another block" */
static bool inner_is_sound(const struct pod_device *device)
{
    const struct pod_operation inner = device->controller.inner;
    if (inner.kind == POD_OPERATION_NONE) {
        return true;
    }
    return inner.kind == POD_OPERATION_PROGRAM && inner.state == POD_STATE_RUNNING && operation_is_sound(inner) &&
           is_suspended(device, POD_OPERATION_ERASE) &&
           block_of(inner.address) != block_of(device->controller.outer.address);
}

/* "no setup stands beside a running or pausing operation or a suspended program, nor an erase setup beside a suspended
 * erase" */
static bool setup_is_sound(const struct pod_device *device)
{
    const struct pod_controller *controller = &device->controller;
    if (controller->setup == POD_SETUP_NONE || controller->outer.kind == POD_OPERATION_NONE) {
        return controller->setup <= POD_SETUP_ERASE;
    }
    return controller->setup == POD_SETUP_PROGRAM && is_suspended(device, POD_OPERATION_ERASE) &&
           controller->inner.kind == POD_OPERATION_NONE;
}

static bool locks_are_sound(const struct pod_device *device)
{
    for (size_t block = 0; block < POD_BLOCKS; block++) {
        if (device->locks[block] > (POD_LOCK_WRITE | POD_LOCK_DOWN | POD_LOCK_READ)) {
            return false;
        }
    }
    return true;
}

bool is_sound(const struct pod_device *device)
{
    const struct pod_controller *controller = &device->controller;
    return straps_are_allowed(device->part, device->straps) && locks_are_sound(device) &&
           times_are_sound(device->times) && controller->mode <= POD_MODE_SIGNATURE &&
           (controller->errors & ~POD_STATUS_ERRORS) == 0 && frame_is_sound(device->part, device->frame) &&
           (controller->outer.kind == POD_OPERATION_NONE || operation_is_sound(controller->outer)) &&
           inner_is_sound(device) && setup_is_sound(device);
}

/* "bit 7 is 0 while running or pausing, a program inside a suspended erase included; 6 is 1 while an erase is
 * suspended, that program or not; 2 while a program is; 0 always 0" */
uint32_t status_of(const struct pod_device *device)
{
    const struct pod_controller *controller = &device->controller;
    const bool busy =
        controller->inner.kind != POD_OPERATION_NONE ||
        (controller->outer.kind != POD_OPERATION_NONE && controller->outer.state != POD_STATE_SUSPENDED);
    return (busy ? 0u : (uint32_t)POD_STATUS_READY) |
           (is_suspended(device, POD_OPERATION_ERASE) ? (uint32_t)POD_STATUS_ERASE_SUSPENDED : 0u) |
           (is_suspended(device, POD_OPERATION_PROGRAM) ? (uint32_t)POD_STATUS_PROGRAM_SUSPENDED : 0u) |
           controller->errors;
}

void set_locks(struct pod_device *device, uint32_t value)
{
    for (size_t block = 0; block < POD_BLOCKS; block++) {
        device->locks[block] = (uint8_t)value;
    }
}

struct pod_device fresh_device(uint32_t part, uint32_t straps, struct pod_times times)
{
    struct pod_device device;
    memset(&device, 0, sizeof device);
    device.part = (uint8_t)part;
    device.straps = (uint8_t)straps;
    set_locks(&device, POD_LOCK_WRITE);
    device.times = times;
    return device;
}

static void forget_absent(struct pod_operation *operation)
{
    if (operation->kind == POD_OPERATION_NONE) {
        memset(operation, 0, sizeof *operation);
    }
    if (operation->state != POD_STATE_PAUSING) {
        operation->pause = 0;
    }
    if (operation->kind == POD_OPERATION_PROGRAM) {
        operation->slices = 0;
    }
    if (operation->kind == POD_OPERATION_ERASE) {
        operation->data = 0;
        operation->address -= operation->address % POD_BLOCK_BYTES;
    }
}

struct pod_device meant_by(struct pod_device device)
{
    forget_absent(&device.controller.outer);
    forget_absent(&device.controller.inner);
    if (device.frame.kind == POD_FRAME_NONE) {
        memset(&device.frame, 0, sizeof device.frame);
    }
    if (device.frame.clock < frame_address_end(device.part)) {
        device.frame.address = 0;
    }
    if (device.frame.kind != POD_FRAME_READ || !in_range(device.frame.clock, FRAME_CLOCK_SYNC, FRAME_CLOCK_READ)) {
        device.frame.byte = 0;
    }
    return device;
}

const char *const condition_names[CONDITIONS] = {
    [IS_READY] = "ready",
    [PROGRAM_RUNS] = "program running",
    [ERASE_RUNS] = "erase running",
    [PROGRAM_PAUSES] = "program pausing",
    [ERASE_PAUSES] = "erase pausing",
    [PROGRAM_RESTS] = "program suspended",
    [ERASE_RESTS] = "erase suspended",
    [PROGRAM_IN_ERASE] = "program inside suspended erase",
};

static uint8_t outer_kind(enum condition condition)
{
    switch (condition) {
    case PROGRAM_RUNS:
    case PROGRAM_PAUSES:
    case PROGRAM_RESTS:
        return POD_OPERATION_PROGRAM;
    case ERASE_RUNS:
    case ERASE_PAUSES:
    case ERASE_RESTS:
    case PROGRAM_IN_ERASE:
        return POD_OPERATION_ERASE;
    default:
        return POD_OPERATION_NONE;
    }
}

static uint8_t outer_state(enum condition condition)
{
    switch (condition) {
    case PROGRAM_PAUSES:
    case ERASE_PAUSES:
        return POD_STATE_PAUSING;
    case PROGRAM_RESTS:
    case ERASE_RESTS:
    case PROGRAM_IN_ERASE:
        return POD_STATE_SUSPENDED;
    default:
        return POD_STATE_RUNNING;
    }
}

struct pod_device device_in(enum condition condition)
{
    const struct pod_times times = { .program = 20, .slice = 300, .pause = 10 };
    const struct pod_operation program = { .kind = POD_OPERATION_PROGRAM,
                                           .data = 0x5A,
                                           .address = 0x34567,
                                           .left = in_clocks(times.program) - 3,
                                           .times = times };
    const struct pod_operation erase = { .kind = POD_OPERATION_ERASE,
                                         .address = 0x70000,
                                         .slices = 200,
                                         .left = in_clocks(times.slice) - 7,
                                         .times = times };
    const struct pod_times own = { .program = 10, .slice = 3906, .pause = 30 };
    struct pod_device device = fresh_device(tested.part, tested.straps, own);
    struct pod_operation *outer = &device.controller.outer;
    if (condition == IS_READY) {
        return device;
    }
    device.controller.mode = POD_MODE_STATUS;
    *outer = outer_kind(condition) == POD_OPERATION_PROGRAM ? program : erase;
    outer->state = outer_state(condition);
    if (outer->state == POD_STATE_PAUSING) {
        outer->pause = in_clocks(times.pause) - 2;
    }
    if (condition == PROGRAM_IN_ERASE) {
        device.controller.inner = program;
    }
    return device;
}
