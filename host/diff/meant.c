/* A record taken apart into the fields of the model. */
#include "diff/meant.h"

#include "bus/addresses.h"

#include <stdbool.h>
#include <string.h>

static uint32_t clocks_of(uint32_t micros)
{
    return POD_CLOCKS_PER_MICROSECOND * micros;
}

static void take_program(struct model *m, const struct pod_operation *program)
{
    m->program.address = program->address;
    m->program.left = program->left;
    m->program.pause_clocks = clocks_of(program->times.pause);
    m->program.data = program->data;
}

static void take_erase(struct model *m, const struct pod_operation *erase)
{
    const uint32_t block = block_of(erase->address);
    m->erase.block = (uint8_t)block;
    m->erase.next = block * POD_BLOCK_BYTES + (POD_SLICES - erase->slices) * POD_SLICE_BYTES;
    m->erase.left = erase->left;
    m->erase.slice_clocks = clocks_of(erase->times.slice);
    m->erase.pause_clocks = clocks_of(erase->times.pause);
}

/* The operation that stands alone, or the erase around a program. */
static void take_outer(struct model *m, const struct pod_operation *outer)
{
    const bool erase = outer->kind == POD_OPERATION_ERASE;
    if (erase) {
        take_erase(m, outer);
    } else {
        take_program(m, outer);
    }
    m->erasing = erase;
    if (outer->state == POD_STATE_SUSPENDED) {
        m->condition = erase ? ERASE_SUSPENDED : PROGRAM_SUSPENDED;
    } else {
        m->condition = outer->state == POD_STATE_PAUSING ? PAUSING : RUNNING;
        m->pause_left = outer->pause;
    }
}

struct model model_meant(const struct pod_device *device)
{
    const struct pod_controller *controller = &device->controller;
    const struct pod_frame *frame = &device->frame;
    struct model m = { .times = { device->times.program, device->times.slice, device->times.pause },
                       .part = device->part,
                       .straps = device->straps,
                       .frame = frame->kind,
                       .clock = frame->clock,
                       .byte = frame->byte,
                       .address = frame->address,
                       .condition = READY,
                       .mode = controller->mode,
                       .setup = controller->setup,
                       .errors = controller->errors,
                       .marks = controller->marks };
    memcpy(m.locks, device->locks, sizeof m.locks);
    if (controller->outer.kind != POD_OPERATION_NONE) {
        take_outer(&m, &controller->outer);
    }
    if (controller->inner.kind != POD_OPERATION_NONE) {
        take_program(&m, &controller->inner);
        m.erasing = false;
        m.condition = PROGRAM_INSIDE;
    }
    return m;
}
