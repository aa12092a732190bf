/* All sides set to another sound state. */
#include "diff/elsewhere.h"

#include "bus/commands.h"
#include "diff/choices.h"
#include "diff/condition.h"
#include "diff/counts.h"
#include "diff/operations.h"
#include "diff/random.h"
#include "diff/sides.h"
#include "diff/traffic.h"
#include "pod.h"

#include <stdbool.h>

/* Other clocks left of the operation that is there, or of its pause. */
static void shift_operation(struct pod_controller *controller)
{
    struct pod_operation *outer = &controller->outer;
    if (model.condition == PAUSING && one_in(2)) {
        model.pause_left = 1 + rnd(model.pause_left);
        outer->pause = model.pause_left;
    } else if (is_erase(&model)) {
        const uint32_t slices = one_in(2) ? 1 + rnd(3) : 1 + rnd(POD_SLICES);
        model.erase.left = 1 + rnd(one_in(2) ? POD_CLOCKS_PER_MICROSECOND : model.erase.slice_clocks);
        model.erase.next = model.erase.block * (uint32_t)POD_BLOCK_BYTES + (POD_SLICES - slices) * POD_SLICE_BYTES;
        outer->slices = slices;
        outer->left = model.erase.left;
    } else {
        model.program.left = 1 + rnd(model.program.left);
        (model.condition == PROGRAM_INSIDE ? &controller->inner : outer)->left = model.program.left;
    }
}

/* The other part, or the same, with any straps that it allows. A frame is of one part only. */
static void shift_part(struct pod_device *d)
{
    if (model.frame == FRAME_NONE && one_in(2)) {
        model.part = d->part = model.part == POD_PART_LPC ? POD_PART_FWH : POD_PART_LPC;
        tally(SENT_TO_PART);
    }
    model.straps = d->straps = (uint8_t)some_straps(model.part);
}

void send_elsewhere(void)
{
    struct pod_device d = step_device;
    bool look_at_mode = false;
    uint32_t block = 0;
    switch (rnd(10)) {
    case 0:
    case 8:
    case 9:
        shift_part(&d);
        break;
    case 1:
        block = some_block();
        model.locks[block] = (uint8_t)rnd(8);
        d.locks[block] = model.locks[block];
        break;
    case 2:
        model.mode = (uint8_t)rnd(3);
        d.controller.mode = model.mode;
        look_at_mode = true;
        break;
    case 3:
        model.errors = rnd_byte() & POD_STATUS_ERRORS;
        d.controller.errors = model.errors;
        break;
    case 4:
        model.marks = (uint16_t)rnd(65536);
        d.controller.marks = model.marks;
        break;
    default:
        if (model.condition == READY) {
            return;
        }
        shift_operation(&d.controller);
        break;
    }
    step_device = d;
    clock_device = d;
    tally(SENT_ELSEWHERE);
    expect_same_state();
    if (look_at_mode) {
        command(one_in(2) ? COMMAND_STATUS : some_command());
        send_read(some_array_address(), 30);
    }
}
