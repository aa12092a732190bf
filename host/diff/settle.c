/* Settles on all sides, in one call or beside the same samples. */
#include "diff/settle.h"

#include "bus/addresses.h"
#include "bus/commands.h"
#include "bus/frames.h"
#include "diff/choices.h"
#include "diff/condition.h"
#include "diff/counts.h"
#include "diff/images.h"
#include "diff/random.h"
#include "diff/reached.h"
#include "diff/sides.h"
#include "diff/trace.h"
#include "diff/traffic.h"
#include "pod.h"

#include <stdbool.h>

enum {
    FEW_CLOCKS = 500, /* a settle of fewer is done sample by sample */
    LEAST_AHEAD = 400 /* clocks that are looked ahead at least */
};

static uint32_t busy_number(const struct model *m)
{
    return is_busy(m) ? POD_STILL_BUSY : POD_DONE;
}

/* Both sides in one call each; the side of pod_clock in two, the second from where the first stopped. */
static void settle_at_once(uint16_t sample, uint32_t limit)
{
    const struct model before = model;
    uint32_t count = 0;
    const uint32_t number = model_settle(&model, images.model, POD_IMAGE_BYTES, sample, limit, &count);

    const struct pod_settled all = pod_settle(step_device, images.step, POD_IMAGE_BYTES, sample, limit);
    expect_number("number of pod_settle", number, all.number);
    expect("count of pod_settle", count, all.count);
    step_device = all.device;

    const uint32_t part = count > 0 ? rnd(count) : 0;
    const struct pod_settled first = pod_settle(clock_device, images.clock, POD_IMAGE_BYTES, sample, part);
    expect_number("number of the first part of pod_settle", busy_number(&before), first.number);
    expect("count of the first part of pod_settle", part, first.count);
    const struct pod_settled second = pod_settle(first.device, images.clock, POD_IMAGE_BYTES, sample, limit - part);
    expect_number("number of the second part of pod_settle", number, second.number);
    expect("count of the second part of pod_settle", count - part, second.count);
    clock_device = second.device;
    trace.settle_clocks -= count;

    expect_same_state();
    if (before.condition != READY) {
        expect_blocks(&before);
    }
    if (is_busy(&before) && is_erase(&before) && model.condition == READY) {
        tally(ERASES_FINISHED);
    }
    count_settle(&before, &model, &(struct settling){ .limit = limit, .number = number, .count = count });
}

/* The step side in one call, the other two sample by sample, so that run can follow. */
static void settle_by_samples(uint16_t sample, uint32_t limit)
{
    const struct model before = model;
    const struct pod_settled all = pod_settle(step_device, images.step, POD_IMAGE_BYTES, sample, limit);
    uint32_t count = 0;
    step_rests = true;
    while (is_busy(&model) && count < limit && trace.done < trace.length) {
        tick(sample);
        count++;
    }
    step_rests = false;
    step_device = all.device;
    const uint32_t number = busy_number(&model);
    expect_number("number of pod_settle", number, all.number);
    expect("count of pod_settle", count, all.count);
    expect_same_state();
    if (before.condition != READY) {
        expect_blocks(&before);
    }
    count_settle(&before, &model, &(struct settling){ .limit = limit, .number = number, .count = count });
}

void settle_with(uint16_t sample, uint32_t limit, uint32_t count)
{
    const uint32_t room = trace.length - trace.done;
    if (count < room && (count < FEW_CLOCKS || (trace.runnable && count < trace.patience))) {
        settle_by_samples(sample, limit);
    } else if (!trace.runnable && count <= trace.settle_clocks) {
        settle_at_once(sample, limit);
    }
}

/* A limit about the count of a settle that has none. */
static uint32_t limit_about(uint32_t count)
{
    switch (rnd(8)) {
    case 0:
        return 0;
    case 1:
        return count > 0 ? count - 1 : 0;
    case 2:
        return count;
    case 3:
        return count + 1;
    case 4:
        return count > 0 ? rnd(count) : rnd(5);
    default:
        return UINT32_MAX - rnd(2);
    }
}

/* The clocks that a settle of this trace may take. */
static uint32_t most_clocks(void)
{
    if (trace.runnable) {
        return trace.patience;
    }
    return trace.settle_clocks > LEAST_AHEAD ? trace.settle_clocks : LEAST_AHEAD;
}

void settle(void)
{
    unsigned lines = one_in(2) ? rnd(16) : FRAME_TURNAROUND;
    if (model.frame == FRAME_WRITE && model.clock == FRAME_CLOCK_ACT - 1 && one_in(2)) {
        /* The high nibble of a command that suspends, resumes or sets up a program. */
        lines = one_in(2) ? 0xB : one_in(2) ? 0xD : 0x4;
    }
    const uint16_t sample = next_sample(lines);
    struct model ahead = model;
    uint32_t count = 0;
    const uint32_t number = model_settle(&ahead, images.ahead, POD_IMAGE_BYTES, sample, most_clocks(), &count);
    uint32_t limit = limit_about(count);
    if (number == POD_STILL_BUSY && limit > count) {
        limit = count;
    }
    settle_with(sample, limit, limit < count ? limit : count);
}

void settle_in_frame(void)
{
    static const uint8_t bytes[] = { COMMAND_SUSPEND, COMMAND_SUSPEND, COMMAND_RESUME, COMMAND_RESUME,
                                     COMMAND_PROGRAM, COMMAND_STATUS,  COMMAND_ARRAY };
    const bool write = !one_in(5);
    const uint32_t address =
        one_in(6) ? lock_address(model.part, model.straps, some_block()) : some_array_address();
    const unsigned stop = one_in(2) ? FRAME_CLOCK_ACT - 1 : 1 + rnd(FRAME_WRITE_CLOCKS - 1);
    const uint8_t byte = bytes[rnd(sizeof bytes)];
    const struct frame frame = write ? frame_write(model.part, model.straps, address, byte)
                                     : frame_read(model.part, model.straps, address);
    for (unsigned clock = 1; clock <= stop; clock++) {
        lay_clock(&frame, clock);
    }
    settle();
}
