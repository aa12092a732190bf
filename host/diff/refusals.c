/* Calls that must be refused. */
#include "diff/refusals.h"

#include "bus/frames.h"
#include "bus/pins.h"
#include "diff/counts.h"
#include "diff/images.h"
#include "diff/random.h"
#include "diff/sides.h"
#include "diff/trace.h"
#include "diff/traffic.h"
#include "test/same_device.h"

#include <inttypes.h>
#include <stddef.h>

static void refuse_step(size_t length, uint16_t sample)
{
    struct pod_device kept = step_device;
    struct model copy = model;
    uint8_t answer = 0;
    const uint32_t number = model_step(&copy, images.ahead, length, sample, &answer);
    const struct pod_stepped stepped = pod_step(step_device, images.step, length, sample);
    const struct pod_clocked clocked = pod_clock(&kept, images.clock, length, sample);
    expect_number("number of a pod_step to be refused", number, stepped.number);
    expect_number("number of a pod_clock to be refused", number, clocked.number);
    expect("answers of refused steps", 0, stepped.answer | clocked.answer);
    if (!same_device(&stepped.device, &step_device) || !same_device(&kept, &step_device)) {
        departure("a refused step changed the device");
    }
}

static void refuse_settle(size_t length, uint16_t sample)
{
    struct model copy = model;
    uint32_t count = 0;
    const uint32_t limit = one_in(3) ? 0 : 1 + rnd(100);
    const uint32_t number = model_settle(&copy, images.ahead, length, sample, limit, &count);
    const struct pod_settled settled = pod_settle(step_device, images.step, length, sample, limit);
    expect_number("number of a pod_settle to be refused", number, settled.number);
    expect("count of a refused pod_settle", 0, settled.count);
    if (!same_device(&settled.device, &step_device)) {
        departure("a refused pod_settle changed the device");
    }
}

void try_refusals(void)
{
    static const uint16_t to_be_high[] = { POD_SAMPLE_FRAME, POD_SAMPLE_RP, POD_SAMPLE_INIT };
    const unsigned class_3 = one_in(3) ? POD_SAMPLE_VOLTAGE : 0;
    const unsigned low = one_in(2) ? to_be_high[rnd(3)] : 0;
    const uint16_t sample = (uint16_t)(next_sample(rnd(16)) | class_3);
    const size_t wrong = one_in(2)   ? POD_IMAGE_BYTES + 1
                         : one_in(2) ? POD_IMAGE_BYTES - 1
                                     : rnd(POD_IMAGE_BYTES);
    const size_t length = class_3 != 0 && !one_in(3) ? POD_IMAGE_BYTES : wrong;
    refuse_step(length, sample);

    const size_t settle_length = one_in(3) ? length : POD_IMAGE_BYTES;
    if (settle_length != POD_IMAGE_BYTES || class_3 != 0 || low != 0) {
        refuse_settle(settle_length, sample_set(sample, low, 0));
    }
}

void expect_refused(const char *what, const struct pod_device *device)
{
    const uint16_t sample = next_sample(FRAME_TURNAROUND);
    const uint16_t other = (uint16_t)rnd(65536);
    const size_t length = one_in(4) ? POD_IMAGE_BYTES - 1 : POD_IMAGE_BYTES;
    struct pod_device kept = *device;

    const struct pod_stepped stepped = pod_step(*device, images.wild, length, other);
    if (stepped.number != POD_REFUSED_DEVICE || stepped.answer != 0 || !same_device(&stepped.device, device)) {
        departure("%s: pod_step gave %" PRIu32, what, stepped.number);
    }
    const struct pod_clocked clocked = pod_clock(&kept, images.wild, length, other);
    if (clocked.number != POD_REFUSED_DEVICE || clocked.answer != 0 || !same_device(&kept, device)) {
        departure("%s: pod_clock gave %" PRIu32, what, clocked.number);
    }
    const struct pod_settled settled = pod_settle(*device, images.wild, length, one_in(2) ? sample : other, 1);
    if (settled.number != POD_REFUSED_DEVICE || settled.count != 0 || !same_device(&settled.device, device)) {
        departure("%s: pod_settle gave %" PRIu32, what, settled.number);
    }
    const struct pod_powered set = pod_set_times(*device, one_in(4) ? 0 : 1, 1, 1);
    if (set.number != POD_REFUSED_DEVICE || !same_device(&set.device, device)) {
        departure("%s: pod_set_times gave %" PRIu32, what, set.number);
    }
    if (pod_status(*device) != 0 || pod_marks(*device) != 0) {
        departure("%s: its status or marks are not 0", what);
    }
    if (one_in(16)) {
        const struct pod_part part =
            pod_view(*device, images.wild, POD_IMAGE_BYTES, images.page, POD_BLOCK_BYTES, rnd(POD_BLOCKS));
        if (part.from != POD_FROM_FRONT || part.start != 0 || part.length != 0) {
            departure("%s: pod_view shows something", what);
        }
    }
    tally_number(POD_REFUSED_DEVICE);
}
