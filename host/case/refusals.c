/* Making calls with wrong things, and views. */
#include "case/refusals.h"

#include "case/runs.h"
#include "case/sheets.h"
#include "test/same_device.h"

#include <string.h>

/* The lane's device, or one of bytes that no device has: its straps are out of range. */
static struct pod_device wished_device(const struct wish *wish, const struct lane *lane)
{
    struct pod_device device = lane->device;
    if (wish->unsound) {
        memset(&device, 0xFF, sizeof device);
    }
    return device;
}

void view_check(const struct check *check, const struct lane *lane, struct judge *judge)
{
    static uint8_t page[POD_BLOCK_BYTES + SPARE];
    const struct wish *wish = &check->wish;
    page[wish->soiled_at] = wish->soiled ? 1 : 0;
    const struct pod_part part = pod_view(wished_device(wish, lane), lane->image, wish->image_length, page,
                                          wish->page_length, wish->block);
    page[wish->soiled_at] = 0;
    judge_same(judge, check->line, "what is shown (0 front, 1 image, 2 page)", wish->from, part.from);
    judge_same(judge, check->line, "start of what is shown", wish->place, part.start);
    judge_same(judge, check->line, "length of what is shown", wish->from == POD_FROM_FRONT ? 0 : POD_BLOCK_BYTES,
               part.length);
}

/* What a call gives. other: its answer or count, where it has one. */
struct outcome {
    uint32_t number;
    uint32_t other;
    struct pod_device device;
};

static struct outcome make_call(const struct wish *wish, const struct pod_device *device, uint8_t *image,
                                uint16_t sample)
{
    const struct power *power = &wish->power;
    struct outcome outcome = { .device = *device };
    if (wish->call == CALL_STEP) {
        const struct pod_stepped stepped = pod_step(*device, image, wish->image_length, sample);
        outcome = (struct outcome){ stepped.number, stepped.answer, stepped.device };
    } else if (wish->call == CALL_CLOCK) {
        const struct pod_clocked clocked = pod_clock(&outcome.device, image, wish->image_length, sample);
        outcome.number = clocked.number;
        outcome.other = clocked.answer;
    } else if (wish->call == CALL_SETTLE) {
        const struct pod_settled settled = pod_settle(*device, image, wish->image_length, sample, wish->limit);
        outcome = (struct outcome){ settled.number, settled.count, settled.device };
    } else if (wish->call == CALL_SET_TIMES) {
        const struct pod_powered set = pod_set_times(*device, power->program, power->slice, power->pause);
        outcome = (struct outcome){ set.number, 0, set.device };
    } else {
        const struct pod_powered up = power_up(power);
        outcome = (struct outcome){ up.number, 0, up.device };
    }
    return outcome;
}

/* A call that gives a device: the one that it was handed, or after a power-up the plain one. */
static void device_refused(const struct check *check, struct lane *lane, struct judge *judge)
{
    const struct wish *wish = &check->wish;
    const struct power plain = power_plain();
    uint16_t sample = sample_set(check->sample, wish->low, 0);
    if (wish->class_3) {
        sample |= POD_SAMPLE_VOLTAGE;
    }
    struct pod_device device = wished_device(wish, lane);
    const struct outcome outcome = make_call(wish, &device, lane->image, sample);
    if (wish->call == CALL_POWER_UP) {
        device = power_up(&plain).device;
    }
    judge_same(judge, check->line, "number of the refusal", check->value, outcome.number);
    judge_same(judge, check->line, "answer or count of the refusal", 0, outcome.other);
    judge_holds(judge, check->line, same_device(&device, &outcome.device),
                wish->call == CALL_POWER_UP ? "the plain device after a refusal" : "the device that was handed in",
                "another");
}

void refusal_check(const struct scenario *scenario, const struct check *check, struct lane *lane, struct judge *judge)
{
    static uint8_t kept[POD_IMAGE_BYTES + SPARE];
    enum wish_call call = check->wish.call;
    if (call == CALL_RUN) {
        run_refused(scenario, check, &check->wish, judge);
    } else if (call == CALL_SHEET_READ || call == CALL_SHEET_WRITE) {
        sheet_refused(check, judge);
    } else {
        memcpy(kept, lane->image, sizeof kept);
        device_refused(check, lane, judge);
        judge_holds(judge, check->line, memcmp(kept, lane->image, sizeof kept) == 0,
                    "the image as it was before the refused call", "another");
    }
}
