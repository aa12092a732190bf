/* Playing traces from power-up to their end. */
#include "diff/play.h"

#include "bus/addresses.h"
#include "bus/commands.h"
#include "bus/frames.h"
#include "bus/pins.h"
#include "diff/choices.h"
#include "diff/counts.h"
#include "diff/images.h"
#include "diff/moves.h"
#include "diff/random.h"
#include "diff/record.h"
#include "diff/runs.h"
#include "diff/sides.h"
#include "diff/trace.h"
#include "diff/traffic.h"
#include "pod.h"

enum {
    LONG_SETTLE = 300000, /* clocks that the settles of a trace take at once */
    ERASE_START = 81,
    ERASED_BLOCK = 7
};

static uint32_t some_length(void)
{
    const uint32_t roll = rnd(10);
    if (roll < 4) {
        return 1 + rnd(3000);
    }
    if (roll < 7) {
        return 3000 + rnd(20000);
    }
    return roll < 9 ? MAX_SAMPLES - rnd(30000) : MAX_SAMPLES;
}

static void choose_behaviour(void)
{
    trace.runnable = one_in(2);
    trace.nervous = one_in(2) ? 0 : one_in(2) ? 60 : one_in(2) ? 8 : 2;
    trace.patience = one_in(2) ? 200 : one_in(2) ? 2000 : 10000;
    trace.settle_clocks = one_in(8) ? LONG_SETTLE : LONG_SETTLE / 10;
    trace.pins = sample_with_inputs(POD_SAMPLE_IDLE, rnd(32));
    good_pins();
    for (uint32_t i = 0; i < FAVOURITES; i++) {
        trace.favourites[i] = one_in(3) ? POD_BLOCKS - 1 : rnd(POD_BLOCKS);
    }
}

void play_trace(uint64_t seed)
{
    trace.seed = seed;
    rnd_start(seed * 0xD1342543DE82EF95u + 0x632BE59BD9B4E019u);
    const uint32_t part = some_part();
    const uint32_t straps = some_straps(part);
    expect_number("number of pod_power_up", POD_DONE, sides_power_up(part, straps, some_times()));
    expect_same_state();
    trace.length = some_length();
    choose_behaviour();
    while (trace.done < trace.length) {
        move();
    }
    expect_images(0, POD_IMAGE_BYTES + SPARE);
    if (trace.runnable) {
        run_whole_trace();
        record_trace();
    }
}

/* The three frames that open a block's lock and begin its erase. */
static void lay_erase(void)
{
    const uint32_t part = trace.part, straps = trace.straps;
    const uint32_t address = array_address(part, straps, ERASED_BLOCK * POD_BLOCK_BYTES);
    lay_frame(frame_write(part, straps, lock_address(part, straps, ERASED_BLOCK), 0x00));
    lay_frame(frame_write(part, straps, address, COMMAND_ERASE));
    lay_frame(frame_write(part, straps, address, COMMAND_RESUME));
}

void play_whole_erase(void)
{
    const struct model_times ordinary = { .program = 10, .slice = 3906, .pause = 30 };
    uint32_t count = 0;
    trace.after_all = true;
    trace.runnable = false;
    trace.length = MAX_SAMPLES;
    trace.nervous = 0;
    trace.pins = POD_SAMPLE_IDLE;
    rnd_start(ERASE_START);
    expect("number of pod_power_up", POD_DONE, sides_power_up(POD_PART_FWH, 0, ordinary));
    lay_erase();

    expect("number of the model's settle", POD_DONE,
           model_settle(&model, images.model, POD_IMAGE_BYTES, POD_SAMPLE_IDLE, UINT32_MAX, &count));
    const struct pod_settled settled =
        pod_settle(step_device, images.step, POD_IMAGE_BYTES, POD_SAMPLE_IDLE, UINT32_MAX);
    expect_number("number of a whole erase's settle", POD_DONE, settled.number);
    expect("count of a whole erase's settle", count, settled.count);
    expect("status after a whole erase", model_status(&model), pod_status(settled.device));
    expect_image("a whole erase", images.step, 0, POD_IMAGE_BYTES + SPARE);
    tally_by(SETTLE_CLOCKS, count);
    tally(ERASES_FINISHED);
}
