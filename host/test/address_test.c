/* Holds the library and the second model to one another on what stands at an address, on FWH and on LPC with each of
 * its straps: a read and a write at every address near a register, at each of these with each one of its bits flipped,
 * and at many others; first step by step, then in runs. */
#include "bus/addresses.h"
#include "bus/frames.h"
#include "bus/pins.h"
#include "model.h"
#include "pod.h"
#include "test/any.h"
#include "test/check.h"
#include "test/lent.h"

#include <string.h>

enum {
    FWH_STRAPS = 9,
    REGISTERS = POD_BLOCKS + 3, /* on LPC nothing stands at the last two, where FWH has its codes */
    NEAR = 2,                   /* how far from a register still counts as near */
    TURNS = 4,                  /* bytes, inputs and, in steps, locks are others each time */
    RANDOM = 1000000,           /* addresses of any bits on FWH */
    LPC_RANDOM = 62500,         /* the same on LPC with each straps, and as many that could be the part's */
    BOTH_CLOCKS = FRAME_READ_CLOCKS + FRAME_WRITE_CLOCKS,
    RUN_SAMPLES = POD_STREAM_BYTES / 2
};

/* Whose addresses they are. */
static uint32_t part, straps;

static const struct model_times times = { .program = 10, .slice = 3906, .pause = 30 };

/* Both sides read one image, which no single write can change, and run each on one of its own. */
static struct lent image, pod_image, model_image;

/* A stream of frames for run, and what the two sides say to it. */
static uint8_t stream[POD_STREAM_BYTES];
static uint8_t pod_answers[RUN_SAMPLES], model_answers[RUN_SAMPLES];
static size_t samples;

/* The samples of a read and a write at an address, with inputs and a byte that nobody looked for. */
static void lay_both(uint32_t address, uint16_t laid[BOTH_CLOCKS])
{
    const uint16_t idle = sample_with_inputs(POD_SAMPLE_IDLE, any_below(32));
    const struct frame read = frame_read(part, straps, address);
    const struct frame write = frame_write(part, straps, address, (uint8_t)any_below(256));
    uint16_t clocks[FRAME_MOST_CLOCKS];
    frame_lay(&read, idle, clocks);
    memcpy(laid, clocks, FRAME_READ_CLOCKS * sizeof laid[0]);
    frame_lay(&write, idle, clocks);
    memcpy(laid + FRAME_READ_CLOCKS, clocks, FRAME_WRITE_CLOCKS * sizeof laid[0]);
}

/* A read and a write at an address, stepped from power-up with any locks. */
static void step_both(uint32_t address)
{
    uint16_t laid[BOTH_CLOCKS];
    struct pod_device device = pod_power_up(part, straps, times.program, times.slice, times.pause).device;
    struct model model;
    model_power_up(&model, part, straps, times);
    for (size_t block = 0; block < POD_BLOCKS; block++) {
        device.locks[block] = model.locks[block] = (uint8_t)any_below(8);
    }
    lay_both(address, laid);
    for (unsigned i = 0; i < BOTH_CLOCKS; i++) {
        uint8_t answer = 0;
        const struct pod_clocked clocked = pod_clock(&device, image.bytes, POD_IMAGE_BYTES, laid[i]);
        const uint32_t number = model_step(&model, image.bytes, POD_IMAGE_BYTES, laid[i], &answer);
        if (number != POD_DONE || clocked.number != POD_DONE || clocked.answer != answer) {
            fault("address %08X, sample %u: expected answer %02X, found number %u and answer %02X", (unsigned)address,
                  i, answer, (unsigned)clocked.number, (unsigned)clocked.answer);
        }
    }
    if (memcmp(device.locks, model.locks, sizeof model.locks) != 0) {
        fault("address %08X: expected the locks of the model after a write, found others", (unsigned)address);
    }
    if (device.controller.mode != model.mode || device.controller.setup != model.setup) {
        fault("address %08X: expected mode %u and setup %u after a write, found %u and %u", (unsigned)address,
              model.mode, model.setup, device.controller.mode, device.controller.setup);
    }
}

/* Runs what has gathered in the stream. */
static void run_gathered(void)
{
    const size_t bytes = 2 * samples;
    const struct pod_report pod = pod_run(pod_image.bytes, POD_IMAGE_BYTES, stream, bytes, pod_answers, samples, part,
                                          straps, times.program, times.slice, times.pause);
    const struct model_report model =
        model_run(model_image.bytes, POD_IMAGE_BYTES, stream, bytes, model_answers, samples, part, straps, times);
    expect(POD_DONE, model.number, "number of a run of the model");
    expect(POD_DONE, pod.number, "number of a run");
    expect(model.samples, pod.samples, "samples of a run");
    expect(model.status, pod.status, "status after a run");
    expect(model.marks, pod.marks, "marks after a run");
    for (size_t i = 0; i < samples; i++) {
        if (pod_answers[i] != model_answers[i]) {
            fault("sample %zu of a run, in pair %zu of its frames: expected answer %02X, found %02X", i,
                  i / BOTH_CLOCKS, model_answers[i], pod_answers[i]);
            break;
        }
    }
    samples = 0;
}

/* The same read and write as a part of a run, from whatever state the frames before have left. */
static void gather_both(uint32_t address)
{
    uint16_t laid[BOTH_CLOCKS];
    if (samples + BOTH_CLOCKS > RUN_SAMPLES) {
        run_gathered();
    }
    lay_both(address, laid);
    for (size_t i = 0; i < BOTH_CLOCKS; i++) {
        sample_put(stream, samples++, laid[i]);
    }
}

static uint32_t register_address(uint32_t which)
{
    const uint32_t codes = codes_address(part, straps);
    const uint32_t own[] = { inputs_address(part, straps), codes, codes + 1 };
    return which < POD_BLOCKS ? lock_address(part, straps, which) : own[which - POD_BLOCKS];
}

/* Every address near a register, and each with each one of its bits flipped; and the two ends. */
static void each_near(void (*try)(uint32_t address))
{
    const unsigned bits = part == POD_PART_LPC ? 32 : 28;
    try(0);
    try(address_most(part));
    for (uint32_t which = 0; which < REGISTERS; which++) {
        for (uint32_t step = 0; step <= 2 * NEAR; step++) {
            const uint32_t address = register_address(which) - NEAR + step;
            try(address);
            for (unsigned bit = 0; bit < bits; bit++) {
                try(address ^ 1u << bit);
            }
        }
    }
}

static void each_random(void (*try)(uint32_t address))
{
    for (uint32_t i = 0; i < RANDOM; i++) {
        try(any_below(ADDRESS_MOST + 1));
    }
}

/* Any 32 bits, and any 23 below those that all have to be 1: a quarter of these is the part's. */
static void each_random_lpc(void (*try)(uint32_t address))
{
    for (uint32_t i = 0; i < LPC_RANDOM; i++) {
        const uint32_t low = any_below(0x10000);
        try(any_below(0x10000) << 16 | low);
        try(ADDRESS_LPC_HIGH | any_below(0x800000));
    }
}

/* The first few addresses of each block, a lock register's among them, in the windows of all straps: first those of
 * registers, then those of the array. */
static void each_window(void (*try)(uint32_t address))
{
    for (uint32_t window = 0; window < 8; window++) {
        for (uint32_t block = 0; block < POD_BLOCKS; block++) {
            for (uint32_t low = 0; low <= 2 * NEAR; low++) {
                try(ADDRESS_LPC_HIGH + window * POD_IMAGE_BYTES + block * POD_BLOCK_BYTES + low);
            }
        }
    }
}

static void test_near(void)
{
    check_group("addresses: near the registers and with one bit flipped, straps %u, step by step", (unsigned)straps);
    for (unsigned turn = 0; turn < TURNS; turn++) {
        each_near(step_both);
    }
    check_group("addresses: near the registers and with one bit flipped, straps %u, in runs", (unsigned)straps);
    for (unsigned turn = 0; turn < TURNS; turn++) {
        each_near(gather_both);
    }
    run_gathered();
}

static void test_fwh(void)
{
    part = POD_PART_FWH;
    straps = FWH_STRAPS;
    check_about("FWH");
    test_near();
    check_group("addresses: a million of any 28 bits, step by step");
    each_random(step_both);
    check_group("addresses: a million of any 28 bits, in runs");
    each_random(gather_both);
    run_gathered();
}

static void test_lpc(void)
{
    part = POD_PART_LPC;
    check_about("LPC");
    for (straps = 0; straps <= POD_LPC_STRAPS_MOST; straps++) {
        test_near();
        check_group("addresses: every window, straps %u", (unsigned)straps);
        each_window(step_both);
        each_window(gather_both);
        run_gathered();
        check_group("addresses: many of any bits, straps %u, step by step", (unsigned)straps);
        each_random_lpc(step_both);
        check_group("addresses: many of any bits, straps %u, in runs", (unsigned)straps);
        each_random_lpc(gather_both);
        run_gathered();
    }
}

int main(void)
{
    image = lent_new(POD_IMAGE_BYTES);
    pod_image = lent_new(POD_IMAGE_BYTES);
    model_image = lent_new(POD_IMAGE_BYTES);
    lent_fill_with_any(&image);
    memcpy(pod_image.bytes, image.bytes, POD_IMAGE_BYTES);
    memcpy(model_image.bytes, image.bytes, POD_IMAGE_BYTES);

    test_fwh();
    test_lpc();
    lent_stands(&image, "the image after single writes");
    expect(0, memcmp(pod_image.bytes, model_image.bytes, POD_IMAGE_BYTES) != 0, "whether the images differ");
    lent_is_guarded(&pod_image, "the image of the runs");

    lent_free(&image);
    lent_free(&pod_image);
    lent_free(&model_image);
    return check_end("address_test");
}
