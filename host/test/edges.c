/* Drawing devices, samples and frames near the edges of their ranges. */
#include "test/edges.h"

#include "bus/commands.h"
#include "bus/pins.h"
#include "test/any.h"
#include "test/fields.h"
#include "test/scope.h"
#include "test/tested.h"

static struct pod_frame edge_frame(void)
{
    const uint8_t kind = (uint8_t)(POD_FRAME_READ + any_below(any_below(8) == 0 ? 3 : 2));
    const uint8_t clock = (uint8_t)(1 + any_below(kind == POD_FRAME_BEGUN ? 2 : FRAME_MOST_CLOCKS));
    const uint32_t address =
        any_below(2) != 0 ? in_array(any_below(POD_IMAGE_BYTES)) : in_lock(any_below(POD_BLOCKS));
    return (struct pod_frame){ .kind = kind, .clock = clock, .byte = (uint8_t)any_below(256), .address = address };
}

struct pod_device edge_device(void)
{
    static const uint32_t values[] = { 0, 1, 2, 3, 15, 16, 17, 18, 33, 34, 255, 256, 257, 330, 660, 661, 9900,
                                       0xFFFFF, 0x100000, 0xFFFFFFF, 0xFFFFFFFF };
    struct pod_device device = device_in((enum condition)any_below(CONDITIONS));
    struct pod_controller *controller = &device.controller;
    if (any_below(2) != 0) {
        device.frame = edge_frame();
    }
    if (any_below(2) != 0) {
        controller->outer.left = controller->inner.left = 1 + any_below(3);
    }
    if (any_below(2) != 0) {
        controller->outer.slices = 1 + any_below(3);
    }
    if (any_below(2) != 0) {
        controller->outer.pause = 1 + any_below(3);
    }
    controller->mode = (uint8_t)any_below(3);
    if (any_below(4) == 0) {
        controller->setup = (uint8_t)any_below(3);
    }
    for (uint32_t changes = any_below(3); changes > 0; changes--) {
        const size_t field = any_below(FIELDS);
        field_set(&device, field, values[any_below(sizeof values / sizeof values[0])]);
    }
    return device;
}

/* The mask once in so many times, otherwise none of it. */
static unsigned once_in(uint32_t times, unsigned mask)
{
    return any_below(times) == 0 ? mask : 0;
}

uint16_t edge_sample(void)
{
    const uint16_t sample = sample_with_voltage((uint16_t)any_below(0x10000), any_below(3));
    const unsigned all = POD_SAMPLE_RP | POD_SAMPLE_INIT | POD_SAMPLE_FRAME;
    const unsigned high = all & ~once_in(8, POD_SAMPLE_RP | POD_SAMPLE_INIT) & ~once_in(4, POD_SAMPLE_FRAME);
    return sample_set(sample, high, high);
}

/* An idle sample with any inputs, and seldom a pin or the voltage low. */
static uint16_t edge_idle(void)
{
    const unsigned low = once_in(8, POD_SAMPLE_TBL) | once_in(8, POD_SAMPLE_WP) | once_in(8, POD_SAMPLE_VOLTAGE);
    return sample_with_inputs(sample_set(POD_SAMPLE_IDLE, low, 0), any_below(32));
}

static size_t lay_wait(uint16_t idle, uint16_t samples[FRAME_MOST_CLOCKS])
{
    for (size_t i = 0; i < FRAME_MOST_CLOCKS; i++) {
        samples[i] = idle;
    }
    return FRAME_MOST_CLOCKS;
}

size_t edge_traffic(uint16_t samples[FRAME_MOST_CLOCKS])
{
    static const uint8_t commands[] = { COMMAND_ARRAY,   COMMAND_STATUS,      COMMAND_SIGNATURE, COMMAND_CLEAR,
                                        COMMAND_PROGRAM, COMMAND_PROGRAM_TOO, COMMAND_ERASE,     COMMAND_SUSPEND,
                                        COMMAND_RESUME,  COMMAND_RESUME,      COMMAND_SUSPEND,   0x00 };
    const uint16_t idle = edge_idle();
    const uint32_t block = 13 + any_below(3);
    const uint32_t address = in_array(POD_BLOCK_BYTES * block + any_below(2));
    const uint32_t kind = any_below(8);
    struct frame frame = write_of(address, commands[any_below(sizeof commands)]);
    if (kind == 0) {
        frame = read_of(any_below(2) != 0 ? address : in_lock(any_below(POD_BLOCKS)), 0);
    } else if (kind == 1) {
        frame = write_of(in_lock(block), any_below(4) != 0 ? 0 : any_below(8));
    }
    const size_t clocks = kind == 2 ? lay_wait(idle, samples) : frame_lay(&frame, idle, samples);
    samples[0] = sample_set(samples[0], once_in(400, POD_SAMPLE_RP), 0);
    return any_below(16) == 0 ? 1 + any_below((uint32_t)clocks) : clocks;
}
