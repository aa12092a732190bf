/* What the host of a trace does on the bus. */
#include "diff/traffic.h"

#include "bus/pins.h"
#include "diff/choices.h"
#include "diff/random.h"
#include "diff/sides.h"
#include "diff/trace.h"
#include "pod.h"

enum { INPUTS_BELOW = 1 << 5, UNBROKEN = 0 };

void change_pins(void)
{
    switch (rnd(5)) {
    case 0:
        trace.pins ^= POD_SAMPLE_TBL;
        break;
    case 1:
        trace.pins ^= POD_SAMPLE_WP;
        break;
    case 2:
    case 3:
        trace.pins = sample_with_voltage(trace.pins, rnd(POD_VOLTAGE_TWELVE + 1));
        break;
    default:
        trace.pins = sample_with_inputs(trace.pins, rnd(INPUTS_BELOW));
        break;
    }
}

void good_pins(void)
{
    trace.pins = sample_with_voltage(trace.pins, one_in(5) ? POD_VOLTAGE_TWELVE : POD_VOLTAGE_NORMAL);
    trace.pins |= POD_SAMPLE_TBL | POD_SAMPLE_WP;
}

uint16_t next_sample(unsigned lines)
{
    if (trace.nervous != 0 && one_in(trace.nervous)) {
        change_pins();
    }
    return sample_with_lines(trace.pins, lines);
}

void idle(uint32_t clocks)
{
    for (uint32_t i = 0; i < clocks && trace.done < trace.length; i++) {
        tick(next_sample(one_in(4) ? rnd(16) : FRAME_TURNAROUND));
    }
}

void lay_clock(const struct frame *frame, unsigned clock)
{
    tick(frame_sample(frame, clock, next_sample(FRAME_TURNAROUND)));
}

/* A low frame line inside a frame, often one that begins another. */
static void break_off(void)
{
    const unsigned start = model.part == POD_PART_LPC ? FRAME_START_LPC : FRAME_START_READ + rnd(2);
    const unsigned lines = one_in(2) ? rnd(16) : one_in(2) ? FRAME_TURNAROUND : start;
    tick(frame_break(next_sample(FRAME_TURNAROUND), lines));
}

/* broken: the clock on which the frame line is low again. */
static void lay_broken(struct frame frame, unsigned broken)
{
    frame.turn = (uint8_t)(one_in(3) ? rnd(16) : FRAME_TURNAROUND);
    for (unsigned clock = 1; clock <= frame_clocks(&frame); clock++) {
        if (clock != broken) {
            lay_clock(&frame, clock);
            continue;
        }
        break_off();
        if (one_in(2)) {
            return; /* else the host goes on as if nothing had happened */
        }
    }
}

void lay_frame(struct frame frame)
{
    lay_broken(frame, UNBROKEN);
}

static void send_odd(struct frame frame)
{
    switch (rnd(8)) {
    case 0:
        frame.select = (uint8_t)rnd(16);
        break;
    case 1:
        frame.select = (uint8_t)(frame.select ^ 1u << rnd(4));
        break;
    case 2:
        if (frame.part == POD_PART_LPC) {
            frame.address = flip_high_bit(frame.address);
        } else {
            frame.size = (uint8_t)rnd(16);
        }
        break;
    case 3:
        frame.start = (uint8_t)rnd(16);
        break;
    default:
        lay_broken(frame, 2 + rnd(frame_clocks(&frame) - 1));
        return;
    }
    lay_frame(frame);
}

static void send_frame(struct frame frame, uint32_t odd)
{
    if (frame.part == POD_PART_LPC && one_in(3)) {
        frame.select |= FRAME_TYPE_FREE;
    }
    if (one_in(odd)) {
        send_odd(frame);
    } else {
        lay_frame(frame);
    }
}

void send_read(uint32_t address, uint32_t odd)
{
    send_frame(frame_read(model.part, model.straps, address), odd);
}

void send_write(uint32_t address, uint8_t byte, uint32_t odd)
{
    send_frame(frame_write(model.part, model.straps, address, byte), odd);
}

void reset_device(void)
{
    const unsigned low = one_in(3)   ? POD_SAMPLE_RP
                         : one_in(2) ? POD_SAMPLE_INIT
                                     : POD_SAMPLE_RP | POD_SAMPLE_INIT;
    const uint32_t clocks = one_in(4) ? 1 + rnd(4) : 1;
    for (uint32_t i = 0; i < clocks; i++) {
        const unsigned frame_low = one_in(4) ? POD_SAMPLE_FRAME : 0;
        tick(sample_set(next_sample(rnd(16)), low | frame_low, 0));
    }
}

void garbage(void)
{
    const uint32_t clocks = 1 + rnd(60);
    for (uint32_t i = 0; i < clocks; i++) {
        uint16_t sample = (uint16_t)rnd(65536);
        if (sample_voltage(sample) > POD_VOLTAGE_TWELVE) {
            sample = sample_with_voltage(sample, POD_VOLTAGE_TWELVE);
        }
        if (!one_in(40)) {
            sample |= POD_SAMPLE_RP | POD_SAMPLE_INIT;
        }
        tick(sample);
    }
}
