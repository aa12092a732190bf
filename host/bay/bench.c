/* Frames and rests on one part. */
#include "bay/bench.h"

#include "bus/frames.h"
#include "bus/pins.h"

void bench_power_up(struct bench *bench, const struct settings *settings)
{
    struct pod_powered up =
        pod_power_up(settings->part, settings->straps, settings->program, settings->slice, settings->pause);
    bench->device = up.device;
    bench->refusal = up.number;
    bench->clock = 0;
    if (up.number == POD_DONE) {
        /* no sample is taken, but image and pins are looked at */
        bench->refusal = pod_settle(up.device, bench->image, bench->image_length, bench->idle, 0).number;
    }
}

/* Lays one frame and gives the byte that the device drove where a read has its data. */
static uint8_t lay(struct bench *bench, const struct frame *frame)
{
    uint16_t samples[FRAME_MOST_CLOCKS];
    uint32_t answers[FRAME_MOST_CLOCKS] = { 0 };
    size_t clocks = frame_lay(frame, bench->idle, samples);
    for (size_t i = 0; i < clocks && bench->refusal == POD_DONE; i++) {
        struct pod_clocked clocked = pod_clock(&bench->device, bench->image, bench->image_length, samples[i]);
        bench->refusal = clocked.number;
        bench->clock++;
        answers[i] = clocked.answer;
    }
    return frame_byte(answers[FRAME_CLOCK_READ - 1], answers[FRAME_CLOCK_READ]);
}

uint8_t bench_read(struct bench *bench, uint32_t address)
{
    struct frame frame = frame_read(bench->device.part, bench->device.straps, address);
    return lay(bench, &frame);
}

void bench_write(struct bench *bench, uint32_t address, uint8_t byte)
{
    struct frame frame = frame_write(bench->device.part, bench->device.straps, address, byte);
    (void)lay(bench, &frame);
}

/* Rests until the part is ready or the clocks are over; gives the clocks that were not needed. Frames are laid whole,
 * so none is in progress here. */
static uint64_t rest_while_busy(struct bench *bench, uint64_t clocks)
{
    while (clocks > 0 && bench->refusal == POD_DONE) {
        uint32_t limit = clocks < UINT32_MAX ? (uint32_t)clocks : UINT32_MAX;
        struct pod_settled settled = pod_settle(bench->device, bench->image, bench->image_length, bench->idle, limit);
        if (settled.number != POD_DONE && settled.number != POD_STILL_BUSY) {
            bench->refusal = settled.number;
            return 0;
        }
        bench->device = settled.device;
        bench->clock += settled.count;
        clocks -= settled.count;
        if (settled.number == POD_DONE) {
            break;
        }
    }
    return clocks;
}

void bench_rest(struct bench *bench, uint64_t clocks)
{
    /* a part that is ready, with an idle bus, is the same after any number of clocks */
    bench->clock += rest_while_busy(bench, clocks);
}

void bench_settle(struct bench *bench)
{
    (void)rest_while_busy(bench, UINT64_MAX);
}
