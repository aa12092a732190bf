/* Two devices stepped side by side. */
#include "test/rig.h"

#include "test/check.h"
#include "test/compare.h"
#include "test/tested.h"

#include <string.h>

struct rig rig;

void rig_open(void)
{
    rig.image = lent_new(POD_IMAGE_BYTES + 1);
    rig.twin_image = lent_new(POD_IMAGE_BYTES + 1);
    rig.twin_device = lent_new(sizeof(struct pod_device));
    rig.twin = (struct pod_device *)(void *)rig.twin_device.bytes;
    lent_fill_with_any(&rig.image);
    memcpy(rig.twin_image.bytes, rig.image.bytes, rig.image.length);
}

void rig_close(void)
{
    lent_free(&rig.image);
    lent_free(&rig.twin_image);
    lent_free(&rig.twin_device);
    rig.twin = NULL;
}

void rig_set(struct pod_device device)
{
    rig.now = device;
    *rig.twin = device;
}

void rig_power_up(uint32_t program, uint32_t slice, uint32_t pause)
{
    const struct pod_powered powered = pod_power_up(tested.part, tested.straps, program, slice, pause);
    expect(POD_DONE, powered.number, "power up");
    rig_set(powered.device);
}

uint32_t rig_clock(uint16_t sample)
{
    const struct pod_stepped stepped = pod_step(rig.now, rig.image.bytes, POD_IMAGE_BYTES, sample);
    const struct pod_clocked clocked = pod_clock(rig.twin, rig.twin_image.bytes, POD_IMAGE_BYTES, sample);
    expect(POD_DONE, stepped.number, "number of the step by value");
    expect(stepped.number, clocked.number, "number of the step in place beside that by value");
    expect(stepped.answer, clocked.answer, "answer of the step in place beside that by value");
    expect_device(&stepped.device, rig.twin, "the step in place beside that by value");
    rig.now = stepped.device;
    return stepped.answer;
}

void rig_clock_dark(uint16_t sample, uint32_t clocks)
{
    for (uint32_t i = 0; i < clocks; i++) {
        expect(0, rig_clock(sample), "answer of a clock with nothing to drive");
    }
}

void rig_idle(uint32_t clocks)
{
    rig_clock_dark(POD_SAMPLE_IDLE, clocks);
}

void rig_play(const uint16_t *samples, unsigned first, unsigned last, const struct frame *frame)
{
    for (unsigned clock = first; clock <= last; clock++) {
        const uint32_t wanted = frame == NULL ? 0 : frame_answer(frame, clock);
        expect(wanted, rig_clock(samples[clock - 1]), "answer on clock %u of a frame", clock);
    }
}

void rig_play_frame(const struct frame *frame, uint16_t idle, unsigned first, unsigned last)
{
    uint16_t samples[FRAME_MOST_CLOCKS];
    frame_lay(frame, idle, samples);
    rig_play(samples, first, last, frame);
}

uint32_t rig_read_over(uint16_t idle, uint32_t address)
{
    struct frame frame = frame_read(rig.now.part, rig.now.straps, address);
    rig_play_frame(&frame, idle, 1, FRAME_CLOCK_READ - 1);
    const uint32_t low = rig_clock(frame_sample(&frame, FRAME_CLOCK_READ, idle));
    const uint32_t high = rig_clock(frame_sample(&frame, FRAME_CLOCK_READ + 1, idle));
    frame.byte = frame_byte(low, high);
    expect(frame_answer(&frame, FRAME_CLOCK_READ), low, "answer on clock 16 of a read");
    expect(frame_answer(&frame, FRAME_CLOCK_READ + 1), high, "answer on clock 17 of a read");
    rig_play_frame(&frame, idle, FRAME_CLOCK_READ + 2, FRAME_READ_CLOCKS);
    return frame.byte;
}

uint32_t rig_read(uint32_t address)
{
    return rig_read_over(POD_SAMPLE_IDLE, address);
}

static void write_clocks(uint16_t idle, uint32_t address, uint32_t data, unsigned clocks)
{
    const struct frame frame = frame_write(rig.now.part, rig.now.straps, address, (uint8_t)data);
    rig_play_frame(&frame, idle, 1, clocks);
}

void rig_begin_write(uint32_t address, uint32_t data, unsigned clocks)
{
    write_clocks(POD_SAMPLE_IDLE, address, data, clocks);
}

void rig_write_over(uint16_t idle, uint32_t address, uint32_t data)
{
    write_clocks(idle, address, data, FRAME_WRITE_CLOCKS);
}

void rig_write(uint32_t address, uint32_t data)
{
    rig_write_over(POD_SAMPLE_IDLE, address, data);
}

void rig_write_and_act(uint32_t address, uint32_t data)
{
    rig_begin_write(address, data, FRAME_CLOCK_ACT);
}

void rig_drop_frame(void)
{
    rig_clock_dark(frame_break(POD_SAMPLE_IDLE, FRAME_TURNAROUND), 1);
}

void rig_images_stand(void)
{
    memcpy(rig.twin_image.wanted, rig.image.wanted, rig.image.length);
    if (!lent_stands(&rig.image, "image stepped by value")) {
        memcpy(rig.image.bytes, rig.image.wanted, rig.image.length);
    }
    if (!lent_stands(&rig.twin_image, "image stepped in place")) {
        memcpy(rig.twin_image.bytes, rig.image.wanted, rig.image.length);
    }
    lent_is_guarded(&rig.twin_device, "device in place");
}

void rig_images_agree(void)
{
    memcpy(rig.image.wanted, rig.image.bytes, rig.image.length);
    rig_images_stand();
}

void rig_put(uint32_t place, uint32_t count, uint32_t value)
{
    lent_fill(&rig.image, place, count, (uint8_t)value);
    memset(rig.twin_image.bytes + place, (int)value, count);
}

void rig_will_hold(uint32_t place, uint32_t count, uint32_t value)
{
    memset(rig.image.wanted + place, (int)value, count);
}

void rig_expect_byte(uint32_t place, uint32_t value, const char *when)
{
    rig_will_hold(place, 1, value);
    expect(value, rig.image.bytes[place], "byte %X %s", place, when);
    expect(value, rig.twin_image.bytes[place], "byte %X %s, in place", place, when);
}
