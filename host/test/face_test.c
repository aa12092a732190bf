/* Tests two promises of pod.h: that a pointer whose length is 0 is not looked at, and that its names stand for what the
 * part does. */
#include "bus/addresses.h"
#include "bus/pins.h"
#include "test/check.h"
#include "test/compare.h"
#include "test/lent.h"
#include "test/scope.h"
#include "test/tested.h"

#include <string.h>

static struct lent image, page, stream, answers;
static struct lent nothing; /* a valid pointer to no bytes */
static uint8_t *const nowhere = NULL;

static const struct asked usual = { .program = 10, .slice = 3906, .pause = 30 };

/* ---- A null pointer with length 0. */

static void expect_settled(const struct pod_settled *wanted, const struct pod_settled *found, const char *what)
{
    expect(wanted->number, found->number, "%s: number", what);
    expect(wanted->count, found->count, "%s: count", what);
    expect_device(&wanted->device, &found->device, what);
}

static void expect_part(struct pod_part wanted, struct pod_part found, const char *what)
{
    expect(wanted.from, found.from, "%s: from", what);
    expect(wanted.start, found.start, "%s: start", what);
    expect(wanted.length, found.length, "%s: length", what);
}

static void expect_report(struct pod_report wanted, struct pod_report found, const char *what)
{
    expect(wanted.number, found.number, "%s: number", what);
    expect(wanted.samples, found.samples, "%s: samples", what);
    expect(wanted.status, found.status, "%s: status", what);
    expect(wanted.marks, found.marks, "%s: marks", what);
}

/* The calls that take one device and one image. */
static void test_null_image(struct pod_device device, uint16_t sample)
{
    const struct pod_stepped wanted = pod_step(device, nothing.bytes, 0, sample);
    const struct pod_stepped stepped = pod_step(device, nowhere, 0, sample);
    expect(is_sound(&device) ? POD_REFUSED_IMAGE : POD_REFUSED_DEVICE, stepped.number, "a step with no image");
    expect(wanted.number, stepped.number, "number of a step");
    expect(wanted.answer, stepped.answer, "answer of a step");
    expect_device(&wanted.device, &stepped.device, "device of a step");

    struct pod_device kept = device, other = device;
    const struct pod_clocked wanted_clock = pod_clock(&kept, nothing.bytes, 0, sample);
    const struct pod_clocked clocked = pod_clock(&other, nowhere, 0, sample);
    expect(wanted_clock.number, clocked.number, "number of a clock");
    expect(wanted_clock.answer, clocked.answer, "answer of a clock");
    expect_device(&kept, &other, "device of a clock");

    for (uint32_t limit = 0; limit <= 2; limit++) {
        const struct pod_settled wanted_rest = pod_settle(device, nothing.bytes, 0, sample, limit);
        const struct pod_settled settled = pod_settle(device, nowhere, 0, sample, limit);
        expect_settled(&wanted_rest, &settled, "settle");
    }
}

/* An image and a page, each of them good, of length 0, or null. */
static void test_null_view(struct pod_device device, uint32_t block)
{
    const struct pod_part wanted = pod_view(device, nothing.bytes, 0, page.bytes, page.length, block);
    expect_part(wanted, pod_view(device, nowhere, 0, page.bytes, page.length, block), "view of a null image");
    const struct pod_part without = pod_view(device, image.bytes, image.length, nothing.bytes, 0, block);
    expect_part(without, pod_view(device, image.bytes, image.length, nowhere, 0, block), "view of a null page");
    const struct pod_part neither = pod_view(device, nothing.bytes, 0, nothing.bytes, 0, block);
    expect_part(neither, pod_view(device, nowhere, 0, nowhere, 0, block), "view of a null image and a null page");
}

/* One of the buffers of a run: as it is, or nothing of it by a valid or by a null pointer. */
static struct lent as_lent(const struct lent *whole, bool is_empty, bool is_null)
{
    if (!is_empty) {
        return *whole;
    }
    return (struct lent){ .bytes = is_null ? nowhere : nothing.bytes, .wanted = NULL, .length = 0 };
}

static struct pod_report run(uint32_t straps, const struct lent *lent_image, const struct lent *lent_stream,
                             const struct lent *lent_answers)
{
    return pod_run(lent_image->bytes, lent_image->length, lent_stream->bytes, lent_stream->length, lent_answers->bytes,
                   lent_answers->length, tested.part, straps, usual.program, usual.slice, usual.pause);
}

/* A run with some of its buffers empty: the bits of `empty` are image, stream and answers. */
static void test_null_run(unsigned empty, uint32_t straps)
{
    const struct lent longest = { .bytes = stream.bytes, .wanted = NULL, .length = POD_STREAM_BYTES };
    struct lent lent[2][3];
    for (unsigned is_null = 0; is_null < 2; is_null++) {
        lent[is_null][0] = as_lent(&image, (empty & 1) != 0, is_null != 0);
        lent[is_null][1] = as_lent(&longest, (empty & 2) != 0, is_null != 0);
        lent[is_null][2] = as_lent(&answers, (empty & 4) != 0, is_null != 0);
    }
    const struct pod_report wanted = run(straps, &lent[0][0], &lent[0][1], &lent[0][2]);
    for (unsigned null = 0; null < 8; null++) {
        const unsigned i = null & 1, s = null >> 1 & 1, a = null >> 2;
        expect_report(wanted, run(straps, &lent[i][0], &lent[s][1], &lent[a][2]), "run with null buffers");
    }
}

static void test_null_sheets(void)
{
    const struct pod_sheet wanted = pod_sheet_read(nothing.bytes, 0), found = pod_sheet_read(nowhere, 0);
    expect(POD_REFUSED_SHEET, found.number, "a null sheet read");
    expect(wanted.number, found.number, "number of a sheet read");
    expect(wanted.straps, found.straps, "straps of a sheet read");
    expect(wanted.program, found.program, "program time of a sheet read");
    expect(wanted.slice, found.slice, "slice time of a sheet read");
    expect(wanted.pause, found.pause, "pause time of a sheet read");
    for (uint32_t straps = 0; straps <= POD_STRAPS_MOST + 1; straps++) {
        for (uint32_t pause = 0; pause <= POD_PAUSE_MOST + 1; pause++) {
            const uint32_t number = pod_sheet_write(nothing.bytes, 0, straps, 10, 3906, pause);
            expect(number, pod_sheet_write(nowhere, 0, straps, 10, 3906, pause), "sheet write to a null buffer");
        }
    }
    expect(POD_REFUSED_ROOM, pod_sheet_write(nowhere, 0, 0, 10, 3906, 30), "sheet write to a null buffer");
}

static void test_null_pointers(void)
{
    static const uint16_t samples[] = { POD_SAMPLE_IDLE, POD_SAMPLE_IDLE & ~POD_SAMPLE_RP,
                                        POD_SAMPLE_IDLE | POD_SAMPLE_VOLTAGE, 0 };
    check_group("a null pointer with length 0");
    for (enum condition condition = IS_READY; condition < CONDITIONS; condition++) {
        struct pod_device device = device_in(condition);
        for (size_t i = 0; i < sizeof samples / sizeof samples[0]; i++) {
            device.straps = (uint8_t)tested.straps;
            test_null_image(device, samples[i]);
            device.straps = POD_STRAPS_MOST + 1;
            test_null_image(device, samples[i]);
        }
        for (uint32_t block = 0; block <= POD_BLOCKS; block++) {
            device.straps = (uint8_t)tested.straps;
            set_locks(&device, block % 2 == 0 ? 0 : POD_LOCK_READ);
            test_null_view(device, block);
            device.straps = POD_STRAPS_MOST + 1;
            test_null_view(device, block);
        }
    }
    for (unsigned empty = 0; empty < 8; empty++) {
        test_null_run(empty, 0);
        test_null_run(empty, POD_STRAPS_MOST + 1);
    }
    const struct pod_report wanted = { .number = POD_DONE, .samples = 0, .status = 0x80, .marks = 0 };
    const struct lent none = { .bytes = nowhere, .wanted = NULL, .length = 0 };
    expect_report(wanted, run(0, &image, &none, &none), "run with an empty stream and empty answers");
    memset(answers.wanted, 0, POD_STREAM_BYTES / 2); /* from the run whose buffers are all there */
    lent_stands(&image, "image");
    lent_stands(&page, "page");
    lent_stands(&stream, "stream");
    lent_stands(&answers, "answers");
    lent_is_guarded(&nothing, "buffer of no bytes");
}

/* ---- Names. */

static uint32_t reached; /* bit n: a call that names refusal n gave it */

static void expect_refusal(uint32_t wanted, uint32_t found, const char *call)
{
    if (expect(wanted, found, "refusal of %s", call)) {
        reached |= 1u << wanted;
    }
}

static uint32_t run_number(uint32_t part, uint32_t straps, uint32_t pause, size_t image_length, size_t stream_length,
                           size_t room)
{
    return pod_run(image.bytes, image_length, stream.bytes, stream_length, answers.bytes, room, part, straps, 10, 3906,
                   pause)
        .number;
}

/* A device that is not sound, since its straps are above the most. */
static struct pod_device unsound_device(void)
{
    struct pod_device device = device_in(IS_READY);
    device.straps = (uint8_t)(straps_most(tested.part) + 1);
    return device;
}

/* What is no part at all: refused before the times, and by run behind the image. The device is the plain one. */
static void test_parts_refused(void)
{
    static const uint32_t parts[] = { POD_PART_LPC + 1, 255, 256, 257, 65536, UINT32_MAX - 1, UINT32_MAX };
    const struct pod_device plain = pod_power_up(POD_PART_FWH, 0, usual.program, usual.slice, usual.pause).device;
    for (size_t i = 0; i < sizeof parts / sizeof parts[0]; i++) {
        for (uint32_t straps = 0; straps <= POD_STRAPS_MOST + 1; straps++) {
            const struct pod_powered up = pod_power_up(parts[i], straps, 10, 3906, straps % 2);
            expect_refusal(POD_REFUSED_STRAPS, up.number, "power up of no part");
            expect_device(&plain, &up.device, "the device of a power up of no part");
        }
        const size_t all = POD_IMAGE_BYTES;
        expect_refusal(POD_REFUSED_STRAPS, run_number(parts[i], 0, 30, all, 2, 1), "run of no part");
        expect_refusal(POD_REFUSED_STRAPS, run_number(parts[i], 0, 0, all, 3, 0), "run of no part");
        expect_refusal(POD_REFUSED_IMAGE, run_number(parts[i], 0, 30, all - 1, 2, 1), "run of no part");
    }
    const struct pod_powered up = pod_power_up(POD_PART_LPC, POD_LPC_STRAPS_MOST + 1, 1, 1, 1);
    expect_device(&plain, &up.device, "the device of a power up of LPC that is refused");
    struct pod_device device = plain;
    device.part = POD_PART_LPC + 1;
    expect_refusal(POD_REFUSED_DEVICE, pod_set_times(device, 1, 1, 1).number, "set times of no part");
    device.part = UINT8_MAX;
    expect_refusal(POD_REFUSED_DEVICE, pod_set_times(device, 1, 1, 1).number, "set times of no part");
}

static void test_numbers_refused(void)
{
    const uint32_t p = POD_PROGRAM_MOST, s = POD_SLICE_MOST, z = POD_PAUSE_MOST, part = tested.part;
    struct lent sheet = lent_new(POD_SHEET_BYTES);
    expect(POD_DONE, pod_power_up(part, straps_most(part), p, s, z).number, "power up with the most of all");
    expect(POD_DONE, pod_power_up(part, 0, 1, 1, 1).number, "power up with the least of all");
    expect_refusal(POD_REFUSED_STRAPS, pod_power_up(part, straps_most(part) + 1, p, s, z).number, "power up");
    expect_refusal(POD_REFUSED_STRAPS, pod_power_up(part, UINT32_MAX, p, s, z).number, "power up");
    expect_refusal(POD_REFUSED_STRAPS, pod_power_up(part, straps_most(part) + 1, p, s, 0).number, "power up");
    expect_refusal(POD_REFUSED_TIMES, pod_power_up(part, 0, p + 1, s, z).number, "power up");
    expect_refusal(POD_REFUSED_TIMES, pod_power_up(part, 0, p, s + 1, z).number, "power up");
    expect_refusal(POD_REFUSED_TIMES, pod_power_up(part, 0, p, s, z + 1).number, "power up");
    expect_refusal(POD_REFUSED_TIMES, pod_power_up(part, 0, 0, s, z).number, "power up");
    expect_refusal(POD_REFUSED_DEVICE, pod_set_times(unsound_device(), p, s, z).number, "set times");
    expect_refusal(POD_REFUSED_TIMES, pod_set_times(device_in(IS_READY), 0, s, z).number, "set times");

    expect_refusal(POD_REFUSED_STRAPS, pod_sheet_write(sheet.bytes, sheet.length, 16, p, s, z), "sheet write");
    expect_refusal(POD_REFUSED_TIMES, pod_sheet_write(sheet.bytes, sheet.length, 0, p, s, 0), "sheet write");
    expect_refusal(POD_REFUSED_ROOM, pod_sheet_write(sheet.bytes, POD_SHEET_BYTES - 1, 0, p, s, z), "sheet write");
    expect(POD_DONE, pod_sheet_write(sheet.bytes, sheet.length, POD_STRAPS_MOST, p, s, z), "sheet write");
    expect(POD_DONE, pod_sheet_read(sheet.bytes, sheet.length).number, "sheet read");
    expect_refusal(POD_REFUSED_SHEET, pod_sheet_read(sheet.bytes, POD_SHEET_BYTES - 1).number, "sheet read");
    sheet.bytes[POD_SHEET_BYTES - 2] = POD_PAUSE_MOST + 1;
    expect_refusal(POD_REFUSED_TIMES, pod_sheet_read(sheet.bytes, sheet.length).number, "sheet read");
    sheet.bytes[3] = POD_STRAPS_MOST + 1; /* a sheet is FWH's, whatever part is tested */
    expect_refusal(POD_REFUSED_STRAPS, pod_sheet_read(sheet.bytes, sheet.length).number, "sheet read");
    lent_is_guarded(&sheet, "sheet");
    lent_free(&sheet);
}

static void test_clocks_refused(void)
{
    const uint16_t idle = POD_SAMPLE_IDLE, bad = POD_SAMPLE_IDLE | POD_SAMPLE_VOLTAGE;
    const struct pod_device ready = device_in(IS_READY), unsound = unsound_device();
    const size_t all = POD_IMAGE_BYTES;
    expect_refusal(POD_REFUSED_DEVICE, pod_step(unsound, image.bytes, all, idle).number, "step");
    expect_refusal(POD_REFUSED_IMAGE, pod_step(ready, image.bytes, all - 1, idle).number, "step");
    expect_refusal(POD_REFUSED_VOLTAGE, pod_step(ready, image.bytes, all, bad).number, "step");

    struct pod_device device = unsound;
    expect_refusal(POD_REFUSED_DEVICE, pod_clock(&device, image.bytes, all, idle).number, "clock");
    device = ready;
    expect_refusal(POD_REFUSED_IMAGE, pod_clock(&device, image.bytes, all - 1, idle).number, "clock");
    expect_refusal(POD_REFUSED_VOLTAGE, pod_clock(&device, image.bytes, all, bad).number, "clock");
    expect_device(&ready, &device, "the device of a clock refused");

    static const uint16_t lows[] = { POD_SAMPLE_FRAME, POD_SAMPLE_RP, POD_SAMPLE_INIT };
    expect_refusal(POD_REFUSED_DEVICE, pod_settle(unsound, image.bytes, all, idle, 1).number, "settle");
    expect_refusal(POD_REFUSED_IMAGE, pod_settle(ready, image.bytes, all - 1, idle, 1).number, "settle");
    expect_refusal(POD_REFUSED_VOLTAGE, pod_settle(ready, image.bytes, all, bad, 1).number, "settle");
    for (size_t i = 0; i < sizeof lows / sizeof lows[0]; i++) {
        const uint16_t low = sample_set(idle, lows[i], 0);
        expect_refusal(POD_REFUSED_SAMPLE, pod_settle(ready, image.bytes, all, low, 1).number, "settle");
    }
    const struct pod_settled busy = pod_settle(device_in(PROGRAM_RUNS), image.bytes, all, idle, 1);
    expect_refusal(POD_STILL_BUSY, busy.number, "settle");
    expect(1, busy.count, "clocks of a settle that is still busy");
}

static void test_runs_refused(void)
{
    const uint32_t part = tested.part;
    const size_t all = POD_IMAGE_BYTES, longest = POD_STREAM_BYTES, room = POD_STREAM_BYTES / 2;
    expect(POD_DONE, run_number(part, 0, 30, all, longest, room), "the longest run");
    expect(POD_DONE, run_number(part, straps_most(part), 30, all, longest, room), "the same with the most straps");
    expect_refusal(POD_REFUSED_IMAGE, run_number(part, 0, 30, all - 1, longest, room), "run");
    expect_refusal(POD_REFUSED_STRAPS, run_number(part, straps_most(part) + 1, 30, all, longest, room), "run");
    expect_refusal(POD_REFUSED_TIMES, run_number(part, 0, 0, all, longest, room), "run");
    expect_refusal(POD_REFUSED_STREAM, run_number(part, 0, 30, all, longest - 1, room), "run");
    expect_refusal(POD_REFUSED_STREAM, run_number(part, 0, 30, all, longest + 2, room + 1), "run");
    expect_refusal(POD_REFUSED_ROOM, run_number(part, 0, 30, all, longest, room - 1), "run");
    const uint16_t last = sample_at(stream.bytes, room - 1);
    sample_put(stream.bytes, room - 1, last | POD_SAMPLE_VOLTAGE);
    expect_refusal(POD_REFUSED_VOLTAGE, run_number(part, 0, 30, all, longest, room), "run");
    sample_put(stream.bytes, room - 1, last);
}

/* What a fresh device holds, by name. */
static void test_fresh_names(void)
{
    const struct pod_powered up = pod_power_up(tested.part, 0, usual.program, usual.slice, usual.pause);
    const struct pod_controller *controller = &up.device.controller;
    expect(POD_DONE, up.number, "power up");
    expect(tested.part, up.device.part, "part of a fresh device");
    expect(0, up.device.straps, "straps of a fresh device");
    expect(POD_STATUS_READY, pod_status(up.device), "status of a fresh device");
    expect(POD_FRAME_NONE, up.device.frame.kind, "frame of a fresh device");
    expect(POD_MODE_ARRAY, controller->mode, "mode of a fresh device");
    expect(POD_SETUP_NONE, controller->setup, "setup of a fresh device");
    expect(POD_OPERATION_NONE, controller->outer.kind, "operation of a fresh device");
    expect(POD_OPERATION_NONE, controller->inner.kind, "inner operation of a fresh device");
    for (size_t block = 0; block < POD_BLOCKS; block++) {
        expect(POD_LOCK_WRITE, up.device.locks[block], "lock %zu of a fresh device", block);
    }
    const struct pod_settled settled = pod_settle(up.device, image.bytes, POD_IMAGE_BYTES, POD_SAMPLE_IDLE, 1);
    expect(POD_DONE, settled.number, "settle with the idle sample");
    expect(0, settled.count, "clocks of a settle of a fresh device");
}

/* The names that are made of others. */
static void test_names_of_names(void)
{
    const uint32_t high = POD_SAMPLE_LINES | POD_SAMPLE_FRAME | POD_SAMPLE_RP | POD_SAMPLE_INIT | POD_SAMPLE_TBL |
                          POD_SAMPLE_WP;
    const uint32_t inputs = POD_SAMPLE_FGPI0 | POD_SAMPLE_FGPI1 | POD_SAMPLE_FGPI2 | POD_SAMPLE_FGPI3 |
                            POD_SAMPLE_FGPI4;
    expect(high | POD_VOLTAGE_NORMAL << POD_SAMPLE_VOLTAGE_SHIFT, POD_SAMPLE_IDLE, "the idle sample");
    expect(inputs, POD_SAMPLE_INPUTS, "the inputs");
    expect(0x1F << POD_SAMPLE_INPUTS_SHIFT, POD_SAMPLE_INPUTS, "the inputs as a number");
    expect(3 << POD_SAMPLE_VOLTAGE_SHIFT, POD_SAMPLE_VOLTAGE, "the voltage class as a number");
    expect(POD_STATUS_PROTECTED | POD_STATUS_VOLTAGE | POD_STATUS_PROGRAM | POD_STATUS_ERASE, POD_STATUS_ERRORS,
           "the error bits");
    expect(POD_BLOCKS * POD_BLOCK_BYTES, POD_IMAGE_BYTES, "the bytes of all blocks");
    expect(POD_SLICES * POD_SLICE_BYTES, POD_BLOCK_BYTES, "the bytes of all slices");
}

/* A frame of each kind that a record names, from its first clock on. */
static void test_frame_names(void)
{
    const struct frame read = known_read(), write = write_of(in_lock(1), 0);
    const bool lpc = is_lpc();
    struct pod_device device = device_in(IS_READY);
    pod_clock(&device, image.bytes, POD_IMAGE_BYTES, frame_sample(&read, 1, POD_SAMPLE_IDLE));
    expect(lpc ? POD_FRAME_BEGUN : POD_FRAME_READ, device.frame.kind, "kind of a read on clock 1");
    expect(1, device.frame.clock, "clock of a read on clock 1");
    pod_clock(&device, image.bytes, POD_IMAGE_BYTES, frame_sample(&read, 2, POD_SAMPLE_IDLE));
    expect(POD_FRAME_READ, device.frame.kind, "kind of a read on clock 2");
    expect(2, device.frame.clock, "clock of a read on clock 2");
    pod_clock(&device, image.bytes, POD_IMAGE_BYTES, frame_sample(&write, 1, POD_SAMPLE_IDLE));
    expect(lpc ? POD_FRAME_BEGUN : POD_FRAME_WRITE, device.frame.kind, "kind of a write on clock 1");
    pod_clock(&device, image.bytes, POD_IMAGE_BYTES, frame_sample(&write, 2, POD_SAMPLE_IDLE));
    expect(POD_FRAME_WRITE, device.frame.kind, "kind of a write on clock 2");
    expect(tested.part, device.part, "part behind the frames");
}

static void test_names(void)
{
    check_group("names");
    reached = 0;
    test_fresh_names();
    test_frame_names();
    test_names_of_names();
    test_numbers_refused();
    test_clocks_refused();
    test_runs_refused();
    test_parts_refused();
    for (uint32_t number = POD_REFUSED_DEVICE; number <= POD_STILL_BUSY; number++) {
        expect(1, reached >> number & 1, "whether refusal %u was given", number);
    }
    lent_stands(&image, "image");
    lent_stands(&stream, "stream");
    lent_is_guarded(&answers, "answers");
}

int main(void)
{
    image = lent_new(POD_IMAGE_BYTES);
    page = lent_new(POD_BLOCK_BYTES);
    stream = lent_new(POD_STREAM_BYTES + 2);
    answers = lent_new(POD_STREAM_BYTES / 2 + 1);
    nothing = lent_new(0);
    lent_fill_with_any(&image);
    lent_fill(&page, 0, page.length, 0);
    lent_fill_with_any(&answers);
    for (size_t i = 0; i < stream.length; i++) {
        lent_put(&stream, i, (uint8_t)(i % 2 == 0 ? POD_SAMPLE_IDLE & 0xFF : POD_SAMPLE_IDLE >> 8));
    }
    for (uint32_t part = POD_PART_FWH; part <= POD_PART_LPC; part++) {
        test_as(part);
        check_about(tested_name());
        test_null_pointers();
        test_names();
    }
    check_about(NULL);
    check_group("a null sheet");
    test_null_sheets();
    lent_free(&image);
    lent_free(&page);
    lent_free(&stream);
    lent_free(&answers);
    lent_free(&nothing);
    return check_end("face_test");
}
