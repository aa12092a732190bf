/* Calls beside the samples of a trace: times, power-up, view, sheets, and what other files try. */
#include "diff/calls.h"

#include "diff/choices.h"
#include "diff/counts.h"
#include "diff/faults.h"
#include "diff/images.h"
#include "diff/random.h"
#include "diff/refusals.h"
#include "diff/runs.h"
#include "diff/sides.h"
#include "diff/trace.h"
#include "diff/wild.h"
#include "pod.h"
#include "test/same_device.h"

#include <stdbool.h>
#include <stddef.h>
#include <string.h>

static void set_times(void)
{
    const struct model_times t = maybe_bad_times(trace.runnable ? 1 : 3);
    const bool ready = model.condition == READY;
    const uint32_t number = model_set_times(&model, t);
    const struct pod_powered a = pod_set_times(step_device, t.program, t.slice, t.pause);
    const struct pod_powered b = pod_set_times(clock_device, t.program, t.slice, t.pause);
    expect_number("number of pod_set_times", number, a.number);
    expect_number("number of pod_set_times", number, b.number);
    if (number == POD_DONE) {
        tally(SET_TIMES_DONE);
        if (!ready) {
            tally(SET_TIMES_BUSY);
        }
    } else if (!same_device(&a.device, &step_device)) {
        departure("refused pod_set_times changed the device");
    }
    step_device = a.device;
    clock_device = b.device;
    expect_same_state();
}

static void try_power_up(void)
{
    const uint32_t part = maybe_no_part(4);
    const uint32_t straps = maybe_no_straps(part, 3);
    const struct model_times t = maybe_bad_times(2);
    struct model fresh;
    const uint32_t number = model_power_up(&fresh, part, straps, t);
    const struct pod_powered up = pod_power_up(part, straps, t.program, t.slice, t.pause);
    const struct pod_powered plain = pod_power_up(POD_PART_FWH, 0, 10, 3906, 30);
    expect_number("number of pod_power_up", number, up.number);
    if (number != POD_DONE && !same_device(&up.device, &plain.device)) {
        departure("refused pod_power_up does not give the plain device");
    }
    if (number == POD_REFUSED_STRAPS) {
        tally(part > POD_PART_LPC    ? POWER_UP_NO_PART
              : part == POD_PART_LPC ? POWER_UP_LPC_STRAPS
                                     : POWER_UP_FWH_STRAPS);
    }
    expect("part of a fresh device", fresh.part, up.device.part);
    expect("straps of a fresh device", fresh.straps, up.device.straps);
    expect("status of a fresh device", model_status(&fresh), pod_status(up.device));
    expect("marks of a fresh device", model_marks(&fresh), pod_marks(up.device));
}

/* A length, or now and then the one below or above. */
static size_t about_length(size_t length)
{
    return one_in(8) ? length - 1 + 2 * (size_t)rnd(2) : length;
}

static void try_view(void)
{
    const uint32_t block = one_in(5) ? some_block() + (1u << (4 + rnd(28))) : some_block();
    const size_t image_length = about_length(POD_IMAGE_BYTES), page_length = about_length(POD_BLOCK_BYTES);
    const bool soiled = one_in(6);
    uint32_t spot = 0;
    if (soiled) {
        spot = one_in(3) ? 0 : one_in(2) ? POD_BLOCK_BYTES - 1 : rnd(POD_BLOCK_BYTES);
        images.page[spot] = (uint8_t)(1 + rnd(255));
    }
    const struct model_part want = model_view(&model, image_length, images.page, page_length, block);
    const struct pod_part part = pod_view(step_device, images.step, image_length, images.page, page_length, block);
    if (soiled) {
        images.page[spot] = 0;
    }
    expect("what pod_view shows", want.from, part.from);
    expect("start of what pod_view shows", want.start, part.start);
    expect("length of what pod_view shows", want.length, part.length);
    tally(want.from == POD_FROM_FRONT   ? VIEWS_FRONT
          : want.from == POD_FROM_IMAGE ? VIEWS_IMAGE
                                        : VIEWS_PAGE);
}

static void write_sheet(uint32_t straps, struct model_times t, size_t room)
{
    uint8_t wanted[SPARE], written[SPARE];
    memset(wanted, FILLER, sizeof wanted);
    memset(written, FILLER, sizeof written);
    const uint32_t number = model_sheet_write(wanted, room, straps, t);
    expect_number("number of pod_sheet_write", number,
                  pod_sheet_write(written, room, straps, t.program, t.slice, t.pause));
    if (memcmp(wanted, written, sizeof wanted) != 0) {
        departure("what pod_sheet_write wrote differs");
    }
    if (number == POD_DONE) {
        tally(SHEETS_WRITTEN);
    }
}

/* The sheet is laid out here, so that it may hold what cannot be written. */
static void read_sheet(uint32_t straps, struct model_times t)
{
    const uint8_t fields[POD_SHEET_BYTES] = { 1, 1, 0, (uint8_t)straps,
                                              2, 6, 0, (uint8_t)t.program, (uint8_t)(t.program >> 8),
                                              (uint8_t)t.slice, (uint8_t)(t.slice >> 8),
                                              (uint8_t)t.pause, (uint8_t)(t.pause >> 8) };
    uint8_t sheet[SPARE];
    memset(sheet, FILLER, sizeof sheet);
    memcpy(sheet, fields, sizeof fields);
    if (one_in(2)) {
        const uint8_t byte = one_in(2) ? rnd_byte() : (uint8_t)rnd(8);
        sheet[rnd(POD_SHEET_BYTES)] = byte;
    }
    const size_t length = one_in(8) ? rnd(20) : POD_SHEET_BYTES;
    const struct model_sheet want = model_sheet_read(sheet, length);
    const struct pod_sheet got = pod_sheet_read(sheet, length);
    expect_number("number of pod_sheet_read", want.number, got.number);
    expect("straps of the sheet", want.straps, got.straps);
    expect("program time of the sheet", want.times.program, got.program);
    expect("slice time of the sheet", want.times.slice, got.slice);
    expect("pause time of the sheet", want.times.pause, got.pause);
    if (want.number == POD_DONE) {
        tally(SHEETS_READ);
    }
}

static void try_sheets(void)
{
    const uint32_t straps = one_in(4) ? 16 + rnd(240) : rnd(16);
    const struct model_times t = maybe_bad_times(3);
    const size_t room = one_in(3) ? rnd(POD_SHEET_BYTES) : POD_SHEET_BYTES + rnd(8);
    write_sheet(straps, t, room);
    read_sheet(straps, t);
}

void call_aside(void)
{
    switch (rnd(12)) {
    case 0:
    case 1:
        try_refusals();
        break;
    case 2:
    case 3:
        try_wild_device();
        break;
    case 4:
    case 5:
        try_fault();
        break;
    case 6:
        try_power_up();
        break;
    case 7:
        try_sheets();
        break;
    case 8:
        try_view();
        break;
    case 9:
        if (one_in(3)) {
            try_run();
        }
        break;
    default:
        set_times();
        break;
    }
}
