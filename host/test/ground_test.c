/* Tests what needs no clock, of both parts and on good, bad and extreme input: power up, set times, soundness, status
 * and marks, bay sheets and the block view. */
#include "bus/addresses.h"
#include "bus/frames.h"
#include "test/any.h"
#include "test/check.h"
#include "test/compare.h"
#include "test/fields.h"
#include "test/lent.h"
#include "test/scope.h"
#include "test/tested.h"

#include <string.h>

/* The numbers at and around every limit, and those that a narrower type would cut down to a good one. */
static const uint32_t numbers[] = {
    0, 1, 2, 3, 4, 10, 15, 16, 29, 30, 31, 199, 200, 201, 255, 256, 257, 3906, 39061, 39062, 39063, 65535, 65536, 65537,
    65546, 0x7FFFFFFF, 0x80000000, 0xFFFFFFFF
};
enum { NUMBERS = sizeof numbers / sizeof numbers[0] };

/* What a field of a device is set to: the ends of every range that soundness names, one before and one past them. */
static const uint32_t extremes[] = {
    0, 1, 2, 3, 4, 7, 8, 9, 15, 16, 17, 18, 19, 30, 31, 32, 33, 34, 0x39, 0x3A, 0x3B, 0x40, 0x80, 200, 201, 255, 256,
    257, 30 * 33, 30 * 33 + 1, 10 * 33, 10 * 33 + 1, 20 * 33, 20 * 33 + 1, 200 * 33, 200 * 33 + 1, 300 * 33,
    300 * 33 + 1, 39062, 39063, 39062u * 33, 39062u * 33 + 1, 65535, 65536, 65537, 0x30000, 0x34567, 0x70000, 0x7FFFF,
    0x80000, 0xFFFFF, 0x100000, 0x134567, 0xFFFFFFF, 0x10000000, 0x7FFFFFFF, 0x80000000, 0xFFFFFFFF
};
enum { EXTREMES = sizeof extremes / sizeof extremes[0] };

static const struct asked sheet_times = { .program = 10, .slice = 3906, .pause = 30 };
static const uint8_t example_sheet[POD_SHEET_BYTES] = {
    0x01, 0x01, 0x00, 0x00, 0x02, 0x06, 0x00, 0x0A, 0x00, 0x42, 0x0F, 0x1E, 0x00
};

/* The refusal that part, straps and times alone call for, or done. */
static uint32_t refusal_of(uint32_t part, uint32_t straps, struct asked times)
{
    return !straps_are_allowed(part, straps) ? POD_REFUSED_STRAPS
           : !times_in_range(times)          ? POD_REFUSED_TIMES
                                             : POD_DONE;
}

/* ---- Power up and set times. */

static void test_power_up(uint32_t part, uint32_t straps, struct asked times)
{
    const uint32_t number = refusal_of(part, straps, times);
    const struct pod_device wanted = number == POD_DONE ? fresh_device(part, straps, times_kept(times))
                                                        : fresh_device(POD_PART_FWH, 0, times_kept(sheet_times));
    const struct pod_powered powered = pod_power_up(part, straps, times.program, times.slice, times.pause);
    expect(number, powered.number, "part %u, straps %u, times %u %u %u", part, straps, times.program, times.slice,
           times.pause);
    expect_meaning(&wanted, &powered.device, "the device powered up");
    expect(1, is_sound(&powered.device), "the device powered up is sound");
}

static void test_powering_up(void)
{
    const uint32_t part = tested.part, straps = tested.straps;
    check_group("power up: one number at each extreme");
    for (size_t i = 0; i < NUMBERS; i++) {
        const uint32_t n = numbers[i];
        test_power_up(n, straps, sheet_times);
        test_power_up(part, n, sheet_times);
        test_power_up(part, straps, (struct asked){ n, 3906, 30 });
        test_power_up(part, straps, (struct asked){ 10, n, 30 });
        test_power_up(part, straps, (struct asked){ 10, 3906, n });
    }
    check_group("power up: straps and times at their extremes, the lowest refusal given");
    for (size_t i = 0; i < NUMBERS; i++)
        for (size_t j = 0; j < NUMBERS; j++)
            for (size_t k = 0; k < NUMBERS; k += 2)
                for (size_t l = 0; l < NUMBERS; l += 2)
                    test_power_up(part, numbers[i], (struct asked){ numbers[j], numbers[k], numbers[l] });
    check_group("power up: status 80h and no marks, for each straps");
    for (uint32_t each = 0; straps_are_allowed(part, each); each++) {
        const struct pod_device device =
            pod_power_up(part, each, POD_PROGRAM_MOST, POD_SLICE_MOST, POD_PAUSE_MOST).device;
        expect(POD_STATUS_READY, pod_status(device), "status, straps %u", each);
        expect(0, pod_marks(device), "marks, straps %u", each);
        expect(part, device.part, "part, straps %u", each);
        expect(each, device.straps, "straps");
    }
}

/* Every part number beside every straps, about the ends of both. */
static void test_parts(void)
{
    check_group("power up: part and straps at their extremes, with times that are good or not");
    for (size_t i = 0; i < NUMBERS; i++)
        for (uint32_t straps = 0; straps <= 260; straps++) {
            test_power_up(numbers[i], straps, sheet_times);
            test_power_up(numbers[i], straps, (struct asked){ 0, 0, 0 });
        }
    for (uint32_t part = 0; part <= 1024; part++)
        test_power_up(part, part % 5, sheet_times);
}

static void test_set_times(struct pod_device device, struct asked times)
{
    const uint32_t number = !is_sound(&device) ? POD_REFUSED_DEVICE : refusal_of(POD_PART_FWH, 0, times);
    struct pod_device wanted = device;
    if (number == POD_DONE)
        wanted.times = times_kept(times);
    const struct pod_powered set = pod_set_times(device, times.program, times.slice, times.pause);
    expect(number, set.number, "times %u %u %u", times.program, times.slice, times.pause);
    expect_device(&wanted, &set.device, "the device with its times set");
}

static void test_setting_times(void)
{
    check_group("set times: each extreme in each condition; an operation keeps its own times");
    for (enum condition condition = IS_READY; condition < CONDITIONS; condition++) {
        const struct pod_device device = device_in(condition);
        for (size_t i = 0; i < NUMBERS; i++) {
            const uint32_t n = numbers[i];
            test_set_times(device, (struct asked){ n, 3906, 30 });
            test_set_times(device, (struct asked){ 10, n, 30 });
            test_set_times(device, (struct asked){ 10, 3906, n });
            test_set_times(device, (struct asked){ n, n, n });
        }
    }
    check_group("set times: refusal 1 before refusal 4");
    for (size_t i = 0; i < NUMBERS; i++) {
        struct pod_device device = device_in(ERASE_RESTS);
        device.straps = POD_STRAPS_MOST + 1;
        test_set_times(device, (struct asked){ numbers[i], 0, 0 });
    }
    check_group("set times: own times out of range make the device unsound");
    for (size_t i = 0; i < NUMBERS; i++) {
        struct pod_device device = device_in(IS_READY);
        device.times.slice = (uint16_t)(numbers[i] & 0xFFFF);
        test_set_times(device, sheet_times);
    }
}

/* ---- Soundness, and the calls that read a device. */

static struct lent image, page;

/* Every call here takes the device as sound exactly where document 01 does. */
static void test_soundness(const struct pod_device *device)
{
    const bool sound = is_sound(device);
    const struct pod_powered set = pod_set_times(*device, 200, 39062, 30);
    struct pod_device wanted = *device;
    if (sound)
        wanted.times = times_kept((struct asked){ 200, 39062, 30 });
    expect(sound ? POD_DONE : POD_REFUSED_DEVICE, set.number, "set times");
    expect_device(&wanted, &set.device, "the device with its times set");
    expect(sound ? status_of(device) : 0, pod_status(*device), "status");
    expect(sound ? device->controller.marks : 0, pod_marks(*device), "marks");
}

/* The sound devices to start from: each condition, each stage of a frame, each setup. The first stage of an LPC frame
 * is the same for both directions. */
enum {
    READ_STAGES = FRAME_READ_CLOCKS - 1,
    WRITE_STAGES = FRAME_WRITE_CLOCKS - 1,
    STARTS = CONDITIONS + READ_STAGES + WRITE_STAGES + 3
};

static struct pod_device start(size_t which)
{
    struct pod_device device = device_in(IS_READY);
    if (which < CONDITIONS)
        return device_in((enum condition)which);
    which -= CONDITIONS;
    if (which < READ_STAGES + WRITE_STAGES) {
        device.frame.kind = which < READ_STAGES ? POD_FRAME_READ : POD_FRAME_WRITE;
        device.frame.clock = (uint8_t)(1 + which % READ_STAGES);
        device.frame.address = address_most(tested.part);
        if (tested.part == POD_PART_LPC && device.frame.clock == 1)
            device.frame.kind = POD_FRAME_BEGUN;
        return device;
    }
    which -= READ_STAGES + WRITE_STAGES;
    if (which == 2)
        device = device_in(ERASE_RESTS);
    device.controller.setup = which == 1 ? POD_SETUP_ERASE : POD_SETUP_PROGRAM;
    return device;
}

static void test_sound_devices(void)
{
    check_group("soundness: the devices to start from are sound");
    for (size_t i = 0; i < STARTS; i++) {
        const struct pod_device device = start(i);
        expect(1, is_sound(&device), "start %zu", i);
        test_soundness(&device);
    }
    check_group("soundness: one field at each extreme");
    for (size_t i = 0; i < STARTS; i++)
        for (size_t field = 0; field < FIELDS; field++)
            for (size_t j = 0; j < EXTREMES; j++) {
                struct pod_device device = start(i);
                field_set(&device, field, extremes[j]);
                test_soundness(&device);
            }
    check_group("soundness: every value of every byte field");
    for (size_t i = 0; i < STARTS; i++)
        for (size_t field = 0; field < FIELDS; field++)
            for (uint32_t value = 0; field_width(field) == 1 && value < 256; value++) {
                struct pod_device device = start(i);
                field_set(&device, field, value);
                test_soundness(&device);
            }
    check_group("soundness: two to four fields at extremes");
    for (int round = 0; round < 200000; round++) {
        struct pod_device device = start(any_below(STARTS));
        for (uint32_t changes = 2 + any_below(3); changes > 0; changes--)
            field_set(&device, any_below(FIELDS), extremes[any_below(EXTREMES)]);
        test_soundness(&device);
    }
    check_group("soundness: every part beside every straps, and beside every frame");
    for (uint32_t part = 0; part < 256; part++)
        for (uint32_t straps = 0; straps < 256; straps++) {
            struct pod_device device = device_in(IS_READY);
            device.part = (uint8_t)part;
            device.straps = (uint8_t)straps;
            test_soundness(&device);
        }
    for (uint32_t i = 0; i < 3 * 8 * 32 * 8; i++) {
        static const uint32_t addresses[] = { 0, 1, 0xFFFFFFF, 0x10000000, 0x1FFFFFFF, 0x80000000, 0xFFBF0002,
                                              0xFFFFFFFF };
        struct pod_device device = device_in(IS_READY);
        device.part = (uint8_t)(i % 3);
        device.straps = 1;
        device.frame.kind = i / 3 & 7;
        device.frame.clock = i / 24 & 31;
        device.frame.byte = (uint8_t)i;
        device.frame.address = addresses[i / 768 & 7];
        test_soundness(&device);
    }
    check_group("soundness: what stands beside what, every kind, state, setup and block");
    for (uint32_t i = 0; i < 4 * 4 * 4 * 4 * 4 * 2; i++) {
        struct pod_device device = device_in(PROGRAM_IN_ERASE);
        device.controller.outer.kind = i & 3;
        device.controller.outer.state = i >> 2 & 3;
        device.controller.outer.pause = device.controller.outer.left = 1;
        device.controller.inner.kind = i >> 4 & 3;
        device.controller.inner.state = i >> 6 & 3;
        device.controller.inner.pause = device.controller.inner.left = device.controller.inner.slices = 1;
        device.controller.setup = i >> 8 & 3;
        device.controller.inner.address = (i >> 10 & 1) != 0 ? 0x7FFFF : 0x6FFFF;
        test_soundness(&device);
    }
}

static void test_absent_fields(void)
{
    check_group("soundness: fields of what is absent are not looked at");
    for (size_t i = 0; i < STARTS; i++) {
        struct pod_device device = start(i);
        struct pod_controller *controller = &device.controller;
        struct pod_operation *both[] = { &controller->outer, &controller->inner };
        if (device.frame.kind == POD_FRAME_NONE) {
            memset(&device.frame, 0xFF, sizeof device.frame);
            device.frame.kind = POD_FRAME_NONE;
        }
        for (size_t j = 0; j < 2; j++) {
            if (both[j]->kind == POD_OPERATION_NONE) {
                memset(both[j], 0xFF, sizeof *both[j]);
                both[j]->kind = POD_OPERATION_NONE;
            } else {
                if (both[j]->kind == POD_OPERATION_PROGRAM)
                    both[j]->slices = 0xFFFFFFFF;
                if (both[j]->state != POD_STATE_PAUSING)
                    both[j]->pause = 0xFFFFFFFF;
            }
        }
        expect(1, is_sound(&device), "start %zu with all else FFh", i);
        test_soundness(&device);
    }
}

static void test_random_devices(void)
{
    struct pod_device device;
    check_group("random bytes as a device");
    for (int round = 0; round < 100000; round++) {
        device = any_device(round % 2 == 0 ? 256 : 3);
        test_soundness(&device);
    }
    check_group("one byte repeated as a device");
    for (int value = 0; value < 256; value++) {
        memset(&device, value, sizeof device);
        test_soundness(&device);
    }
}

static void test_status_and_marks(void)
{
    check_group("status and marks: each condition, each set of error bits, marks at their ends");
    for (enum condition condition = IS_READY; condition < CONDITIONS; condition++)
        for (uint32_t errors = 0; errors <= 0x3F; errors++)
            for (uint32_t mark = 0; mark <= 17; mark++) {
                struct pod_device device = device_in(condition);
                device.controller.errors = (uint8_t)errors;
                device.controller.marks = (uint16_t)(mark < 16 ? 1u << mark : mark == 16 ? 0 : 0xFFFF);
                test_soundness(&device);
            }
    check_group("status: the numbers of document 01");
    static const uint32_t wanted[CONDITIONS] = { 0x80, 0x00, 0x00, 0x00, 0x00, 0x84, 0xC0, 0x40 };
    for (enum condition condition = IS_READY; condition < CONDITIONS; condition++)
        expect(wanted[condition], pod_status(device_in(condition)), "%s", condition_names[condition]);
}

/* ---- Bay sheets. */

/* The layout rule, read plainly: 8 before 3 before 4. */
static struct pod_sheet read_plainly(const uint8_t *sheet, size_t length)
{
    const struct pod_sheet nothing = { .number = POD_REFUSED_SHEET };
    if (length != POD_SHEET_BYTES)
        return nothing;
    if (sheet[0] != 1 || sheet[1] != 1 || sheet[2] != 0 || sheet[4] != 2 || sheet[5] != 6 || sheet[6] != 0)
        return nothing;
    const uint32_t straps = sheet[3], program = sheet[7] + 256u * sheet[8];
    const uint32_t slice = sheet[9] + 256u * sheet[10], pause = sheet[11] + 256u * sheet[12];
    const uint32_t number = refusal_of(POD_PART_FWH, straps, (struct asked){ program, slice, pause });
    if (number != POD_DONE)
        return (struct pod_sheet){ .number = number };
    return (struct pod_sheet){ .straps = straps, .program = program, .slice = slice, .pause = pause };
}

static struct pod_sheet test_sheet_read(const struct lent *sheet)
{
    const struct pod_sheet wanted = read_plainly(sheet->bytes, sheet->length);
    const struct pod_sheet found = pod_sheet_read(sheet->bytes, sheet->length);
    expect(wanted.number, found.number, "sheet of %zu bytes", sheet->length);
    expect(wanted.straps, found.straps, "straps of a sheet");
    expect(wanted.program, found.program, "program time of a sheet");
    expect(wanted.slice, found.slice, "slice time of a sheet");
    expect(wanted.pause, found.pause, "pause time of a sheet");
    lent_stands(sheet, "sheet");
    return found;
}

static void put_sheet(const struct lent *lent)
{
    for (size_t i = 0; i < lent->length; i++)
        lent_put(lent, i, i < POD_SHEET_BYTES ? example_sheet[i] : (uint8_t)any_below(256));
}

static void test_reading_sheets(void)
{
    check_group("sheet read: document 01's example");
    struct lent sheet = lent_new(POD_SHEET_BYTES);
    put_sheet(&sheet);
    const struct pod_sheet example = test_sheet_read(&sheet);
    expect(POD_DONE, example.number, "the example");
    expect(3906, example.slice, "the example's slice time");

    check_group("sheet read: one byte at every value, in pairs with bad straps and a bad time");
    for (int bad = 0; bad < 4; bad++)
        for (size_t at = 0; at < POD_SHEET_BYTES; at++)
            for (uint32_t value = 0; value < 256; value++) {
                put_sheet(&sheet);
                if (bad & 1)
                    lent_put(&sheet, 3, 16);
                if (bad & 2)
                    lent_put(&sheet, 11, 31);
                lent_put(&sheet, at, (uint8_t)value);
                test_sheet_read(&sheet);
            }
    check_group("sheet read: 8 before 3 and 4, 3 before 4");
    put_sheet(&sheet);
    lent_put(&sheet, 3, 255);
    lent_put(&sheet, 8, 255);
    expect(POD_REFUSED_STRAPS, test_sheet_read(&sheet).number, "bad straps and a bad time");
    lent_put(&sheet, 6, 1);
    expect(POD_REFUSED_SHEET, test_sheet_read(&sheet).number, "bad straps, a bad time and a bad length");

    check_group("sheet read: times at their extremes");
    for (size_t i = 0; i < NUMBERS; i++)
        for (size_t at = 7; at < POD_SHEET_BYTES; at += 2) {
            put_sheet(&sheet);
            lent_put(&sheet, at, (uint8_t)(numbers[i] & 0xFF));
            lent_put(&sheet, at + 1, (uint8_t)(numbers[i] >> 8 & 0xFF));
            test_sheet_read(&sheet);
        }
    lent_free(&sheet);

    check_group("sheet read: every length 0 to 20, each byte changed in turn");
    for (size_t length = 0; length <= 20; length++) {
        sheet = lent_new(length);
        put_sheet(&sheet);
        test_sheet_read(&sheet);
        for (size_t at = 0; at < length; at++) {
            for (uint32_t value = 0; value < 256; value++) {
                lent_put(&sheet, at, (uint8_t)value);
                test_sheet_read(&sheet);
            }
            lent_put(&sheet, at, at < POD_SHEET_BYTES ? example_sheet[at] : 0);
        }
        lent_free(&sheet);
    }
    check_group("sheet read: random bytes");
    sheet = lent_new(POD_SHEET_BYTES);
    for (int round = 0; round < 50000; round++) {
        lent_fill_with_any(&sheet);
        if (round % 2 == 0)   /* a right frame around any values */
            for (size_t i = 0; i < POD_SHEET_BYTES; i++)
                if (i < 3 || (4 <= i && i < 7))
                    lent_put(&sheet, i, example_sheet[i]);
        test_sheet_read(&sheet);
    }
    lent_free(&sheet);
}

static uint32_t test_sheet_write(const struct lent *buffer, uint32_t straps, struct asked times)
{
    const size_t length = buffer->length;
    const uint32_t refusal = refusal_of(POD_PART_FWH, straps, times);
    const uint32_t number = refusal == POD_DONE && length < POD_SHEET_BYTES ? POD_REFUSED_ROOM : refusal;
    if (number == POD_DONE) {
        const uint32_t values[] = { times.program, times.slice, times.pause };
        memcpy(buffer->wanted, example_sheet, POD_SHEET_BYTES);
        buffer->wanted[3] = (uint8_t)straps;
        for (size_t i = 0; i < 3; i++) {
            buffer->wanted[7 + 2 * i] = (uint8_t)(values[i] & 0xFF);
            buffer->wanted[8 + 2 * i] = (uint8_t)(values[i] >> 8 & 0xFF);
        }
    }
    const uint32_t found = pod_sheet_write(buffer->bytes, length, straps, times.program, times.slice, times.pause);
    expect(number, found, "sheet write, %zu bytes, straps %u, times %u %u %u", buffer->length, straps,
           times.program, times.slice, times.pause);
    lent_stands(buffer, "buffer for a sheet");
    return found;
}

static void test_writing_sheets(void)
{
    check_group("sheet write: document 01's example");
    struct lent buffer = lent_new(POD_SHEET_BYTES);
    expect(0, pod_sheet_write(buffer.bytes, buffer.length, 0, 10, 3906, 30), "the example");
    memcpy(buffer.wanted, example_sheet, POD_SHEET_BYTES);
    lent_stands(&buffer, "buffer with the example");
    lent_free(&buffer);

    check_group("sheet write: every length 0 to 20, each number at each extreme; 3 before 4 before 6");
    for (size_t length = 0; length <= 20; length++) {
        buffer = lent_new(length);
        for (size_t i = 0; i < NUMBERS; i++) {
            const uint32_t n = numbers[i];
            lent_fill_with_any(&buffer);
            test_sheet_write(&buffer, n, sheet_times);
            test_sheet_write(&buffer, n, (struct asked){ n, n, n });
            lent_fill_with_any(&buffer);
            test_sheet_write(&buffer, 15, (struct asked){ n, 3906, 30 });
            test_sheet_write(&buffer, 15, (struct asked){ 10, n, 30 });
            test_sheet_write(&buffer, 15, (struct asked){ 10, 3906, n });
        }
        lent_free(&buffer);
    }
    check_group("sheet write: a buffer of 65,536 and of 1,048,576 bytes");
    for (size_t length = 65536; length <= 1048576; length *= 16) {
        buffer = lent_new(length);
        test_sheet_write(&buffer, 7, sheet_times);
        lent_free(&buffer);
    }
    check_group("sheets: reading what was written gives the values, writing what was read gives the bytes");
    buffer = lent_new(POD_SHEET_BYTES);
    for (int round = 0; round < 20000; round++) {
        const uint32_t straps = any_below(16);
        const struct asked times = { 1 + any_below(200), 1 + any_below(39062), 1 + any_below(30) };
        if (test_sheet_write(&buffer, straps, times) != 0)
            continue;
        const struct pod_sheet found = test_sheet_read(&buffer);
        expect(straps, found.straps, "straps read back");
        expect(times.program, found.program, "program time read back");
        expect(times.slice, found.slice, "slice time read back");
        expect(times.pause, found.pause, "pause time read back");
        memset(buffer.bytes, 0, buffer.length);
        test_sheet_write(&buffer, found.straps, (struct asked){ found.program, found.slice, found.pause });
    }
    lent_free(&buffer);
}

/* ---- The block view. */

/* Where a block is shown from when nothing is wrong. */
static uint32_t shown(const struct pod_device *device, uint32_t block)
{
    return (device->locks[block] & POD_LOCK_READ) != 0 ? POD_FROM_PAGE : POD_FROM_IMAGE;
}

static void test_view(const struct pod_device *device, size_t image_length, const struct lent *lent_page,
                      size_t page_length, uint32_t block, uint32_t from)
{
    const struct pod_part part = pod_view(*device, image.bytes, image_length, lent_page->bytes, page_length, block);
    expect(from, part.from, "view of block %u, image %zu, page %zu: from", block, image_length, page_length);
    expect(from == POD_FROM_IMAGE ? block * POD_BLOCK_BYTES : 0, part.start, "view of block %u: start", block);
    expect(from == POD_FROM_FRONT ? 0 : POD_BLOCK_BYTES, part.length, "view of block %u: length", block);
    lent_stands(&image, "image");
    lent_stands(lent_page, "page");
}

static void test_views(void)
{
    struct pod_device device = device_in(IS_READY);

    check_group("view: each block by each lock register, in each condition and mode");
    for (enum condition condition = IS_READY; condition < CONDITIONS; condition++)
        for (uint32_t block = 0; block < POD_BLOCKS; block++)
            for (uint32_t lock = 0; lock < 8; lock++) {
                device = device_in(condition);
                device.controller.mode = (uint8_t)(lock % 3);
                set_locks(&device, 7 - lock);
                device.locks[block] = (uint8_t)lock;
                test_view(&device, POD_IMAGE_BYTES, &page, POD_BLOCK_BYTES, block, shown(&device, block));
            }

    check_group("view: an unsound device shows nothing");
    for (size_t field = 0; field < FIELDS; field++)
        for (size_t i = 0; i < EXTREMES; i += 3) {
            device = device_in((enum condition)any_below(CONDITIONS));
            field_set(&device, field, extremes[i]);
            const uint32_t block = any_below(16);
            test_view(&device, POD_IMAGE_BYTES, &page, POD_BLOCK_BYTES, block,
                      is_sound(&device) ? shown(&device, block) : POD_FROM_FRONT);
        }

    check_group("view: a wrong image length shows nothing");
    static const size_t image_lengths[] = { 0, 1, 256, 65535, 65536, 1048575, 1048577 };
    static const size_t page_lengths[] = { 0, 1, 256, 65535, 65537, 131072 };
    for (uint32_t lock = 0; lock < 8; lock++) {
        device = device_in(IS_READY);
        set_locks(&device, lock);
        for (size_t i = 0; i < sizeof image_lengths / sizeof image_lengths[0]; i++)
            for (uint32_t block = 0; block < POD_BLOCKS; block += 5)
                test_view(&device, image_lengths[i], &page, POD_BLOCK_BYTES, block, POD_FROM_FRONT);
    }

    check_group("view: a block above 15 shows nothing");
    for (uint32_t lock = 0; lock < 8; lock += 4) {
        set_locks(&device, lock);
        for (size_t i = 0; i < NUMBERS; i++)
            if (numbers[i] >= POD_BLOCKS)
                test_view(&device, POD_IMAGE_BYTES, &page, POD_BLOCK_BYTES, numbers[i], POD_FROM_FRONT);
    }

    check_group("view: a page of another length shows nothing");
    struct lent longer = lent_new(131072);
    lent_fill(&longer, 0, longer.length, 0);
    for (uint32_t lock = 0; lock < 8; lock++) {
        set_locks(&device, lock);
        for (size_t i = 0; i < sizeof page_lengths / sizeof page_lengths[0]; i++)
            test_view(&device, POD_IMAGE_BYTES, &longer, page_lengths[i], 3, POD_FROM_FRONT);
        test_view(&device, POD_IMAGE_BYTES, &longer, POD_BLOCK_BYTES, 3, shown(&device, 3));
    }

    check_group("view: a page with one byte that is not 00h shows nothing; one past its end is not looked at");
    static const size_t places[] = { 0, 1, 255, 256, 32767, 32768, 65279, 65534, 65535, 65536 };
    static const uint8_t values[] = { 1, 0x80, 0xFF };
    for (uint32_t lock = 0; lock < 8; lock += 4)
        for (size_t i = 0; i < sizeof places / sizeof places[0]; i++)
            for (size_t j = 0; j < sizeof values; j++) {
                set_locks(&device, lock);
                lent_fill(&longer, places[i], 1, values[j]);
                test_view(&device, POD_IMAGE_BYTES, &longer, POD_BLOCK_BYTES, 9,
                          places[i] < POD_BLOCK_BYTES ? POD_FROM_FRONT : shown(&device, 9));
                lent_fill(&longer, places[i], 1, 0);
            }

    check_group("view: a page with one byte at each place in turn shows nothing");
    for (size_t place = 0; place < POD_BLOCK_BYTES; place += 61) {
        longer.bytes[place] = 1;
        const struct pod_part part = pod_view(device, image.bytes, POD_IMAGE_BYTES, longer.bytes, POD_BLOCK_BYTES, 9);
        expect(POD_FROM_FRONT, part.from, "view with one byte at %zu: from", place);
        longer.bytes[place] = 0;
    }
    lent_stands(&longer, "page");
    lent_free(&longer);
}

int main(void)
{
    image = lent_new(POD_IMAGE_BYTES + 1);
    page = lent_new(POD_BLOCK_BYTES);
    lent_fill_with_any(&image);
    lent_fill(&page, 0, page.length, 0);
    test_parts();
    test_random_devices();
    test_reading_sheets();
    test_writing_sheets();
    for (uint32_t part = POD_PART_FWH; part <= POD_PART_LPC; part++) {
        test_as(part);
        check_about(tested_name());
        test_powering_up();
        test_setting_times();
        test_sound_devices();
        test_absent_fields();
        test_status_and_marks();
        test_views();
    }
    lent_free(&image);
    lent_free(&page);
    return check_end("ground_test");
}
