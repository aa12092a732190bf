/* Tests operations clock by clock on both parts: permission, what each clock does to the image, suspend and resume on
 * the last clocks, the clock on which a read or a command is decided, and reset. */
#include "bus/addresses.h"
#include "bus/frames.h"
#include "bus/pins.h"
#include "test/check.h"
#include "test/compare.h"
#include "test/expected.h"
#include "test/rig.h"
#include "test/scope.h"
#include "test/tested.h"

/* Clocks of a write behind the one on which it acts. */
enum { AFTER_ACTING = FRAME_WRITE_CLOCKS - FRAME_CLOCK_ACT };

static const uint16_t without_voltage = POD_SAMPLE_IDLE & ~POD_SAMPLE_VOLTAGE;

/* ---- Setups and permission. */

/* One array write that ends a setup, its twelfth sample over `idle` and all others with the opposite pins. */
static void test_setup(struct pod_device device, uint16_t idle, uint32_t place, uint32_t data)
{
    const struct frame frame = write_of(in_array(place), data);
    const bool dead = sample_voltage(idle) == POD_VOLTAGE_LOCKOUT;
    const uint16_t opposite = sample_with_voltage(sample_set(idle, POD_SAMPLE_TBL | POD_SAMPLE_WP, ~(unsigned)idle),
                                                  dead ? POD_VOLTAGE_NORMAL : POD_VOLTAGE_LOCKOUT);
    uint16_t samples[FRAME_MOST_CLOCKS];
    frame_lay(&frame, opposite, samples);
    samples[FRAME_CLOCK_ACT - 1] = frame_sample(&frame, FRAME_CLOCK_ACT, idle);
    rig_set(device);
    rig_play(samples, 1, FRAME_WRITE_CLOCKS, &frame);
    const struct pod_device wanted = after_clocks(after_setup(device, idle, place, data), AFTER_ACTING);
    expect_meaning(&wanted, &rig.now, "the device after the write that ends a setup");
    expect(1, is_sound(&rig.now), "whether the device is sound after a setup");
}

static void test_permission(const char *name, enum condition condition, uint8_t setup, uint32_t data)
{
    check_group("%s", name);
    for (uint32_t block = 0; block < POD_BLOCKS; block++)
        for (uint32_t lock = 0; lock < 8; lock++)
            for (uint32_t i = 0; i < 12; i++) {
                const unsigned low = ((i & 1) != 0 ? 0u : POD_SAMPLE_TBL) | ((i & 2) != 0 ? 0u : POD_SAMPLE_WP);
                const uint16_t idle = sample_with_voltage(sample_set(POD_SAMPLE_IDLE, low, 0), i / 4);
                struct pod_device device = device_in(condition);
                device.controller.setup = setup;
                device.controller.errors = lock == 0 ? POD_STATUS_ERASE : 0;
                set_locks(&device, 7 - lock);
                device.locks[block] = (uint8_t)lock;
                test_setup(device, idle, block * POD_BLOCK_BYTES + block * 4099, data);
            }
}

static void test_setups(void)
{
    test_permission("permission: voltage, pins and lock of each block, program", IS_READY, POD_SETUP_PROGRAM, 0x3C);
    test_permission("permission: voltage, pins and lock of each block, erase", IS_READY, POD_SETUP_ERASE,
                    COMMAND_RESUME);
    test_permission("permission: the same and the suspended block, program inside an erase", ERASE_RESTS,
                    POD_SETUP_PROGRAM, 0x3C);

    check_group("setups: every byte behind a program setup is data, and behind an erase setup D0h alone confirms");
    for (uint32_t data = 0; data < 256; data++)
        for (uint32_t setup = POD_SETUP_PROGRAM; setup <= POD_SETUP_ERASE; setup++)
            for (uint32_t lock = 0; lock < 2; lock++) {
                struct pod_device device = device_in(IS_READY);
                device.controller.setup = (uint8_t)setup;
                device.locks[2] = (uint8_t)lock;
                test_setup(device, POD_SAMPLE_IDLE, 0x2FFFF, data);
                test_setup(device, without_voltage, 0x2FFFF, data);
            }

    check_group("setups: a register write does not end one, a read neither");
    rig_power_up(1, 1, 1);
    rig_write(in_array(0), COMMAND_ERASE);
    rig_write(in_lock(3), 0x00);
    expect(0x80, rig_read(in_array(0)), "status read beside a setup");
    expect(0x00, rig_read(in_lock(3)), "lock 3 read beside a setup");
    expect(POD_SETUP_ERASE, rig.now.controller.setup, "setup after a register write");
    rig_write(in_array(0x31234), COMMAND_RESUME);
    expect(POD_OPERATION_ERASE, rig.now.controller.outer.kind, "kind of the operation accepted");
    rig_images_stand();
}

static void test_error_bits(void)
{
    check_group("error bits: they add up, stay when the next operation starts, and 50h clears them");
    rig_power_up(1, 1, 1);
    rig_write(in_array(0), COMMAND_ERASE);
    rig_write(in_array(0), 0x00);
    expect(0xB0, pod_status(rig.now), "status after an erase not confirmed");
    rig_write(in_array(0), COMMAND_PROGRAM);
    rig_write(in_array(0), 0x00);
    expect(0xB2, pod_status(rig.now), "status after a program into a locked block too");
    rig_write(in_array(0), COMMAND_PROGRAM_TOO);
    rig_write_over(without_voltage, in_array(0), 0x00);
    expect(0xBA, pod_status(rig.now), "status after a program with no voltage too");
    rig_write(in_lock(0), 0x00);
    rig_put(0x00005, 1, 0xFF);
    rig_write(in_array(0), COMMAND_PROGRAM);
    rig_write(in_array(5), 0xFF);
    expect(0x3A, pod_status(rig.now), "status while a program runs");
    rig_write(in_array(0), COMMAND_CLEAR);
    expect(0x3A, pod_status(rig.now), "status after 50h while a program runs");
    rig_idle(in_clocks(1));
    expect(0xBA, pod_status(rig.now), "status after the program");
    expect(0xBA, rig_read(in_array(0)), "status read after the program");
    rig_write(in_array(0), COMMAND_CLEAR);
    expect(0x80, pod_status(rig.now), "status after 50h");
    expect(0x80, rig_read(in_array(0x99999)), "status read after 50h");

    check_group("error bits: a program into the suspended block sets bit 4 and leaves the erase suspended");
    struct pod_device device = device_in(ERASE_RESTS);
    set_locks(&device, 0);
    rig_set(device);
    rig_write(in_array(0), COMMAND_PROGRAM);
    rig_write(in_array(0x7FFFF), 0x00);
    expect(0xD0, pod_status(rig.now), "status");
    rig_write(in_array(0), COMMAND_CLEAR);
    expect(0xD0, pod_status(rig.now), "status after 50h while suspended");
    rig_images_stand();
}

/* ---- Programs and erases. */

/* Unlocks the block, sets a program or an erase up and has it accepted; its first clock drops the frame. */
static void start(uint32_t setup, uint32_t address, uint32_t data)
{
    rig_write(in_lock(block_of(address)), 0x00);
    rig_write(in_array(0), setup);
    rig_write_and_act(in_array(address), data);
    rig_drop_frame();
}

static void test_programs(void)
{
    static const uint32_t times[] = { 1, 2, 33, 200 };
    static const uint8_t bytes[] = { 0x00, 0xFF, 0x5A, 0x0F, 0x81 };
    enum { BYTES = sizeof bytes };

    check_group("program: old AND data on the last clock, not before, for each time");
    for (size_t i = 0; i < sizeof times / sizeof times[0]; i++)
        for (uint32_t j = 0; j < BYTES * BYTES; j++) {
            const uint32_t old = bytes[j % BYTES], data = bytes[j / BYTES], address = 0xF1234 + j;
            rig_power_up(times[i], 1, 1);
            rig_put(address, 1, old);
            start(COMMAND_PROGRAM, address, data);
            rig_idle(in_clocks(times[i]) - 2);
            rig_expect_byte(address, old, "one clock before the end of a program");
            expect(0x00, pod_status(rig.now), "status one clock before the end of a program");
            rig_idle(1);
            rig_expect_byte(address, old & data, "at the end of a program");
            expect(0x80, pod_status(rig.now), "status at the end of a program");
            expect(POD_MODE_STATUS, rig.now.controller.mode, "mode at the end of a program");
            rig_images_stand();
        }

    check_group("program: at the ends of the array and of a block");
    static const uint32_t places[] = { 0x00000, 0x0FFFF, 0x10000, 0xEFFFF, 0xF0000, 0xFFFFF };
    for (size_t i = 0; i < sizeof places / sizeof places[0]; i++) {
        rig_power_up(1, 1, 1);
        rig_put(places[i], 1, 0xFF);
        start(COMMAND_PROGRAM_TOO, places[i], 0x24);
        rig_idle(in_clocks(1) - 1);
        rig_expect_byte(places[i], 0x24, "programmed");
        rig_images_stand();
    }
}

static void test_erases(void)
{
    check_group("erase: 256 slices, lowest first, each filled at the end of its time; the mark of its block goes");
    rig_power_up(1, 1, 1);
    rig.now.controller.marks = rig.twin->controller.marks = 0xFFFF;
    start(COMMAND_ERASE, 0x6BCDE, COMMAND_RESUME);
    for (uint32_t slice = 0; slice < POD_SLICES; slice++) {
        rig_idle(in_clocks(1) - (slice == 0 ? 2 : 1));
        rig_images_stand();
        expect(0x00, pod_status(rig.now), "status before the end of slice %u", slice);
        expect(0xFFFF, pod_marks(rig.now), "marks before the end of slice %u", slice);
        rig_idle(1);
        rig_will_hold(0x60000 + POD_SLICE_BYTES * slice, POD_SLICE_BYTES, 0xFF);
        rig_images_stand();
    }
    expect(0x80, pod_status(rig.now), "status at the end of an erase");
    expect(0xFFBF, pod_marks(rig.now), "marks at the end of an erase");
    expect(POD_MODE_STATUS, rig.now.controller.mode, "mode at the end of an erase");

    check_group("erase: each slice at its longest time, and the next begins with the whole of it");
    for (uint32_t slices = POD_SLICES; slices >= 2; slices -= 2) {
        struct pod_device device = device_in(ERASE_RUNS);
        struct pod_operation *outer = &device.controller.outer;
        outer->times.slice = POD_SLICE_MOST;
        outer->address = 0xA0000;
        outer->slices = slices;
        outer->left = 2;
        rig_set(device);
        rig_idle(1);
        rig_images_stand();
        rig_idle(1);
        rig_will_hold(0xA0000 + POD_SLICE_BYTES * (POD_SLICES - slices), POD_SLICE_BYTES, 0xFF);
        rig_images_stand();
        outer->slices = slices - 1;
        outer->left = in_clocks(POD_SLICE_MOST);
        expect_meaning(&device, &rig.now, "the device after a slice");
    }
}

static void test_bindings(void)
{
    check_group("operations: the times bound at the acceptance, not those set later");
    rig_power_up(1, 2, 1);
    start(COMMAND_ERASE, 0x90000, COMMAND_RESUME);
    rig_set(pod_set_times(rig.now, 200, 1, 30).device);
    rig_idle(in_clocks(2) - 2);
    rig_images_stand();
    rig_idle(1);
    rig_will_hold(0x90000, POD_SLICE_BYTES, 0xFF);
    rig_images_stand();
    rig_set(pod_set_times(rig.now, 200, 39062, 30).device);
    rig_idle(in_clocks(2) * (POD_SLICES - 1) - 1);
    expect(0x00, pod_status(rig.now), "status one clock before the end of the erase");
    rig_idle(1);
    expect(0x80, pod_status(rig.now), "status at the end of the erase");
    rig_will_hold(0x90000, POD_BLOCK_BYTES, 0xFF);
    rig_images_stand();
    rig_write(in_array(0), COMMAND_ERASE);
    rig_write_and_act(in_array(0x90000), COMMAND_RESUME);
    expect(in_clocks(39062), rig.now.controller.outer.left, "clocks left of an erase accepted after set times");

    check_group("operations: pins, voltage and locks after the acceptance, and at resume, do not matter");
    const uint16_t dark = without_voltage & ~(POD_SAMPLE_TBL | POD_SAMPLE_WP);
    for (uint32_t block = 14; block < 16; block++) {
        const uint32_t address = block * POD_BLOCK_BYTES + 0x777;
        rig_power_up(3, 1, 1);
        rig_put(address, 1, 0xF3);
        start(COMMAND_PROGRAM, address, 0x3F);
        rig_write_over(dark, in_lock(block), 0x03);
        rig_write_over(dark, in_array(0), COMMAND_SUSPEND);
        rig_clock_dark(dark, in_clocks(1) - AFTER_ACTING);
        expect(0x84, pod_status(rig.now), "status of the suspended program");
        rig_expect_byte(address, 0xF3, "while its program is suspended");
        rig_write_over(dark, in_array(0), COMMAND_RESUME);
        expect(0x00, pod_status(rig.now), "status of the resumed program");
        rig_clock_dark(dark, in_clocks(3));
        expect(0x80, pod_status(rig.now), "status at the end of the resumed program");
        rig_expect_byte(address, 0x33, "programmed");
        rig_images_stand();
    }
}

/* ---- Suspend and resume. */

enum { BYTE_PLACE = 0x34567, BLOCK_PLACE = 0x70000, WHOLE = POD_CLOCKS_PER_MICROSECOND * 20 };

/* What the clock does to the image that ends a program (`slices` is 0) or the slice of an erase with `slices` to go. */
static void image_will_change(uint32_t slices)
{
    if (slices == 0)
        rig_will_hold(BYTE_PLACE, 1, 0xC7 & 0x5A);
    else
        rig_will_hold(BLOCK_PLACE + POD_SLICE_BYTES * (POD_SLICES - slices), POD_SLICE_BYTES, 0xFF);
}

/* A suspended operation stands still; once resumed, it ends what was left of a program or a slice on time. */
static void test_resume(const struct pod_device *device)
{
    const struct pod_operation *outer = &device->controller.outer;
    rig_idle(70);
    expect_meaning(device, &rig.now, "the suspended device, later");
    rig_write_and_act(in_array(0), COMMAND_RESUME);
    rig_drop_frame();
    if (outer->left > 1) {
        rig_idle(outer->left - 2);
        rig_images_stand();
        expect(0x00, pod_status(rig.now), "status one clock before the end of a resumed operation of %u", outer->left);
        rig_idle(1);
    }
    image_will_change(outer->slices);
    rig_images_stand();
    expect(outer->slices <= 1 ? 0x80 : 0x00, pod_status(rig.now), "status at the end of what was left");
}

/* A suspend asked `left` clocks before a program or a slice ends, 0 where it ends on that clock. */
static void test_suspend(uint32_t left, uint32_t pause, uint32_t slices)
{
    const uint32_t asked = in_clocks(pause);
    const int ends = slices <= 1 && left <= asked;   /* the operation, and not one slice of it, before the pause does */
    struct pod_device device = device_in(slices == 0 ? PROGRAM_RUNS : ERASE_RUNS);
    struct pod_operation *outer = &device.controller.outer;
    outer->times = times_kept((struct asked){ 20, 20, pause });
    outer->slices = slices;
    outer->left = left + FRAME_CLOCK_ACT;
    rig_put(BYTE_PLACE, 1, 0xC7);
    rig_put(BLOCK_PLACE, 512, 0x11);
    rig_put(BLOCK_PLACE + POD_BLOCK_BYTES - 512, 512, 0x22);
    rig_set(device);
    rig_write_and_act(in_array(0), COMMAND_SUSPEND);

    for (uint32_t clock = 0; clock <= (ends ? left : asked); clock++) {
        if (clock == 1)
            rig_drop_frame();
        if (clock > 1)
            rig_idle(1);
        if (clock == left)
            image_will_change(slices);
        if (clock + 1 >= left || clock + 1 >= asked)
            rig_images_stand();
        expect(ends && clock == left ? 0x80 : clock < asked ? 0x00 : slices == 0 ? 0x84 : 0xC0, pod_status(rig.now),
               "status %u clocks after a suspend asked %u before the end", clock, left);
    }
    if (ends) {
        rig_drop_frame();
        rig_idle(asked);
        device = device_in(IS_READY);
        device.controller.mode = POD_MODE_STATUS;
        expect_meaning(&device, &rig.now, "the device whose operation ended before its pause did");
        return;
    }
    outer->state = POD_STATE_SUSPENDED;
    outer->left = left > asked ? left - asked : WHOLE - (asked - left);
    outer->slices -= left > asked ? 0 : 1;
    expect_meaning(&device, &rig.now, "the suspended device");
    test_resume(&device);
}

static void test_suspends(void)
{
    check_group("suspend: asked on each of the last clocks of a program");
    for (uint32_t pause = 1; pause <= 3; pause++)
        for (uint32_t left = 0; left <= in_clocks(pause) + 6; left++)
            test_suspend(left, pause, 0);
    check_group("suspend: asked on each of the last clocks of an erase");
    for (uint32_t pause = 1; pause <= 3; pause++)
        for (uint32_t left = 0; left <= in_clocks(pause) + 6; left++)
            test_suspend(left, pause, 1);
    check_group("suspend: asked on each of the last clocks of a slice, the first and the last but one");
    for (uint32_t left = 1; left <= in_clocks(1) + 6; left++) {
        test_suspend(left, 1, POD_SLICES);
        test_suspend(left, 1, 2);
    }
}

static void test_program_inside(void)
{
    check_group("suspend: a program inside a suspended erase runs to its end, and the erase is then resumed");
    rig_power_up(2, 1, 1);
    rig_put(0xB0000, 512, 0x11);
    rig_put(0xC0001, 1, 0xFF);
    rig_write(in_lock(12), 0x00);
    start(COMMAND_ERASE, 0xB0000, COMMAND_RESUME);
    rig_write_and_act(in_array(0), COMMAND_SUSPEND);
    rig_drop_frame();
    /* 1, 12 and 33 clocks of the erase are then done: its first slice, and 13 clocks of the second */
    rig_idle(in_clocks(1) - 1);
    rig_will_hold(0xB0000, POD_SLICE_BYTES, 0xFF);
    expect(0xC0, pod_status(rig.now), "status of the suspended erase");
    rig_images_stand();
    rig_write(in_array(0), COMMAND_ARRAY);
    expect(0xFF, rig_read(in_array(0xB0000)), "the filled slice of the suspended block");
    expect(0x11, rig_read(in_array(0xB0100)), "the next slice of the suspended block");
    start(COMMAND_PROGRAM, 0xC0001, 0xF5);
    expect(0x40, pod_status(rig.now), "status of the program inside");
    rig_write(in_array(0), COMMAND_SUSPEND);
    rig_write(in_array(0), COMMAND_RESUME);
    expect(0x40, pod_status(rig.now), "status of the program inside after B0h and D0h");
    expect(POD_STATE_RUNNING, rig.now.controller.inner.state, "state of the program inside after B0h");
    rig_idle(in_clocks(2) - 1 - 2 * FRAME_WRITE_CLOCKS - 1);
    rig_expect_byte(0xC0001, 0xFF, "one clock before the program inside ends");
    rig_idle(1);
    rig_expect_byte(0xC0001, 0xF5, "after the program inside");
    expect(0xC0, pod_status(rig.now), "status after the program inside");
    rig_write_and_act(in_array(0), COMMAND_RESUME);
    expect(0x00, pod_status(rig.now), "status of the resumed erase");
    rig_drop_frame();
    rig_idle(in_clocks(1) - 13 - 2);
    rig_images_stand();
    rig_idle(1);
    rig_will_hold(0xB0100, POD_SLICE_BYTES, 0xFF);
    rig_images_stand();
    rig_idle(in_clocks(254) - 1);
    expect(0x00, pod_status(rig.now), "status one clock before the end of the erase");
    rig_idle(1);
    rig_will_hold(0xB0000, POD_BLOCK_BYTES, 0xFF);
    rig_images_stand();
    expect(0x80, pod_status(rig.now), "status after the erase");
}

/* ---- The clock on which a thing is decided. */

/* A read of what an operation changes, which ends on a clock of that read. */
static void test_read_at_end(uint32_t ends, enum condition condition, uint8_t mode)
{
    struct pod_device device = device_in(condition);
    const int program = condition == PROGRAM_RUNS;
    const uint32_t place = program ? BYTE_PLACE : BLOCK_PLACE + POD_BLOCK_BYTES - POD_SLICE_BYTES;
    device.controller.mode = mode;
    device.controller.outer.left = ends;
    device.controller.outer.slices = 1;
    rig_put(place, program ? 1 : POD_SLICE_BYTES, 0xC7);
    rig_set(device);
    const uint32_t before = mode == POD_MODE_STATUS ? 0x00 : 0xC7;
    const uint32_t after = mode == POD_MODE_STATUS ? 0x80 : program ? 0xC7 & 0x5A : 0xFF;
    expect(ends <= FRAME_CLOCK_SYNC ? after : before, rig_read(in_array(place)),
           "read while an operation ends on clock %u", ends);
    rig_idle(1);
    image_will_change(program ? 0 : 1);
    rig_images_stand();
}

static void test_reads_at_ends(void)
{
    check_group("clock 15 fixes what is read: an operation that ends on each clock of a read");
    for (uint32_t ends = 1; ends <= FRAME_READ_CLOCKS + 1; ends++)
        for (uint32_t mode = POD_MODE_ARRAY; mode <= POD_MODE_STATUS; mode++) {
            test_read_at_end(ends, PROGRAM_RUNS, (uint8_t)mode);
            test_read_at_end(ends, ERASE_RUNS, (uint8_t)mode);
        }
    check_group("clock 15 fixes the status: a pause that ends on each clock of a read");
    for (uint32_t ends = 1; ends <= FRAME_READ_CLOCKS + 1; ends++)
        for (enum condition condition = PROGRAM_PAUSES; condition <= ERASE_PAUSES; condition++) {
            struct pod_device device = device_in(condition);
            device.controller.outer.pause = ends;
            rig_set(device);
            expect(ends > FRAME_CLOCK_SYNC ? 0x00 : condition == PROGRAM_PAUSES ? 0x84 : 0xC0, rig_read(in_array(0)),
                   "status read while the pause ends on clock %u", ends);
        }
}

static void test_commands_at_ends(void)
{
    static const uint32_t commands[] = { COMMAND_ARRAY, COMMAND_PROGRAM, COMMAND_SUSPEND };
    check_group("clock 12 sees what the controller left: a command while a program ends on each clock");
    for (uint32_t ends = 1; ends <= FRAME_WRITE_CLOCKS; ends++)
        for (size_t i = 0; i < 3; i++) {
            const enum condition condition = ends <= FRAME_CLOCK_ACT ? IS_READY : PROGRAM_RUNS;
            struct pod_device device = device_in(PROGRAM_RUNS), wanted = device_in(IS_READY);
            device.controller.outer.left = ends;
            rig_put(BYTE_PLACE, 1, 0xC7);
            rig_set(device);
            rig_write(in_array(0), commands[i]);
            wanted.controller.mode = POD_MODE_STATUS;
            if (condition == IS_READY)
                wanted = after_command(wanted, IS_READY, commands[i]);
            expect_meaning(&wanted, &rig.now, "the device after a command and the end of a program");
            image_will_change(0);
            rig_images_stand();
        }
    check_group("clock 12 sees what the controller left: D0h while a pause ends on each clock");
    for (uint32_t ends = 1; ends <= FRAME_WRITE_CLOCKS; ends++)
        for (enum condition condition = PROGRAM_PAUSES; condition <= ERASE_PAUSES; condition++) {
            struct pod_device device = device_in(condition);
            const int resumed = ends <= FRAME_CLOCK_ACT;
            device.controller.outer.pause = ends;
            device.controller.mode = POD_MODE_ARRAY;
            rig_set(device);
            rig_write(in_array(0), COMMAND_RESUME);
            device.controller.mode = resumed ? POD_MODE_STATUS : POD_MODE_ARRAY;
            device.controller.outer.state = resumed ? POD_STATE_RUNNING : POD_STATE_SUSPENDED;
            device.controller.outer.left -= resumed ? ends + AFTER_ACTING : ends;
            expect_meaning(&device, &rig.now, "the device after D0h");
        }
    rig_images_stand();
}

/* ---- Reset. */

/* RP low, INIT low, and both; with the frame line high, or low on a start; with class 0 and 2. */
static const uint16_t resets[] = {
    POD_SAMPLE_IDLE & ~POD_SAMPLE_RP,
    POD_SAMPLE_IDLE & ~POD_SAMPLE_INIT,
    POD_SAMPLE_IDLE & ~(POD_SAMPLE_RP | POD_SAMPLE_INIT),
    (POD_SAMPLE_IDLE & ~(POD_SAMPLE_RP | POD_SAMPLE_FRAME | POD_SAMPLE_LINES)) | FRAME_START_READ,
    (POD_SAMPLE_IDLE & ~(POD_SAMPLE_INIT | POD_SAMPLE_FRAME | POD_SAMPLE_LINES)) | FRAME_START_WRITE,
    0,
    POD_VOLTAGE_TWELVE << POD_SAMPLE_VOLTAGE_SHIFT | POD_SAMPLE_INPUTS | POD_SAMPLE_RP
};
enum { RESETS = sizeof resets / sizeof resets[0] };

/* One reset sample, another, and a few idle ones: nothing is driven, and the device stays as the first leaves it. */
static void test_reset(const struct pod_device *wanted, uint16_t sample)
{
    rig_clock_dark(sample, 1);
    expect_meaning(wanted, &rig.now, "the device after a reset");
    expect(0x80, pod_status(rig.now), "status after a reset");
    expect(wanted->controller.marks, pod_marks(rig.now), "marks after a reset");
    rig_clock_dark(sample, 1);
    rig_idle(3);
    expect_meaning(wanted, &rig.now, "the device after a reset, later");
}

static void test_reset_of(struct pod_device device, uint16_t sample)
{
    const struct pod_device wanted = after_reset(&device);
    rig_set(device);
    test_reset(&wanted, sample);
}

static void test_resets_of_operations(void)
{
    for (enum condition condition = IS_READY; condition < CONDITIONS; condition++) {
        check_group("reset: %s, with clocks to go and on the last", condition_names[condition]);
        rig_put(BYTE_PLACE, 1, 0xFF);
        for (size_t i = 0; i < RESETS; i++)
            for (int last = 0; last < 2; last++)
                for (uint32_t mark = 0; mark <= 16; mark++) {
                    struct pod_device device = device_in(condition);
                    struct pod_controller *controller = &device.controller;
                    set_locks(&device, mark % 8);
                    controller->marks = (uint16_t)(1u << mark & 0xFFFF);
                    controller->errors = mark % 2 == 0 ? POD_STATUS_ERRORS : 0x00;
                    controller->mode = (uint8_t)(mark % 3);
                    if (last) {
                        controller->outer.left = controller->inner.left = controller->outer.slices = 1;
                        controller->outer.pause = 1 + mark % 2;
                    }
                    test_reset_of(device, resets[i]);
                }
        rig_images_stand();
    }
    check_group("reset: a setup is dropped");
    for (size_t i = 0; i < RESETS; i++)
        for (uint32_t setup = POD_SETUP_PROGRAM; setup <= POD_SETUP_ERASE; setup++) {
            struct pod_device device = device_in(IS_READY);
            device.controller.setup = (uint8_t)setup;
            test_reset_of(device, resets[i]);
        }
}

static void test_resets_of_frames(void)
{
    check_group("reset: on each clock of a read, nothing is driven then or later");
    for (unsigned broken = 1; broken <= FRAME_READ_CLOCKS; broken++)
        for (size_t i = 0; i < RESETS; i++) {
            rig_set(device_in(IS_READY));
            const struct frame frame = known_read();
            rig_play_frame(&frame, POD_SAMPLE_IDLE, 1, broken - 1);
            test_reset_of(rig.now, resets[i]);
            rig_idle(FRAME_READ_CLOCKS);
            expect(frame.byte, rig_read(frame.address), "a register read after a reset");
        }
    check_group("reset: on each clock of a write; on clock 12 it stops the command");
    for (size_t which = 0; which < WRITES; which++)
        for (unsigned broken = 1; broken <= FRAME_WRITE_CLOCKS; broken++) {
            const struct written *written = &writes[which];
            const struct pod_device before = before_write(written), reached = during_write(written, before, broken - 1);
            const struct pod_device wanted = after_reset(&reached);
            rig_set(before);
            rig_begin_write(written_address(written), written->data, broken - 1);
            test_reset(&wanted, POD_SAMPLE_IDLE & ~POD_SAMPLE_RP);
        }
    rig_images_stand();
}

static void test_marks(void)
{
    check_group("marks: an erase cut off sets its block's, a finished program leaves it, a finished erase takes it");
    rig_power_up(1, 1, 1);
    start(COMMAND_ERASE, 0xD0000, COMMAND_RESUME);
    rig_clock_dark(POD_SAMPLE_IDLE & ~POD_SAMPLE_INIT, 1);
    expect(0x2000, pod_marks(rig.now), "marks after an erase cut off");
    rig_put(0xD0000, 1, 0xFF);
    start(COMMAND_PROGRAM, 0xD0000, 0x00);
    rig_idle(in_clocks(1));
    rig_expect_byte(0xD0000, 0x00, "programmed in a spoiled block");
    expect(0x2000, pod_marks(rig.now), "marks after a program");
    start(COMMAND_ERASE, 0xDFFFF, COMMAND_RESUME);
    rig_idle(in_clocks(POD_SLICES) - 2);
    expect(0x2000, pod_marks(rig.now), "marks one clock before the end of an erase");
    rig_idle(1);
    expect(0x0000, pod_marks(rig.now), "marks after an erase");
    rig_will_hold(0xD0000, POD_BLOCK_BYTES, 0xFF);
    rig_images_stand();
}

int main(void)
{
    rig_open();
    for (uint32_t part = POD_PART_FWH; part <= POD_PART_LPC; part++) {
        test_as(part);
        check_about(tested_name());
        test_setups();
        test_error_bits();
        test_programs();
        test_erases();
        test_bindings();
        test_suspends();
        test_program_inside();
        test_reads_at_ends();
        test_commands_at_ends();
        test_resets_of_operations();
        test_resets_of_frames();
        test_marks();
    }
    rig_close();
    return check_end("operation_test");
}
