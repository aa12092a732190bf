/* Tests one clock on both parts: frames and where they break off, registers, modes, commands, refusals, any device at
 * all, and document 01's ten examples. */
#include "bus/addresses.h"
#include "bus/frames.h"
#include "bus/pins.h"
#include "test/any.h"
#include "test/check.h"
#include "test/compare.h"
#include "test/edges.h"
#include "test/expected.h"
#include "test/fields.h"
#include "test/rig.h"
#include "test/scope.h"
#include "test/tested.h"

#include <string.h>

enum { MAKER = 0x20 };

/* ---- Frames. */

/* All of a frame, which the part takes or drops. */
static void play_taken(const struct frame *frame, bool taken)
{
    uint16_t samples[FRAME_MOST_CLOCKS];
    const size_t clocks = frame_lay(frame, POD_SAMPLE_IDLE, samples);
    rig_play(samples, 1, (unsigned)clocks, taken ? frame : NULL);
}

/* Straps and size, which the LPC bus has not. */
static void test_heads(void)
{
    check_group("frames: straps match or the frame is dropped");
    for (uint32_t straps = 0; straps <= POD_STRAPS_MOST; straps++)
        for (uint32_t nibble = 0; nibble < 16; nibble++) {
            struct frame frame = known_read();
            frame.select = (uint8_t)nibble;
            rig_set(pod_power_up(POD_PART_FWH, straps, 10, 3906, 30).device);
            play_taken(&frame, straps == nibble);
        }

    check_group("frames: a size other than 0000b drops the frame");
    rig_power_up(10, 3906, 30);
    for (uint32_t size = 0; size < 16; size++) {
        struct frame read = read_of(ADDRESS_DEVICE, device_code());
        struct frame write = write_of(in_lock(4), size & 1);
        read.size = write.size = (uint8_t)size;
        play_taken(&read, size == 0);
        play_taken(&write, size == 0);
        expect(0, rig.now.locks[4], "lock 4 after a write of size %u", size);
    }
    rig_images_stand();
}

/* What answers to the rest of a read behind a low frame line: on FWH a write begun by it takes that too. */
static const struct frame *begun_frame(uint32_t kind, const struct frame *read, const struct frame *write)
{
    return kind == POD_FRAME_READ || kind == POD_FRAME_BEGUN ? read : kind == POD_FRAME_WRITE ? write : NULL;
}

static void test_starts(void)
{
    check_group("frames: the part's own start nibbles alone begin one, at each repeat of a low frame line");
    const struct frame read = known_read(), write = write_of(read.address, 0xFF);
    uint16_t samples[FRAME_MOST_CLOCKS];
    frame_lay(&read, POD_SAMPLE_IDLE, samples);
    for (uint32_t nibble = 0; nibble < 16; nibble++)
        for (int lows = 1; lows <= 3; lows++) {
            const uint32_t kind = kind_begun_by(nibble);
            rig_power_up(10, 3906, 30);
            for (int low = 0; low < lows; low++) {
                rig_clock_dark(frame_break(POD_SAMPLE_IDLE, nibble), 1);
                expect(kind, rig.now.frame.kind, "kind of the frame that %Xh begins", nibble);
                expect(kind == POD_FRAME_NONE ? rig.now.frame.clock : 1, rig.now.frame.clock, "its clock");
            }
            rig_play(samples, 2, FRAME_READ_CLOCKS, begun_frame(kind, &read, &write));
        }

    check_group("frames: none begins with the frame line high");
    for (uint32_t nibble = 0; nibble < 16; nibble++) {
        rig_power_up(10, 3906, 30);
        rig_clock_dark(sample_with_lines(POD_SAMPLE_IDLE, nibble), 1);
        expect(POD_FRAME_NONE, rig.now.frame.kind, "kind of the frame after lines %Xh alone", nibble);
        rig_play(samples, 2, FRAME_READ_CLOCKS, NULL);
    }
    rig_images_stand();
}

static void test_lines(void)
{
    check_group("frames: lines are not looked at on turnaround nor while the device drives");
    rig_power_up(10, 3906, 30);
    for (uint32_t nibble = 0; nibble < 16; nibble++) {
        struct frame read = known_read();
        struct frame write = write_of(in_lock(1), nibble & 1);
        read.turn = write.turn = (uint8_t)nibble;
        play_taken(&read, true);
        play_taken(&write, true);
        expect(nibble & 1, rig.now.locks[1], "lock 1 after a write with lines %Xh behind it", nibble);
    }

    check_group("frames: an address whose nibbles all differ, highest first");
    rig_set(device_in(IS_READY));
    expect(rig.image.wanted[0x12345], rig_read(is_lpc() ? in_array(0x12345) : 0x7612345), "byte 12345");
    expect(rig.image.wanted[0xFEDCB], rig_read(is_lpc() ? in_array(0xFEDCB) : 0xF4FEDCB), "byte FEDCB");
    rig_images_stand();
}

static const uint8_t breaks[] = { FRAME_START_LPC, 0x5, 0xC, FRAME_START_READ, FRAME_START_WRITE, 0xF };
enum { BREAKS = sizeof breaks / sizeof breaks[0] };

/* A low frame line with `nibble`: the device is then `wanted` beside the frame that it begins, if one. That frame runs
 * to its end, on LPC in either direction; with none, nothing is driven. */
static void test_break(struct pod_device wanted, uint32_t nibble)
{
    const uint32_t kind = kind_begun_by(nibble);
    rig_clock_dark(frame_break(POD_SAMPLE_IDLE, nibble), 1);
    wanted.frame = (struct pod_frame){ .kind = (uint8_t)kind, .clock = 1 };
    expect_meaning(&wanted, &rig.now, "the device after the break");
    if (kind == POD_FRAME_READ || (kind == POD_FRAME_BEGUN && any_below(2) == 0)) {
        const struct frame frame = known_read();
        rig_play_frame(&frame, POD_SAMPLE_IDLE, 2, FRAME_READ_CLOCKS);
    } else if (kind != POD_FRAME_NONE) {
        const uint8_t lock = rig.now.locks[9] ^ POD_LOCK_READ;
        const struct frame frame = write_of(in_lock(9), lock);
        rig_play_frame(&frame, POD_SAMPLE_IDLE, 2, FRAME_WRITE_CLOCKS);
        expect(wanted.locks[9] ^ 4u, rig.now.locks[9], "the lock register written behind the break");
    } else {
        rig_idle(FRAME_READ_CLOCKS);
    }
}

static void test_broken_reads(void)
{
    check_group("frames: a read broken off on each clock, in each condition");
    for (enum condition condition = IS_READY; condition < CONDITIONS; condition++)
        for (unsigned broken = 2; broken <= FRAME_READ_CLOCKS + 1; broken++)
            for (size_t i = 0; i < BREAKS; i++) {
                const struct pod_device before = device_in(condition);
                const struct frame frame = known_read();
                rig_set(before);
                rig_play_frame(&frame, POD_SAMPLE_IDLE, 1, broken - 1);
                test_break(after_clocks(before, broken), breaks[i]);
            }
    rig_images_stand();
}

static void test_broken_writes(void)
{
    for (size_t which = 0; which < WRITES; which++) {
        const struct written *written = &writes[which];
        check_group("frames: a write broken off on each clock, %s", written->name);
        for (unsigned broken = 2; broken <= FRAME_WRITE_CLOCKS + 1; broken++)
            for (size_t i = 0; i < BREAKS; i++) {
                const struct pod_device before = before_write(written);
                rig_set(before);
                rig_begin_write(written_address(written), written->data, broken - 1);
                test_break(after_clocks(during_write(written, before, broken - 1), 1), breaks[i]);
            }
        rig_images_stand();
    }
}

/* ---- Registers. */

static int lock_at(uint32_t address)
{
    for (uint32_t block = 0; block < POD_BLOCKS; block++)
        if (address == in_lock(block))
            return (int)block;
    return -1;
}

/* What a register reads, with `inputs` on the clock that fixes it. */
static uint32_t register_value(const struct pod_device *device, uint32_t address, uint32_t inputs)
{
    const int lock = lock_at(address);
    if (lock >= 0)
        return device->locks[lock];
    if (address == in_inputs())
        return inputs;
    if (is_lpc())
        return 0;
    return address == ADDRESS_MAKER ? MAKER : address == ADDRESS_DEVICE ? device_code() : 0;
}

/* Reads a register address, writes it till it is locked down and once more, and reads it again, all beside a setup.
 * Nothing but a lock register may change. */
static void test_register(uint32_t address)
{
    static const uint8_t values[] = { 0xFC, 0x05, 0x03, 0x04 };
    const uint32_t inputs = 0x15;
    const uint16_t idle = sample_with_inputs(POD_SAMPLE_IDLE, inputs);
    const int lock = lock_at(address);
    struct pod_device device = device_in(IS_READY);
    for (size_t block = 0; block < POD_BLOCKS; block++)
        device.locks[block] = (uint8_t)(block % 8 & ~(size_t)POD_LOCK_DOWN);
    device.controller.setup = POD_SETUP_ERASE;
    device.controller.mode = POD_MODE_SIGNATURE;
    rig_set(device);
    expect(register_value(&device, address, inputs), rig_read_over(idle, address), "register %X read", address);
    expect_meaning(&device, &rig.now, "the device after a register read");
    for (size_t i = 0; i < sizeof values; i++) {
        rig_write_over(idle, address, values[i]);
        if (lock >= 0 && (device.locks[lock] & POD_LOCK_DOWN) == 0)
            device.locks[lock] = values[i] & 7;
        expect_meaning(&device, &rig.now, "the device after a register write");
        expect(register_value(&device, address, inputs), rig_read_over(idle, address), "register %X again", address);
    }
}

/* Nineteen on FWH, seventeen on LPC. */
static size_t register_addresses(uint32_t addresses[POD_BLOCKS + 3])
{
    size_t count = 0;
    for (uint32_t block = 0; block < POD_BLOCKS; block++)
        addresses[count++] = in_lock(block);
    addresses[count++] = in_inputs();
    if (!is_lpc()) {
        addresses[count++] = ADDRESS_MAKER;
        addresses[count++] = ADDRESS_DEVICE;
    }
    return count;
}

static void test_register_addresses(void)
{
    uint32_t addresses[POD_BLOCKS + 3];
    const size_t count = register_addresses(addresses);
    const uint32_t bits = is_lpc() ? 20 : 28;

    check_group("registers: each of them, read and written beside a setup");
    for (size_t i = 0; i < count; i++)
        test_register(addresses[i]);
    check_group("registers: their neighbours, below and above, while they are the part's own");
    for (size_t i = 0; i < count; i++)
        for (uint32_t step = 0; step <= 8; step++)
            if (!is_lpc() || addresses[i] % POD_IMAGE_BYTES + step >= 4)
                test_register(addresses[i] + step - 4);
    check_group("registers: one address bit changed, all counting that are not the part's own");
    for (size_t i = 0; i < count; i++)
        for (uint32_t bit = 0; bit < bits; bit++)
            if (1u << bit != ADDRESS_IS_ARRAY)
                test_register(addresses[i] ^ 1u << bit);
    check_group("registers: where FWH has its codes");
    test_register(codes_address(tested.part, tested.straps));
    test_register(codes_address(tested.part, tested.straps) + 1);
    rig_images_stand();
}

/* Addresses with other bits from 20 on, which on LPC are none of the part's. */
static void test_fwh_addresses(void)
{
    check_group("registers: a block below the first lock, and other places where nothing stands");
    static const uint32_t nothing[] = {
        0xFAF0002, 0x0000000, 0x0000002, 0xFB00000, 0xFBF0000, 0xFBFFFFF, 0x0B00002, 0xF800002, 0xFFBFFFF, 0xFBC0102
    };
    for (size_t i = 0; i < sizeof nothing / sizeof nothing[0]; i++)
        test_register(nothing[i] & ~(uint32_t)ADDRESS_IS_ARRAY);
    check_group("registers: a block above the last lock is array, and takes commands");
    rig_power_up(10, 3906, 30);
    expect(rig.image.wanted[2], rig_read(in_lock(16)), "byte 2");
    rig_write(in_lock(16), COMMAND_STATUS);
    expect(POD_STATUS_READY, rig_read(in_lock(16)), "status");
    rig_images_stand();
}

static void test_register_values(void)
{
    check_group("registers: inputs as they are on clock 15");
    for (uint32_t inputs = 0; inputs < 32; inputs++) {
        const struct frame frame = read_of(in_inputs(), inputs);
        uint16_t samples[FRAME_MOST_CLOCKS];
        frame_lay(&frame, sample_with_inputs(POD_SAMPLE_IDLE, ~inputs), samples);
        samples[FRAME_CLOCK_SYNC - 1] = sample_with_inputs(POD_SAMPLE_IDLE, inputs);
        rig_power_up(10, 3906, 30);
        rig_play(samples, 1, FRAME_READ_CLOCKS, &frame);
    }

    check_group("registers: each lock takes each byte's low three bits, till locked down");
    for (uint32_t block = 0; block < POD_BLOCKS; block++)
        for (uint32_t value = 0; value < 256; value++) {
            struct pod_device wanted = device_in(IS_READY);
            rig_set(wanted);
            rig_write(in_lock(block), value);
            wanted.locks[block] = value & 7;
            expect_meaning(&wanted, &rig.now, "the device with a lock written");
            rig_write(in_lock(block), ~value & 0xFF);
            if ((value & POD_LOCK_DOWN) == 0)
                wanted.locks[block] = ~value & 7;
            expect_meaning(&wanted, &rig.now, "the device with a lock written twice");
            expect(wanted.locks[block], rig_read(in_lock(block)), "lock %u read back", block);
        }

    check_group("registers: they work in each condition");
    for (enum condition condition = IS_READY; condition < CONDITIONS; condition++)
        for (uint32_t block = 0; block < POD_BLOCKS; block++) {
            struct pod_device wanted = device_in(condition);
            const struct frame known = known_read();
            rig_set(wanted);
            expect(known.byte, rig_read(known.address), "a register, %s", condition_names[condition]);
            rig_write(in_lock(block), 0x04);
            wanted = after_clocks(wanted, FRAME_READ_CLOCKS + FRAME_WRITE_CLOCKS);
            wanted.locks[block] = 0x04;
            expect_meaning(&wanted, &rig.now, "the device with a lock written");
        }
    rig_images_stand();
}

/* ---- Modes and commands. */

static uint32_t array_value(const struct pod_device *device, uint32_t place)
{
    if (device->controller.mode == POD_MODE_STATUS)
        return status_of(device);
    if (device->controller.mode == POD_MODE_SIGNATURE)
        return place == 0 ? MAKER : place == 1 ? device_code() : 0;
    return (device->locks[block_of(place)] & POD_LOCK_READ) != 0 ? 0x00 : rig.image.wanted[place];
}

static void test_modes(void)
{
    static const uint32_t places[] = { 0x00000, 0x00001, 0x00002, 0x34567, 0x70000, 0x7FFFF, 0xFFFFE, 0xFFFFF };
    static const uint32_t above[] = { 0x0400000, 0x0700000, 0xFC00000, 0xFF00000, 0x5500000 };
    for (enum condition condition = IS_READY; condition < CONDITIONS; condition++) {
        check_group("modes: array, status and signature, %s", condition_names[condition]);
        for (uint32_t mode = POD_MODE_ARRAY; mode <= POD_MODE_SIGNATURE; mode++)
            for (uint32_t lock = 0; lock < 8; lock++)
                for (size_t i = 0; i < sizeof places / sizeof places[0]; i++) {
                    struct pod_device device = device_in(condition);
                    device.controller.mode = (uint8_t)mode;
                    device.controller.errors = lock % 2 == 0 ? 0x00 : 0x28;
                    set_locks(&device, lock);
                    rig_set(device);
                    const uint32_t address = is_lpc() ? in_array(places[i]) : above[(i + lock) % 5] + places[i];
                    expect(array_value(&device, places[i]), rig_read(address),
                           "mode %u, lock %u, read of %X", mode, lock, places[i]);
                    const struct pod_device after = after_clocks(device, FRAME_READ_CLOCKS);
                    expect_meaning(&after, &rig.now, "the device after an array read");
                }
        rig_images_stand();
    }

    check_group("modes: the read lock of a block acts on that block alone");
    for (uint32_t block = 0; block < POD_BLOCKS; block++) {
        struct pod_device device = device_in(IS_READY);
        device.locks[block] = POD_LOCK_READ;
        rig_set(device);
        for (uint32_t other = 0; other < POD_BLOCKS; other++) {
            const uint32_t place = other * POD_BLOCK_BYTES + 7;
            rig_put(place, 1, 0x96);
            expect(other == block ? 0x00 : 0x96, rig_read(in_array(place)), "%u locked, %u read", block, other);
        }
    }
    rig_images_stand();
}

static void test_commands(void)
{
    for (enum condition condition = IS_READY; condition < CONDITIONS; condition++) {
        check_group("commands: each byte in each mode, %s", condition_names[condition]);
        for (uint32_t mode = POD_MODE_ARRAY; mode <= POD_MODE_SIGNATURE; mode++)
            for (uint32_t command = 0; command < 256; command++)
                for (uint32_t errors = 0; errors <= POD_STATUS_ERRORS; errors += POD_STATUS_ERRORS) {
                    struct pod_device device = device_in(condition);
                    device.controller.mode = (uint8_t)mode;
                    device.controller.errors = (uint8_t)errors;
                    rig_set(device);
                    rig_write(in_array(0x34567 * (command % 2)), command);
                    device = after_command(after_clocks(device, FRAME_CLOCK_ACT), condition, command);
                    device = after_clocks(device, FRAME_WRITE_CLOCKS - FRAME_CLOCK_ACT);
                    expect_meaning(&device, &rig.now, "the device after a command");
                    expect(status_of(&device), pod_status(rig.now), "status after command %Xh", command);
                }
        rig_images_stand();
    }
}

/* ---- Refusals. */

/* Both steps refuse with `number` and leave device and image as they were lent. */
static void test_refusal(struct pod_device device, size_t length, unsigned sample, uint32_t number)
{
    const struct pod_stepped stepped = pod_step(device, rig.image.bytes, length, (uint16_t)sample);
    expect(number, stepped.number, "number of the step by value, image of %zu, sample %X", length, sample);
    expect(0, stepped.answer, "answer of a step by value refused");
    expect_device(&device, &stepped.device, "the device of a step by value refused");
    *rig.twin = device;
    const struct pod_clocked clocked = pod_clock(rig.twin, rig.twin_image.bytes, length, (uint16_t)sample);
    expect(number, clocked.number, "number of the step in place, image of %zu, sample %X", length, sample);
    expect(0, clocked.answer, "answer of a step in place refused");
    expect_device(&device, rig.twin, "the device of a step in place refused");
}

/* A device whose operation ends on the next clock, so that a step that is not refused shows in the image. */
static struct pod_device ending_device(enum condition condition)
{
    struct pod_device device = device_in(condition);
    device.controller.outer.left = device.controller.inner.left = device.controller.outer.slices = 1;
    return device;
}

static void test_refusals(void)
{
    static const size_t lengths[] = { 0, 1, 65536, POD_IMAGE_BYTES - 1, POD_IMAGE_BYTES + 1 };
    check_group("refusals: an image one off, or far off, in each condition, reset or not");
    for (enum condition condition = IS_READY; condition < CONDITIONS; condition++)
        for (size_t i = 0; i < sizeof lengths / sizeof lengths[0]; i++) {
            struct pod_device device = ending_device(condition);
            test_refusal(device, lengths[i], POD_SAMPLE_IDLE, POD_REFUSED_IMAGE);
            test_refusal(device, lengths[i], POD_SAMPLE_IDLE & ~POD_SAMPLE_RP, POD_REFUSED_IMAGE);
            test_refusal(device, lengths[i], POD_SAMPLE_IDLE | POD_SAMPLE_VOLTAGE, POD_REFUSED_IMAGE);
            device.straps = POD_STRAPS_MOST + 1;
            test_refusal(device, lengths[i], POD_SAMPLE_IDLE | POD_SAMPLE_VOLTAGE, POD_REFUSED_DEVICE);
        }
    check_group("refusals: voltage class 3, in each condition, reset or not");
    for (enum condition condition = IS_READY; condition < CONDITIONS; condition++)
        for (uint32_t sample = 0; sample < 0x10000; sample += 37)
            test_refusal(ending_device(condition), POD_IMAGE_BYTES, sample | POD_SAMPLE_VOLTAGE, POD_REFUSED_VOLTAGE);
    check_group("refusals: an unsound device, before all others");
    for (int round = 0; round < 50000; round++) {
        const struct pod_device device = edge_device();
        if (!is_sound(&device))
            test_refusal(device, lengths[any_below(5)], any_below(0x10000), POD_REFUSED_DEVICE);
    }
    check_group("refusals: random bytes as a device");
    for (uint32_t round = 0; round < 50000; round++) {
        const struct pod_device device = any_device(round % 2 == 0 ? 256 : 3);
        if (!is_sound(&device))
            test_refusal(device, POD_IMAGE_BYTES, any_below(0x10000), POD_REFUSED_DEVICE);
    }
    rig_images_stand();
}

/* A step in place that is refused with `number` leaves every byte of the device as it was lent, and those too that are
 * no field's, which hold `between`. */
static void test_refused_bytes(const struct pod_device *device, uint8_t between,
                               size_t length, unsigned sample, uint32_t number)
{
    lent_fill(&rig.twin_device, 0, sizeof *rig.twin, between);
    for (size_t field = 0; field < FIELDS; field++) {
        field_set(rig.twin, field, field_get(device, field));
    }
    memcpy(rig.twin_device.wanted, rig.twin, sizeof *rig.twin);
    const struct pod_clocked clocked = pod_clock(rig.twin, rig.twin_image.bytes, length, (uint16_t)sample);
    expect(number, clocked.number, "number of a step in place, %02Xh between the fields", between);
    lent_stands(&rig.twin_device, "device of a step in place refused");
}

static void test_all_bytes(void)
{
    static const uint8_t between[] = { 0x5A, 0xA5, 0xFF };
    const unsigned idle = POD_SAMPLE_IDLE, bad = POD_SAMPLE_IDLE | POD_SAMPLE_VOLTAGE;
    check_group("refusals: every byte of a device in place stays, between its fields too");
    for (enum condition condition = IS_READY; condition < CONDITIONS; condition++)
        for (size_t i = 0; i < sizeof between; i++) {
            struct pod_device device = ending_device(condition);
            test_refused_bytes(&device, between[i], POD_IMAGE_BYTES - 1, idle, POD_REFUSED_IMAGE);
            test_refused_bytes(&device, between[i], POD_IMAGE_BYTES, bad, POD_REFUSED_VOLTAGE);
            device.straps = POD_STRAPS_MOST + 1;
            test_refused_bytes(&device, between[i], POD_IMAGE_BYTES, idle, POD_REFUSED_DEVICE);
        }
    rig_images_stand();
}

/* ---- Any device, any sample. */

static void test_any_device(void)
{
    check_group("any device: refused whole, or stepped to a device that the next step takes");
    for (int round = 0; round < 200000; round++) {
        const struct pod_device device = edge_device();
        if (!is_sound(&device))
            continue;
        rig_set(device);
        for (int i = 0; i < 3; i++) {
            const uint32_t answer = rig_clock(edge_sample());
            expect(1, is_sound(&rig.now), "whether a sound device steps to a sound device");
            expect(1, answer == 0 || (answer & ~(uint32_t)POD_ANSWER_LINES) == POD_ANSWER_DRIVEN,
                   "whether an answer is 00h or a nibble with bit 4 set");
            expect(status_of(&rig.now), pod_status(rig.now), "status");
        }
    }
    rig_images_agree();
}

static void test_any_traffic(void)
{
    check_group("any traffic: a long run of frames, waits, pins and resets from power up");
    rig_power_up(1, 1, 1);
    for (int round = 0; round < 20000; round++) {
        uint16_t samples[FRAME_MOST_CLOCKS];
        const size_t count = edge_traffic(samples);
        for (size_t i = 0; i < count; i++)
            rig_clock(samples[i]);
        expect(1, is_sound(&rig.now), "whether the device is sound");
        expect(status_of(&rig.now), pod_status(rig.now), "status");
        expect(rig.now.controller.marks, pod_marks(rig.now), "marks");
    }
    rig_images_agree();
}

/* ---- Document 01's ten examples. */

static void test_examples(void)
{
    const uint32_t top = in_array(0xF0100);
    static const uint8_t fwh_answers[FRAME_READ_CLOCKS] = { [12] = 0x15, 0x15, 0x10, 0x10, 0x12, 0x1F, 0x00 };
    static const uint8_t lpc_answers[FRAME_READ_CLOCKS] = { [12] = 0x15, 0x15, 0x10, 0x11, 0x10, 0x1F, 0x00 };
    const uint8_t *answers = is_lpc() ? lpc_answers : fwh_answers;
    const struct frame known = known_read();

    check_group("example 1: fresh, maker register read, on LPC a lock register");
    rig_power_up(10, 3906, 30);
    for (unsigned clock = 1; clock <= FRAME_READ_CLOCKS; clock++)
        expect(answers[clock - 1], rig_clock(frame_sample(&known, clock, POD_SAMPLE_IDLE)), "answer %u", clock);

    check_group("example 2: fresh, program block 15");
    rig_power_up(10, 3906, 30);
    rig_put(0xF0100, 1, 0x5A);
    rig_write(in_array(0), COMMAND_PROGRAM);
    rig_write(top, 0x0F);
    expect(0x82, pod_status(rig.now), "status");
    rig_idle(in_clocks(10));
    rig_images_stand();

    check_group("example 3: as 2 with class 0");
    rig_power_up(10, 3906, 30);
    rig_write(in_array(0), COMMAND_PROGRAM);
    rig_write_over(sample_with_voltage(POD_SAMPLE_IDLE, POD_VOLTAGE_LOCKOUT), top, 0x0F);
    expect(0x88, pod_status(rig.now), "status");
    rig_idle(in_clocks(10));
    rig_images_stand();

    for (int low = 0; low < 2; low++) {
        const uint16_t idle = low ? POD_SAMPLE_IDLE & ~POD_SAMPLE_TBL : POD_SAMPLE_IDLE;
        check_group("%s", low ? "example 5: as 4, TBL low from the next sample on"
                              : "example 4: lock 15 written 00h, program 0Fh over 5Ah, time 1");
        rig_power_up(1, 3906, 30);
        rig_put(0xF0100, 1, 0x5A);
        rig_write(in_lock(15), 0x00);
        rig_write(in_array(0), COMMAND_PROGRAM);
        rig_write_and_act(top, 0x0F);
        for (int clock = 1; clock <= 32; clock++)
            rig_clock(idle);
        rig_expect_byte(0xF0100, 0x5A, "after the 32nd sample");
        rig_clock(idle);
        rig_expect_byte(0xF0100, 0x0A, "after the 33rd sample");
        rig_images_stand();
    }

    check_group("example 6: erase setup, then 00h");
    rig_power_up(10, 3906, 30);
    rig_write(in_array(0), COMMAND_ERASE);
    rig_write(in_array(0), 0x00);
    expect(0xB0, pod_status(rig.now), "status");

    check_group("example 7: lock written 03h, then 00h; another written FFh");
    rig_power_up(10, 3906, 30);
    rig_write(in_lock(2), 0x03);
    rig_write(in_lock(2), 0x00);
    rig_write(in_lock(8), 0xFF);
    expect(0x03, rig_read(in_lock(2)), "the first");
    expect(0x07, rig_read(in_lock(8)), "the other");

    check_group("example 8: frame line low on clock 12 of a write");
    rig_power_up(10, 3906, 30);
    rig_begin_write(in_array(0), COMMAND_STATUS, FRAME_CLOCK_ACT - 1);
    rig_clock_dark(frame_break(POD_SAMPLE_IDLE, 0x7), 1);
    rig_idle(10);
    expect(POD_MODE_ARRAY, rig.now.controller.mode, "mode");

    check_group("example 9: erase suspended, then a program into its block");
    rig_power_up(10, 3906, 30);
    rig_write(in_lock(4), 0x00);
    rig_write(in_array(0), COMMAND_ERASE);
    rig_write(in_array(0x40000), COMMAND_RESUME);
    rig_write(in_array(0), COMMAND_SUSPEND);
    rig_idle(in_clocks(30));
    expect(0xC0, pod_status(rig.now), "status of the suspended erase");
    rig_write(in_array(0), COMMAND_PROGRAM);
    rig_write(in_array(0x4FFFF), 0x00);
    expect(0xD0, pod_status(rig.now), "status after the program");

    check_group("example 10: reset on the sample after an acceptance");
    rig_power_up(10, 3906, 30);
    rig_write(in_lock(4), 0x00);
    rig_write(in_array(0), COMMAND_PROGRAM);
    rig_write_and_act(in_array(0x40000), 0x00);
    rig_clock_dark(POD_SAMPLE_IDLE & ~POD_SAMPLE_RP, 1);
    expect(0x0010, pod_marks(rig.now), "marks");
    expect(0x80, pod_status(rig.now), "status");
    rig_images_stand();
}

int main(void)
{
    rig_open();
    for (uint32_t part = POD_PART_FWH; part <= POD_PART_LPC; part++) {
        test_as(part);
        check_about(tested_name());
        if (!is_lpc()) {
            test_heads();
            test_fwh_addresses();
        }
        test_starts();
        test_lines();
        test_broken_reads();
        test_broken_writes();
        test_register_addresses();
        test_register_values();
        test_modes();
        test_commands();
        test_refusals();
        test_all_bytes();
        test_any_device();
        test_any_traffic();
        test_examples();
    }
    rig_close();
    return check_end("step_test");
}
