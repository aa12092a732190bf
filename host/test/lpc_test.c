/* Tests what the LPC bus has of its own: cycle types, addresses that are the part's or not, and how far a frame gets
 * before it is dropped, on the bus and in the record. */
#include "bus/addresses.h"
#include "bus/frames.h"
#include "bus/pins.h"
#include "test/any.h"
#include "test/check.h"
#include "test/compare.h"
#include "test/expected.h"
#include "test/rig.h"
#include "test/scope.h"
#include "test/tested.h"

enum {
    HIGH_SHIFT = 20,        /* the bits of an address from here on say whose it is, and array or register */
    HIGHS = 1 << 12,        /* so many values they have */
    HIGH_ARRAY = 1 << 2,    /* bit 22 among them */
    HIGH_ONES = 0xFF8,      /* bits 23 to 31 */
    PLACE = 0x30002         /* lock 3's register, and a byte of the array */
};

/* Fresh, with these straps and lock 3 at 01h. */
static void power_up(uint32_t straps)
{
    rig_set(pod_power_up(POD_PART_LPC, straps, 10, 3906, 30).device);
}

/* Document 000's Table 3: A21 and A20 are the opposite of ID1 and ID0. */
static uint32_t high_of(uint32_t straps)
{
    static const uint32_t a21_a20[] = { 3, 2, 1, 0 };
    return HIGH_ONES | a21_a20[straps];
}

static uint32_t address_of(uint32_t high, uint32_t place)
{
    return high << HIGH_SHIFT | place;
}

/* The frame up to a clock, nothing being driven. */
static void play_head(const struct frame *frame, unsigned clocks)
{
    for (unsigned clock = 1; clock <= clocks; clock++) {
        rig_clock_dark(frame_sample(frame, clock, POD_SAMPLE_IDLE), 1);
    }
}

/* The rest of it, taken or dropped. */
static void play_rest(const struct frame *frame, unsigned first, bool taken)
{
    uint16_t samples[FRAME_MOST_CLOCKS];
    frame_lay(frame, POD_SAMPLE_IDLE, samples);
    rig_play(samples, first, frame_clocks(frame), taken ? frame : NULL);
}

static void expect_frame(uint32_t kind, uint32_t clock, uint32_t address)
{
    expect(kind, rig.now.frame.kind, "kind of the frame on clock %u", clock);
    if (kind != POD_FRAME_NONE) {
        expect(clock, rig.now.frame.clock, "clock of the frame on clock %u", clock);
        expect(address, rig.now.frame.address, "address of the frame on clock %u", clock);
        expect(0, rig.now.frame.byte, "byte of the frame on clock %u", clock);
    }
}

/* ---- Cycle types. */

static uint32_t kind_of_type(uint32_t type)
{
    static const uint8_t kinds[16] = {
        [4] = POD_FRAME_READ, [5] = POD_FRAME_READ, [6] = POD_FRAME_WRITE, [7] = POD_FRAME_WRITE
    };
    return kinds[type];
}

static void test_types(void)
{
    check_group("cycle types: 010Xb is a read, 011Xb a write, any other drops the frame on clock 2");
    for (uint32_t straps = 0; straps <= POD_LPC_STRAPS_MOST; straps++)
        for (uint32_t type = 0; type < 16; type++) {
            const uint32_t kind = kind_of_type(type), address = lock_address(POD_PART_LPC, straps, 3);
            const uint32_t lock = kind == POD_FRAME_WRITE ? POD_LOCK_READ : POD_LOCK_WRITE;
            struct frame frame = frame_read(POD_PART_LPC, straps, address);
            if (kind == POD_FRAME_WRITE)
                frame = frame_write(POD_PART_LPC, straps, address, POD_LOCK_READ);
            else
                frame.byte = POD_LOCK_WRITE;
            frame.select = (uint8_t)type;
            power_up(straps);
            play_head(&frame, 1);
            expect_frame(POD_FRAME_BEGUN, 1, 0);
            play_rest(&frame, 2, kind != POD_FRAME_NONE);
            expect(POD_FRAME_NONE, rig.now.frame.kind, "kind of the frame at its end, type %Xh", type);
            expect(lock, rig.now.locks[3], "lock 3, type %Xh", type);
            power_up(straps);
            play_head(&frame, 2);
            expect_frame(kind, 2, 0);
        }
    check_group("cycle types: a dropped frame stays dropped, whatever comes on its other clocks");
    for (uint32_t type = 0; type < 16; type++)
        for (uint32_t nibble = 0; nibble < 16 && kind_of_type(type) == POD_FRAME_NONE; nibble++) {
            const struct pod_device before = device_in((enum condition)any_below(CONDITIONS));
            const struct pod_device wanted = after_clocks(before, 1 + 1 + 30);
            rig_set(before);
            rig_clock_dark(frame_break(POD_SAMPLE_IDLE, FRAME_START_LPC), 1);
            rig_clock_dark(sample_with_lines(POD_SAMPLE_IDLE, type), 1);
            rig_clock_dark(sample_with_lines(POD_SAMPLE_IDLE, nibble), 30);
            expect_meaning(&wanted, &rig.now, "the device behind a frame dropped on clock 2");
        }
    rig_images_stand();
}

/* ---- Addresses. */

/* A read and a write with these bits from 20 on: taken by the part that they mean. */
static void test_high(uint32_t straps, uint32_t high)
{
    const bool array = (high & HIGH_ARRAY) != 0, meant = (high & ~(uint32_t)HIGH_ARRAY) == high_of(straps);
    const uint32_t address = address_of(high, PLACE);
    struct frame read = frame_read(POD_PART_LPC, straps, address);
    struct frame write = frame_write(POD_PART_LPC, straps, address, array ? COMMAND_STATUS : POD_LOCK_READ);
    read.byte = array ? rig.image.wanted[PLACE] : POD_LOCK_WRITE;
    read.select |= (uint8_t)any_below(2);
    write.select |= (uint8_t)any_below(2);
    power_up(straps);
    play_head(&read, FRAME_CLOCK_JUDGED - 1);
    expect_frame(POD_FRAME_READ, FRAME_CLOCK_JUDGED - 1, address >> 4);
    play_rest(&read, FRAME_CLOCK_JUDGED, meant);
    play_head(&write, FRAME_CLOCK_JUDGED);
    expect_frame(meant ? POD_FRAME_WRITE : POD_FRAME_NONE, FRAME_CLOCK_JUDGED, address);
    play_rest(&write, FRAME_CLOCK_JUDGED + 1, meant);
    expect(meant && array ? POD_MODE_STATUS : POD_MODE_ARRAY, rig.now.controller.mode, "mode, high bits %X", high);
    expect(meant && !array ? POD_LOCK_READ : POD_LOCK_WRITE, rig.now.locks[3], "lock 3, high bits %X", high);
}

static void test_addresses(void)
{
    for (uint32_t straps = 0; straps <= POD_LPC_STRAPS_MOST; straps++) {
        check_group("addresses: every value of bits 20 to 31, judged on clock 10, straps %u", straps);
        for (uint32_t high = 0; high < HIGHS; high++)
            test_high(straps, high);
        rig_images_stand();
    }
    check_group("addresses: the record takes one nibble on each clock from 3 to 10");
    static const uint32_t addresses[] = { 0xFFF12345, 0xFFEEDCBA, 0x76543210, 0x01234567, 0x00000000, 0xFFFFFFFF,
                                          0x12345678, 0xFFBF0002 };
    for (size_t i = 0; i < sizeof addresses / sizeof addresses[0]; i++)
        for (uint32_t write = 0; write < 2; write++) {
            const struct frame frame = write != 0 ? frame_write(POD_PART_LPC, 0, addresses[i], 0)
                                                  : frame_read(POD_PART_LPC, 0, addresses[i]);
            power_up(0);
            play_head(&frame, 2);
            for (unsigned clock = FRAME_CLOCK_ADDRESS; clock < FRAME_CLOCK_JUDGED; clock++) {
                rig_clock_dark(frame_sample(&frame, clock, POD_SAMPLE_IDLE), 1);
                expect_frame(write != 0 ? POD_FRAME_WRITE : POD_FRAME_READ, clock,
                             addresses[i] >> 4 * (FRAME_CLOCK_JUDGED - clock));
            }
        }
}

/* A sound record may hold an address that no frame brought there: a register is known by all 32 bits of it. */
static void test_held_addresses(void)
{
    check_group("addresses: a frame past clock 10 keeps the address that its record holds");
    for (uint32_t straps = 0; straps <= POD_LPC_STRAPS_MOST; straps++)
        for (uint32_t high = 0; high < HIGHS; high++) {
            const bool array = (high & HIGH_ARRAY) != 0, own = high == high_of(straps);
            struct frame frame = frame_read(POD_PART_LPC, straps, address_of(high, PLACE));
            frame.byte = array ? rig.image.wanted[PLACE] : own ? POD_LOCK_WRITE : 0;
            struct pod_device device = pod_power_up(POD_PART_LPC, straps, 10, 3906, 30).device;
            device.frame = (struct pod_frame){ .kind = POD_FRAME_READ, .clock = FRAME_CLOCK_JUDGED,
                                               .address = frame.address };
            rig_set(device);
            play_rest(&frame, FRAME_CLOCK_JUDGED + 1, true);
        }
    rig_images_stand();
}

/* ---- The frames of the other part. */

static void test_foreign_frames(void)
{
    check_group("frames of FWH on LPC, and of LPC on FWH: nothing is driven and nothing happens");
    for (enum condition condition = IS_READY; condition < CONDITIONS; condition++)
        for (uint32_t straps = 0; straps <= POD_STRAPS_MOST; straps++) {
            const struct frame foreign[] = {
                frame_read(POD_PART_FWH, straps, ADDRESS_MAKER), frame_write(POD_PART_FWH, straps, ADDRESS_LOCKS, 0x00),
                frame_read(POD_PART_LPC, straps, lock_address(POD_PART_LPC, straps % 4, 0)),
                frame_write(POD_PART_LPC, straps, lock_address(POD_PART_LPC, straps % 4, 0), 0x00),
            };
            for (size_t i = 0; i < sizeof foreign / sizeof foreign[0]; i++) {
                struct pod_device device = device_in(condition);
                device.part = foreign[i].part == POD_PART_FWH ? POD_PART_LPC : POD_PART_FWH;
                device.straps = (uint8_t)(device.part == POD_PART_LPC ? straps % 4 : straps);
                rig_set(device);
                play_rest(&foreign[i], 1, false);
                const struct pod_device wanted = after_clocks(device, frame_clocks(&foreign[i]));
                expect_meaning(&wanted, &rig.now, "the device after a frame of the other part");
            }
        }
    rig_images_stand();
}

int main(void)
{
    rig_open();
    test_as(POD_PART_LPC);
    test_types();
    test_addresses();
    test_held_addresses();
    test_foreign_frames();
    rig_close();
    return check_end("lpc_test");
}
