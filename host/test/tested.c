/* What differs between the parts where a test is the same. */
#include "test/tested.h"

#include "bus/addresses.h"
#include "pod.h"

struct tested tested = { .part = POD_PART_FWH, .straps = 5 };

bool is_lpc(void)
{
    return tested.part == POD_PART_LPC;
}

void test_as(uint32_t part)
{
    tested.part = part;
    tested.straps = is_lpc() ? 2 : 5;
}

const char *tested_name(void)
{
    return is_lpc() ? "LPC" : "FWH";
}

uint32_t device_code(void)
{
    return is_lpc() ? 0x2F : 0x2D;
}

uint32_t in_array(uint32_t place)
{
    return array_address(tested.part, tested.straps, place);
}

uint32_t in_lock(uint32_t block)
{
    return lock_address(tested.part, tested.straps, block);
}

uint32_t in_inputs(void)
{
    return inputs_address(tested.part, tested.straps);
}

struct frame read_of(uint32_t address, uint32_t byte)
{
    struct frame frame = frame_read(tested.part, tested.straps, address);
    frame.byte = (uint8_t)byte;
    return frame;
}

struct frame write_of(uint32_t address, uint32_t byte)
{
    return frame_write(tested.part, tested.straps, address, (uint8_t)byte);
}

struct frame known_read(void)
{
    return is_lpc() ? read_of(in_lock(3), POD_LOCK_WRITE) : read_of(ADDRESS_MAKER, 0x20);
}

uint32_t kind_begun_by(uint32_t nibble)
{
    if (is_lpc()) {
        return nibble == FRAME_START_LPC ? POD_FRAME_BEGUN : POD_FRAME_NONE;
    }
    return nibble == FRAME_START_READ ? POD_FRAME_READ : nibble == FRAME_START_WRITE ? POD_FRAME_WRITE : POD_FRAME_NONE;
}
