/* Random choices of what a frame or a call is about. */
#include "diff/choices.h"

#include "bus/addresses.h"
#include "bus/commands.h"
#include "diff/random.h"
#include "diff/sides.h"
#include "diff/trace.h"
#include "pod.h"

#include <stdbool.h>
#include <stddef.h>

enum { FWH_ADDRESS_BITS = 28, LPC_ADDRESS_BITS = 32 };

uint32_t some_part(void)
{
    return rnd(POD_PART_LPC + 1);
}

uint32_t some_straps(uint32_t part)
{
    return rnd(straps_most(part) + 1);
}

/* A number above `most`: the next, one that a narrower type would cut down to a good one, or any, as often one of the
 * first, since straps that LPC has not may be FWH's. */
static uint32_t above(uint32_t most, uint32_t good)
{
    uint32_t further = 0;
    switch (rnd(3)) {
    case 0:
        return most + 1;
    case 1:
        return good + (1u << (4 + rnd(28)));
    default:
        further = rnd(UINT32_MAX - most);
        return most + 1 + (further % 2 == 0 ? further : further / 2 % POD_STRAPS_MOST);
    }
}

uint32_t maybe_no_part(uint32_t bad)
{
    const uint32_t part = some_part();
    return one_in(bad) ? above(POD_PART_LPC, part) : part;
}

uint32_t maybe_no_straps(uint32_t part, uint32_t bad)
{
    const uint32_t straps = some_straps(part);
    return one_in(bad) ? above(straps_most(part), straps) : straps;
}

uint32_t some_block(void)
{
    return one_in(6) ? rnd(POD_BLOCKS) : trace.favourites[rnd(FAVOURITES)];
}

/* A place in the array, often one where something is going on. */
static uint32_t some_place(void)
{
    uint32_t place = 0;
    switch (rnd(8)) {
    case 0:
        return rnd(3);
    case 1:
        return model.program.address;
    case 2:
        place = model.erase.next + rnd(3) * POD_SLICE_BYTES;
        return (place - rnd(2)) % POD_IMAGE_BYTES;
    case 3:
        return model.erase.block * (uint32_t)POD_BLOCK_BYTES + rnd(POD_BLOCK_BYTES);
    case 4:
        return rnd(POD_IMAGE_BYTES);
    default:
        place = some_block() * POD_BLOCK_BYTES;
        return place + rnd(16);
    }
}

/* On FWH the bits above the array's do not count, on LPC all of them do. */
uint32_t some_address_of(uint32_t place)
{
    const uint32_t address = array_address(model.part, model.straps, place % POD_IMAGE_BYTES);
    if (model.part == POD_PART_LPC) {
        return one_in(40) ? flip_high_bit(address) : address;
    }
    return one_in(4) ? (address % POD_IMAGE_BYTES | rnd(256) << 20 | ADDRESS_IS_ARRAY) : address;
}

uint32_t flip_high_bit(uint32_t address)
{
    return address ^ 1u << (20 + rnd(LPC_ADDRESS_BITS - 20));
}

uint32_t some_array_address(void)
{
    return some_address_of(some_place());
}

/* One of the registers that are no locks, or what is beside them; on LPC no codes stand there. */
static uint32_t some_fixed_register(void)
{
    const uint32_t beside = rnd(4);
    return beside == 0 ? inputs_address(model.part, model.straps)
                       : codes_address(model.part, model.straps) + beside - 1;
}

/* An address of any bits. */
static uint32_t any_address(void)
{
    const uint32_t low = rnd(1u << 16);
    return (rnd(1u << 16) << 16 | low) & address_most(model.part);
}

uint32_t some_register(void)
{
    const unsigned bits = model.part == POD_PART_LPC ? LPC_ADDRESS_BITS : FWH_ADDRESS_BITS;
    uint32_t address = one_in(2) ? lock_address(model.part, model.straps, some_block()) : some_fixed_register();
    if (one_in(5)) {
        address ^= 1u << rnd(bits);
    }
    if (one_in(25)) {
        address = any_address();
    }
    return address;
}

uint8_t some_command(void)
{
    static const uint8_t bytes[] = { COMMAND_ARRAY,   COMMAND_ARRAY,     COMMAND_STATUS,        COMMAND_STATUS,
                                     COMMAND_SIGNATURE, COMMAND_SIGNATURE_TOO, COMMAND_CLEAR, COMMAND_CLEAR,
                                     COMMAND_PROGRAM, COMMAND_PROGRAM,   COMMAND_PROGRAM_TOO,   COMMAND_ERASE,
                                     COMMAND_ERASE,   COMMAND_SUSPEND,   COMMAND_SUSPEND,       COMMAND_SUSPEND,
                                     COMMAND_RESUME,  COMMAND_RESUME,    COMMAND_RESUME,        0x00,
                                     0x01,            0x60,              0x2F,                  0xC0,
                                     0x30,            0x80 };
    const uint8_t byte = bytes[rnd(sizeof bytes)];
    return one_in(12) ? rnd_byte() : byte;
}

struct model_times some_times(void)
{
    static const uint8_t programs[] = { 1, 1, 1, 1, 1, 2, 2, 2, 2, 3, 4, 5, 6, 8, 10, POD_PROGRAM_MOST };
    static const uint16_t slices[] = { 1, 1, 1, 1, 1, 1, 1, 1, 1, 1, 1,    1,
                                       1, 1, 1, 1, 1, 1, 2, 2, 3, 9, 3906, POD_SLICE_MOST };
    static const uint8_t pauses[] = { 1, 1, 1, 1, 1, 1, 2, 2, 3, 5, 8, POD_PAUSE_MOST };
    struct model_times t;
    t.program = one_in(20) ? 1 + rnd(POD_PROGRAM_MOST) : programs[rnd(sizeof programs)];
    t.slice = one_in(40) ? 1 + rnd(POD_SLICE_MOST) : slices[rnd(sizeof slices / sizeof slices[0])];
    t.pause = one_in(10) ? 1 + rnd(POD_PAUSE_MOST) : pauses[rnd(sizeof pauses)];
    return t;
}

/* `wild` where it is above the most that a time may be, else the first number that is. */
static uint32_t too_much(uint32_t most, uint32_t wild)
{
    return wild > most ? wild : most + 1;
}

struct model_times maybe_bad_times(uint32_t bad)
{
    struct model_times t = some_times();
    if (!one_in(bad)) {
        return t;
    }
    const uint32_t wild = one_in(4) ? rnd(UINT32_MAX) : 0;
    switch (rnd(9)) {
    case 0:
        t.program = 0;
        break;
    case 1:
        t.program = too_much(POD_PROGRAM_MOST, wild);
        break;
    case 2:
        t.slice = 0;
        break;
    case 3:
        t.slice = too_much(POD_SLICE_MOST, wild);
        break;
    case 4:
        t.pause = 0;
        break;
    case 6: /* what too narrow a number would lose */
        t.program += 1u << (8 + rnd(24));
        break;
    case 7:
        t.slice += 1u << (16 + rnd(16));
        break;
    case 8:
        t.pause += 1u << (8 + rnd(24));
        break;
    default:
        t.pause = too_much(POD_PAUSE_MOST, wild);
        break;
    }
    return t;
}
