/* Where things stand in a frame's address: 28 bits of it on FWH, 32 on LPC. */
#ifndef BUS_ADDRESSES_H
#define BUS_ADDRESSES_H

#include "pod.h"

#include <stdint.h>

/* On FWH the straps do not count, and a board has the array at the top of its memory. */
enum {
    ADDRESS_MOST = 0xFFFFFFF,
    ADDRESS_IS_ARRAY = 0x0400000, /* the bit that tells the array from the registers, on both parts */
    ADDRESS_ARRAY = 0xFF00000,    /* byte 0 of the array */
    ADDRESS_LOCKS = 0xFB00002,    /* block 0's lock register; the others are a block's bytes apart */
    ADDRESS_MAKER = 0xFBC0000,
    ADDRESS_DEVICE = 0xFBC0001,
    ADDRESS_INPUTS = 0xFBC0100
};

/* On LPC bits 23 to 31 are 1 and bits 21 and 20 follow the straps, each inverted: these are the lowest addresses, of
 * straps 3. */
#define ADDRESS_LPC_MOST UINT32_MAX
#define ADDRESS_LPC_HIGH 0xFF800000u
#define ADDRESS_LPC_ARRAY 0xFFC00000u
#define ADDRESS_LPC_LOCKS 0xFF800002u
#define ADDRESS_LPC_INPUTS 0xFF8C0100u

static inline uint32_t address_most(unsigned part)
{
    return part == POD_PART_LPC ? ADDRESS_LPC_MOST : ADDRESS_MOST;
}

/* The most that a part's straps can be. */
static inline uint32_t straps_most(unsigned part)
{
    return part == POD_PART_LPC ? POD_LPC_STRAPS_MOST : POD_STRAPS_MOST;
}

/* How far above those of straps 3 the addresses of other straps are. */
static inline uint32_t address_window(unsigned straps)
{
    return (POD_LPC_STRAPS_MOST - straps % (POD_LPC_STRAPS_MOST + 1)) * (uint32_t)POD_IMAGE_BYTES;
}

static inline uint32_t array_address(unsigned part, unsigned straps, uint32_t place)
{
    return (part == POD_PART_LPC ? ADDRESS_LPC_ARRAY + address_window(straps) : ADDRESS_ARRAY) + place;
}

static inline uint32_t lock_address(unsigned part, unsigned straps, uint32_t block)
{
    const uint32_t first = part == POD_PART_LPC ? ADDRESS_LPC_LOCKS + address_window(straps) : ADDRESS_LOCKS;
    return first + block * POD_BLOCK_BYTES;
}

static inline uint32_t inputs_address(unsigned part, unsigned straps)
{
    return part == POD_PART_LPC ? ADDRESS_LPC_INPUTS + address_window(straps) : ADDRESS_INPUTS;
}

/* Where FWH has its maker code, and behind it its device code. On LPC nothing stands there. */
static inline uint32_t codes_address(unsigned part, unsigned straps)
{
    return inputs_address(part, straps) - (ADDRESS_INPUTS - ADDRESS_MAKER);
}

static inline uint32_t block_of(uint32_t place)
{
    return place / POD_BLOCK_BYTES;
}

#endif
