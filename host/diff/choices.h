/* Random choices of what a frame or a call is about: likely ones mostly, odd ones now and then. */
#ifndef DIFF_CHOICES_H
#define DIFF_CHOICES_H

#include "model.h"

#include <stdint.h>

/* A part, and straps that it allows. */
uint32_t some_part(void);
uint32_t some_straps(uint32_t part);

/* The same, one in `bad` a number that is no part, or straps that this part does not allow. */
uint32_t maybe_no_part(uint32_t bad);
uint32_t maybe_no_straps(uint32_t part, uint32_t bad);

/* A block, mostly one of the trace's favourites. */
uint32_t some_block(void);

/* An address whose array bits name a place, one given or often one where something is going on; the bits that do not
 * count are any, and on LPC there is now and then a bit by which the part is not meant. */
uint32_t some_address_of(uint32_t place);
uint32_t some_array_address(void);

/* The address with one of the bits 20 to 31 flipped. */
uint32_t flip_high_bit(uint32_t address);

/* The address of a register, or of none. */
uint32_t some_register(void);

/* A command byte, or another one. */
uint8_t some_command(void);

/* Times in their ranges, short ones mostly and both ends often. */
struct model_times some_times(void);

/* The same, one in `bad` with a time out of its range. */
struct model_times maybe_bad_times(uint32_t bad);

#endif
