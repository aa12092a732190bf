/* The part that a test is about at the moment, and where things stand on its bus. */
#ifndef TEST_TESTED_H
#define TEST_TESTED_H

#include "bus/frames.h"

#include <stdbool.h>
#include <stdint.h>

/* FWH with straps 5 until another is said. */
struct tested {
    uint32_t part, straps;
};
extern struct tested tested;

/* From now on about this part: FWH with straps 5, LPC with straps 2. */
void test_as(uint32_t part);
bool is_lpc(void);
const char *tested_name(void);

/* The device code of the signature. */
uint32_t device_code(void);

/* The addresses of a place in the array, of a lock register and of the inputs. */
uint32_t in_array(uint32_t place);
uint32_t in_lock(uint32_t block);
uint32_t in_inputs(void);

/* Frames for the part's own straps. A read is to find `byte`. */
struct frame read_of(uint32_t address, uint32_t byte);
struct frame write_of(uint32_t address, uint32_t byte);

/* A read of a register whose value is known: the maker on FWH; on LPC, which has none, lock 3, where it is 01h. */
struct frame known_read(void);

/* The kind of frame that a low frame line begins with this nibble. */
uint32_t kind_begun_by(uint32_t nibble);

#endif
