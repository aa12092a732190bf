/* What a device is to be after clocks, resets, commands and writes, by hand. */
#ifndef TEST_EXPECTED_H
#define TEST_EXPECTED_H

#include "bus/commands.h"
#include "pod.h"
#include "test/scope.h"

#include <stddef.h>
#include <stdint.h>

/* The device some clocks on, none of which is the last of an operation, a slice or a pause, with the bus idle. */
struct pod_device after_clocks(struct pod_device device, uint32_t clocks);

/* As step 1 leaves the device. */
struct pod_device after_reset(const struct pod_device *device);

/* After a command byte where no setup stands, by the table's row of the condition that the device is in. */
struct pod_device after_command(struct pod_device device, enum condition condition, uint32_t command);

/* After the array write that ends a setup, whose acting sample has these pins: a bit set and nothing started, or the
 * operation accepted. */
struct pod_device after_setup(struct pod_device device, uint16_t sample, uint32_t place, uint32_t data);

/* Each kind of write that changes something: where it starts, where it goes and what it carries. place: one in the
 * array, or the block of a lock register. */
struct written {
    const char *name;
    enum condition condition;
    uint8_t setup;
    bool lock;
    uint32_t place, data;
};

enum { WRITES = 19 };
extern const struct written writes[WRITES];

uint32_t written_address(const struct written *written);

/* The device before that write: blocks 2 and 7 open, an error bit set, and a mode that each of them would change. */
struct pod_device before_write(const struct written *written);

/* The device some clocks into that write, its frame aside. */
struct pod_device during_write(const struct written *written, struct pod_device device, uint32_t clocks);

#endif
