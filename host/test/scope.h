/* Documents 01 and 02 said once more in C: which devices are sound, what their status is, and what they mean. */
#ifndef TEST_SCOPE_H
#define TEST_SCOPE_H

#include "pod.h"

#include <stdbool.h>
#include <stdint.h>

/* Microseconds in clocks. */
uint32_t in_clocks(uint32_t micros);

/* Three times as a host hands them in, which may be any numbers. */
struct asked {
    uint32_t program, slice, pause;
};

bool times_in_range(struct asked times);

/* Times that are in range, as the record keeps them. */
struct pod_times times_kept(struct asked times);

/* What the library must agree on: which devices it takes, and the status register of those. */
bool is_sound(const struct pod_device *device);
uint32_t status_of(const struct pod_device *device);

/* "straps that its part allows": 0 to 15 on FWH, 0 to 3 on LPC, none where there is no such part. */
bool straps_are_allowed(uint32_t part, uint32_t straps);

/* Every lock register of the device gets the same value. */
void set_locks(struct pod_device *device, uint32_t value);

/* A device as step 1 leaves it, with no operation and no marks. */
struct pod_device fresh_device(uint32_t part, uint32_t straps, struct pod_times times);

/* The device with 0 in the fields of what is absent, so that two can be compared in what they mean: those of no frame,
 * of no operation, of no pause, the slices of a program, the data of an erase and its place inside its block; and of a
 * frame its byte where none is fixed and its address where it is not yet whole. */
struct pod_device meant_by(struct pod_device device);

/* Devices to start from, one of each kind that a sound device can be, with short times; of the part that is tested. */
enum condition {
    IS_READY,
    PROGRAM_RUNS,
    ERASE_RUNS,
    PROGRAM_PAUSES,
    ERASE_PAUSES,
    PROGRAM_RESTS, /* suspended */
    ERASE_RESTS,
    PROGRAM_IN_ERASE, /* a program inside a suspended erase */
    CONDITIONS
};
extern const char *const condition_names[CONDITIONS];

struct pod_device device_in(enum condition condition);

#endif
