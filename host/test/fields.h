/* The fields of a device by name, each of them a number. */
#ifndef TEST_FIELDS_H
#define TEST_FIELDS_H

#include "pod.h"
#include "test/same_device.h"

#include <stddef.h>
#include <stdint.h>

enum { FIELDS = 49 };

const char *field_name(size_t field);

/* Its bytes: 1, 2 or 4. */
size_t field_width(size_t field);

uint32_t field_get(const struct pod_device *device, size_t field);

/* The low bits of `value` that fit go into the field. */
void field_set(struct pod_device *device, size_t field, uint32_t value);

/* The first field in which two devices differ, FIELDS where there is none. */
size_t field_differing(const struct pod_device *x, const struct pod_device *y);

#endif
