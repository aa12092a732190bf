/* The list of the fields, from which the table and the comparison of two devices are made. */
#include "test/fields.h"

#include <string.h>

#define EACH(take)                                                                                                     \
    take(straps)                                                                                                       \
    take(locks[0]) take(locks[1]) take(locks[2]) take(locks[3]) take(locks[4]) take(locks[5]) take(locks[6])           \
    take(locks[7]) take(locks[8]) take(locks[9]) take(locks[10]) take(locks[11]) take(locks[12]) take(locks[13])       \
    take(locks[14]) take(locks[15]) take(part)                                                                         \
    take(times.program) take(times.slice) take(times.pause)                                                            \
    take(frame.kind) take(frame.clock) take(frame.byte) take(frame.address)                                            \
    take(controller.mode) take(controller.errors) take(controller.setup) take(controller.marks)                        \
    take(controller.outer.kind) take(controller.outer.state) take(controller.outer.data)                               \
    take(controller.outer.address) take(controller.outer.slices) take(controller.outer.left)                           \
    take(controller.outer.pause) take(controller.outer.times.program) take(controller.outer.times.slice)               \
    take(controller.outer.times.pause)                                                                                 \
    take(controller.inner.kind) take(controller.inner.state) take(controller.inner.data)                               \
    take(controller.inner.address) take(controller.inner.slices) take(controller.inner.left)                           \
    take(controller.inner.pause) take(controller.inner.times.program) take(controller.inner.times.slice)               \
    take(controller.inner.times.pause)

#define IN_TABLE(path) { #path, offsetof(struct pod_device, path), sizeof(((struct pod_device *)0)->path) },
#define IS_SAME(path) && x->path == y->path

static const struct {
    const char *name;
    size_t at, width;
} table[] = { EACH(IN_TABLE) };
_Static_assert(sizeof table / sizeof table[0] == FIELDS, "the number of fields");

const char *field_name(size_t field)
{
    return table[field].name;
}

size_t field_width(size_t field)
{
    return table[field].width;
}

bool same_device(const struct pod_device *x, const struct pod_device *y)
{
    return true EACH(IS_SAME);
}

uint32_t field_get(const struct pod_device *device, size_t field)
{
    uint8_t narrow;
    uint16_t middle;
    uint32_t wide;
    const uint8_t *from = (const uint8_t *)device + table[field].at;
    switch (table[field].width) {
    case sizeof narrow:
        memcpy(&narrow, from, sizeof narrow);
        return narrow;
    case sizeof middle:
        memcpy(&middle, from, sizeof middle);
        return middle;
    default:
        memcpy(&wide, from, sizeof wide);
        return wide;
    }
}

void field_set(struct pod_device *device, size_t field, uint32_t value)
{
    const uint8_t narrow = (uint8_t)(value & 0xFF);
    const uint16_t middle = (uint16_t)(value & 0xFFFF);
    uint8_t *to = (uint8_t *)device + table[field].at;
    switch (table[field].width) {
    case sizeof narrow:
        memcpy(to, &narrow, sizeof narrow);
        break;
    case sizeof middle:
        memcpy(to, &middle, sizeof middle);
        break;
    default:
        memcpy(to, &value, sizeof value);
    }
}

size_t field_differing(const struct pod_device *x, const struct pod_device *y)
{
    size_t field = 0;
    while (field < FIELDS && field_get(x, field) == field_get(y, field)) {
        field++;
    }
    return field;
}
