/* Drawing numbers from a seed that never changes. */
#include "test/any.h"

#include <stddef.h>
#include <string.h>

static uint32_t any_number(void)
{
    static uint64_t seed = 0x9E3779B97F4A7C15u;
    seed ^= seed << 13;
    seed ^= seed >> 7;
    seed ^= seed << 17;
    return (uint32_t)(seed >> 32);
}

uint32_t any_below(uint32_t limit)
{
    return any_number() % limit;
}

struct pod_device any_device(uint32_t limit)
{
    struct pod_device device;
    uint8_t bytes[sizeof device] = { 0 };
    for (size_t i = 0; i < sizeof bytes; i++) {
        bytes[i] = (uint8_t)any_below(limit);
    }
    memcpy(&device, bytes, sizeof device);
    return device;
}
