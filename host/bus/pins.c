/* Taking samples apart and putting them together. */
#include "bus/pins.h"

#include <string.h>

const struct pin pins[PINS] = {
    { "rp", "RP", POD_SAMPLE_RP },
    { "init", "INIT", POD_SAMPLE_INIT },
    { "tbl", "TBL", POD_SAMPLE_TBL },
    { "wp", "WP", POD_SAMPLE_WP },
};

const struct pin *pin_named(const char *name)
{
    for (size_t i = 0; i < PINS; i++) {
        if (strcmp(pins[i].name, name) == 0) {
            return &pins[i];
        }
    }
    return NULL;
}

uint16_t sample_at(const uint8_t *stream, size_t index)
{
    return (uint16_t)(stream[2 * index] | stream[2 * index + 1] << 8);
}

void sample_put(uint8_t *stream, size_t index, uint16_t sample)
{
    stream[2 * index] = (uint8_t)(sample & 0xFF);
    stream[2 * index + 1] = (uint8_t)(sample >> 8);
}

bool sample_has(uint16_t sample, unsigned pin)
{
    return (sample & pin) != 0;
}

unsigned sample_voltage(uint16_t sample)
{
    return (unsigned)(sample & POD_SAMPLE_VOLTAGE) >> POD_SAMPLE_VOLTAGE_SHIFT;
}

unsigned sample_inputs(uint16_t sample)
{
    return (unsigned)sample >> POD_SAMPLE_INPUTS_SHIFT;
}

uint16_t sample_set(uint16_t sample, unsigned mask, unsigned value)
{
    return (uint16_t)((sample & ~mask) | (value & mask));
}

uint16_t sample_with_voltage(uint16_t sample, unsigned voltage)
{
    return sample_set(sample, POD_SAMPLE_VOLTAGE, voltage << POD_SAMPLE_VOLTAGE_SHIFT);
}

uint16_t sample_with_inputs(uint16_t sample, unsigned inputs)
{
    return sample_set(sample, POD_SAMPLE_INPUTS, inputs << POD_SAMPLE_INPUTS_SHIFT);
}

uint16_t sample_with_lines(uint16_t sample, unsigned lines)
{
    return sample_set(sample, POD_SAMPLE_LINES, lines);
}
