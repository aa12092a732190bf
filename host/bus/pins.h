/* Samples: the bus lines and the pins as the host holds them on one clock, sixteen bits of which pod.h names each. */
#ifndef BUS_PINS_H
#define BUS_PINS_H

#include "pod.h"

#include <stdbool.h>
#include <stddef.h>
#include <stdint.h>

/* The pins that are high or low, by the name that scripts and tracks use and the one on the datasheet. */
struct pin {
    const char *name;
    const char *sign;
    uint16_t mask;
};
enum { PINS = 4 };
extern const struct pin pins[PINS];

/* The pin that scripts call so, or null. */
const struct pin *pin_named(const char *name);

/* The sample at a place of a stream, where it stands as two bytes with the lower one first. */
uint16_t sample_at(const uint8_t *stream, size_t index);
void sample_put(uint8_t *stream, size_t index, uint16_t sample);

bool sample_has(uint16_t sample, unsigned pin);
unsigned sample_voltage(uint16_t sample);
unsigned sample_inputs(uint16_t sample);

/* The bits under `mask` taken from `value`, all others left. */
uint16_t sample_set(uint16_t sample, unsigned mask, unsigned value);

/* The same with another voltage class, other inputs, other lines. */
uint16_t sample_with_voltage(uint16_t sample, unsigned voltage);
uint16_t sample_with_inputs(uint16_t sample, unsigned inputs);
uint16_t sample_with_lines(uint16_t sample, unsigned lines);

/* One clock as it can be seen from outside: the sample, and the answer to it. */
struct seen {
    uint16_t sample;
    uint32_t answer;
};

#endif
