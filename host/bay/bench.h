/* One part on the bench: a device with its image, the pins as they are held, and a bus on which whole frames are
 * laid. */
#ifndef BAY_BENCH_H
#define BAY_BENCH_H

#include "bay/settings.h"
#include "pod.h"

#include <stddef.h>
#include <stdint.h>

/* idle: the sample while the bus rests, which holds the pins. clock: clocks since power-up. refusal: the first number
 * other than 0 that the library gave; from then on nothing moves. */
struct bench {
    struct pod_device device;
    uint8_t *image;
    size_t image_length;
    uint16_t idle;
    uint64_t clock;
    uint32_t refusal;
};

/* Powers the part up with its bus at rest. The library's word on settings, image and pins is in `refusal`. */
void bench_power_up(struct bench *bench, const struct settings *settings);

/* One frame each, of the part that was powered up. A byte that nobody drives reads FFh. */
uint8_t bench_read(struct bench *bench, uint32_t address);
void bench_write(struct bench *bench, uint32_t address, uint8_t byte);

/* The bus rests for so many clocks. */
void bench_rest(struct bench *bench, uint64_t clocks);

/* The bus rests until the part is ready. */
void bench_settle(struct bench *bench);

#endif
