/* Random numbers: all that follow a start depend on it alone. */
#ifndef DIFF_RANDOM_H
#define DIFF_RANDOM_H

#include <stdbool.h>
#include <stdint.h>

void rnd_start(uint64_t start);

/* A number from 0 up to, and without, `below`. */
uint32_t rnd(uint32_t below);
bool one_in(uint32_t n);
uint8_t rnd_byte(void);

#endif
