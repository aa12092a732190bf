/* Random numbers by splitmix64. */
#include "diff/random.h"

static uint64_t state;

void rnd_start(uint64_t start)
{
    state = start;
}

uint32_t rnd(uint32_t below)
{
    state += 0x9E3779B97F4A7C15u;
    uint64_t z = state;
    z = (z ^ z >> 30) * 0xBF58476D1CE4E5B9u;
    z = (z ^ z >> 27) * 0x94D049BB133111EBu;
    z ^= z >> 31;
    return (uint32_t)(((z >> 32) * below) >> 32);
}

bool one_in(uint32_t n)
{
    return rnd(n) == 0;
}

uint8_t rnd_byte(void)
{
    return (uint8_t)rnd(256);
}
