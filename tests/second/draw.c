/* Drawn numbers: the same ones for the same seed, everywhere. */
#include "second.h"

static uint64_t state;

/* Starts the numbers of a seed. */
void draw_seed(uint64_t seed)
{
    state = seed;
}

/* The next 64 bits (splitmix64). */
uint64_t draw(void)
{
    state += 0x9E3779B97F4A7C15;
    uint64_t z = state;
    z = (z ^ (z >> 30)) * 0xBF58476D1CE4E5B9;
    z = (z ^ (z >> 27)) * 0x94D049BB133111EB;
    return z ^ (z >> 31);
}

/* A number from 0 to bound - 1; bound is above 0. */
uint32_t below(uint32_t bound)
{
    return (uint32_t)(((draw() >> 32) * bound) >> 32);
}

/* A number from least to most, both possible. */
uint32_t between(uint32_t least, uint32_t most)
{
    return least + below(most - least + 1);
}

/* True in `percent` cases of a hundred. */
bool chance(uint32_t percent)
{
    return below(100) < percent;
}

/* A number that is seldom one of those named: at the ends of what a caller can pass, or anywhere. */
uint32_t far_number(void)
{
    static const uint32_t numbers[] = {0, 1, 2, 255, 256, 65535, 65536, 0x7FFFFFFF, 0x80000000, 0xFFFFFFFC, 0xFFFFFFFF};
    const uint32_t count = sizeof numbers / sizeof numbers[0];
    if (chance(60))
        return numbers[below(count)];
    return (uint32_t)(draw() >> (32 + below(32)));
}

/* The square root of a number, rounded down. */
uint64_t square_root(uint64_t square)
{
    uint64_t root = 0;
    for (uint64_t bit = (uint64_t)1 << 31; bit > 0; bit >>= 1)
        if ((root + bit) * (root + bit) <= square)
            root += bit;
    return root;
}
