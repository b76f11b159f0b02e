#include "chance.h"

#define BYTE_VALUES (UINT8_MAX + 1)

static uint64_t state;

void start_chance(uint64_t seed, unsigned long index)
{
    state = seed;
    state = chance() + index;
}

/* The splitmix64 generator, with its constants. */
uint64_t chance(void)
{
    uint64_t mixed;

    state += UINT64_C(0x9e3779b97f4a7c15);
    mixed = state;
    mixed = (mixed ^ (mixed >> 30)) * UINT64_C(0xbf58476d1ce4e5b9);
    mixed = (mixed ^ (mixed >> 27)) * UINT64_C(0x94d049bb133111eb);
    return mixed ^ (mixed >> 31);
}

uint32_t below(uint32_t bound)
{
    return (uint32_t)(chance() % bound);
}

bool one_in(uint32_t times)
{
    return below(times) == 0;
}

bool coin(void)
{
    return one_in(2);
}

uint8_t chance_byte(void)
{
    return (uint8_t)below(BYTE_VALUES);
}
