/* The seeded generator: the same seed makes the same sheets on every machine. */
#ifndef PANEL_TEST_CHANCE_H
#define PANEL_TEST_CHANCE_H

#include <stdbool.h>
#include <stdint.h>

/* Each sheet has a chance of its own, so that one alone can be made again. */
void start_chance(uint64_t seed, unsigned long index);

uint64_t chance(void);
uint32_t below(uint32_t bound);
bool one_in(uint32_t times);
bool coin(void);

/* All bytes alike. */
uint8_t chance_byte(void);

#endif
