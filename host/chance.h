/* Numbers by chance, the same on every machine: a case draws the same ones each time that it is made. */
#ifndef CHANCE_H
#define CHANCE_H

#include <stdbool.h>
#include <stdint.h>

/* Each case begins a sequence of its own, so that it can be repeated by its number. */
void begin_chance(uint64_t seed, uint64_t number);

uint64_t random64(void);

/* A number from 0 to n - 1. */
uint64_t below(uint64_t n);

bool chance(uint64_t percent);

#endif
