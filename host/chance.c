/* Numbers by chance (splitmix64). No expression of the programs that use them may draw twice in an order that C leaves open. */
#include "chance.h"

static uint64_t generator;

uint64_t random64(void) {
    generator += 0x9e3779b97f4a7c15;
    uint64_t z = generator;
    z = (z ^ z >> 30) * 0xbf58476d1ce4e5b9;
    z = (z ^ z >> 27) * 0x94d049bb133111eb;
    return z ^ z >> 31;
}

uint64_t below(uint64_t n) {
    return random64() % n;
}

bool chance(uint64_t percent) {
    return below(100) < percent;
}

void begin_chance(uint64_t seed, uint64_t number) {
    generator = seed;
    generator = random64() + number;
    generator = random64();
}
