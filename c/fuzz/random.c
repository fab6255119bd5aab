#include "fuzz.h"

uint64_t seed, turn;
static uint64_t random_state;

void begin_random(void) {
    random_state = seed + turn * UINT64_C(0xD1342543DE82EF95);
}

uint64_t random_bits(void) {
    random_state += 0x9E3779B97F4A7C15;
    uint64_t z = (random_state ^ random_state >> 30) * 0xBF58476D1CE4E5B9;
    z = (z ^ z >> 27) * 0x94D049BB133111EB;
    return z ^ z >> 31;
}

size_t to(size_t most) {
    return (size_t)(random_bits() % ((uint64_t)most + 1));
}

bool one_of(size_t cases) {
    return to(cases - 1) == 0;
}
