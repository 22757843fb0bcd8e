/* Random numbers of 64 bits, the same at every run from one seed (splitmix64). */
#include <stdint.h>

static uint64_t seed = 1;

static uint64_t draw(void) {
    uint64_t z = (seed += 0x9e3779b97f4a7c15u);
    z = (z ^ (z >> 30)) * 0xbf58476d1ce4e5b9u;
    z = (z ^ (z >> 27)) * 0x94d049bb133111ebu;
    return z ^ (z >> 31);
}
