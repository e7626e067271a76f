#include "draws.h"

static uint64_t state;

void seed_draws(uint64_t seed, uint64_t stream) {
    state = seed * 0xd1b54a32d192ed03 + stream * 0x2545f4914f6cdd1d;
    draw();
}

uint64_t draw(void) {
    uint64_t mixed = (state += 0x9e3779b97f4a7c15);
    mixed = (mixed ^ mixed >> 30) * 0xbf58476d1ce4e5b9;
    mixed = (mixed ^ mixed >> 27) * 0x94d049bb133111eb;
    return mixed ^ mixed >> 31;
}

uint64_t below(uint64_t count) { return draw() % count; }

uint64_t value(void) {
    uint64_t sign = (uint64_t)1 << (8 * (1 << below(4)) - 1);
    uint64_t edges[] = { 0, 1, sign, sign - 1, -sign, -(uint64_t)1 };
    uint64_t some = below(4) ? draw() >> below(64) : edges[below(6)];
    return below(4) ? some : ~some;
}
