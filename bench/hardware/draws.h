/* Pseudo-random numbers: the same for the same seed, on every machine. */
#ifndef DRAWS_H
#define DRAWS_H
#include <stdint.h>

void seed_draws(uint64_t seed, uint64_t stream);
uint64_t draw(void);
uint64_t below(uint64_t count);

/* A number of any size and sign, often one at an edge of a width of 8 to 64 bits. */
uint64_t value(void);
#endif
