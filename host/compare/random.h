/* Random numbers that come again from the same seed. */
#ifndef RANDOM_H
#define RANDOM_H

#include <stdbool.h>
#include <stddef.h>
#include <stdint.h>

/* A source of random numbers (splitmix64). */
struct random {
    uint64_t state;
};

/* The source of this seed and number. */
struct random seeded(uint64_t seed, uint64_t number);

/* The next 64 random bits. */
uint64_t roll(struct random *d);

/* A number from 0 to n - 1; 0 for n 0. */
uint32_t below(struct random *d, size_t n);

/* True in so many of 1,000 rolls. */
bool chance(struct random *d, unsigned in_1000);

/* One of the listed values. */
#define ONE_OF(d, list) ((list)[below((d), sizeof(list) / sizeof((list)[0]))])

#endif
