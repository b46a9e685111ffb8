/* Random numbers: splitmix64 and what is drawn from it. */
#include "random.h"

struct random seeded(uint64_t seed, uint64_t number)
{
    struct random d = {seed * 0xD1342543DE82EF95u + number};
    d.state = roll(&d);
    return d;
}

uint64_t roll(struct random *d)
{
    uint64_t z = d->state += 0x9E3779B97F4A7C15u;
    z = (z ^ z >> 30) * 0xBF58476D1CE4E5B9u;
    z = (z ^ z >> 27) * 0x94D049BB133111EBu;
    return z ^ z >> 31;
}

uint32_t below(struct random *d, size_t n)
{
    return (uint32_t)((roll(d) >> 32) * n >> 32);
}

bool chance(struct random *d, unsigned in_1000)
{
    return below(d, 1000) < in_1000;
}
