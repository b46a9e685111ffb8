/* Reads the command line of a comparison, goes through its cases and says how it ended. */
#include "options.h"

#include "counts.h"

#include <inttypes.h>
#include <stdio.h>
#include <stdlib.h>
#include <time.h>

/* The number in one word of the command line, or the usual one where it is left out. */
static uint64_t option(const struct comparison *c, int count, char **words, int at, uint64_t usual)
{
    char *end = NULL;
    if (at >= count) return usual;
    uint64_t value = strtoull(words[at], &end, 0);
    if (*words[at] >= '0' && *words[at] <= '9' && *end == '\0' && count <= 4) return value;
    fprintf(stderr,
            "usage: %s [SEED [CASES [FIRST]]]\n"
            "  SEED   any number (1)\n"
            "  CASES  how many %s (%" PRIu64 ")\n"
            "  FIRST  number of the first %s (0)\n",
            c->program, c->units, c->enough, c->unit);
    exit(2);
}

struct options read_options(const struct comparison *c, int count, char **words)
{
    struct options o = {option(c, count, words, 1, 1), option(c, count, words, 2, c->enough),
                        option(c, count, words, 3, 0)};
    return o;
}

unsigned long long compare_cases(const struct comparison *c, struct options o,
                                 bool (*agree)(uint64_t seed, uint64_t number, bool shown))
{
    unsigned long long differences = 0;
    for (uint64_t i = o.first; i < o.first + o.cases; i++) {
        if (agree(o.seed, i, false)) continue;
        if (differences++ >= SHOWN) continue;
        printf("DIFFERENCE in %s %" PRIu64 " (again: %s %" PRIu64 " 1 %" PRIu64 ")\n", c->unit, i, c->program, o.seed,
               i);
        agree(o.seed, i, true);
    }
    return differences;
}

void print_options(const struct comparison *c, struct options o)
{
    printf("seed %" PRIu64 ", %" PRIu64 " %s from %" PRIu64 ", %.1f seconds of processor time\n", o.seed, o.cases,
           c->units, o.first, (double)clock() / CLOCKS_PER_SEC);
}

int conclude(const struct comparison *c, struct options o, unsigned long long differences)
{
    bool met = all_met(o.cases, c->enough, c->units);
    printf("%llu differences\n", differences);
    return differences > 0 || !met ? 1 : 0;
}
