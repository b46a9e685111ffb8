/* The command line of a comparison, its cases one by one, and how it ends. */
#ifndef OPTIONS_H
#define OPTIONS_H

#include <stdbool.h>
#include <stdint.h>

/* How many differences are shown. */
enum { SHOWN = 5 };

/* What a comparison is called, what its cases are called and after how many everything must have been met. */
struct comparison {
    const char *program, *unit, *units;
    uint64_t enough;
};

/* What the command line asks for: a seed, how many cases, and the first of them. */
struct options {
    uint64_t seed, cases, first;
};

/* Reads [SEED [CASES [FIRST]]], with 1, enough and 0 where they are left out; ends the program where they are none. */
struct options read_options(const struct comparison *c, int count, char **words);

/* Compares the cases by `agree`, which shows a case where that is asked; shows the first that differ, and answers how
 * many do. */
unsigned long long compare_cases(const struct comparison *c, struct options o,
                                 bool (*agree)(uint64_t seed, uint64_t number, bool shown));

/* Prints what was asked for and how long it took. */
void print_options(const struct comparison *c, struct options o);

/* Prints how much was never met and how many cases differ; answers the program's exit status. With fewer cases than
 * enough not all is asked for. */
int conclude(const struct comparison *c, struct options o, unsigned long long differences);

#endif
