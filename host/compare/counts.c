/* Counts in lines, and how many of them stayed 0. */
#include "counts.h"

#include <stdio.h>

static unsigned missing;

void print_count(const char *name, unsigned long count)
{
    printf("%12lu  %s%s\n", count, name, count == 0 ? " (NEVER MET)" : "");
    missing += count == 0;
}

void print_table(const char *heading, const char *const names[], const unsigned long counts[], unsigned length)
{
    puts(heading);
    for (unsigned i = 0; i < length; i++) print_count(names[i], counts[i]);
}

void print_numbered(const char *form, const unsigned long counts[], unsigned from, unsigned to)
{
    char name[60];
    for (unsigned i = from; i <= to; i++) {
        snprintf(name, sizeof name, form, i);
        print_count(name, counts[i - from]);
    }
}

void note_impossible(void)
{
    missing++;
}

unsigned never_met(void)
{
    return missing;
}

bool all_met(unsigned long long made, unsigned long long enough, const char *units)
{
    printf("never met: %u", missing);
    if (made < enough) printf(" (too few %s to ask for all)", units);
    putchar('\n');
    return missing == 0 || made < enough;
}
