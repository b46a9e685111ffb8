/* Prints how often each thing was met, one in a line, and notes what never was. */
#ifndef COUNTS_H
#define COUNTS_H

#include <stdbool.h>

/* Prints a count, and notes it where it is 0. */
void print_count(const char *name, unsigned long count);

/* Prints the counts of a table, each with its name. */
void print_table(const char *heading, const char *const names[], const unsigned long counts[], unsigned length);

/* Prints the counts of the numbers from one to another, each with its number in its name; the first is at index 0. */
void print_numbered(const char *form, const unsigned long counts[], unsigned from, unsigned to);

/* Notes something that was met and cannot be. */
void note_impossible(void);

/* How much was never met, or cannot be. */
unsigned never_met(void);

/* Prints how much was never met; answers true also where there were too few of these units to ask for all. */
bool all_met(unsigned long long made, unsigned long long enough, const char *units);

#endif
