/* Shows every byte of a lent buffer that a run changed. */
#include "changes.h"

#include <stdio.h>

/* Bytes in one row of the view of changes. */
#define ROW 8u

/* How many bytes of a row changed. */
static size_t changes(const struct lent *lent, size_t from, size_t to)
{
    size_t count = 0;
    for (size_t i = from; i < to; i++) count += lent->before[i] != lent->now[i];
    return count;
}

/* Prints one side of a row, with dots for the bytes that did not change. */
static void print_side(const struct lent *lent, const uint8_t *side, size_t from, size_t to)
{
    for (size_t i = from; i < from + ROW; i++) {
        if (i >= to) fputs("   ", stdout);
        else if (lent->before[i] == lent->now[i]) fputs(" ..", stdout);
        else printf(" %02X", side[i]);
    }
}

/* Prints the changed bytes of a buffer: address, old, new. */
void print_changes(const char *name, const struct lent *lent)
{
    size_t count = changes(lent, 0, lent->length);
    printf("%s: %zu of %zu bytes changed\n", name, count, lent->length);
    if (count > 0) printf("  address  %-*s   new\n", (int)ROW * 3 - 1, "old");
    for (size_t from = 0; from < lent->length; from += ROW) {
        size_t to = lent->length - from < ROW ? lent->length : from + ROW;
        if (changes(lent, from, to) == 0) continue;
        printf("  %05zX   ", from);
        print_side(lent, lent->before, from, to);
        fputs("  ", stdout);
        print_side(lent, lent->now, from, to);
        putchar('\n');
    }
}
