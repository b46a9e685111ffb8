/* What changed of a lent buffer, as a host program shows it. */
#ifndef CHANGES_H
#define CHANGES_H

#include <stddef.h>
#include <stdint.h>

/* One lent buffer, as it was before the run and as it is. */
struct lent {
    uint8_t *before, *now;
    size_t length;
};

/* Prints the changed bytes of a buffer: address, old, new. */
void print_changes(const char *name, const struct lent *lent);

#endif
