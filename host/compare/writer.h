/* Random scripts of calls for the script program. */
#ifndef WRITER_H
#define WRITER_H

#include <stdbool.h>
#include <stdint.h>
#include <stdio.h>

/* Writes the script of this seed, of about so many calls and with a comment that makes it so long, if it is shorter. */
bool write_script(uint64_t seed, unsigned long calls, size_t length, FILE *out);

#endif
