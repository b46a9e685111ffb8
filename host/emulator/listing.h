/* A lister of channel programs, written from the documents alone, and what it met. */
#ifndef LISTING_H
#define LISTING_H

#include <stddef.h>
#include <stdint.h>

/* The most bytes of a part that are listed. */
#define LISTING_LIMIT 1048576u

/* How many rows the table of formats has. */
enum { LISTING_ROWS = 47 };

/* Why bytes are listed as data. */
enum listing_data {
    DATA_NO_INSTRUCTION,  /* 3: the pair is of no row */
    DATA_CC_USED,         /* 4: CC used by anything but MOV or MOVI */
    DATA_ONE_BYTE,        /* the part ends within the first pair */
    DATA_CUT_OFF,         /* the part ends behind it */
    DATA_SECOND_PAIR,     /* 3 from the second pair */
    DATA_SECOND_CUT_OFF,  /* the part ends before that pair's offset byte */
    DATA_CALL,            /* CALL with W 0 */
    DATA_REASONS
};

/* What was met: lines by row, by the operand's mode and base, by L and B, and data by reason. */
struct listing_coverage {
    unsigned long row[LISTING_ROWS];
    unsigned long data[DATA_REASONS];
    unsigned long mode[4], base[4], registers[8];
    unsigned long long_words, byte_words, backward, longest;
};

/* How many characters were written, and the byte at which the listing stopped. */
struct listing {
    uint32_t characters, stop;
};

/* Lists a part of memory whose first byte has the address `first`; `met` may be null. */
struct listing list_code(const uint8_t *code, size_t code_len, uint32_t first, uint8_t *text, size_t text_len,
                         struct listing_coverage *met);

/* The name of a row: its word and operands. */
const char *listing_row_name(unsigned row);

#endif
