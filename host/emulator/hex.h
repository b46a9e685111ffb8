/* A reader of Intel hexadecimal object files that shares nothing with the proved one. */
#ifndef HEX_H
#define HEX_H

#include <stddef.h>
#include <stdint.h>

/* The numbers that reading can hand back. */
enum hex_number {
    HEX_DONE = 0,
    HEX_BEYOND_MEMORY = 2,
    HEX_BAD_BUFFER = 11,
    HEX_NO_RECORD = 20,
    HEX_BAD_CHECK = 21,
    HEX_BAD_TYPE = 22,
    HEX_NO_END = 23,
    HEX_NUMBERS = 24 /* one more than the largest */
};

/* An answer: the number, the line that decided, and the start address. */
struct hex_answer {
    unsigned number;
    uint32_t line, start;
};

/* Reads a text into system memory, or changes nothing. */
struct hex_answer hex_load(const uint8_t *text, size_t text_len, uint8_t *sys, size_t sys_len);

#endif
