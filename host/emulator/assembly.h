/* An assembler of channel programs, written from the documents alone. */
#ifndef ASSEMBLY_H
#define ASSEMBLY_H

#include <stddef.h>
#include <stdint.h>

/* The numbers that a line can have. */
enum assembly_number {
    ASSEMBLY_DONE = 0,
    ASSEMBLY_BAD_WORD = 30,
    ASSEMBLY_BAD_OPERANDS = 31,
    ASSEMBLY_TOO_DEEP = 32,
    ASSEMBLY_BAD_LABEL = 33,
    ASSEMBLY_OUT_OF_RANGE = 34,
    ASSEMBLY_NO_ROOM = 35,
    ASSEMBLY_NUMBERS = 36 /* one more than the largest */
};

/* Labels that are kept, characters of one, and parentheses open at once, at most. */
enum { ASSEMBLY_LABELS = 64, ASSEMBLY_LABEL_LENGTH = 12, ASSEMBLY_DEPTH = 8 };

/* An answer: the number, the line that has it (from 1; 0 where done), and the bytes stored (0 where refused). */
struct assembled {
    unsigned number;
    uint64_t line, stored;
};

/* Assembles a text whose first byte of code has the address `first`, or stores nothing. */
struct assembled assemble(const uint8_t *text, size_t text_len, uint32_t first, uint8_t *code, size_t room);

/* Why a label or the use of a name is refused. */
enum label_fault {
    LABEL_GOOD,
    LABEL_TOO_LONG,
    LABEL_TWICE,
    LABEL_RESERVED,
    LABEL_ONE_TOO_MANY,
    LABEL_UNKNOWN,
    LABEL_FAULTS
};

/* A refused label or name: why, and its place in the text. */
struct faulty_label {
    enum label_fault fault;
    size_t at, length;
};

/* What gives a line 33: its own label, else the first name that is unknown; LABEL_GOOD where nothing does. */
struct faulty_label assembly_label(const uint8_t *text, size_t text_len, uint64_t line);

/* How many words with forms there are, and room for a word, which zeros fill up. */
enum { ASSEMBLY_FORMS = 83, ASSEMBLY_WORD_ROOM = 8 };

/* A word with one of its forms: a letter for each operand, and the first pair with nothing in its fields.
 * R register, G one but CC, P pointer, M memory, N memory in a second pair; B and W any number of bytes or words;
 * b byte, w word, n bit number, s and d widths of source and destination, t and T target at one or two bytes. */
struct assembly_form {
    char word[ASSEMBLY_WORD_ROOM];
    const char *operands;
    uint8_t first, second;
};

/* Every word with every form, in the alphabet's order. */
extern const struct assembly_form assembly_forms[ASSEMBLY_FORMS];

#endif
