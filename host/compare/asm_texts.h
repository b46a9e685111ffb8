/* Random texts for assemblers, good ones and such with faults, with what each of them holds. */
#ifndef ASM_TEXTS_H
#define ASM_TEXTS_H

#include "emulator/assembly.h"

/* Room for the longest text. */
#define ASM_TEXT_ROOM 65536u

/* What a text can hold, and what can be wrong with it. */
enum asm_feature {
    ASM_LF,
    ASM_CRLF,
    ASM_NO_LAST_LINE_END,
    ASM_CAPITALS,
    ASM_SMALL_LETTERS,
    ASM_MIXED_LETTERS,
    ASM_TIGHT,
    ASM_SPACES,
    ASM_ANY_BLANKS,
    ASM_COMMENT,
    ASM_BLANK_LINE,
    ASM_LABEL_ALONE,
    ASM_LABEL_BEFORE_CODE,
    ASM_LABEL_BEFORE_DATA,
    ASM_LABEL_OF_12,
    ASM_LABELS_64,
    ASM_NAME_KNOWN,
    ASM_NAME_AHEAD,
    ASM_BINARY,
    ASM_OCTAL_O,
    ASM_OCTAL_Q,
    ASM_DECIMAL,
    ASM_DECIMAL_D,
    ASM_HEXADECIMAL,
    ASM_PAST_16_BITS,
    ASM_MINUS_FIRST,
    ASM_LEFT_TO_RIGHT,
    ASM_DEPTH_8,
    ASM_REACH_127,
    ASM_REACH_MINUS_128,
    ASM_ACROSS_TOP,
    ASM_LONG_REACH,
    ASM_ONLY_JUMPS,
    ASM_GOOD_FEATURES, /* from here on each has a number of its own */
    ASM_BAD_WORD = ASM_GOOD_FEATURES,
    ASM_OTHER_OPERANDS,
    ASM_OPERAND_LOST,
    ASM_OPERAND_MORE,
    ASM_BAD_SUM,
    ASM_DEPTH_9,
    ASM_NAME_UNKNOWN,
    ASM_LABEL_TWICE,
    ASM_LABEL_OF_13,
    ASM_LABEL_RESERVED,
    ASM_LABELS_65,
    ASM_BAD_VALUE,
    ASM_REACH_128,
    ASM_REACH_MINUS_129,
    ASM_FAILED_BETWEEN,
    ASM_DAMAGED_FEATURES, /* from here on any number will do */
    ASM_OTHER_BYTE = ASM_DAMAGED_FEATURES,
    ASM_BYTE_LOST,
    ASM_BYTE_MORE,
    ASM_LINE_TWICE,
    ASM_LINE_LOST,
    ASM_CUT_OFF,
    ASM_TOKENS,
    ASM_FEATURES
};

/* One case: a text, the first address, and what it holds: features, forms of words, and parts of operands. */
struct asm_case {
    uint8_t *text;
    size_t text_len;
    uint32_t first;
    unsigned long features[ASM_FEATURES], forms[ASSEMBLY_FORMS];
    unsigned long modes[4], bases[4], registers[8];
};

/* Makes the case of a seed and number; the text has room for ASM_TEXT_ROOM bytes. */
void make_asm_case(struct asm_case *c, uint64_t seed, uint64_t number);

/* A feature in words. */
const char *asm_feature_name(enum asm_feature feature);

/* The number that a feature must have been met with; 0 where it belongs in good texts. */
unsigned asm_feature_number(enum asm_feature feature);

#endif
