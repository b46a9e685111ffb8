/* Random texts of hexadecimal records, good and damaged, with counts of what was made. */
#ifndef HEX_TEXTS_H
#define HEX_TEXTS_H

#include <stddef.h>
#include <stdint.h>

/* Room for the longest text. */
#define HEX_TEXT_ROOM 65536u

/* The longest system memory of a case: one byte over the limit. */
#define HEX_SYSTEM_ROOM 1048577u

/* What a text can hold, and what can be wrong with it. */
enum hex_feature {
    HEX_LF,
    HEX_CRLF,
    HEX_NO_LAST_LINE_END,
    HEX_UPPER_CASE,
    HEX_LOWER_CASE,
    HEX_MIXED_CASE,
    HEX_EMPTY_DATA,
    HEX_LONGEST_DATA,
    HEX_WRAP_64K,
    HEX_WRAP_1M,
    HEX_OVERWRITE,
    HEX_SEGMENT,
    HEX_START,
    HEX_TWO_STARTS,
    HEX_FREE_ADDRESS,
    HEX_TEXT_BEHIND,
    HEX_DAMAGE_BYTE,
    HEX_DAMAGE_LOST,
    HEX_DAMAGE_ADDED,
    HEX_DAMAGE_BLANK,
    HEX_DAMAGE_COLON,
    HEX_DAMAGE_CHECK,
    HEX_DAMAGE_TYPE,
    HEX_DAMAGE_SIZE,
    HEX_DAMAGE_TYPE_CHECK,
    HEX_DAMAGE_TAIL,
    HEX_DAMAGE_CR,
    HEX_DAMAGE_NO_END,
    HEX_DAMAGE_CUT,
    HEX_DAMAGE_EMPTY,
    HEX_FEATURES
};

/* One case: a text, and how much memory is lent. */
struct hex_case {
    uint8_t *text;
    size_t text_len, sys_len;
    unsigned long *met; /* counts by feature, where not NULL */
};

/* Makes the case of a seed and number; the text has room for HEX_TEXT_ROOM bytes. */
void make_hex_case(struct hex_case *c, uint64_t seed, uint64_t number);

/* The hexadecimal text of some bytes from an address on, 16 to a record, as a bench reads it; answers its length. */
size_t hex_image(uint8_t *text, const uint8_t *bytes, size_t count, uint32_t address);

/* A feature in words. */
const char *hex_feature_name(enum hex_feature feature);

#endif
