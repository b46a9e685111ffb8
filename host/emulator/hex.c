/* Intel hexadecimal object files, read line by line: each line is cut out, its digits are made bytes, and the bytes are looked at. */
#include "hex.h"

#include <stdbool.h>
#include <string.h>

#define SYSTEM_LIMIT 1048576u

/* A record's bytes are its length, two of address, its type, up to 255 of data, and the check byte. */
enum { AT_LENGTH = 0, AT_ADDRESS = 1, AT_TYPE = 3, AT_DATA = 4, BESIDE_DATA = 5, MOST_BYTES = 255 + BESIDE_DATA };
enum { TYPE_DATA = 0, TYPE_END = 1, TYPE_SEGMENT = 2, TYPE_START = 3 };

/* A place in the text: what is left of it, and how many lines were taken. */
struct cursor {
    const uint8_t *at, *end;
    uint32_t lines;
};

/* One line, without what ends it. */
struct line {
    const uint8_t *bytes;
    size_t length;
};

/* Takes the next line; false where nothing is left. */
static bool take_line(struct cursor *c, struct line *line)
{
    if (c->at == c->end) return false;
    const uint8_t *lf = memchr(c->at, '\n', (size_t)(c->end - c->at));
    const uint8_t *stop = lf != NULL ? lf : c->end;
    line->bytes = c->at;
    line->length = (size_t)(stop - c->at);
    if (lf != NULL && line->length > 0 && lf[-1] == '\r') line->length--;
    c->at = lf != NULL ? lf + 1 : c->end;
    if (c->lines < UINT32_MAX) c->lines++;
    return true;
}

/* A hexadecimal digit's value, or -1. */
static int digit(uint8_t c)
{
    if (c >= '0' && c <= '9') return c - '0';
    if (c >= 'A' && c <= 'F') return c - 'A' + 10;
    if (c >= 'a' && c <= 'f') return c - 'a' + 10;
    return -1;
}

/* The bytes of a line, or -1 where it is no record. */
static int decode(const struct line *line, uint8_t bytes[MOST_BYTES])
{
    size_t count = line->length / 2;
    if (line->length % 2 == 0 || line->bytes[0] != ':' || count > MOST_BYTES) return -1;
    for (size_t i = 0; i < count; i++) {
        int high = digit(line->bytes[1 + 2 * i]), low = digit(line->bytes[2 + 2 * i]);
        if (high < 0 || low < 0) return -1;
        bytes[i] = (uint8_t)(high << 4 | low);
    }
    return count >= BESIDE_DATA && count == (size_t)bytes[AT_LENGTH] + BESIDE_DATA ? (int)count : -1;
}

/* Whether a length fits its type. */
static bool fits(uint8_t type, uint8_t length)
{
    switch (type) {
    case TYPE_DATA: return true;
    case TYPE_END: return length == 0;
    case TYPE_SEGMENT: return length == 2;
    case TYPE_START: return length == 4;
    default: return false;
    }
}

/* The number of a line, its bytes beside. */
static unsigned judge(const struct line *line, uint8_t bytes[MOST_BYTES])
{
    int count = decode(line, bytes);
    if (count < 0) return HEX_NO_RECORD;
    unsigned sum = 0;
    for (int i = 0; i < count; i++) sum += bytes[i];
    if ((sum & 0xFFu) != 0) return HEX_BAD_CHECK;
    return fits(bytes[AT_TYPE], bytes[AT_LENGTH]) ? HEX_DONE : HEX_BAD_TYPE;
}

/* Two bytes, high first. */
static uint32_t word(const uint8_t *bytes)
{
    return (uint32_t)bytes[0] << 8 | bytes[1];
}

/* Where byte i of a data record goes. */
static uint32_t place(uint32_t segment, uint32_t offset, uint32_t i)
{
    return (segment * 16 + ((offset + i) & 0xFFFFu)) & (SYSTEM_LIMIT - 1);
}

/* Whether a data record has a byte beyond memory. */
static bool reaches_beyond(const uint8_t *bytes, uint32_t segment, size_t sys_len)
{
    for (uint32_t i = 0; i < bytes[AT_LENGTH]; i++)
        if (place(segment, word(bytes + AT_ADDRESS), i) >= sys_len) return true;
    return false;
}

/* The whole text judged: its number and line, or its start address and the first line that reaches beyond memory. */
static struct hex_answer judge_text(struct cursor c, size_t sys_len)
{
    struct hex_answer answer = {HEX_NO_END, 0, 0};
    uint32_t segment = 0, start = 0, beyond = 0;
    struct line line;
    uint8_t bytes[MOST_BYTES];
    while (take_line(&c, &line)) {
        unsigned number = judge(&line, bytes);
        if (number != HEX_DONE) {
            answer.number = number;
            break;
        }
        if (bytes[AT_TYPE] == TYPE_END) {
            struct hex_answer good = {beyond != 0 ? HEX_BEYOND_MEMORY : HEX_DONE, beyond, beyond != 0 ? 0 : start};
            return good;
        }
        if (bytes[AT_TYPE] == TYPE_DATA && beyond == 0 && reaches_beyond(bytes, segment, sys_len)) beyond = c.lines;
        if (bytes[AT_TYPE] == TYPE_SEGMENT) segment = word(bytes + AT_DATA);
        if (bytes[AT_TYPE] == TYPE_START)
            start = (word(bytes + AT_DATA) * 16 + word(bytes + AT_DATA + 2)) & (SYSTEM_LIMIT - 1);
    }
    answer.line = c.lines;
    return answer;
}

/* Stores the data of a text that was judged good. */
static void store_text(struct cursor c, uint8_t *sys)
{
    uint32_t segment = 0;
    struct line line;
    uint8_t bytes[MOST_BYTES];
    while (take_line(&c, &line)) {
        (void)decode(&line, bytes);
        if (bytes[AT_TYPE] == TYPE_END) return;
        if (bytes[AT_TYPE] == TYPE_SEGMENT) segment = word(bytes + AT_DATA);
        if (bytes[AT_TYPE] != TYPE_DATA) continue;
        for (uint32_t i = 0; i < bytes[AT_LENGTH]; i++)
            sys[place(segment, word(bytes + AT_ADDRESS), i)] = bytes[AT_DATA + i];
    }
}

struct hex_answer hex_load(const uint8_t *text, size_t text_len, uint8_t *sys, size_t sys_len)
{
    struct hex_answer too_long = {HEX_BAD_BUFFER, 0, 0};
    struct cursor c = {text, text + text_len, 0};
    if (sys_len > SYSTEM_LIMIT) return too_long;
    struct hex_answer answer = judge_text(c, sys_len);
    if (answer.number == HEX_DONE) store_text(c, sys);
    return answer;
}
