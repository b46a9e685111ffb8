/* Random hexadecimal texts: records that wrap, overlap and end as they like, and one or two damages. */
#include "hex_texts.h"

#include "random.h"

#include <string.h>

/* A text as it grows: its case of digits and its line ends. */
struct maker {
    struct random random;
    struct hex_case *c;
    unsigned style;      /* 0 upper case, 1 lower case, 2 mixed */
    unsigned ends;       /* 0 LF, 1 CR LF, 2 mixed */
    uint32_t segment;    /* of the last record of type 02 */
    uint32_t last_place; /* where the last data record began */
    unsigned last_count; /* how many bytes it had */
    unsigned starts;     /* records of type 03 */
    size_t room;         /* for the text */
};

/* Records before the end record, at most. */
enum { MOST_RECORDS = 12 };

/* ---- Writing ---- */

/* Counts a feature. */
static void met(struct maker *m, enum hex_feature feature)
{
    if (m->c->met != NULL) m->c->met[feature]++;
}

/* Adds a byte to the text, if there is room. */
static void put(struct maker *m, uint8_t byte)
{
    if (m->c->text_len < m->room) m->c->text[m->c->text_len++] = byte;
}

/* Adds a digit in the text's case. */
static void put_digit(struct maker *m, unsigned value)
{
    bool lower = m->style == 1 || (m->style == 2 && chance(&m->random, 500));
    put(m, (uint8_t)(lower ? "0123456789abcdef" : "0123456789ABCDEF")[value & 15u]);
}

/* Adds a byte as two digits. */
static void put_byte(struct maker *m, unsigned value)
{
    put_digit(m, value >> 4);
    put_digit(m, value);
}

/* Adds a line end. */
static void put_line_end(struct maker *m)
{
    bool crlf = m->ends == 1 || (m->ends == 2 && chance(&m->random, 500));
    if (crlf) put(m, '\r');
    put(m, '\n');
    met(m, crlf ? HEX_CRLF : HEX_LF);
}

/* Adds a record without its line end; the check byte is off by `off`. */
static void put_record(struct maker *m, unsigned type, uint32_t address, const uint8_t *data, unsigned length, unsigned off)
{
    unsigned sum = length + (address >> 8 & 0xFFu) + (address & 0xFFu) + type;
    put(m, ':');
    put_byte(m, length);
    put_byte(m, address >> 8 & 0xFFu);
    put_byte(m, address & 0xFFu);
    put_byte(m, type);
    for (unsigned i = 0; i < length; i++) {
        put_byte(m, data[i]);
        sum += data[i];
    }
    put_byte(m, (0u - sum + off) & 0xFFu);
}

/* ---- Good records ---- */

/* Fills some bytes. */
static void fill(struct maker *m, uint8_t *data, unsigned length)
{
    for (unsigned i = 0; i < length; i++) data[i] = (uint8_t)below(&m->random, 256);
}

/* A length of data: mostly short, at times none or all 255. */
static unsigned data_length(struct maker *m)
{
    unsigned pick = below(&m->random, 100);
    if (pick < 5) {
        met(m, HEX_EMPTY_DATA);
        return 0;
    }
    if (pick < 8) {
        met(m, HEX_LONGEST_DATA);
        return 255;
    }
    return 1 + below(&m->random, 40);
}

/* An address in a segment: near the end of its 64 KiB, near the last record, or anywhere low or high. */
static uint32_t data_address(struct maker *m)
{
    unsigned pick = below(&m->random, 100);
    if (pick < 20) return 0xFFFFu - below(&m->random, 24);
    if (pick < 45) return (m->last_place - m->segment * 16 + below(&m->random, 16)) & 0xFFFFu;
    if (pick < 85) return below(&m->random, 512);
    return below(&m->random, 65536);
}

/* A data record. */
static void put_data(struct maker *m)
{
    uint8_t data[255];
    unsigned length = data_length(m);
    uint32_t address = data_address(m), place = (m->segment * 16 + address) & 0xFFFFFu;
    fill(m, data, length);
    put_record(m, 0, address, data, length, 0);
    if (address + length > 65536) met(m, HEX_WRAP_64K);
    if (length > 0 && address + length <= 65536 && m->segment * 16 + address + length > 1048576) met(m, HEX_WRAP_1M);
    if (place < m->last_place + m->last_count && m->last_place < place + length) met(m, HEX_OVERWRITE);
    m->last_place = place;
    m->last_count = length;
}

/* A record of type 02: low, in the last 64 KiB, or anywhere. */
static void put_segment(struct maker *m)
{
    unsigned pick = below(&m->random, 100);
    m->segment = pick < 60 ? below(&m->random, 64) : pick < 90 ? 0xFFFFu - below(&m->random, 4096) : below(&m->random, 65536);
    uint8_t data[2] = {(uint8_t)(m->segment >> 8), (uint8_t)m->segment};
    uint32_t address = chance(&m->random, 200) ? 1 + below(&m->random, 65535) : 0;
    if (address != 0) met(m, HEX_FREE_ADDRESS);
    put_record(m, 2, address, data, 2, 0);
    met(m, HEX_SEGMENT);
}

/* A record of type 03. */
static void put_start(struct maker *m)
{
    uint8_t data[4];
    fill(m, data, 4);
    put_record(m, 3, 0, data, 4, 0);
    met(m, m->starts++ == 0 ? HEX_START : HEX_TWO_STARTS);
}

/* Any good record but the end. */
static void put_good(struct maker *m)
{
    unsigned pick = below(&m->random, 100);
    if (pick < 65) put_data(m);
    else if (pick < 88) put_segment(m);
    else put_start(m);
}

/* Lines of anything. */
static void put_behind(struct maker *m)
{
    static const char *const tails[] = {"\n", "trailer\r\n", ":00000001FF\n", ":0\n\n", "\r", "\032", ":10"};
    const char *tail = ONE_OF(&m->random, tails);
    for (; *tail != '\0'; tail++) put(m, (uint8_t)*tail);
    met(m, HEX_TEXT_BEHIND);
}

/* ---- Damage ---- */

/* A record whose type or length is not one that is known, its check byte off or not. */
static void put_bad_type(struct maker *m, enum hex_feature feature)
{
    static const uint8_t types[] = {4, 5, 6, 0x10, 0x20, 0x81, 0xFF};
    uint8_t data[255];
    unsigned length = below(&m->random, 6), off = feature == HEX_DAMAGE_TYPE_CHECK ? 1 + below(&m->random, 255) : 0;
    unsigned type = feature == HEX_DAMAGE_SIZE ? 1 + below(&m->random, 3) : ONE_OF(&m->random, types);
    unsigned right = type == 1 ? 0 : type == 2 ? 2 : 4;
    if (feature == HEX_DAMAGE_SIZE && length == right) length++;
    fill(m, data, length);
    put_record(m, type, below(&m->random, 65536), data, length, off);
    put_line_end(m);
}

/* A line that is bad, of one kind. */
static void put_bad(struct maker *m, enum hex_feature feature)
{
    static const char odd[] = "GgZ:/@`: \t\r\n";
    uint8_t data[255];
    size_t from = m->c->text_len;
    met(m, feature);
    if (feature == HEX_DAMAGE_BLANK) {
        put_line_end(m);
        return;
    }
    if (feature == HEX_DAMAGE_TYPE || feature == HEX_DAMAGE_SIZE || feature == HEX_DAMAGE_TYPE_CHECK) {
        put_bad_type(m, feature);
        return;
    }
    unsigned length = below(&m->random, 20);
    fill(m, data, length);
    put_record(m, 0, below(&m->random, 512), data, length, feature == HEX_DAMAGE_CHECK ? 1 + below(&m->random, 255) : 0);
    size_t made = m->c->text_len - from, at = from + below(&m->random, made);
    uint8_t *text = m->c->text;
    if (feature == HEX_DAMAGE_BYTE)
        text[at] = chance(&m->random, 500) ? (uint8_t)odd[below(&m->random, sizeof odd - 1)] : (uint8_t)below(&m->random, 256);
    if (feature == HEX_DAMAGE_COLON) text[from] = (uint8_t)odd[below(&m->random, sizeof odd - 1)];
    if (feature == HEX_DAMAGE_LOST) {
        memmove(text + at, text + at + 1, m->c->text_len - at - 1);
        m->c->text_len--;
    }
    if (feature == HEX_DAMAGE_ADDED) put_digit(m, below(&m->random, 16));
    if (feature == HEX_DAMAGE_TAIL) put(m, (uint8_t) " 0x;"[below(&m->random, 4)]);
    if (feature == HEX_DAMAGE_CR) put(m, '\r');
    if (feature != HEX_DAMAGE_CR) put_line_end(m);
}

/* Cuts the text off anywhere, or leaves nothing of it. */
static void cut(struct maker *m)
{
    if (chance(&m->random, 100)) {
        m->c->text_len = 0;
        met(m, HEX_DAMAGE_EMPTY);
        return;
    }
    m->c->text_len = below(&m->random, m->c->text_len + 1);
    met(m, HEX_DAMAGE_CUT);
}

/* ---- A case ---- */

/* How much memory is lent: little, some, all, or too much. */
static size_t lent(struct maker *m)
{
    unsigned pick = below(&m->random, 100);
    if (pick < 3) return below(&m->random, 64);
    if (pick < 40) return below(&m->random, 2048);
    if (pick < 70) return 65536 + below(&m->random, 4096);
    if (pick < 72) return HEX_SYSTEM_ROOM;
    if (pick < 90) return 1048576;
    return 1048576 - below(&m->random, 64);
}

/* The records, with a bad line before one of them where there is to be one. */
static void put_records(struct maker *m, unsigned count, unsigned bad_at)
{
    static const enum hex_feature kinds[] = {HEX_DAMAGE_BYTE, HEX_DAMAGE_LOST,  HEX_DAMAGE_ADDED, HEX_DAMAGE_BLANK,
                                             HEX_DAMAGE_COLON, HEX_DAMAGE_CHECK, HEX_DAMAGE_TYPE,  HEX_DAMAGE_SIZE,
                                             HEX_DAMAGE_TYPE_CHECK, HEX_DAMAGE_TAIL, HEX_DAMAGE_CR};
    for (unsigned i = 0; i < count; i++) {
        if (i == bad_at) put_bad(m, ONE_OF(&m->random, kinds));
        put_good(m);
        put_line_end(m);
    }
}

/* The end record, and what follows it. */
static void put_end(struct maker *m)
{
    uint32_t address = chance(&m->random, 100) ? 1 + below(&m->random, 65535) : 0;
    if (address != 0) met(m, HEX_FREE_ADDRESS);
    put_record(m, 1, address, NULL, 0, 0);
    if (chance(&m->random, 40)) {
        put(m, (uint8_t) " 0\r"[below(&m->random, 3)]);
        met(m, HEX_DAMAGE_TAIL);
    }
    if (chance(&m->random, 200)) {
        met(m, HEX_NO_LAST_LINE_END);
        return;
    }
    put_line_end(m);
    if (chance(&m->random, 300)) put_behind(m);
}

void make_hex_case(struct hex_case *c, uint64_t seed, uint64_t number)
{
    struct maker m = {seeded(seed, number), c, 0, 0, 0, 0, 0, 0, HEX_TEXT_ROOM};
    c->text_len = 0;
    c->sys_len = lent(&m);
    m.style = below(&m.random, 3);
    m.ends = below(&m.random, 3);
    met(&m, m.style == 0 ? HEX_UPPER_CASE : m.style == 1 ? HEX_LOWER_CASE : HEX_MIXED_CASE);
    unsigned count = 1 + below(&m.random, MOST_RECORDS);
    put_records(&m, count, chance(&m.random, 450) ? below(&m.random, count) : count);
    if (chance(&m.random, 60)) met(&m, HEX_DAMAGE_NO_END);
    else put_end(&m);
    if (chance(&m.random, 50)) cut(&m);
}

size_t hex_image(uint8_t *text, const uint8_t *bytes, size_t count, uint32_t address)
{
    struct hex_case c = {text, 0, 0, NULL};
    struct maker m = {seeded(1, 0), &c, 0, 0, 0, 0, 0, 0, SIZE_MAX};
    uint8_t segment[2] = {(uint8_t)(address >> 12), (uint8_t)(address >> 4)};
    put_record(&m, 2, 0, segment, 2, 0);
    put(&m, '\n');
    for (size_t i = 0; i < count; i += 16) {
        put_record(&m, 0, (address & 15u) + (uint32_t)i, bytes + i, count - i < 16 ? (unsigned)(count - i) : 16, 0);
        put(&m, '\n');
    }
    put_record(&m, 1, 0, NULL, 0, 0);
    put(&m, '\n');
    return c.text_len;
}

const char *hex_feature_name(enum hex_feature feature)
{
    static const char *const names[HEX_FEATURES] = {
        "lines that end in LF",
        "lines that end in CR LF",
        "end record with no line end",
        "texts in upper case",
        "texts in lower case",
        "texts in mixed case",
        "data records of no bytes",
        "data records of 255 bytes",
        "records that wrap at 64 KiB",
        "records that wrap at 1 MiB",
        "records over the last one",
        "segments",
        "first start addresses",
        "later start addresses",
        "addresses of types 01 and 02 other than 0",
        "text behind the end record",
        "damage: another byte",
        "damage: a byte lost",
        "damage: a digit more",
        "damage: a blank line",
        "damage: no colon",
        "damage: check byte",
        "damage: type",
        "damage: length for its type",
        "damage: type and check byte",
        "damage: something behind a record's digits",
        "damage: CR alone",
        "damage: no end record",
        "damage: cut off",
        "damage: nothing left",
    };
    return names[feature];
}
