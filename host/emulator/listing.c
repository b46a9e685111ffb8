/* Lists channel programs: one table row for each format, and one function for each part of a line. */
#include "listing.h"

#include <stdbool.h>
#include <string.h>

/*
 * A format. Its fields are RRR, dd, AA, W and MM: a digit is that value; R any register, G any but CC, P a pointer
 * register, B a bit, S 4 to 7; d one byte or two of displacement, i one byte or two of data as W says; a, w, m any.
 * Its operands, destination first: r register, m memory, x the memory of a second pair, n data, k a byte of data,
 * l a word of data, t target, j target by data, b bit, s both widths.
 */
struct format {
    uint8_t opcode;
    const char *fields, *stem, *tail, *operands, *name;
};

static const struct format formats[LISTING_ROWS] = {
    {0x00, "00000", "NOP", "", "", "NOP"},
    {0x00, "20000", "SINTR", "", "", "SINTR"},
    {0x00, "30000", "XFER", "", "", "XFER"},
    {0x00, "S0000", "WID", "", "s", "WID n,n"},
    {0x02, "P2010", "LPDI", "", "rll", "LPDI P,n,n"},
    {0x08, "4i0w0", "JMP", "", "j", "JMP t"},
    {0x08, "Gi0w0", "ADD", "I", "rn", "ADDI G,n"},
    {0x09, "Gi0w0", "OR", "I", "rn", "ORI G,n"},
    {0x0A, "Gi0w0", "AND", "I", "rn", "ANDI G,n"},
    {0x0B, "G0000", "NOT", "", "r", "NOT G"},
    {0x0C, "Ri0w0", "MOV", "I", "rn", "MOVI R,n"},
    {0x0E, "G0000", "INC", "", "r", "INC G"},
    {0x0F, "G0000", "DEC", "", "r", "DEC G"},
    {0x10, "Gd000", "JNZ", "", "rt", "JNZ G,t"},
    {0x11, "Gd000", "JZ", "", "rt", "JZ G,t"},
    {0x12, "10000", "HLT", "", "", "HLT"},
    {0x13, "0iawm", "MOV", "I", "mn", "MOVI M,n"},
    {0x20, "R0awm", "MOV", "", "rm", "MOV R,M"},
    {0x21, "R0awm", "MOV", "", "mr", "MOV M,R"},
    {0x22, "P0a1m", "LPD", "", "rm", "LPD P,M"},
    {0x23, "P0a1m", "MOVP", "", "rm", "MOVP P,M"},
    {0x24, "00awm", "MOV", "", "xm", "MOV M,M"},
    {0x25, "03a0m", "TSL", "", "mkt", "TSL M,n,t"},
    {0x26, "P0a1m", "MOVP", "", "mr", "MOVP M,P"},
    {0x27, "4dawm", "CALL", "", "mt", "CALL M,t"},
    {0x28, "G0awm", "ADD", "", "rm", "ADD G,M"},
    {0x29, "G0awm", "OR", "", "rm", "OR G,M"},
    {0x2A, "G0awm", "AND", "", "rm", "AND G,M"},
    {0x2B, "G0awm", "NOT", "", "rm", "NOT G,M"},
    {0x2C, "0da0m", "JMCE", "", "mt", "JMCE M,t"},
    {0x2D, "0da0m", "JMCNE", "", "mt", "JMCNE M,t"},
    {0x2E, "Bda0m", "JNBT", "", "mbt", "JNBT M,n,t"},
    {0x2F, "Bda0m", "JBT", "", "mbt", "JBT M,n,t"},
    {0x30, "0iawm", "ADD", "I", "mn", "ADDI M,n"},
    {0x31, "0iawm", "OR", "I", "mn", "ORI M,n"},
    {0x32, "0iawm", "AND", "I", "mn", "ANDI M,n"},
    {0x34, "G0awm", "ADD", "", "mr", "ADD M,G"},
    {0x35, "G0awm", "OR", "", "mr", "OR M,G"},
    {0x36, "G0awm", "AND", "", "mr", "AND M,G"},
    {0x37, "00awm", "NOT", "", "m", "NOT M"},
    {0x38, "0dawm", "JNZ", "", "mt", "JNZ M,t"},
    {0x39, "0dawm", "JZ", "", "mt", "JZ M,t"},
    {0x3A, "00awm", "INC", "", "m", "INC M"},
    {0x3B, "00awm", "DEC", "", "m", "DEC M"},
    {0x3D, "B0a0m", "SETB", "", "mb", "SETB M,n"},
    {0x3E, "B0a0m", "CLR", "", "mb", "CLR M,n"},
    {0x27, "", "", "", "", "CALL with W 0, as data"},
};

/* The fields of a pair. */
struct fields {
    unsigned rrr, dd, aa, w, opcode, mm;
};

/* A memory operand with its offset byte. */
struct memory {
    unsigned mm, aa, offset;
};

/* An instruction taken apart. */
struct instruction {
    unsigned row, length;
    struct fields pair;
    struct memory memory, second;
    unsigned data[2];
    unsigned displacement;
};

/* A line that is being written; at most 28 characters. */
struct line {
    uint8_t chars[28];
    unsigned length;
};

const char *listing_row_name(unsigned row)
{
    return formats[row].name;
}

/* ---- Reading ---- */

static struct fields split(const uint8_t *code)
{
    struct fields f = {code[0] >> 5u & 7u, code[0] >> 3u & 3u, code[0] >> 1u & 3u,
                       code[0] & 1u,       code[1] >> 2u,      code[1] & 3u};
    return f;
}

/* Whether one field is as its column says. */
static bool agrees(char column, unsigned field, unsigned w)
{
    switch (column) {
    case 'P': return field < 3 || field == 4;
    case 'S': return field >= 4;
    case 'd': return field == 1 || field == 2;
    case 'i': return field == 1 + w;
    case 'R': case 'G': case 'B': case 'a': case 'w': case 'm': return true;
    default: return field == (unsigned)(column - '0');
    }
}

/* The row of a pair, or LISTING_ROWS. */
static unsigned row_of(struct fields p)
{
    for (unsigned i = 0; i < LISTING_ROWS - 1; i++) {
        const char *f = formats[i].fields;
        if (formats[i].opcode == p.opcode && agrees(f[0], p.rrr, p.w) && agrees(f[1], p.dd, p.w) &&
            agrees(f[2], p.aa, p.w) && agrees(f[3], p.w, p.w) && agrees(f[4], p.mm, p.w))
            return i;
    }
    return LISTING_ROWS;
}

/* Bytes that are taken one after the other; more are wanted than there are where `short_of` is set. */
struct bytes {
    const uint8_t *code;
    size_t length, at;
    bool short_of;
};

static unsigned take(struct bytes *b)
{
    if (b->at >= b->length) {
        b->short_of = true;
        return 0;
    }
    return b->code[b->at++];
}

static unsigned take_word(struct bytes *b)
{
    unsigned low = take(b);
    return low + 256u * take(b);
}

static struct memory take_memory(struct fields p, struct bytes *b)
{
    struct memory m = {p.mm, p.aa, p.aa == 1 ? take(b) : 0};
    return m;
}

/* The data and the displacement that the row's operands ask for. */
static void take_numbers(struct instruction *in, struct bytes *b)
{
    unsigned n = 0;
    for (const char *o = formats[in->row].operands; *o != 0; o++) {
        if (*o == 'n') in->data[n++] = in->pair.w != 0 ? take_word(b) : take(b);
        if (*o == 'k') in->data[n++] = take(b);
        if (*o == 'l') in->data[n++] = take_word(b);
        if (*o == 't' || *o == 'j') {
            unsigned d = in->pair.dd == 2 ? take_word(b) : take(b);
            in->displacement = in->pair.dd != 2 && d >= 128 ? d + 0xFF00u : d;
        }
    }
}

/* Takes the second pair; answers why there is no instruction, or DATA_REASONS. */
static enum listing_data take_second(struct instruction *in, struct bytes *b)
{
    uint8_t pair[2];
    pair[0] = (uint8_t)take(b);
    pair[1] = (uint8_t)take(b);
    if (b->short_of) return DATA_CUT_OFF;
    struct fields p = split(pair);
    if (p.rrr != 0 || p.dd != 0 || p.w != in->pair.w || p.opcode != 0x33) return DATA_SECOND_PAIR;
    in->second = take_memory(p, b);
    return b->short_of ? DATA_SECOND_CUT_OFF : DATA_REASONS;
}

/* Reads the instruction that the bytes begin with; answers why there is none, or DATA_REASONS. */
static enum listing_data read_instruction(const uint8_t *code, size_t length, struct instruction *in)
{
    struct bytes b = {code, length, 2, false};
    memset(in, 0, sizeof *in);
    if (length < 2) return DATA_ONE_BYTE;
    in->pair = split(code);
    in->row = row_of(in->pair);
    if (in->row == LISTING_ROWS) return DATA_NO_INSTRUCTION;
    const struct format *f = &formats[in->row];
    if (f->fields[0] == 'G' && in->pair.rrr == 6) return DATA_CC_USED;
    if (f->fields[4] == 'm') in->memory = take_memory(in->pair, &b);
    take_numbers(in, &b);
    enum listing_data second = DATA_REASONS;
    if (f->operands[0] == 'x') second = take_second(in, &b);
    in->length = (unsigned)b.at;
    if (second != DATA_REASONS) return second;
    if (b.short_of) return DATA_CUT_OFF;
    return in->pair.opcode == 0x27 && in->pair.w == 0 ? DATA_CALL : DATA_REASONS;
}

/* ---- Writing ---- */

static void put(struct line *line, char c)
{
    line->chars[line->length++] = (uint8_t)c;
}

static void put_text(struct line *line, const char *text)
{
    while (*text != 0) put(line, *text++);
}

/* 0, so many hexadecimal digits, H. */
static void put_number(struct line *line, unsigned value, unsigned digits)
{
    put(line, '0');
    while (digits-- > 0) put(line, "0123456789ABCDEF"[value >> 4u * digits & 15u]);
    put(line, 'H');
}

static void put_memory(struct line *line, struct memory m, struct listing_coverage *met)
{
    static const char *const bases[4] = {"[GA", "[GB", "[GC", "[PP"};
    static const char *const modes[4] = {"]", "].", "+IX]", "+IX+]"};
    put_text(line, bases[m.mm]);
    put_text(line, modes[m.aa]);
    if (m.aa == 1) put_number(line, m.offset, 2);
    met->base[m.mm]++;
    met->mode[m.aa]++;
}

static void put_register(struct line *line, unsigned rrr, struct listing_coverage *met)
{
    static const char *const names[8] = {"GA", "GB", "GC", "BC", "TP", "IX", "CC", "MC"};
    put_text(line, names[rrr]);
    met->registers[rrr]++;
}

/* One operand; `n` counts the data listed so far, `end` is the address behind the instruction. */
static void put_operand(struct line *line, const struct instruction *in, char operand, unsigned *n, uint32_t end,
                        struct listing_coverage *met)
{
    switch (operand) {
    case 'r': put_register(line, in->pair.rrr, met); break;
    case 'm': put_memory(line, in->memory, met); break;
    case 'x': put_memory(line, in->second, met); break;
    case 'n': put_number(line, in->data[(*n)++], in->pair.w != 0 ? 4 : 2); break;
    case 'k': put_number(line, in->data[(*n)++], 2); break;
    case 'l': put_number(line, in->data[(*n)++], 4); break;
    case 'b': put(line, (char)('0' + in->pair.rrr)); break;
    case 's':
        put_text(line, (in->pair.rrr & 2u) != 0 ? "16," : "8,");
        put_text(line, (in->pair.rrr & 1u) != 0 ? "16" : "8");
        break;
    default:
        put_number(line, (end + in->displacement) & 0xFFFFu, 4);
        met->backward += in->displacement >= 0x8000u;
    }
}

/* The word: L, stem, B, I. */
static void put_word(struct line *line, const struct instruction *in, struct listing_coverage *met)
{
    const struct format *f = &formats[in->row];
    bool jumps = strpbrk(f->operands, "tj") != NULL, two = jumps && in->pair.dd == 2;
    bool byte = f->fields[3] == 'w' && in->pair.w == 0 && f->operands[0] != 'j';
    if (two) put(line, 'L');
    put_text(line, f->stem);
    if (byte) put(line, 'B');
    put_text(line, f->tail);
    met->long_words += two;
    met->byte_words += byte;
}

static void put_instruction(struct line *line, const struct instruction *in, uint32_t end, struct listing_coverage *met)
{
    unsigned n = 0;
    put_word(line, in, met);
    char before = ' ';
    for (const char *o = formats[in->row].operands; *o != 0; o++) {
        put(line, before);
        put_operand(line, in, *o, &n, end, met);
        before = ',';
    }
    met->row[in->row]++;
}

/* A DB line of some bytes. */
static void put_data(struct line *line, const uint8_t *code, unsigned count)
{
    put_text(line, "DB");
    for (unsigned i = 0; i < count; i++) {
        put(line, i == 0 ? ' ' : ',');
        put_number(line, code[i], 2);
    }
}

/* The line at a byte, whole; answers how many bytes it lists. */
static unsigned next_line(const uint8_t *code, size_t length, uint32_t address, struct line *line,
                          struct listing_coverage *met)
{
    struct instruction in;
    enum listing_data why = read_instruction(code, length, &in);
    unsigned count = why == DATA_REASONS || why == DATA_CALL ? in.length : 1;
    line->length = 0;
    if (why == DATA_REASONS) {
        put_instruction(line, &in, address + count, met);
    } else {
        put_data(line, code, count);
        met->data[why]++;
        met->row[LISTING_ROWS - 1] += why == DATA_CALL;
    }
    put(line, '\n');
    met->longest += line->length == sizeof line->chars;
    return count;
}

struct listing list_code(const uint8_t *code, size_t code_len, uint32_t first, uint8_t *text, size_t text_len,
                         struct listing_coverage *met)
{
    struct listing done = {0, 0};
    struct listing_coverage unseen;
    size_t length = code_len > LISTING_LIMIT ? LISTING_LIMIT : code_len;
    if (met == NULL) {
        memset(&unseen, 0, sizeof unseen);
        met = &unseen;
    }
    while (done.stop < length) {
        struct line line;
        unsigned count = next_line(code + done.stop, length - done.stop, first + done.stop, &line, met);
        if (line.length > text_len - done.characters) break;
        memcpy(text + done.characters, line.chars, line.length);
        done.characters += line.length;
        done.stop += count;
    }
    return done;
}
