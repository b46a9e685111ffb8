/* Assembles in three passes over the lines: labels and sizes, the first failed line, the bytes. */
#include "assembly.h"

#include <stdbool.h>
#include <string.h>

enum { MOST_OPERANDS = 3, MOST_BYTES = 6 };

/* Registers by RRR, and PP, which is a base alone. */
enum { GA, GB, GC, BC, TP, IX, CC, MC, PP, NO_REGISTER };

/* How an operand in memory is addressed, by AA. */
enum { BASE_ALONE, WITH_OFFSET, WITH_IX, WITH_IX_GROWING };

/* The opcode of a second pair, MM 0. */
enum { SECOND_PAIR = 0xCC };

const struct assembly_form assembly_forms[ASSEMBLY_FORMS] = {
    {"ADD", "GM", 0x01, 0xA0},      {"ADD", "MG", 0x01, 0xD0},      {"ADDB", "GM", 0x00, 0xA0},
    {"ADDB", "MG", 0x00, 0xD0},     {"ADDBI", "Gb", 0x08, 0x20},    {"ADDBI", "Mb", 0x08, 0xC0},
    {"ADDI", "Gw", 0x11, 0x20},     {"ADDI", "Mw", 0x11, 0xC0},     {"AND", "GM", 0x01, 0xA8},
    {"AND", "MG", 0x01, 0xD8},      {"ANDB", "GM", 0x00, 0xA8},     {"ANDB", "MG", 0x00, 0xD8},
    {"ANDBI", "Gb", 0x08, 0x28},    {"ANDBI", "Mb", 0x08, 0xC8},    {"ANDI", "Gw", 0x11, 0x28},
    {"ANDI", "Mw", 0x11, 0xC8},     {"CALL", "Mt", 0x89, 0x9C},     {"CLR", "Mn", 0x00, 0xF8},
    {"DB", "B", 0, 0},              {"DEC", "G", 0x00, 0x3C},       {"DEC", "M", 0x01, 0xEC},
    {"DECB", "M", 0x00, 0xEC},      {"DW", "W", 0, 0},              {"HLT", "", 0x20, 0x48},
    {"INC", "G", 0x00, 0x38},       {"INC", "M", 0x01, 0xE8},       {"INCB", "M", 0x00, 0xE8},
    {"JBT", "Mnt", 0x08, 0xBC},     {"JMCE", "Mt", 0x08, 0xB0},     {"JMCNE", "Mt", 0x08, 0xB4},
    {"JMP", "t", 0x88, 0x20},       {"JNBT", "Mnt", 0x08, 0xB8},    {"JNZ", "Gt", 0x08, 0x40},
    {"JNZ", "Mt", 0x09, 0xE0},      {"JNZB", "Mt", 0x08, 0xE0},     {"JZ", "Gt", 0x08, 0x44},
    {"JZ", "Mt", 0x09, 0xE4},       {"JZB", "Mt", 0x08, 0xE4},      {"LCALL", "MT", 0x91, 0x9C},
    {"LJBT", "MnT", 0x10, 0xBC},    {"LJMCE", "MT", 0x10, 0xB0},    {"LJMCNE", "MT", 0x10, 0xB4},
    {"LJMP", "T", 0x91, 0x20},      {"LJNBT", "MnT", 0x10, 0xB8},   {"LJNZ", "GT", 0x10, 0x40},
    {"LJNZ", "MT", 0x11, 0xE0},     {"LJNZB", "MT", 0x10, 0xE0},    {"LJZ", "GT", 0x10, 0x44},
    {"LJZ", "MT", 0x11, 0xE4},      {"LJZB", "MT", 0x10, 0xE4},     {"LPD", "PM", 0x01, 0x88},
    {"LPDI", "Pww", 0x11, 0x08},    {"MOV", "RM", 0x01, 0x80},      {"MOV", "MR", 0x01, 0x84},
    {"MOV", "NM", 0x01, 0x90},      {"MOVB", "RM", 0x00, 0x80},     {"MOVB", "MR", 0x00, 0x84},
    {"MOVB", "NM", 0x00, 0x90},     {"MOVBI", "Rb", 0x08, 0x30},    {"MOVBI", "Mb", 0x08, 0x4C},
    {"MOVI", "Rw", 0x11, 0x30},     {"MOVI", "Mw", 0x11, 0x4C},     {"MOVP", "PM", 0x01, 0x8C},
    {"MOVP", "MP", 0x01, 0x98},     {"NOP", "", 0x00, 0x00},        {"NOT", "G", 0x00, 0x2C},
    {"NOT", "M", 0x01, 0xDC},       {"NOT", "GM", 0x01, 0xAC},      {"NOTB", "M", 0x00, 0xDC},
    {"NOTB", "GM", 0x00, 0xAC},     {"OR", "GM", 0x01, 0xA4},       {"OR", "MG", 0x01, 0xD4},
    {"ORB", "GM", 0x00, 0xA4},      {"ORB", "MG", 0x00, 0xD4},      {"ORBI", "Gb", 0x08, 0x24},
    {"ORBI", "Mb", 0x08, 0xC4},     {"ORI", "Gw", 0x11, 0x24},      {"ORI", "Mw", 0x11, 0xC4},
    {"SETB", "Mn", 0x00, 0xF4},     {"SINTR", "", 0x40, 0x00},      {"TSL", "Mbt", 0x18, 0x94},
    {"WID", "sd", 0x80, 0x00},      {"XFER", "", 0x60, 0x00},
};

/* For each letter the first row of its words; its last stands before the next letter's first. */
static const uint8_t first_rows[27] = {0,  16, 16, 18, 23, 23, 23, 23, 24, 27, 38, 38, 52, 64,
                                       70, 78, 78, 78, 78, 80, 81, 81, 81, 82, 83, 83, 83};

/* ---- Tokens ---- */

/* What a token is: a mark is its character, the others are these. */
enum { RUN = 256, END };

/* A token: of a run, its characters. */
struct token {
    int kind;
    const uint8_t *at;
    size_t length;
};

/* A line as it is read: what is left of it, behind the next token. */
struct reader {
    const uint8_t *at, *end;
    struct token next;
};

/* Whether a character is a digit. */
static bool is_digit(uint8_t c)
{
    return c >= '0' && c <= '9';
}

/* Whether a character stands in runs. */
static bool is_of_run(uint8_t c)
{
    return (c >= 'A' && c <= 'Z') || (c >= 'a' && c <= 'z') || is_digit(c) || c == '_';
}

/* A character, small letters as capitals. */
static uint8_t capital(uint8_t c)
{
    return c >= 'a' && c <= 'z' ? (uint8_t)(c - 'a' + 'A') : c;
}

/* Passes over blanks. */
static void pass_blanks(struct reader *r)
{
    while (r->at < r->end && (*r->at == ' ' || *r->at == '\t' || *r->at == '\r')) r->at++;
}

/* Goes on to the next token; a comment ends the line. */
static void advance(struct reader *r)
{
    pass_blanks(r);
    r->next.at = r->at;
    if (r->at == r->end || *r->at == ';') {
        r->next.kind = END;
    } else if (!is_of_run(*r->at)) {
        r->next.kind = *r->at++;
    } else {
        while (r->at < r->end && is_of_run(*r->at)) r->at++;
        r->next.kind = RUN;
        r->next.length = (size_t)(r->at - r->next.at);
    }
}

/* Goes on if the next token is this mark. */
static bool accept(struct reader *r, int mark)
{
    if (r->next.kind != mark) return false;
    advance(r);
    return true;
}

/* Whether a token is a name: a run that does not start with a digit. */
static bool is_name(const struct token *t)
{
    return t->kind == RUN && !is_digit(*t->at);
}

/* The register that a token names. */
static unsigned register_of(const struct token *t)
{
    static const char names[NO_REGISTER][2] = {"GA", "GB", "GC", "BC", "TP", "IX", "CC", "MC", "PP"};
    unsigned i = 0;
    if (t->kind != RUN || t->length != 2) return NO_REGISTER;
    uint8_t first = capital(t->at[0]), second = capital(t->at[1]);
    while (i < NO_REGISTER && (names[i][0] != first || names[i][1] != second)) i++;
    return i;
}

/* The first row of the word that a token names, or NULL. */
static const struct assembly_form *word_of(const struct token *t)
{
    char word[ASSEMBLY_WORD_ROOM] = "";
    if (!is_name(t) || t->length >= ASSEMBLY_WORD_ROOM || *t->at == '_') return NULL;
    for (size_t i = 0; i < t->length; i++) word[i] = (char)capital(t->at[i]);
    for (unsigned row = first_rows[word[0] - 'A']; row < first_rows[word[0] - 'A' + 1]; row++)
        if (memcmp(assembly_forms[row].word, word, sizeof word) == 0) return &assembly_forms[row];
    return NULL;
}

/* ---- Labels ---- */

/* A kept label: its name in capitals, where it stands, and its address. */
struct label {
    const uint8_t *at;
    size_t length;
    uint8_t name[ASSEMBLY_LABEL_LENGTH];
    uint16_t address;
};

/* The labels kept so far. */
struct labels {
    size_t count;
    struct label kept[ASSEMBLY_LABELS];
};

/* The label of a name, or NULL where it is not kept. */
static const struct label *find_label(const struct labels *labels, const struct token *name)
{
    uint8_t capitals[ASSEMBLY_LABEL_LENGTH];
    if (name->length > ASSEMBLY_LABEL_LENGTH) return NULL;
    for (size_t i = 0; i < name->length; i++) capitals[i] = capital(name->at[i]);
    for (size_t i = 0; i < labels->count; i++) {
        const struct label *l = &labels->kept[i];
        if (l->length == name->length && memcmp(l->name, capitals, l->length) == 0) return l;
    }
    return NULL;
}

/* Why a label cannot be kept beside those that are. */
static enum label_fault fault_of(const struct labels *labels, const struct token *name)
{
    if (name->length > ASSEMBLY_LABEL_LENGTH) return LABEL_TOO_LONG;
    if (find_label(labels, name) != NULL) return LABEL_TWICE;
    if (word_of(name) != NULL || register_of(name) != NO_REGISTER) return LABEL_RESERVED;
    return labels->count == ASSEMBLY_LABELS ? LABEL_ONE_TOO_MANY : LABEL_GOOD;
}

/* Keeps a label, if it can be kept. */
static void keep(struct labels *labels, const struct token *name, uint64_t address)
{
    if (fault_of(labels, name) != LABEL_GOOD) return;
    struct label *l = &labels->kept[labels->count++];
    l->at = name->at;
    l->length = name->length;
    for (size_t i = 0; i < name->length; i++) l->name[i] = capital(name->at[i]);
    l->address = (uint16_t)address;
}

/* Whether the label that stands here is the one that was kept. */
static bool is_kept(const struct labels *labels, const struct token *name)
{
    const struct label *l = find_label(labels, name);
    return l != NULL && l->at == name->at;
}

/* ---- Sums ---- */

/* The radix of a run that starts with a digit, or 0, and how many of its characters are digits. */
static unsigned radix_of(const struct token *t, size_t *digits)
{
    uint8_t last = capital(t->at[t->length - 1]);
    *digits = t->length - !is_digit(last);
    switch (last) {
    case 'B': return 2;
    case 'O':
    case 'Q': return 8;
    case 'D': return 10;
    case 'H': return 16;
    default: return is_digit(last) ? 10 : 0;
    }
}

/* A digit's value; 16 and more for what is no digit in any radix. */
static unsigned digit_value(uint8_t c)
{
    return is_digit(c) ? c - '0' + 0u : c == '_' ? 16u : capital(c) - 'A' + 10u;
}

/* Whether a run that starts with a digit is a constant. */
static bool is_constant(const struct token *t)
{
    size_t digits, i = 0;
    unsigned radix = radix_of(t, &digits);
    while (i < digits && digit_value(t->at[i]) < radix) i++;
    return i == digits && radix != 0;
}

/* A constant's value mod 65,536. */
static unsigned constant(const struct token *t)
{
    size_t digits;
    unsigned radix = radix_of(t, &digits), value = 0;
    for (size_t i = 0; i < digits; i++) value = (value * radix + digit_value(t->at[i])) & 0xFFFFu;
    return value;
}

/* Whether a token can be a term by itself: a constant, or a name that is no register. */
static bool is_term(const struct token *t)
{
    if (t->kind != RUN) return false;
    return is_digit(*t->at) ? is_constant(t) : register_of(t) == NO_REGISTER;
}

/* Passes over a sum; false where it is not of the right form. The most parentheses open at once go into `depth`. */
static bool pass_sum(struct reader *r, size_t *depth)
{
    size_t open = 0;
    for (accept(r, '-');;) {
        while (accept(r, '(')) {
            if (++open > *depth) *depth = open;
            accept(r, '-');
        }
        if (!is_term(&r->next)) return false;
        advance(r);
        while (open > 0 && accept(r, ')')) open--;
        if (!accept(r, '+') && !accept(r, '-')) return open == 0;
    }
}

/* What names mean, and the first that has no meaning; its length is 0 where all have. */
struct meaning {
    const struct labels *labels;
    struct token unknown;
};

/* A name's address. */
static unsigned address_of(const struct token *name, struct meaning *m)
{
    const struct label *l = find_label(m->labels, name);
    if (l == NULL && m->unknown.length == 0) m->unknown = *name;
    return l != NULL ? l->address : 0;
}

static unsigned sum(struct reader *r, struct meaning *m);

/* The value of a term of a sum of the right form. */
static unsigned term(struct reader *r, struct meaning *m)
{
    struct token t = r->next;
    advance(r);
    if (t.kind == RUN) return is_digit(*t.at) ? constant(&t) : address_of(&t, m);
    unsigned value = sum(r, m);
    advance(r);
    return value;
}

/* The value of a sum of the right form, at most 8 deep. */
static unsigned sum(struct reader *r, struct meaning *m)
{
    unsigned value = accept(r, '-') ? 0u - term(r, m) : term(r, m);
    for (;;) {
        if (accept(r, '+')) value += term(r, m);
        else if (accept(r, '-')) value -= term(r, m);
        else return value & 0xFFFFu;
    }
}

/* ---- Lines ---- */

/* An operand: a register, memory by its base and mode, or a sum; that sum, or the offset's, starts at `sum`. */
struct operand {
    enum { REGISTER, MEMORY, NUMBER } kind;
    unsigned reg, mode;
    struct reader sum;
};

/* A line: its label, of length 0 where it has none; 0 or 30 to 32; its form with operands or items; and its size. */
struct line {
    struct token label;
    unsigned number;
    const struct assembly_form *form;
    struct operand operands[MOST_OPERANDS];
    struct reader items;
    uint64_t size;
};

/* Reads an operand in memory behind its bracket. */
static bool read_memory(struct reader *r, struct operand *o, size_t *depth)
{
    o->kind = MEMORY;
    o->reg = register_of(&r->next);
    if (o->reg > GC && o->reg != PP) return false;
    advance(r);
    if (accept(r, '+')) {
        if (register_of(&r->next) != IX) return false;
        advance(r);
        o->mode = accept(r, '+') ? WITH_IX_GROWING : WITH_IX;
        return accept(r, ']');
    }
    if (!accept(r, ']')) return false;
    o->mode = accept(r, '.') ? WITH_OFFSET : BASE_ALONE;
    o->sum = *r;
    return o->mode == BASE_ALONE || pass_sum(r, depth);
}

/* Reads an operand; false where it is none. */
static bool read_operand(struct reader *r, struct operand *o, size_t *depth)
{
    if (accept(r, '[')) return read_memory(r, o, depth);
    o->reg = register_of(&r->next);
    o->kind = o->reg != NO_REGISTER ? REGISTER : NUMBER;
    if (o->kind == REGISTER) {
        advance(r);
        return o->reg != PP;
    }
    o->sum = *r;
    return pass_sum(r, depth);
}

/* Whether an operand is what a form's letter says. */
static bool fits_letter(const struct operand *o, char letter)
{
    switch (letter) {
    case 'R': return o->kind == REGISTER;
    case 'G': return o->kind == REGISTER && o->reg != CC;
    case 'P': return o->kind == REGISTER && (o->reg <= GC || o->reg == TP);
    case 'M':
    case 'N': return o->kind == MEMORY;
    default: return o->kind == NUMBER;
    }
}

/* Whether so many operands have a form. */
static bool fits(const struct assembly_form *form, const struct operand *operands, size_t count)
{
    for (size_t i = 0; i < count; i++)
        if (form->operands[i] == '\0' || !fits_letter(&operands[i], form->operands[i])) return false;
    return form->operands[count] == '\0';
}

/* How many bytes an operand adds to the first pair. */
static unsigned operand_size(const struct operand *o, char letter)
{
    switch (letter) {
    case 'M': return o->mode == WITH_OFFSET;
    case 'N': return 2 + (o->mode == WITH_OFFSET);
    case 'b':
    case 't': return 1;
    case 'w':
    case 'T': return 2;
    default: return 0;
    }
}

/* Finds the form that so many operands have, from the word's first row on, and the size; false where they have none. */
static bool find_form(struct line *l, size_t count)
{
    const char *word = l->form->word;
    while (!fits(l->form, l->operands, count))
        if (++l->form == assembly_forms + ASSEMBLY_FORMS || memcmp(l->form->word, word, ASSEMBLY_WORD_ROOM) != 0)
            return false;
    l->size = 2;
    for (size_t i = 0; i < count; i++) l->size += operand_size(&l->operands[i], l->form->operands[i]);
    return true;
}

/* Reads an instruction's operands; false where they have no form of its word. */
static bool read_operands(struct reader *r, struct line *l, size_t *depth)
{
    size_t count = 0;
    if (r->next.kind == END) return find_form(l, 0);
    do {
        if (count == MOST_OPERANDS || !read_operand(r, &l->operands[count++], depth)) return false;
    } while (accept(r, ','));
    return r->next.kind == END && find_form(l, count);
}

/* Reads the items of DB or DW; false where one is no sum. */
static bool read_items(struct reader *r, struct line *l, size_t *depth)
{
    l->items = *r;
    do {
        if (!pass_sum(r, depth)) return false;
        l->size += l->form->operands[0] == 'B' ? 1 : 2;
    } while (accept(r, ','));
    return r->next.kind == END;
}

/* Whether a form is of DB or DW. */
static bool has_items(const struct assembly_form *form)
{
    return form->operands[0] == 'B' || form->operands[0] == 'W';
}

/* Reads what follows a label; answers 0 or 30 to 32. */
static unsigned read_body(struct reader *r, struct line *l)
{
    size_t depth = 0;
    if (r->next.kind == END) return ASSEMBLY_DONE;
    l->form = word_of(&r->next);
    if (l->form == NULL) return ASSEMBLY_BAD_WORD;
    advance(r);
    if (!(has_items(l->form) ? read_items(r, l, &depth) : read_operands(r, l, &depth))) return ASSEMBLY_BAD_OPERANDS;
    return depth > ASSEMBLY_DEPTH ? ASSEMBLY_TOO_DEEP : ASSEMBLY_DONE;
}

/* Reads a line's label, where it has one. */
static void read_label(struct reader *r, struct token *label)
{
    label->length = 0;
    if (!is_name(&r->next)) return;
    pass_blanks(r);
    if (r->at == r->end || *r->at != ':') return;
    *label = r->next;
    r->at++;
    advance(r);
}

/* Reads a line. */
static void read_line(struct reader *r, struct line *l)
{
    l->form = NULL;
    l->size = 0;
    advance(r);
    read_label(r, &l->label);
    l->number = read_body(r, l);
    if (l->number != ASSEMBLY_DONE) l->size = 0;
}

/* A place in the text: what is left of it, whether that has a line, and how many were taken. */
struct cursor {
    const uint8_t *at, *end;
    bool over;
    uint64_t lines;
};

/* Takes the next line; false where none is left. */
static bool take_line(struct cursor *c, struct line *l)
{
    if (c->over) return false;
    const uint8_t *lf = c->at < c->end ? memchr(c->at, '\n', (size_t)(c->end - c->at)) : NULL;
    struct reader r = {c->at, lf != NULL ? lf : c->end, {END, c->at, 0}};
    read_line(&r, l);
    c->over = lf == NULL;
    if (lf != NULL) c->at = lf + 1;
    c->lines++;
    return true;
}

/* ---- Bytes ---- */

/* An instruction's bytes so far, the address behind it, and whether every value has its place in them. */
struct code {
    uint8_t bytes[MOST_BYTES];
    size_t count;
    uint64_t end;
    bool good;
};

/* Whether a value can be stored as a byte. */
static bool is_byte(unsigned value)
{
    return value <= 0xFF || value >= 0xFF80;
}

/* Adds a byte. */
static void add_byte(struct code *c, unsigned value)
{
    c->bytes[c->count++] = (uint8_t)value;
}

/* Adds a word, low byte first. */
static void add_word(struct code *c, unsigned value)
{
    add_byte(c, value);
    add_byte(c, value >> 8);
}

/* Puts base and mode into the pair at an index, and adds the offset where there is one. */
static void add_memory(struct code *c, const struct operand *o, size_t pair, unsigned offset)
{
    c->bytes[pair] |= (uint8_t)(o->mode << 1);
    c->bytes[pair + 1] |= (uint8_t)(o->reg == PP ? 3 : o->reg);
    if (o->mode != WITH_OFFSET) return;
    c->good &= is_byte(offset);
    add_byte(c, offset);
}

/* Sets a width's bit where it is 16. */
static void set_width(struct code *c, unsigned width, uint8_t bit)
{
    c->good &= width == 8 || width == 16;
    if (width == 16) c->bytes[0] |= bit;
}

/* Adds what an operand is by its letter; a second pair is added behind all others. */
static void add_operand(struct code *c, const struct operand *o, char letter, unsigned value)
{
    unsigned distance = (value - (unsigned)c->end) & 0xFFFFu;
    switch (letter) {
    case 'R':
    case 'G':
    case 'P': c->bytes[0] |= (uint8_t)(o->reg << 5); break;
    case 'M': add_memory(c, o, 0, value); break;
    case 'n':
        c->good &= value <= 7;
        c->bytes[0] |= (uint8_t)(value << 5);
        break;
    case 's': set_width(c, value, 0x40); break;
    case 'd': set_width(c, value, 0x20); break;
    case 'b':
        c->good &= is_byte(value);
        add_byte(c, value);
        break;
    case 'w': add_word(c, value); break;
    case 't':
        c->good &= distance < 0x80 || distance >= 0xFF80;
        add_byte(c, distance);
        break;
    case 'T': add_word(c, distance); break;
    default: break;
    }
}

/* Makes an instruction's bytes; answers 0, 33 or 34. */
static unsigned make_instruction(const struct line *l, struct meaning *m, struct code *c)
{
    const char *letters = l->form->operands;
    unsigned values[MOST_OPERANDS] = {0};
    *c = (struct code){{l->form->first, l->form->second}, 2, c->end, true};
    for (size_t i = 0; letters[i] != '\0'; i++) {
        const struct operand *o = &l->operands[i];
        if (o->kind == NUMBER || (o->kind == MEMORY && o->mode == WITH_OFFSET)) {
            struct reader r = o->sum;
            values[i] = sum(&r, m);
        }
        add_operand(c, o, letters[i], values[i]);
    }
    if (letters[0] == 'N') {
        add_byte(c, l->form->first);
        add_byte(c, SECOND_PAIR);
        add_memory(c, &l->operands[0], c->count - 2, values[0]);
    }
    return m->unknown.length > 0 ? ASSEMBLY_BAD_LABEL : c->good ? ASSEMBLY_DONE : ASSEMBLY_OUT_OF_RANGE;
}

/* Makes the bytes of DB or DW, at `to` where it is not NULL; answers 0, 33 or 34. */
static unsigned make_items(const struct line *l, struct meaning *m, uint8_t *to)
{
    bool bytes = l->form->operands[0] == 'B', good = true;
    struct reader r = l->items;
    do {
        unsigned value = sum(&r, m);
        good &= !bytes || is_byte(value);
        if (to == NULL) continue;
        *to++ = (uint8_t)value;
        if (!bytes) *to++ = (uint8_t)(value >> 8);
    } while (accept(&r, ','));
    return m->unknown.length > 0 ? ASSEMBLY_BAD_LABEL : good ? ASSEMBLY_DONE : ASSEMBLY_OUT_OF_RANGE;
}

/* Makes a line's bytes, the first of them at an address, at `to` where it is not NULL; answers 0, 33 or 34. */
static unsigned make_bytes(const struct line *l, struct meaning *m, uint64_t address, uint8_t *to)
{
    if (l->form == NULL) return ASSEMBLY_DONE;
    if (has_items(l->form)) return make_items(l, m, to);
    struct code c = {{0}, 0, address + l->size, true};
    unsigned number = make_instruction(l, m, &c);
    if (to != NULL) memcpy(to, c.bytes, c.count);
    return number;
}

/* ---- Passes ---- */

/* Finds the labels that are kept and their addresses. */
static void find_labels(struct cursor c, uint32_t first, struct labels *labels)
{
    struct line l;
    uint64_t address = first;
    labels->count = 0;
    while (take_line(&c, &l)) {
        if (l.label.length > 0) keep(labels, &l.label, address);
        address += l.size;
    }
}

/* The number of a line, behind so many bytes. */
static unsigned judge(const struct line *l, const struct labels *labels, uint32_t first, uint64_t before, size_t room)
{
    struct meaning m = {labels, {END, NULL, 0}};
    if (l->number != ASSEMBLY_DONE) return l->number;
    if (l->label.length > 0 && !is_kept(labels, &l->label)) return ASSEMBLY_BAD_LABEL;
    unsigned number = make_bytes(l, &m, first + before, NULL);
    if (number != ASSEMBLY_DONE) return number;
    return l->size > 0 && before + l->size > room ? ASSEMBLY_NO_ROOM : ASSEMBLY_DONE;
}

/* Finds the first failed line, or how many bytes the text has. */
static struct assembled judge_text(struct cursor c, const struct labels *labels, uint32_t first, size_t room)
{
    struct line l;
    uint64_t before = 0;
    while (take_line(&c, &l)) {
        unsigned number = judge(&l, labels, first, before, room);
        if (number != ASSEMBLY_DONE) return (struct assembled){number, c.lines < UINT32_MAX ? c.lines : UINT32_MAX, 0};
        before += l.size;
    }
    return (struct assembled){ASSEMBLY_DONE, 0, before < UINT32_MAX ? before : UINT32_MAX};
}

/* Stores the bytes of a text of which no line failed. */
static void store_text(struct cursor c, const struct labels *labels, uint32_t first, uint8_t *code)
{
    struct meaning m = {labels, {END, NULL, 0}};
    struct line l;
    uint64_t before = 0;
    while (take_line(&c, &l)) {
        make_bytes(&l, &m, first + before, code + before);
        before += l.size;
    }
}

struct assembled assemble(const uint8_t *text, size_t text_len, uint32_t first, uint8_t *code, size_t room)
{
    struct cursor c = {text, text + text_len, false, 0};
    struct labels labels;
    find_labels(c, first, &labels);
    struct assembled answer = judge_text(c, &labels, first, room);
    if (answer.number == ASSEMBLY_DONE && answer.stored > 0) store_text(c, &labels, first, code);
    return answer;
}

/* ---- Faults of labels ---- */

/* Keeps the labels of the lines before one, takes that line, and says what its own label has against it. */
static enum label_fault take_to(struct cursor *c, uint64_t line, struct labels *labels, struct line *l)
{
    labels->count = 0;
    l->label.length = 0;
    while (c->lines < line && take_line(c, l)) {
        if (l->label.length == 0) continue;
        if (c->lines == line) return fault_of(labels, &l->label);
        keep(labels, &l->label, 0);
    }
    return LABEL_GOOD;
}

struct faulty_label assembly_label(const uint8_t *text, size_t text_len, uint64_t line)
{
    struct cursor start = {text, text + text_len, false, 0}, c = start;
    struct faulty_label good = {LABEL_GOOD, 0, 0};
    struct labels labels;
    struct line l;
    struct meaning m = {&labels, {END, NULL, 0}};
    enum label_fault fault = take_to(&c, line, &labels, &l);
    if (c.lines != line || line == 0 || l.number != ASSEMBLY_DONE) return good;
    if (fault != LABEL_GOOD) return (struct faulty_label){fault, (size_t)(l.label.at - text), l.label.length};
    find_labels(start, 0, &labels);
    make_bytes(&l, &m, 0, NULL);
    if (m.unknown.length == 0) return good;
    return (struct faulty_label){LABEL_UNKNOWN, (size_t)(m.unknown.at - text), m.unknown.length};
}
