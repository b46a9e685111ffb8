/* Random texts for assemblers: programs of every form, jumps at the borders, many labels, loose tokens, and damage. */
#include "asm_texts.h"

#include "random.h"

#include <ctype.h>
#include <stdio.h>
#include <string.h>

/* The most names of a text, room for one, lines of a program, jumps of a text that has nothing else, items of DB or DW,
 * terms of a sum, and operands. */
enum {
    MOST_NAMES = 72,
    NAME_ROOM = 16,
    MOST_LINES = 24,
    MOST_JUMPS = 90,
    MOST_ITEMS = 12,
    MOST_TERMS = 4,
    MOST_OPERANDS = 3
};

/* What a line has wrong. */
enum fault {
    NO_FAULT,
    FAULT_WORD,
    FAULT_OTHER_OPERANDS,
    FAULT_OPERAND_LOST,
    FAULT_OPERAND_MORE,
    FAULT_SUM,
    FAULT_DEPTH,
    FAULT_NAME,
    FAULT_TWICE,
    FAULT_LONG_LABEL,
    FAULT_RESERVED,
    FAULT_VALUE,
    FAULTS
};

/* A text as it grows: how it is written, the address of its next byte, its names, and how many are defined. */
struct maker {
    struct random random;
    struct asm_case *c;
    unsigned letters; /* 0 capitals, 1 small, 2 mixed */
    unsigned blanks;  /* 0 none but where one must be, 1 spaces here and there, 2 any */
    unsigned ends;    /* 0 LF, 1 CR LF, 2 mixed */
    uint32_t address;
    char names[MOST_NAMES][NAME_ROOM];
    uint32_t addresses[MOST_NAMES];
    unsigned names_count, defined;
    enum fault fault, next; /* of the line that is being written: one that is still due, and one behind it */
};

/* An instruction or data before it is written: its form, the modes of its memory, its items and its size. */
struct plan {
    const struct assembly_form *form;
    const char *letters;
    unsigned modes[MOST_OPERANDS], items, size;
};

static const char *const registers[] = {"GA", "GB", "GC", "BC", "TP", "IX", "CC", "MC", "PP"};

/* ---- Writing ---- */

/* Counts a feature. */
static void met(struct maker *m, enum asm_feature feature)
{
    m->c->features[feature]++;
}

/* Adds a byte to the text, if there is room. */
static void put(struct maker *m, uint8_t byte)
{
    if (m->c->text_len < ASM_TEXT_ROOM) m->c->text[m->c->text_len++] = byte;
}

/* Whether the text ends in a character of runs. */
static bool in_run(const struct maker *m)
{
    uint8_t last = m->c->text_len > 0 ? m->c->text[m->c->text_len - 1] : '\n';
    return last < 128 && (isalnum(last) || last == '_');
}

/* Adds blanks in the text's way; at least one where one must be. */
static void put_blanks(struct maker *m, bool must)
{
    unsigned count = m->blanks == 0 ? 0 : m->blanks == 1 ? chance(&m->random, 300) : below(&m->random, 3);
    if (must && count == 0) count = 1;
    while (count-- > 0) put(m, m->blanks < 2 ? ' ' : (uint8_t) " \t\r "[below(&m->random, 4)]);
}

/* Adds a letter in the text's case, or another character. */
static void put_letter(struct maker *m, char c)
{
    bool lower = m->letters == 1 || (m->letters == 2 && chance(&m->random, 500));
    put(m, (uint8_t)(lower ? tolower(c) : c));
}

/* Adds a run, with a blank before it where it would grow together with another. */
static void put_run(struct maker *m, const char *run)
{
    put_blanks(m, in_run(m));
    while (*run != '\0') put_letter(m, *run++);
}

/* Adds a mark. */
static void put_mark(struct maker *m, char mark)
{
    put_blanks(m, false);
    put(m, (uint8_t)mark);
}

/* Adds a comment of any bytes but line ends. */
static void put_comment(struct maker *m)
{
    put_mark(m, ';');
    for (unsigned i = below(&m->random, 20); i > 0; i--) {
        uint8_t byte = (uint8_t)(chance(&m->random, 800) ? 32 + below(&m->random, 95) : below(&m->random, 256));
        put(m, byte == '\n' ? ';' : byte);
    }
    met(m, ASM_COMMENT);
}

/* Ends a line, at times with a comment before. */
static void put_line_end(struct maker *m)
{
    bool crlf = m->ends == 1 || (m->ends == 2 && chance(&m->random, 500));
    if (chance(&m->random, 120)) put_comment(m);
    else put_blanks(m, false);
    if (crlf) put(m, '\r');
    put(m, '\n');
    met(m, crlf ? ASM_CRLF : ASM_LF);
}

/* ---- Names ---- */

/* Whether a name is a word or a register, or stands among the first names already. */
static bool is_taken(const struct maker *m, const char *name, unsigned among)
{
    for (unsigned i = 0; i < ASSEMBLY_FORMS; i++)
        if (strcmp(assembly_forms[i].word, name) == 0) return true;
    for (unsigned i = 0; i < sizeof registers / sizeof registers[0]; i++)
        if (strcmp(registers[i], name) == 0) return true;
    for (unsigned i = 0; i < among; i++)
        if (strcmp(m->names[i], name) == 0) return true;
    return false;
}

/* Writes a name of so many characters into `name`. */
static void make_name(struct maker *m, char *name, unsigned length)
{
    static const char all[] = "ABCDEFGHIJKLMNOPQRSTUVWXYZ_0123456789";
    for (unsigned i = 0; i < length; i++) name[i] = all[below(&m->random, i == 0 ? 27 : 37)];
    name[length] = '\0';
}

/* Makes so many names, no two alike. */
static void make_names(struct maker *m, unsigned count)
{
    m->names_count = count;
    m->defined = 0;
    for (unsigned i = 0; i < count; i++) {
        do {
            unsigned length =
                chance(&m->random, 200) ? ASSEMBLY_LABEL_LENGTH : 1 + below(&m->random, ASSEMBLY_LABEL_LENGTH);
            make_name(m, m->names[i], length);
        } while (is_taken(m, m->names[i], i));
    }
}

/* Adds a label: a name, blanks and a colon. */
static void put_label_name(struct maker *m, const char *name)
{
    put_run(m, name);
    put_mark(m, ':');
}

/* Adds the next name as a label; it gets this address. */
static void put_label(struct maker *m)
{
    const char *name = m->names[m->defined];
    if (strlen(name) == ASSEMBLY_LABEL_LENGTH) met(m, ASM_LABEL_OF_12);
    m->addresses[m->defined++] = m->address;
    put_label_name(m, name);
}

/* ---- Sums ---- */

/* Adds a constant of this value mod 65,536, in any radix. */
static void put_constant(struct maker *m, unsigned value)
{
    static const struct {
        unsigned radix;
        char letter;
        enum asm_feature feature;
    } kinds[] = {
        {2, 'B', ASM_BINARY}, {8, 'O', ASM_OCTAL_O},    {8, 'Q', ASM_OCTAL_Q},
        {10, 0, ASM_DECIMAL}, {10, 'D', ASM_DECIMAL_D}, {16, 'H', ASM_HEXADECIMAL},
    };
    char digits[80];
    unsigned kind = below(&m->random, sizeof kinds / sizeof kinds[0]), at = sizeof digits - 1;
    uint64_t rest = value & 0xFFFFu;
    if (chance(&m->random, 60)) {
        rest += (uint64_t)(1 + below(&m->random, 1000000)) << 16;
        met(m, ASM_PAST_16_BITS);
    }
    digits[at] = '\0';
    if (kinds[kind].letter != 0) digits[--at] = kinds[kind].letter;
    do digits[--at] = "0123456789ABCDEF"[rest % kinds[kind].radix];
    while ((rest /= kinds[kind].radix) > 0);
    for (unsigned zeros = chance(&m->random, 200) ? below(&m->random, 4) : 0; zeros > 0; zeros--) digits[--at] = '0';
    if (!isdigit((unsigned char)digits[at])) digits[--at] = '0';
    put_run(m, digits + at);
    met(m, kinds[kind].feature);
}

/* A value that a term may have: small or any. */
static unsigned any_value(struct maker *m)
{
    return below(&m->random, chance(&m->random, 600) ? 300 : 65536);
}

static void put_sum(struct maker *m, unsigned value, unsigned depth);

/* Adds a term of this value, with parentheses at times. */
static void put_term(struct maker *m, unsigned value, unsigned depth)
{
    if (depth == 0 || !chance(&m->random, 120)) {
        put_constant(m, value);
        return;
    }
    put_mark(m, '(');
    put_sum(m, value, depth - 1);
    put_mark(m, ')');
}

/* Adds a term that is a name whose address is known, or any; answers its value. */
static unsigned put_some_term(struct maker *m, unsigned depth)
{
    if (m->defined > 0 && chance(&m->random, 500)) {
        unsigned i = below(&m->random, m->defined);
        put_run(m, m->names[i]);
        met(m, ASM_NAME_KNOWN);
        return m->addresses[i] & 0xFFFFu;
    }
    unsigned value = any_value(m);
    put_term(m, value, depth);
    return value;
}

/* Adds a sum of this value with at most so many parentheses open at once. */
static void put_sum(struct maker *m, unsigned value, unsigned depth)
{
    unsigned terms = chance(&m->random, 700) ? 1 : 1 + below(&m->random, MOST_TERMS);
    unsigned so_far = 0;
    bool minus = chance(&m->random, 80), minus_before = false;
    if (minus) {
        put_mark(m, '-');
        met(m, ASM_MINUS_FIRST);
    }
    while (terms-- > 1) {
        unsigned term = put_some_term(m, depth);
        so_far += minus ? 0u - term : term;
        minus_before |= minus;
        minus = chance(&m->random, 500);
        put_mark(m, minus ? '-' : '+');
        if (minus_before) met(m, ASM_LEFT_TO_RIGHT);
    }
    put_term(m, minus ? so_far - value : value - so_far, depth);
}

/* Adds a sum of this value with just so many parentheses open at once. */
static void put_deep_sum(struct maker *m, unsigned value, unsigned depth)
{
    if (depth == 0) {
        put_constant(m, value);
        return;
    }
    unsigned kind = below(&m->random, 4), term = any_value(m);
    if (kind == 1) put_mark(m, '-');
    if (kind >= 2) {
        put_constant(m, term);
        put_mark(m, kind == 2 ? '-' : '+');
    }
    put_mark(m, '(');
    put_deep_sum(m, kind == 1 ? 0u - value : kind == 2 ? term - value : kind == 3 ? value - term : value, depth - 1);
    put_mark(m, ')');
}

/* Adds something that is no sum. */
static void put_bad_sum(struct maker *m)
{
    static const char *const sums[] = {"5--3", "+5",   "12B",         "0FF",    "8Q",  "0_1",   "(5",
                                       "5)",   "()",   "5 H",         "'A'",    "$",   "5+",    "-",
                                       "GA+1", "1+PP", "5 6",         "(5)(6)", "--5", "(1,2)", "5*2",
                                       "1.5",  "9O",   "((((((((((1", "#1",     "1GH", "2-+1",  "1D1"};
    const char *sum = ONE_OF(&m->random, sums);
    put_blanks(m, in_run(m));
    while (*sum != '\0') put_letter(m, *sum++);
    met(m, ASM_BAD_SUM);
}

/* Adds a sum with a name that is no label. */
static void put_unknown_name(struct maker *m)
{
    static const char *const names[] = {"FFH", "NOP", "DB", "H", "AX", "MOVI", "ABCDEFGHIJKLM", "_"};
    char name[NAME_ROOM];
    if (chance(&m->random, 300)) {
        put_constant(m, any_value(m));
        put_mark(m, chance(&m->random, 500) ? '+' : '-');
    }
    make_name(m, name, 1 + below(&m->random, 13));
    put_run(m, chance(&m->random, 400) ? ONE_OF(&m->random, names) : name);
    met(m, ASM_NAME_UNKNOWN);
}

/* Takes the line's fault as done. */
static void take_fault(struct maker *m)
{
    m->fault = m->next;
    m->next = NO_FAULT;
}

/* Adds a sum of this value in one of many ways, or what the line's fault puts in its place. */
static void put_value(struct maker *m, unsigned value)
{
    enum fault fault = m->fault;
    if (fault == FAULT_SUM || fault == FAULT_NAME || fault == FAULT_DEPTH) take_fault(m);
    if (fault == FAULT_SUM) {
        put_bad_sum(m);
    } else if (fault == FAULT_NAME) {
        put_unknown_name(m);
    } else if (fault == FAULT_DEPTH) {
        put_deep_sum(m, value, chance(&m->random, 800) ? ASSEMBLY_DEPTH + 1 : ASSEMBLY_DEPTH + 2 + below(&m->random, 4));
        met(m, ASM_DEPTH_9);
    } else if (chance(&m->random, 30)) {
        put_deep_sum(m, value, ASSEMBLY_DEPTH);
        met(m, ASM_DEPTH_8);
    } else {
        put_sum(m, value, ASSEMBLY_DEPTH);
    }
}

/* ---- Values ---- */

/* Whether the line's fault is a value, which is then done. */
static bool takes_bad_value(struct maker *m)
{
    if (m->fault != FAULT_VALUE) return false;
    take_fault(m);
    met(m, ASM_BAD_VALUE);
    return true;
}

/* A value of a byte: at the borders, any, or beyond them. */
static unsigned byte_value(struct maker *m)
{
    static const unsigned borders[] = {0, 1, 127, 128, 254, 255, 0xFF80, 0xFF81, 0xFFFE, 0xFFFF};
    static const unsigned beyond[] = {256, 257, 0xFF7F, 0xFF7E, 0x7FFF, 0x8000};
    if (takes_bad_value(m)) return chance(&m->random, 800) ? ONE_OF(&m->random, beyond) : 256 + below(&m->random, 65152);
    if (chance(&m->random, 250)) return ONE_OF(&m->random, borders);
    return chance(&m->random, 800) ? below(&m->random, 256) : 0xFF80 + below(&m->random, 128);
}

/* A width. */
static unsigned width_value(struct maker *m)
{
    static const unsigned beyond[] = {0, 1, 7, 9, 15, 17, 24, 32, 0xFFF8, 0x108};
    if (takes_bad_value(m)) return ONE_OF(&m->random, beyond);
    return chance(&m->random, 500) ? 8 : 16;
}

/* A bit's number. */
static unsigned bit_value(struct maker *m)
{
    static const unsigned beyond[] = {8, 9, 15, 0xFFFF, 0x100, 0x8000};
    return takes_bad_value(m) ? ONE_OF(&m->random, beyond) : below(&m->random, 8);
}

/* Adds a word: any value, at times from a name that is still to come. */
static void put_word(struct maker *m)
{
    if (m->defined < m->names_count && chance(&m->random, 150)) {
        put_run(m, m->names[m->defined + below(&m->random, m->names_count - m->defined)]);
        met(m, ASM_NAME_AHEAD);
        if (!chance(&m->random, 300)) return;
        put_mark(m, chance(&m->random, 500) ? '+' : '-');
        put_term(m, any_value(m), ASSEMBLY_DEPTH);
        return;
    }
    put_value(m, below(&m->random, 65536));
}

/* A distance that one byte reaches, or just does not. */
static unsigned short_distance(struct maker *m)
{
    static const unsigned borders[] = {0, 127, 0xFF80, 126, 0xFF81};
    static const unsigned beyond[] = {128, 129, 0xFF7F, 0xFF7E, 0x8000, 0x7FFF, 255};
    if (takes_bad_value(m)) return ONE_OF(&m->random, beyond);
    if (chance(&m->random, 300)) return ONE_OF(&m->random, borders);
    return (below(&m->random, 256) - 128u) & 0xFFFFu;
}

/* Adds a target of a short word behind which is `end`: by number, by a label that is near, or by the next one. */
static void put_short_target(struct maker *m, uint32_t end)
{
    for (unsigned i = m->defined; m->fault == NO_FAULT && i-- > 0 && chance(&m->random, 600);) {
        unsigned distance = (m->addresses[i] - end) & 0xFFFFu;
        if (distance >= 128 && distance < 0xFF80) continue;
        put_run(m, m->names[i]);
        met(m, ASM_NAME_KNOWN);
        return;
    }
    if (m->fault == NO_FAULT && m->defined < m->names_count && chance(&m->random, 250)) {
        put_run(m, m->names[m->defined]);
        met(m, ASM_NAME_AHEAD);
        return;
    }
    put_value(m, end + short_distance(m));
}

/* ---- Lines with words ---- */

/* Any register of those that a letter stands for. */
static unsigned some_register(struct maker *m, char letter)
{
    static const unsigned but_cc[] = {0, 1, 2, 3, 4, 5, 7}, pointers[] = {0, 1, 2, 4};
    return letter == 'G' ? ONE_OF(&m->random, but_cc) : letter == 'P' ? ONE_OF(&m->random, pointers) : below(&m->random, 8);
}

/* Adds an operand in memory. */
static void put_memory(struct maker *m, unsigned mode)
{
    static const unsigned bases[] = {0, 1, 2, 8};
    unsigned base = below(&m->random, 4);
    m->c->modes[mode]++;
    m->c->bases[base]++;
    put_mark(m, '[');
    put_run(m, registers[bases[base]]);
    if (mode >= 2) {
        put_mark(m, '+');
        put_run(m, "IX");
        if (mode == 3) put_mark(m, '+');
    }
    put_mark(m, ']');
    if (mode != 1) return;
    put_mark(m, '.');
    put_value(m, byte_value(m));
}

/* Adds an operand that a letter stands for, of an instruction behind which is `end`. */
static void put_operand(struct maker *m, char letter, unsigned mode, uint32_t end)
{
    unsigned reg;
    switch (letter) {
    case 'R':
    case 'G':
    case 'P':
        reg = some_register(m, letter);
        m->c->registers[reg]++;
        put_run(m, registers[reg]);
        break;
    case 'M':
    case 'N': put_memory(m, mode); break;
    case 'B':
    case 'b': put_value(m, byte_value(m)); break;
    case 'n': put_value(m, bit_value(m)); break;
    case 's':
    case 'd': put_value(m, width_value(m)); break;
    case 't': put_short_target(m, end); break;
    case 'T':
        met(m, ASM_LONG_REACH);
        put_word(m);
        break;
    default: put_word(m); break;
    }
}

/* How many bytes an operand of a plan has. */
static unsigned planned_size(char letter, unsigned mode)
{
    switch (letter) {
    case 'M': return mode == 1;
    case 'N': return 2 + (mode == 1);
    case 'b':
    case 't': return 1;
    case 'w':
    case 'T': return 2;
    default: return 0;
    }
}

/* Plans a line of this form. */
static struct plan plan_of(struct maker *m, const struct assembly_form *form)
{
    struct plan p = {form, form->operands, {0}, 1, 2};
    if (form->operands[0] == 'B' || form->operands[0] == 'W') {
        p.items = chance(&m->random, m->next == NO_FAULT ? 500 : 100) ? 1 : 1 + below(&m->random, MOST_ITEMS);
        p.size = form->operands[0] == 'B' ? p.items : 2 * p.items;
        return p;
    }
    for (unsigned i = 0; form->operands[i] != '\0'; i++) {
        p.modes[i] = below(&m->random, 4);
        p.size += planned_size(form->operands[i], p.modes[i]);
    }
    return p;
}

/* Adds the operands of a plan, whose last one is lost or doubled where that is the fault. */
static void put_operands(struct maker *m, const struct plan *p, uint32_t end)
{
    unsigned count = (unsigned)strlen(p->letters);
    if (m->fault == FAULT_OPERAND_LOST && count > 0) {
        count--;
        met(m, ASM_OPERAND_LOST);
    }
    for (unsigned i = 0; i < count; i++) {
        if (i > 0) put_mark(m, ',');
        for (unsigned item = 0; item < p->items; item++) {
            if (item > 0) put_mark(m, ',');
            put_operand(m, p->letters[i], p->modes[i], end);
        }
    }
    if (m->fault != FAULT_OPERAND_MORE) return;
    if (chance(&m->random, 800)) put_mark(m, ',');
    if (chance(&m->random, 800)) put_operand(m, "RMbb"[below(&m->random, 4)], below(&m->random, 4), end);
    met(m, ASM_OPERAND_MORE);
}

/* Writes something like a word that is none into `name`: a letter more in front or behind, or one less. */
static void make_near_word(struct maker *m, char *name)
{
    do {
        const char *word = ONE_OF(&m->random, assembly_forms).word;
        unsigned pick = below(&m->random, 5);
        snprintf(name, NAME_ROOM, "%s%s%s", pick == 0 ? "L" : "", word + (pick == 1),
                 pick == 2   ? "B"
                 : pick == 3 ? "I"
                             : "");
        if (pick == 4) name[strlen(name) - 1] = '\0';
    } while (name[0] == '\0' || is_taken(m, name, 0));
}

/* Adds something where a word must stand. */
static void put_bad_word(struct maker *m)
{
    static const char *const words[] = {"EQU", "DS",     "DD",    "ORG",  "STRUC", "SEGMENT", "ENDS", "END",
                                        "GA",  "PUBLIC", "EXTRN", "NAME", "SET",   "5",       "PP",   "0AH"};
    static const char marks[] = "&:,[($'#.-\\/\x80\xFF\x01";
    unsigned pick = below(&m->random, 4);
    char name[NAME_ROOM];
    if (pick == 1) make_name(m, name, 1 + below(&m->random, 12));
    else make_near_word(m, name);
    if (pick == 0) put_mark(m, marks[below(&m->random, sizeof marks - 1)]);
    else put_run(m, pick < 3 ? name : ONE_OF(&m->random, words));
    met(m, ASM_BAD_WORD);
}

/* Adds a planned word with its operands, and goes on to the address behind it. */
static void put_planned(struct maker *m, struct plan *p)
{
    bool sized = m->fault == NO_FAULT || m->fault >= FAULT_NAME;
    uint32_t end = m->address + p->size;
    if (m->fault == FAULT_WORD) put_bad_word(m);
    else put_run(m, p->form->word);
    if (m->fault == FAULT_OTHER_OPERANDS) {
        p->letters = ONE_OF(&m->random, assembly_forms).operands;
        met(m, ASM_OTHER_OPERANDS);
    }
    put_operands(m, p, end);
    if (sized) m->address = end;
    m->c->forms[p->form - assembly_forms]++;
}

/* Adds a label that cannot be kept. */
static void put_bad_label(struct maker *m)
{
    char name[NAME_ROOM];
    if (m->fault == FAULT_LONG_LABEL) {
        make_name(m, name, ASSEMBLY_LABEL_LENGTH + 1 + (chance(&m->random, 200) ? 2 : 0));
        put_label_name(m, name);
        met(m, ASM_LABEL_OF_13);
    } else if (m->fault == FAULT_RESERVED) {
        put_label_name(m, chance(&m->random, 500) ? ONE_OF(&m->random, registers)
                                                  : ONE_OF(&m->random, assembly_forms).word);
        met(m, ASM_LABEL_RESERVED);
    } else {
        put_label_name(m, m->names[below(&m->random, m->defined)]);
        met(m, ASM_LABEL_TWICE);
    }
}

/* Whether a fault needs a sum in its line. */
static bool needs_sum(enum fault fault)
{
    return fault == FAULT_SUM || fault == FAULT_DEPTH || fault == FAULT_NAME || fault == FAULT_VALUE;
}

/* A form for the line's fault. */
static const struct assembly_form *some_form(struct maker *m)
{
    const struct assembly_form *form = &ONE_OF(&m->random, assembly_forms);
    const char *wanted = m->fault == FAULT_VALUE ? "Bbnsdt" : "BbnsdwWT";
    if (m->next != NO_FAULT && chance(&m->random, 200)) wanted = "B";
    while (needs_sum(m->fault) && strpbrk(form->operands, wanted) == NULL) form = &ONE_OF(&m->random, assembly_forms);
    return form;
}

/* Any fault. */
static enum fault some_fault(struct maker *m)
{
    return (enum fault)(1 + below(&m->random, FAULTS - 1));
}

/* Adds a label before a planned word, at times, or one that is the line's fault. */
static void put_some_label(struct maker *m, const struct plan *p)
{
    if (m->fault == FAULT_LONG_LABEL || m->fault == FAULT_RESERVED || (m->fault == FAULT_TWICE && m->defined > 0)) {
        put_bad_label(m);
        take_fault(m);
    } else if (m->defined < m->names_count && chance(&m->random, 350)) {
        put_label(m);
        met(m, strpbrk(p->letters, "BW") != NULL ? ASM_LABEL_BEFORE_DATA : ASM_LABEL_BEFORE_CODE);
    }
}

/* Adds a line with a word and this fault, at times with another. */
static void put_word_line(struct maker *m, enum fault fault)
{
    m->fault = fault;
    m->next = fault != NO_FAULT && chance(&m->random, 400) ? some_fault(m) : NO_FAULT;
    struct plan p = plan_of(m, some_form(m));
    put_some_label(m, &p);
    put_planned(m, &p);
    m->fault = m->next = NO_FAULT;
}

/* ---- Texts ---- */

/* A first address: near the top of 65,536, low, or any. */
static uint32_t first_address(struct maker *m)
{
    unsigned pick = below(&m->random, 4);
    return pick == 0 ? 0xFFFFu - below(&m->random, 160) : pick == 1 ? below(&m->random, 160) : (uint32_t)roll(&m->random);
}

/* Adds a blank line, a comment, or a label alone. */
static void put_other_line(struct maker *m)
{
    unsigned pick = below(&m->random, 3);
    if (pick == 0 && m->defined < m->names_count) {
        put_label(m);
        met(m, ASM_LABEL_ALONE);
    } else if (pick == 1) {
        put_comment(m);
    } else {
        put_blanks(m, false);
        met(m, ASM_BLANK_LINE);
    }
}

/* Defines the names that are left, each alone. */
static void put_last_labels(struct maker *m)
{
    while (m->defined < m->names_count) {
        put_label(m);
        met(m, ASM_LABEL_ALONE);
        put_line_end(m);
    }
}

/* Takes the last line's end away, at times. */
static void open_end(struct maker *m)
{
    if (m->c->text_len == 0 || m->c->text[m->c->text_len - 1] != '\n' || !chance(&m->random, 400)) return;
    m->c->text_len--;
    met(m, ASM_NO_LAST_LINE_END);
}

/* A program: lines of any form, of which none, one or two have a fault. */
static void make_program(struct maker *m)
{
    unsigned lines = 1 + below(&m->random, MOST_LINES), faults = chance(&m->random, 550) ? 0 : 1 + chance(&m->random, 300);
    make_names(m, below(&m->random, lines < 10 ? lines + 1 : 10));
    for (unsigned left = lines; left > 0; left--) {
        bool faulty = below(&m->random, left) < faults || (left == 1 && chance(&m->random, 50));
        if (faulty && faults > 0) faults--;
        if (left == 1 && chance(&m->random, 500)) put_last_labels(m);
        if (faulty) put_word_line(m, some_fault(m));
        else if (chance(&m->random, 120)) put_other_line(m);
        else put_word_line(m, NO_FAULT);
        put_line_end(m);
    }
    put_last_labels(m);
    open_end(m);
}

/* Adds lines of so many bytes. */
static void put_filler(struct maker *m, unsigned bytes)
{
    while (bytes > 0) {
        unsigned now = bytes < 2 || chance(&m->random, 300) ? 1 : bytes > 40 ? 40 : 2;
        if (now == 2) put_run(m, "NOP");
        for (unsigned i = 0; now != 2 && i < now; i++) {
            if (i == 0) put_run(m, "DB");
            else put_mark(m, ',');
            put_run(m, "0");
        }
        put_line_end(m);
        bytes -= now;
    }
}

/* A form whose target is at one byte, or at two. */
static const struct assembly_form *jump_form(struct maker *m)
{
    const char *letter = chance(&m->random, 850) ? "t" : "T";
    const struct assembly_form *form = &ONE_OF(&m->random, assembly_forms);
    while (strpbrk(form->operands, letter) == NULL) form = &ONE_OF(&m->random, assembly_forms);
    return form;
}

/* Adds a jump to a name. */
static void put_jump(struct maker *m, const struct plan *p, const char *name)
{
    put_run(m, p->form->word);
    for (unsigned i = 0; p->letters[i] != '\0'; i++) {
        if (i > 0) put_mark(m, ',');
        if (tolower(p->letters[i]) == 't') put_run(m, name);
        else put_operand(m, p->letters[i], p->modes[i], 0);
    }
    put_line_end(m);
    m->c->forms[p->form - assembly_forms]++;
}

/* Adds a line that fails. */
static void put_failed(struct maker *m)
{
    m->names_count = m->defined;
    put_word_line(m, some_fault(m));
    put_line_end(m);
    met(m, ASM_FAILED_BETWEEN);
}

/* Notes the distance of a jump of this plan, and whether it goes across the top. */
static void met_distance(struct maker *m, const struct plan *p, int distance, uint32_t end)
{
    if (strchr(p->letters, 't') == NULL) {
        met(m, ASM_LONG_REACH);
        return;
    }
    if (distance == 127) met(m, ASM_REACH_127);
    if (distance == 128) met(m, ASM_REACH_128);
    if (distance == -128) met(m, ASM_REACH_MINUS_128);
    if (distance == -129) met(m, ASM_REACH_MINUS_129);
    if ((int)(end & 0xFFFFu) + distance < 0 || (int)(end & 0xFFFFu) + distance > 0xFFFF) met(m, ASM_ACROSS_TOP);
}

/* A label that one byte reaches from `end`, at times one that it just does not; -1 where a few tries find none. */
static int label_in_reach(struct maker *m, uint32_t end)
{
    unsigned beyond = chance(&m->random, 8) ? 4 : 0;
    for (unsigned tries = 0; tries < 12; tries++) {
        unsigned i = below(&m->random, m->names_count), distance = (m->addresses[i] - end + 128 + beyond) & 0xFFFFu;
        if (distance < 256 + 2 * beyond) return (int)i;
    }
    return -1;
}

/* Adds a jump whose end is known to a label, or to a number where none is in reach. */
static void put_known_jump(struct maker *m, const struct plan *p, uint32_t end)
{
    bool is_short = strchr(p->letters, 't') != NULL;
    int label = is_short ? label_in_reach(m, end) : (int)below(&m->random, m->names_count);
    uint32_t target = label >= 0 ? m->addresses[label] : end + short_distance(m);
    put_run(m, p->form->word);
    for (unsigned i = 0; p->letters[i] != '\0'; i++) {
        if (i > 0) put_mark(m, ',');
        if (tolower(p->letters[i]) != 't') put_operand(m, p->letters[i], p->modes[i], end);
        else if (label >= 0 && chance(&m->random, 700)) put_run(m, m->names[label]);
        else put_value(m, target);
    }
    met_distance(m, p, (int)((target - end + 0x8000u) & 0xFFFFu) - 0x8000, end);
    m->c->forms[p->form - assembly_forms]++;
}

/* Only labels and jumps between them. */
static void make_jumps(struct maker *m)
{
    struct plan plans[MOST_JUMPS];
    bool labelled[MOST_JUMPS];
    unsigned count = 2 + below(&m->random, MOST_JUMPS - 1), label = 0;
    make_names(m, 1 + below(&m->random, 12));
    for (unsigned i = 0; i < count; i++) {
        plans[i] = plan_of(m, jump_form(m));
        labelled[i] = label < m->names_count && (count - i <= m->names_count - label || chance(&m->random, 200));
        if (labelled[i]) m->addresses[label++] = m->address;
        m->address += plans[i].size;
    }
    while (label < m->names_count) m->addresses[label++] = m->address;
    m->defined = m->names_count;
    m->address = m->c->first;
    label = 0;
    for (unsigned i = 0; i < count; i++) {
        if (labelled[i]) put_label_name(m, m->names[label++]);
        if (labelled[i] && chance(&m->random, 300)) put_line_end(m);
        put_known_jump(m, &plans[i], m->address += plans[i].size);
        put_line_end(m);
    }
    for (; label < m->names_count; label++) {
        put_label_name(m, m->names[label]);
        put_line_end(m);
    }
    open_end(m);
    met(m, ASM_ONLY_JUMPS);
}

/* A label and a jump to it at the border of one byte's reach; one ahead at times over a line that fails. */
static void make_border(struct maker *m)
{
    static const int distances[] = {126, 127, 127, 128, 128, 129, 132, -127, -128, -128, -129, -129, -130, -133};
    struct plan p = plan_of(m, jump_form(m));
    bool failed = chance(&m->random, 300);
    int distance = failed ? 122 + (int)below(&m->random, 12) : ONE_OF(&m->random, distances);
    unsigned before = chance(&m->random, 500) ? below(&m->random, 4) : 0;
    unsigned between = distance < 0 ? (unsigned)-distance - p.size : (unsigned)distance;
    unsigned part = below(&m->random, between + 1);
    make_names(m, 1);
    char name[NAME_ROOM];
    memcpy(name, m->names[0], sizeof name);
    put_filler(m, before);
    if (distance < 0) {
        m->address += before;
        put_label(m);
        if (chance(&m->random, 500)) put_line_end(m);
    } else {
        put_jump(m, &p, name);
    }
    put_filler(m, part);
    if (failed) put_failed(m);
    put_filler(m, between - part);
    if (distance < 0) put_jump(m, &p, name);
    else put_label_name(m, name);
    if (!failed) met_distance(m, &p, distance, m->address + (distance < 0 ? (unsigned)-distance : before + p.size));
    open_end(m);
}

/* Labels about as many as may be kept, the last of them used before or behind. */
static void make_many_labels(struct maker *m)
{
    unsigned count = ASSEMBLY_LABELS - 2 + below(&m->random, 5);
    make_names(m, count);
    if (chance(&m->random, 400)) {
        put_run(m, "DW");
        put_run(m, m->names[count - 1]);
        put_line_end(m);
    }
    for (unsigned i = 0; i < count; i++) {
        put_label(m);
        if (chance(&m->random, 200)) put_run(m, "HLT");
        put_line_end(m);
    }
    if (chance(&m->random, 400)) {
        put_run(m, "LJMP");
        put_run(m, m->names[below(&m->random, count)]);
    }
    if (count == ASSEMBLY_LABELS) met(m, ASM_LABELS_64);
    if (count == ASSEMBLY_LABELS + 1) met(m, ASM_LABELS_65);
}

/* Loose tokens, in lines that mostly begin with a word. */
static void make_tokens(struct maker *m)
{
    static const char marks[] = "[[]]()++--..,,,,:;'$&";
    make_names(m, 4);
    for (unsigned lines = 1 + below(&m->random, 5); lines > 0; lines--) {
        if (chance(&m->random, 300)) put_label_name(m, ONE_OF(&m->random, m->names));
        if (chance(&m->random, 800)) put_run(m, ONE_OF(&m->random, assembly_forms).word);
        for (unsigned i = below(&m->random, 10); i > 0; i--) {
            unsigned pick = below(&m->random, 10);
            if (pick < 5) put_mark(m, marks[below(&m->random, sizeof marks - 1)]);
            else if (pick < 7) put_run(m, ONE_OF(&m->random, registers));
            else if (pick < 9) put_constant(m, any_value(m));
            else put_run(m, m->names[below(&m->random, 4)]);
        }
        put_line_end(m);
    }
    open_end(m);
    met(m, ASM_TOKENS);
}

/* ---- Damage ---- */

/* Where the line of an index begins, and where the next one does. */
static size_t line_around(const struct maker *m, size_t index, size_t *behind)
{
    const uint8_t *text = m->c->text;
    size_t from = index;
    while (from > 0 && text[from - 1] != '\n') from--;
    while (index < m->c->text_len && text[index] != '\n') index++;
    *behind = index < m->c->text_len ? index + 1 : index;
    return from;
}

/* Makes room for so many bytes, which are doubled. */
static void move_in(struct maker *m, size_t at, size_t count)
{
    if (m->c->text_len + count > ASM_TEXT_ROOM) return;
    memmove(m->c->text + at + count, m->c->text + at, m->c->text_len - at);
    m->c->text_len += count;
}

/* Takes bytes out. */
static void take_out(struct maker *m, size_t at, size_t count)
{
    memmove(m->c->text + at, m->c->text + at + count, m->c->text_len - at - count);
    m->c->text_len -= count;
}

/* Changes one thing. */
static void damage(struct maker *m)
{
    static const char odd[] = "[]()+-.,:; \t\r\n_GAPX0123456789BDHQO'$";
    if (m->c->text_len == 0) return;
    size_t at = below(&m->random, m->c->text_len), behind, from = line_around(m, at, &behind);
    uint8_t byte = (uint8_t)(chance(&m->random, 850) ? odd[below(&m->random, sizeof odd - 1)]
                                                     : (char)below(&m->random, 256));
    enum asm_feature what = (enum asm_feature)(ASM_OTHER_BYTE + below(&m->random, ASM_CUT_OFF + 1 - ASM_OTHER_BYTE));
    if (what == ASM_OTHER_BYTE) m->c->text[at] = byte;
    if (what == ASM_BYTE_LOST) take_out(m, at, 1);
    if (what == ASM_BYTE_MORE) {
        move_in(m, at, 1);
        m->c->text[at] = byte;
    }
    if (what == ASM_LINE_TWICE) move_in(m, from, behind - from);
    if (what == ASM_LINE_LOST) take_out(m, from, behind - from);
    if (what == ASM_CUT_OFF) m->c->text_len = at;
    met(m, what);
}

/* ---- A case ---- */

void make_asm_case(struct asm_case *c, uint64_t seed, uint64_t number)
{
    static const enum asm_feature letters[] = {ASM_CAPITALS, ASM_SMALL_LETTERS, ASM_MIXED_LETTERS};
    static const enum asm_feature blanks[] = {ASM_TIGHT, ASM_SPACES, ASM_ANY_BLANKS};
    struct maker m = {.random = seeded(seed, number), .c = c};
    uint8_t *text = c->text;
    memset(c, 0, sizeof *c);
    c->text = text;
    c->first = m.address = first_address(&m);
    m.letters = below(&m.random, 3);
    m.blanks = below(&m.random, 3);
    m.ends = below(&m.random, 3);
    met(&m, letters[m.letters]);
    met(&m, blanks[m.blanks]);
    unsigned pick = below(&m.random, 100);
    if (pick < 60) make_program(&m);
    else if (pick < 78) make_border(&m);
    else if (pick < 87) make_jumps(&m);
    else if (pick < 92) make_many_labels(&m);
    else make_tokens(&m);
    if (chance(&m.random, pick < 60 ? 300 : 100)) damage(&m);
}

/* A feature's name, and the number that it must have been met with. */
static const struct {
    const char *name;
    unsigned number;
} features[ASM_FEATURES] = {
    {"lines that end in LF", 0},
    {"lines that end in CR LF", 0},
    {"last line without an end", 0},
    {"texts in capitals", 0},
    {"texts in small letters", 0},
    {"texts in both", 0},
    {"texts with no blank too many", 0},
    {"texts with spaces here and there", 0},
    {"texts with any blanks between tokens", 0},
    {"comments", 0},
    {"blank lines", 0},
    {"labels alone", 0},
    {"labels before instructions", 0},
    {"labels before data", 0},
    {"labels of 12 characters", 0},
    {"texts of 64 labels", 0},
    {"names of labels before", 0},
    {"names of labels to come", 0},
    {"binary constants", 0},
    {"octal constants, O", 0},
    {"octal constants, Q", 0},
    {"decimal constants", 0},
    {"decimal constants, D", 0},
    {"hexadecimal constants", 0},
    {"constants past 16 bits", 0},
    {"sums that begin with a minus", 0},
    {"terms behind a difference", 0},
    {"sums 8 deep", 0},
    {"jumps by 127", 0},
    {"jumps by -128", 0},
    {"jumps across 65,535", 0},
    {"long targets", 0},
    {"texts of labels and jumps alone", 0},
    {"no word where one must be", 30},
    {"operands of another word", 31},
    {"an operand lost", 31},
    {"an operand more", 31},
    {"no sum where one must be", 31},
    {"sums 9 deep", 32},
    {"names of no label", 33},
    {"a label twice", 33},
    {"labels of 13 characters", 33},
    {"reserved words as labels", 33},
    {"texts of 65 labels", 33},
    {"values out of range", 34},
    {"jumps by 128", 34},
    {"jumps by -129", 34},
    {"a failed line that a jump goes over", 34},
    {"damage: another byte", 0},
    {"damage: a byte lost", 0},
    {"damage: a byte more", 0},
    {"damage: a line twice", 0},
    {"damage: a line lost", 0},
    {"damage: cut off", 0},
    {"loose tokens", 31},
};

const char *asm_feature_name(enum asm_feature feature)
{
    return features[feature].name;
}

unsigned asm_feature_number(enum asm_feature feature)
{
    return features[feature].number;
}
