/* Makes random programs: instructions of all formats, transfers, damaged ones and plain random bytes. */
#include "programs.h"

#include <string.h>

void as_doubleword(struct random *d, uint32_t address, uint8_t out[4])
{
    uint32_t offset = (chance(d, 500) ? below(d, 65536) & 0xFFF0u : 0) | (address & 15u);
    uint32_t segment = ((address - offset) & MASK20) >> 4;
    out[0] = (uint8_t)offset;
    out[1] = (uint8_t)(offset >> 8);
    out[2] = (uint8_t)segment;
    out[3] = (uint8_t)(segment >> 8);
}

void new_program(struct program *p, struct random *d, size_t sys_len, size_t io_len)
{
    p->d = d;
    p->sys_len = sys_len;
    p->io_len = io_len;
    p->length = p->starts = p->jumps = 0;
}

/* What stands behind a pair and its offset byte. */
enum follow { NOTHING, LITERAL, DISPLACEMENT, WAY, DOUBLEWORD, LOCK_AND_WAY, SECOND_PAIR };

/* One format: its pair's digits as the data sheet prints them, and what follows; a letter is a field. */
struct format {
    const char *digits;
    enum follow follow;
};

/* All formats; those of the last group are not drawn for a program's body as often as the others. */
static const struct format formats[] = {
    {"PPP00AA1 100010MM", NOTHING},      /* LPD P,M */
    {"PPP10001 00001000", DOUBLEWORD},   /* LPDI P,I */
    {"PPP00AA1 100110MM", NOTHING},      /* MOVP M,P */
    {"PPP00AA1 100011MM", NOTHING},      /* MOVP P,M */
    {"00000AAW 100100MM", SECOND_PAIR},  /* MOV M,M */
    {"RRR00AAW 100000MM", NOTHING},      /* MOV R,M */
    {"RRR00AAW 100001MM", NOTHING},      /* MOV M,R */
    {"RRRwb00W 00110000", LITERAL},      /* MOVI R */
    {"000wbAAW 010011MM", LITERAL},      /* MOVI M */
    {"100ddAAW 100111MM", DISPLACEMENT}, /* CALL */
    {"100wb00W 00100000", WAY},          /* JMP */
    {"000ddAAW 111001MM", DISPLACEMENT}, /* JZ M */
    {"RRRdd000 01000100", DISPLACEMENT}, /* JZ R */
    {"000ddAAW 111000MM", DISPLACEMENT}, /* JNZ M */
    {"RRRdd000 01000000", DISPLACEMENT}, /* JNZ R */
    {"BBBddAA0 101111MM", DISPLACEMENT}, /* JBT */
    {"BBBddAA0 101110MM", DISPLACEMENT}, /* JNBT */
    {"000ddAA0 101100MM", DISPLACEMENT}, /* JMCE */
    {"000ddAA0 101101MM", DISPLACEMENT}, /* JMCNE */
    {"00000AAW 111010MM", NOTHING},      /* INC M */
    {"RRR00000 00111000", NOTHING},      /* INC R */
    {"00000AAW 111011MM", NOTHING},      /* DEC M */
    {"RRR00000 00111100", NOTHING},      /* DEC R */
    {"000wbAAW 110000MM", LITERAL},      /* ADDI M,I */
    {"RRRwb00W 00100000", LITERAL},      /* ADDI R,I */
    {"RRR00AAW 110100MM", NOTHING},      /* ADD M,R */
    {"RRR00AAW 101000MM", NOTHING},      /* ADD R,M */
    {"000wbAAW 110010MM", LITERAL},      /* ANDI M,I */
    {"RRRwb00W 00101000", LITERAL},      /* ANDI R,I */
    {"RRR00AAW 110110MM", NOTHING},      /* AND M,R */
    {"RRR00AAW 101010MM", NOTHING},      /* AND R,M */
    {"000wbAAW 110001MM", LITERAL},      /* ORI M,I */
    {"RRRwb00W 00100100", LITERAL},      /* ORI R,I */
    {"RRR00AAW 110101MM", NOTHING},      /* OR M,R */
    {"RRR00AAW 101001MM", NOTHING},      /* OR R,M */
    {"RRR00000 00101100", NOTHING},      /* NOT R */
    {"00000AAW 110111MM", NOTHING},      /* NOT M */
    {"RRR00AAW 101011MM", NOTHING},      /* NOT R,M */
    {"BBB00AA0 111101MM", NOTHING},      /* SETB */
    {"BBB00AA0 111110MM", NOTHING},      /* CLR */
    {"00011AA0 100101MM", LOCK_AND_WAY}, /* TSL */
    {"01000000 00000000", NOTHING},      /* SINTR */
    {"00000000 00000000", NOTHING},      /* NOP */
    {"1SD00000 00000000", NOTHING},      /* WID */
    {"00100000 01001000", NOTHING},      /* HLT */
    {"01100000 00000000", NOTHING},      /* XFER */
};

enum { FORMATS = sizeof formats / sizeof formats[0], ENDING_FORMATS = 2 };

/* The registers by RRR. */
enum { GA, GB, GC, BC, TP, IX, CC, MC };

/* The values that a format's letters take in one instruction. */
struct fields {
    unsigned rrr, ppp, aa, mm, w, dd, s, d;
    unsigned second_w_wrong_in_1000;
};

/* Adds one byte, while there is room. */
static void add(struct program *p, uint32_t byte)
{
    if (p->length < MOST_BYTES) p->byte[p->length++] = (uint8_t)byte;
}

/* Adds a word, low byte first. */
static void add_word(struct program *p, uint32_t word)
{
    add(p, word);
    add(p, word >> 8);
}

/* Notes that an instruction starts here. */
static void begin(struct program *p)
{
    if (p->starts < MOST_STARTS) p->start[p->starts++] = p->length;
}

/* A register for RRR: seldom TP, which would jump, or CC, which would be refused. */
static unsigned some_register(struct random *d)
{
    unsigned rrr = below(d, 8);
    return (rrr == TP || rrr == CC) && chance(d, 850) ? below(d, 4) : rrr;
}

/* A pointer for PPP: seldom TP. */
static unsigned some_pointer(struct random *d)
{
    return chance(d, 40) ? TP : below(d, 3);
}

/* Chooses all fields. */
static struct fields choose_fields(struct random *d)
{
    static const uint8_t modes[] = {0, 0, 1, 1, 1, 2, 3, 3};
    struct fields f = {some_register(d), some_pointer(d), ONE_OF(d, modes), below(d, 4),
                       below(d, 2),      1 + below(d, 2), below(d, 2),      below(d, 2), 10};
    return f;
}

/* The value of a field by its letter; w and b are a literal's length, which agrees with W. */
static unsigned field_value(const struct fields *f, char letter)
{
    switch (letter) {
    case 'R':
    case 'B': return f->rrr;
    case 'P': return f->ppp;
    case 'A': return f->aa;
    case 'M': return f->mm;
    case 'd': return f->dd;
    case 'W':
    case 'w': return f->w;
    case 'b': return f->w ^ 1u;
    case 'S': return f->s;
    case 'D': return f->d;
    default: return letter == '1';
    }
}

/* A byte from eight printed digits. */
static uint8_t byte_of(const char *digits, const struct fields *f)
{
    unsigned byte = 0;
    for (unsigned i = 0; i < 8; i++) {
        unsigned left = 0;
        while (i + left + 1 < 8 && digits[i] > '1' && digits[i + left + 1] == digits[i]) left++;
        byte = byte << 1 | (field_value(f, digits[i]) >> left & 1u);
    }
    return (uint8_t)byte;
}

/* Adds a pair and, where it has a mode with one, its offset byte. */
static void add_pair(struct program *p, const char *digits, const struct fields *f)
{
    add(p, byte_of(digits, f));
    add(p, byte_of(digits + 9, f));
    if (strchr(digits, 'A') != NULL && f->aa == 1) add(p, chance(p->d, 850) ? below(p->d, 40) : below(p->d, 256));
}

uint32_t some_place(struct program *p, bool in_io)
{
    size_t length = in_io ? p->io_len : p->sys_len;
    unsigned kind = below(p->d, 1000);
    if (kind < 50) return (uint32_t)(length - below(p->d, 6)) & MASK20;
    if (kind < 90) return (uint32_t)(length - below(p->d, 24)) & MASK20;
    if (kind < 110) return (in_io ? 0xFFFFu : MASK20) - below(p->d, 4);
    if (kind < 130 && !in_io) return below(p->d, 16) << 16;
    if (length > 61440 && chance(p->d, 900)) length = 61440;
    return below(p->d, chance(p->d, 500) || length < 1024 ? length : 1024);
}

/* Adds a literal of so many bytes: small, small and negative, or any. */
static void add_literal(struct program *p, unsigned size)
{
    unsigned kind = below(p->d, 3);
    uint32_t value = kind == 0 ? below(p->d, 65536) : kind == 1 ? below(p->d, 32) : 65536 - below(p->d, 32);
    add(p, value);
    if (size == 2) add(p, value >> 8);
}

/* Adds a displacement whose value is chosen when the program is whole. */
static void add_way(struct program *p, unsigned size)
{
    struct jump jump = {p->length, size, p->length + size, p->starts};
    for (unsigned i = 0; i < size; i++) add(p, 0);
    if (p->jumps < MOST_JUMPS && p->length == jump.end) p->jump[p->jumps++] = jump;
}

/* Adds a doubleword that means a system place. */
static void add_doubleword(struct program *p, uint32_t address)
{
    uint8_t bytes[4];
    as_doubleword(p->d, address, bytes);
    for (unsigned i = 0; i < 4; i++) add(p, bytes[i]);
}

/* Adds the destination's pair of MOV M,M, with the same W but for a few. */
static void add_second_pair(struct program *p, unsigned w, unsigned wrong_in_1000)
{
    struct fields f = choose_fields(p->d);
    f.w = chance(p->d, wrong_in_1000) ? w ^ 1u : w;
    add_pair(p, "00000AAW 110011MM", &f);
}

/* Adds what stands behind a pair. */
static void add_following(struct program *p, enum follow follow, const struct fields *f)
{
    switch (follow) {
    case LITERAL: add_literal(p, f->w + 1); break;
    case DISPLACEMENT: add_way(p, f->dd); break;
    case WAY: add_way(p, f->w + 1); break;
    case DOUBLEWORD: add_doubleword(p, some_place(p, false)); break;
    case LOCK_AND_WAY:
        add(p, below(p->d, 256));
        add_way(p, 1);
        break;
    case SECOND_PAIR: add_second_pair(p, f->w, f->second_w_wrong_in_1000); break;
    default: break;
    }
}

/* Adds one instruction of a format with these fields. */
static void add_instruction(struct program *p, const struct format *format, const struct fields *f)
{
    begin(p);
    add_pair(p, format->digits, f);
    add_following(p, format->follow, f);
}

/* Adds an instruction of any format, seldom one that ends the program or starts a transfer. */
static void add_any(struct program *p)
{
    unsigned ending = chance(p->d, 5) ? 0 : ENDING_FORMATS;
    struct fields f = choose_fields(p->d);
    add_instruction(p, &formats[below(p->d, FORMATS - ending)], &f);
}

/* Adds MOVI of a word to a register: four bytes. */
static void add_movi(struct program *p, unsigned rrr, uint32_t word)
{
    begin(p);
    add(p, rrr << 5 | 0x11);
    add(p, 0x30);
    add_word(p, word);
}

/* Points a pointer at a place: in I/O space by MOVI, in system space by LPDI. */
static void add_pointing_at(struct program *p, unsigned ppp, bool in_io, uint32_t at)
{
    if (in_io) {
        add_movi(p, ppp, at);
        return;
    }
    begin(p);
    add(p, ppp << 5 | 0x11);
    add(p, 0x08);
    add_doubleword(p, at);
}

/* Points a pointer at some place of either space, with these bits cleared. */
static void add_pointing_without(struct program *p, unsigned ppp, uint32_t bits)
{
    bool in_io = chance(p->d, 400);
    add_pointing_at(p, ppp, in_io, some_place(p, in_io) & ~bits);
}

/* Points a pointer at some place of either space. */
static void add_pointing(struct program *p, unsigned ppp)
{
    add_pointing_without(p, ppp, 0);
}

/* Adds an instruction of exactly four bytes, or two of two, as the places behind a transfer want them. */
static void add_four(struct program *p)
{
    static const uint8_t plain[] = {BC, IX, MC};
    if (chance(p->d, 500)) {
        add_movi(p, ONE_OF(p->d, plain), below(p->d, 65536));
        return;
    }
    for (unsigned i = 0; i < 2; i++) {
        begin(p);
        add_word(p, below(p->d, 8) == 0 ? 0x0040 : 0x0000);
    }
}

/* A random end code: off in so many of 1,000. */
static uint32_t end_code(struct random *d, unsigned off)
{
    return chance(d, off) ? 0 : 1 + below(d, 3);
}

uint32_t transfer_cc(struct random *d)
{
    static const uint8_t syn[] = {0, 0, 0, 0, 0, 0, 1, 1, 2, 2};
    uint32_t cc = below(d, 2) << 10 | below(d, 2) << 9 | below(d, 2) << 8;
    if (chance(d, 40)) return below(d, 65536);
    if (chance(d, 750)) cc |= 1u << 15;
    if (chance(d, 750)) cc |= 1u << 14;
    if (chance(d, 200)) cc |= 1u << 13;
    cc |= (uint32_t)(chance(d, 30) ? 3 : ONE_OF(d, syn)) << 11;
    if (chance(d, 120)) cc |= 1u << 7;
    return cc | end_code(d, 500) << 5 | end_code(d, 200) << 3 | below(d, 2) << 2 | end_code(d, 500);
}

uint32_t transfer_count(struct random *d)
{
    unsigned kind = below(d, 1000);
    return kind < 900 ? 1 + below(d, 24) : kind < 930 ? 0 : below(d, 65536);
}

uint32_t transfer_mc(struct random *d)
{
    uint32_t mask = below(d, 256) & below(d, 256);
    return (chance(d, 300) ? below(d, 256) : mask) << 8 | below(d, 256);
}

uint32_t search_cc(struct random *d)
{
    uint32_t cc = (chance(d, 850) ? 1u << 15 : 0) | (chance(d, 850) ? 1u << 14 : 0) | below(d, 2) << 10 | below(d, 2) << 8;
    return cc | end_code(d, 350) << 3 | below(d, 2) << 2 | (1 + below(d, 3));
}

uint32_t search_count(struct random *d)
{
    static const uint8_t few[] = {0, 1, 2, 2, 2, 3};
    return ONE_OF(d, few);
}

uint32_t search_mc(struct random *d, uint32_t cc)
{
    return chance(d, 800) ? ((cc >> 2 & 1u) != 0 ? 0xFF00u : 0) | below(d, 256) : transfer_mc(d);
}

/* A place for one side of a pair, with this lowest bit (2 for either): any, or close to an end of system space. */
static uint32_t pair_place(struct program *p, bool in_io, unsigned lowest)
{
    unsigned kind = below(p->d, 1000);
    uint32_t at = some_place(p, in_io);
    if (kind < 100 && !in_io) at = (uint32_t)(p->sys_len + 1 - below(p->d, 4)) & MASK20;
    if (kind >= 100 && kind < 120) at = MASK20;
    return lowest > 1 ? at : (at & ~1u) | lowest;
}

/* A CC for pairs: SYN 01 or 10, both sides moving on or not, and each end often. */
static uint32_t pairs_cc(struct random *d)
{
    uint32_t cc = (chance(d, 500) ? 1u : 2u) << 11 | below(d, 4) << 14 | below(d, 8) << 8;
    if (chance(d, 200)) cc |= 1u << 7;
    return cc | end_code(d, 700) << 5 | end_code(d, 400) << 3 | below(d, 2) << 2 | end_code(d, 500);
}

struct pairs some_pairs(struct program *p)
{
    static const uint8_t few[] = {0, 1, 2, 2, 2, 2, 3, 3, 4, 6};
    struct pairs s = {pairs_cc(p->d), ONE_OF(p->d, few), 0, 0, {0, 0}, {chance(p->d, 400), chance(p->d, 400)}};
    bool stores = (s.cc >> 12 & 1u) != 0, odd = chance(p->d, 400), source_is_gb = (s.cc >> 10 & 1u) != 0;
    unsigned asking = stores != source_is_gb ? 1 : 0;
    s.mc = search_mc(p->d, s.cc ^ (chance(p->d, 500) ? 4u : 0));
    s.widths = odd ? 3u : stores ? 2u : 1u;
    s.address[asking] = pair_place(p, s.in_io[asking], odd ? 1 : 2);
    s.address[1 - asking] = pair_place(p, s.in_io[1 - asking], 0);
    return s;
}

/* Adds WID; translation goes mostly with 8 bits on both sides. */
static void add_widths(struct program *p, uint32_t cc)
{
    bool bytes = (cc >> 13 & 1u) != 0 && chance(p->d, 850);
    begin(p);
    add(p, (4 | (bytes ? 0 : below(p->d, 4))) << 5);
    add(p, 0x00);
}

/* Adds CC and XFER; the transfer begins after one more instruction. */
static void add_arming(struct program *p, uint32_t cc)
{
    add_movi(p, CC, cc);
    begin(p);
    add_word(p, 0x0060);
}

/* Adds the places at which a transfer can end. */
static void add_endings(struct program *p)
{
    add_four(p);
    add_four(p);
}

/* Adds WID for words into bytes. */
static void add_narrowing(struct program *p)
{
    begin(p);
    add_word(p, 6 << 5);
}

/* Adds a transfer of words into bytes that searches for a pattern with hardly any or no count left. */
static void add_search(struct program *p)
{
    uint32_t cc = search_cc(p->d);
    add_pointing_without(p, GA, 1);
    add_pointing_without(p, GB, 1);
    add_movi(p, BC, search_count(p->d));
    add_movi(p, MC, search_mc(p->d, cc));
    add_arming(p, cc);
    add_narrowing(p);
    add_endings(p);
}

/* Adds MOVI to memory of a word at the source whose second byte, and not its first, meets TMC; answers the MC for it. */
static uint32_t add_late_match(struct program *p, uint32_t cc)
{
    uint32_t second = below(p->d, 256), first = second ^ (1 + below(p->d, 255));
    begin(p);
    add(p, 0x11);
    add(p, 0x4C | (cc >> 10 & 1u));
    add_word(p, second << 8 | first);
    return 0xFF00u | ((cc >> 2 & 1u) != 0 ? first : second);
}

/* Adds a transfer of pairs, which waits where its request is not up. */
static void add_pairs(struct program *p)
{
    struct pairs s = some_pairs(p);
    for (unsigned i = 0; i < 2; i++) add_pointing_at(p, GA + i, s.in_io[i], s.address[i]);
    if (chance(p->d, 400)) s.mc = add_late_match(p, s.cc);
    add_movi(p, BC, s.bc);
    add_movi(p, MC, s.mc);
    add_arming(p, s.cc);
    begin(p);
    add_word(p, (4 | s.widths) << 5);
    add_endings(p);
}

/* Adds a whole transfer: its registers, XFER, one more instruction, and the places at which it can end. */
static void add_transfer(struct program *p)
{
    uint32_t cc = transfer_cc(p->d);
    add_pointing(p, GA);
    add_pointing(p, GB);
    if ((cc >> 13 & 1u) != 0 || chance(p->d, 200)) add_pointing(p, GC);
    add_movi(p, BC, transfer_count(p->d));
    if ((cc & 3u) != 0) add_movi(p, MC, transfer_mc(p->d));
    if (chance(p->d, 600)) add_widths(p, cc);
    add_arming(p, cc);
    if (chance(p->d, 600)) add_widths(p, cc);
    else add_any(p);
    add_endings(p);
}

/* Loads registers, so that what follows has something to work on. */
static void add_setting_up(struct program *p)
{
    for (unsigned ppp = GA; ppp <= GC; ppp++)
        if (chance(p->d, 900)) add_pointing(p, ppp);
    if (chance(p->d, 700)) add_movi(p, IX, chance(p->d, 800) ? below(p->d, 64) : below(p->d, 65536));
    if (chance(p->d, 300)) add_movi(p, BC, below(p->d, 65536));
    if (chance(p->d, 500)) add_movi(p, MC, transfer_mc(p->d));
    if (chance(p->d, 100)) add_movi(p, CC, below(p->d, 65536));
}

/* The instruction that a jump goes to: the next, one further on, or any. */
static unsigned destination(struct program *p, const struct jump *jump)
{
    unsigned kind = below(p->d, 1000), next = jump->from;
    unsigned to = kind < 200 ? next : kind < 850 ? next + below(p->d, 5) : below(p->d, p->starts);
    return to < p->starts ? p->start[to] : p->length;
}

/* Gives every jump its way; one that its byte cannot hold goes to the next instruction. */
static void choose_ways(struct program *p)
{
    for (unsigned i = 0; i < p->jumps; i++) {
        const struct jump *jump = &p->jump[i];
        int way = (int)destination(p, jump) - (int)jump->end;
        if (jump->size == 1 && (way < -128 || way > 127)) way = 0;
        p->byte[jump->at] = (uint8_t)((unsigned)way & 0xFFu);
        if (jump->size == 2) p->byte[jump->at + 1] = (uint8_t)((unsigned)way >> 8 & 0xFFu);
    }
}

/* Changes a few bytes or bits of a program. */
static void damage(struct program *p)
{
    for (unsigned i = 1 + below(p->d, 3); i > 0; i--) {
        uint8_t *byte = &p->byte[below(p->d, p->length)];
        *byte = (uint8_t)(chance(p->d, 500) ? *byte ^ 1u << below(p->d, 8) : below(p->d, 256));
    }
}

/* Adds so many parts: instructions of all formats, transfers among them. */
static void add_parts(struct program *p, unsigned parts)
{
    for (; parts > 0; parts--) {
        if (chance(p->d, 20)) add_search(p);
        else if (chance(p->d, 40)) add_pairs(p);
        else if (chance(p->d, 120)) add_transfer(p);
        else add_any(p);
    }
}

void write_rich(struct program *p)
{
    unsigned parts = 1 + below(p->d, chance(p->d, 100) ? 100 : 24);
    if (chance(p->d, 950)) add_setting_up(p);
    add_parts(p, parts);
    begin(p);
    if (chance(p->d, 850)) add_word(p, 0x4820);
    choose_ways(p);
    if (chance(p->d, 120)) damage(p);
}

void write_round(struct program *p)
{
    add_setting_up(p);
    unsigned top = p->length;
    add_parts(p, 1 + below(p->d, chance(p->d, 600) ? 4 : 24));
    begin(p);
    add_word(p, 0x2091);
    add_word(p, top - (p->length + 2));
    choose_ways(p);
    if (chance(p->d, 60)) damage(p);
}

void write_search(struct program *p)
{
    for (unsigned i = 6 + below(p->d, 5); i > 0; i--) add_search(p);
    begin(p);
    add_word(p, 0x4820);
}

void write_refused(struct program *p, bool by_transfer)
{
    add_setting_up(p);
    if (by_transfer) {
        add_movi(p, CC, below(p->d, 65536) | 3u << 11);
        add_word(p, 0x0060);
        add_word(p, 0x0000);
    }
    add_word(p, 0x38C0);
}

void write_noise(struct program *p)
{
    for (unsigned i = 8 + below(p->d, 40); i > 0; i--) add(p, below(p->d, 256));
}

void write_pair(struct program *p, unsigned pair)
{
    add_setting_up(p);
    add_word(p, pair);
    if ((pair >> 1 & 3u) == 1) add(p, below(p->d, 32));
    if ((pair >> 8 & 0xFCu) == 0x90 && chance(p->d, 900)) add_second_pair(p, pair & 1u, 200);
    for (unsigned i = 0; i < 5; i++) add(p, chance(p->d, 700) ? 0 : below(p->d, 256));
    add_word(p, 0x4820);
}

unsigned write_cut(struct program *p)
{
    struct fields f = choose_fields(p->d);
    f.second_w_wrong_in_1000 = 300;
    if (chance(p->d, 300)) f.rrr = CC;
    if (chance(p->d, 700)) add_setting_up(p);
    unsigned start = p->length;
    add_instruction(p, &formats[below(p->d, FORMATS)], &f);
    if (chance(p->d, 100)) p->byte[start + below(p->d, p->length - start)] ^= (uint8_t)(1u << below(p->d, 8));
    return 1 + below(p->d, p->length - start);
}

void write_one(struct program *p)
{
    struct fields f = choose_fields(p->d);
    if (chance(p->d, 60)) f.rrr = CC;
    add_instruction(p, &formats[below(p->d, FORMATS)], &f);
    choose_ways(p);
}

/* ---- Programs that store in rooms of their own ---- */

/* Whether a format stores at its operand alone, changes no pointer and, by a displacement of 0, goes on behind itself. */
static bool stays(const struct format *format)
{
    bool leads_away = format->follow == WAY || format->follow == DOUBLEWORD || format->follow == SECOND_PAIR;
    return !leads_away && format->digits[0] != 'P';
}

/* Adds an instruction of such a format, its operand near a pointer. */
static void add_confined(struct program *p)
{
    static const uint8_t plain[] = {BC, IX, MC};
    const struct format *format = formats;
    struct fields f = choose_fields(p->d);
    while (!stays(format)) format = &formats[below(p->d, FORMATS - ENDING_FORMATS)];
    f.rrr = ONE_OF(p->d, plain);
    f.aa = below(p->d, 2);
    f.mm = below(p->d, 3);
    begin(p);
    add_pair(p, format->digits, &f);
    if (strchr(format->digits, 'A') != NULL && f.aa == 1) p->byte[p->length - 1] &= 15u;
    add_following(p, format->follow, &f);
}

/* Adds a transfer of a few bytes between the rooms that GA and GB are at, under requests or not. */
static void add_confined_transfer(struct program *p)
{
    static const uint8_t syn[] = {0, 0, 1, 2};
    uint32_t cc = 0xC000u | (uint32_t)ONE_OF(p->d, syn) << 11 | below(p->d, 2) << 10 | below(p->d, 2) << 8;
    add_movi(p, BC, 1 + below(p->d, 8));
    add_arming(p, cc | end_code(p->d, 500) << 5 | (1 + below(p->d, 3)) << 3);
    add_widths(p, cc);
    add_endings(p);
}

/* Points every pointer into a room, and adds some instructions there and mostly a transfer. */
static void add_round(struct program *p, const struct room rooms[2])
{
    for (unsigned ppp = GA; ppp <= GC; ppp++) {
        const struct room *room = &rooms[below(p->d, 2)];
        add_pointing_at(p, ppp, room->in_io, room->at + below(p->d, 8));
    }
    for (unsigned i = below(p->d, 5); i > 0; i--) add_confined(p);
    if (chance(p->d, 700)) add_confined_transfer(p);
}

void write_confined(struct program *p, const struct room rooms[2])
{
    for (unsigned i = 1 + below(p->d, 3); i > 0; i--) add_round(p, rooms);
    begin(p);
    add_word(p, 0x2091);
    add_word(p, 0u - (p->length + 2));
}

/* Adds WID for these widths, as the PSW has them. */
static void add_these_widths(struct program *p, uint32_t widths)
{
    begin(p);
    add_word(p, (4 | widths) << 5);
}

unsigned write_block(struct program *p, const struct room rooms[2], const struct block_transfer *b)
{
    bool early = chance(p->d, 500);
    if (chance(p->d, 600)) add_round(p, rooms);
    for (unsigned i = 0, first = below(p->d, 3); i < 3; i++) {
        unsigned which = (first + i) % 3;
        if (which == 2) add_movi(p, BC, b->bc);
        else add_pointing_at(p, GA + which, b->in_io[which], b->address[which]);
    }
    if (early) add_these_widths(p, b->widths);
    add_arming(p, b->cc);
    if (early) add_movi(p, chance(p->d, 500) ? IX : MC, below(p->d, 65536));
    else add_these_widths(p, b->widths);
    unsigned begins = p->length;
    add_endings(p);
    begin(p);
    add_word(p, 0x4820);
    return begins;
}
