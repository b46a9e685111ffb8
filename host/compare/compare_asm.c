/* Compares the library's assembler with the independent one: number, line, bytes, and every byte beside them. */
#include "asm_texts.h"
#include "emulator/assembly.h"
#include "counts.h"
#include "random.h"
#include "iop89_service.h"
#include "lent.h"

#include <ctype.h>
#include <inttypes.h>
#include <stdbool.h>
#include <stdio.h>
#include <stdlib.h>
#include <string.h>

/* Texts after which everything must have been met, differences that are shown, texts tried in every room, and what the
 * buffers hold before a call. */
enum { TEXTS_TO_MEET_ALL = 50000, SHOWN_DIFFERENCES = 3, TEXTS_IN_EVERY_ROOM = 500, UNTOUCHED = 0xC7 };

/* The longest text and the most bytes. */
#define TEXT_ROOM 4194304u
#define CODE_ROOM 131072u

/* Places of a failed line. */
enum { FIRST_LINE, MIDDLE_LINE, LAST_LINE, PLACES };

/* Places of a character that the notation does not know. */
enum { ODD_WORD, ODD_OPERAND, ODD_COMMENT, ODD_PLACES };

/* The text that is lent, its copy, what both assemblers store, and a room in which nothing was stored. */
static uint8_t *text, *copy, *plain, *proved, *untouched;
static size_t text_len;

static unsigned long numbers[ASSEMBLY_NUMBERS], where[ASSEMBLY_NUMBERS][PLACES], faults[LABEL_FAULTS];
static unsigned long features[ASM_FEATURES], forms[ASSEMBLY_FORMS], modes[4], bases[4], registers[8];
static unsigned long odd_characters[ODD_PLACES];
static unsigned long long calls, round_trips, differences;

/* ---- One text ---- */

/* Shows a text on which they differ. */
static void show(const char *what, uint32_t first, size_t room, struct assembled a, uint64_t b)
{
    if (differences++ >= SHOWN_DIFFERENCES) return;
    printf("DIFFERENCE (%s): first %04" PRIX32 ", room %zu\n", what, first, room);
    printf("  plain: number %u, line %" PRIu64 ", %" PRIu64 " bytes\n", a.number, a.line, a.stored);
    printf("  proved: number %u, line %" PRIu32 ", %" PRIu32 " bytes\n", IOP89_ASM_NUMBER(b), IOP89_ASM_LINE(b),
           IOP89_ASM_STORED(b));
    for (size_t i = 0; i < a.stored && i < IOP89_ASM_STORED(b); i++) {
        if (plain[i] == proved[i]) continue;
        printf("  byte %zu: plain %02X, proved %02X\n", i, plain[i], proved[i]);
        break;
    }
    fwrite(copy, 1, text_len < 2000 ? text_len : 2000, stdout);
    puts("\n  end of the text");
}

/* Whether two answers are the same, with nothing in the bits between their parts. */
static bool same_answer(struct assembled a, uint64_t b)
{
    return a.number == IOP89_ASM_NUMBER(b) && a.line == IOP89_ASM_LINE(b) && a.stored == IOP89_ASM_STORED(b) &&
           (b >> 8 & 0xFFFFFFu) == 0;
}

/* Whether the room holds what the other one holds, and nothing behind the bytes that were stored. */
static bool same_room(size_t stored, size_t room)
{
    return memcmp(plain, proved, room) == 0 && memcmp(proved + stored, untouched, room - stored) == 0;
}

/* Assembles the text by both in this room, and compares the answers, the buffers and all that stands around them. */
static struct assembled both(const char *what, uint32_t first, size_t room)
{
    memset(plain, UNTOUCHED, room);
    memset(proved, UNTOUCHED, room);
    fence_behind(plain, room);
    fence_behind(proved, room);
    fence_behind(text, text_len);
    memcpy(copy, text, text_len);
    struct assembled a = assemble(copy, text_len, first, plain, room);
    uint64_t b = iop89_assemble(text, text_len, first, proved, room);
    bool stand = fences_stand(text, text_len) && fences_stand(plain, room) && fences_stand(proved, room);
    if (!stand || !same_answer(a, b) || !same_room(a.stored, room) || memcmp(text, copy, text_len) != 0)
        show(what, first, room, a, b);
    calls++;
    return a;
}

/* ---- Random texts ---- */

/* How many lines the text has. */
static uint64_t lines_of_text(void)
{
    uint64_t lines = 1;
    for (size_t i = 0; i < text_len; i++) lines += text[i] == '\n';
    return lines;
}

/* Counts what an answer met: its number by the line's place, and why 33. */
static void meet_answer(struct assembled a)
{
    numbers[a.number]++;
    if (a.number == ASSEMBLY_DONE) return;
    where[a.number][a.line == 1 ? FIRST_LINE : a.line == lines_of_text() ? LAST_LINE : MIDDLE_LINE]++;
    if (a.number == ASSEMBLY_BAD_LABEL) faults[assembly_label(text, text_len, a.line).fault]++;
}

/* Adds one row of counts to another. */
static void add_counts(unsigned long *to, const unsigned long *from, unsigned count)
{
    for (unsigned i = 0; i < count; i++) to[i] += from[i];
}

/* Counts what a text held: forms and operands where it was done, a feature where it has the number that it wants. */
static void meet_case(const struct asm_case *c, unsigned number)
{
    for (unsigned i = 0; i < ASM_FEATURES; i++)
        if (i >= ASM_DAMAGED_FEATURES || asm_feature_number((enum asm_feature)i) == number)
            features[i] += c->features[i];
    if (number != ASSEMBLY_DONE) return;
    add_counts(forms, c->forms, ASSEMBLY_FORMS);
    add_counts(modes, c->modes, 4);
    add_counts(bases, c->bases, 4);
    add_counts(registers, c->registers, 8);
}

/* A room for a text that takes so many bytes in enough of it: enough, just enough, one byte less, less, or none. */
static size_t some_room(struct random *d, size_t size)
{
    unsigned pick = below(d, 100);
    if (pick < 40) return size + below(d, 64);
    if (pick < 65) return size;
    if (pick < 80) return size > 0 ? size - 1 : 0;
    return pick < 93 ? below(d, size + 1) : 0;
}

/* Compares one random text in one room, and in every room where that is asked for. */
static void compare_one(uint64_t seed, uint64_t number, bool every_room)
{
    char what[64];
    struct asm_case c = {.text = text};
    struct random d = seeded(seed + 1, number);
    make_asm_case(&c, seed, number);
    text_len = c.text_len;
    snprintf(what, sizeof what, "text %" PRIu64 " of seed %" PRIu64, number, seed);
    struct assembled roomy = assemble(text, text_len, c.first, plain, CODE_ROOM);
    size_t size = roomy.number == ASSEMBLY_DONE ? roomy.stored : chance(&d, 600) ? 4096 : below(&d, 64);
    struct assembled a = both(what, c.first, some_room(&d, size));
    meet_answer(a);
    meet_case(&c, a.number);
    for (size_t room = 0; every_room && room <= size + 1 && room < 600; room++) both(what, c.first, room);
}

/* ---- Listings ---- */

/* Lists some code and assembles the listing in just enough room: the code must come back. */
static void round_trip(const char *what, const uint8_t *code, size_t length, uint32_t first)
{
    text_len = IOP89_LIST_CHARACTERS(iop89_list(code, length, first, text, TEXT_ROOM));
    struct assembled a = both(what, first, length);
    if (a.number != ASSEMBLY_DONE || a.stored != length || memcmp(plain, code, length) != 0)
        show(what, first, length, a, 0);
    round_trips++;
}

/* Every first pair with every length of rest from 0 to 8 bytes. */
static void every_pair(uint64_t seed)
{
    uint8_t code[10];
    for (uint32_t pair = 0; pair < 65536; pair++) {
        struct random d = seeded(seed + 2, pair);
        for (size_t length = 2; length <= sizeof code; length++) {
            size_t at = (pair & 6u) == 2 ? 3 : 2;
            for (size_t i = 2; i < length; i++) code[i] = (uint8_t)below(&d, 256);
            code[0] = (uint8_t)pair;
            code[1] = (uint8_t)(pair >> 8);
            /* A second pair is rarely right by chance. */
            if (pair >> 10 == 0x24 && at + 1 < length && chance(&d, 800)) {
                code[at] = (uint8_t)((pair & 1u) + 2u * below(&d, 4));
                code[at + 1] = (uint8_t)(0xCC + below(&d, 4));
            }
            round_trip("a first pair", code, length, (uint32_t)roll(&d));
        }
    }
}

/* Random code, short and long, and some of more bytes than there are addresses. */
static void random_code(uint64_t seed)
{
    static uint8_t code[70000];
    for (unsigned i = 0; i <= 500; i++) {
        struct random d = seeded(seed + 3, i);
        size_t length = i == 500 ? sizeof code : below(&d, i % 10 == 0 ? 4096 : 60);
        for (size_t k = 0; k < length; k++) code[k] = (uint8_t)(below(&d, 256) & (chance(&d, 300) ? 6u : 255u));
        round_trip("random code", code, length, (uint32_t)roll(&d));
    }
}

/* ---- Texts by hand ---- */

/* Adds to the text, so many times. */
static void add(size_t times, const char *more)
{
    size_t length = strlen(more);
    for (; times > 0; times--) {
        memcpy(text + text_len, more, length);
        text_len += length;
    }
}

/* Compares the text in much room and in none, and begins a new one. */
static void both_rooms(const char *what)
{
    both(what, 0xFFF0, CODE_ROOM);
    both(what, 0xFFF0, 0);
    text_len = 0;
}

/* One thing again and again, by itself and behind an item. */
static void repeated_texts(void)
{
    static const char *const things[] = {" ",  "\n", "A", ";", "1", "\xFF", ",",      "-",
                                         "\r", ":",  "(", ")", "[", "X:",   "DB 1\n", "NOP\n"};
    for (size_t i = 0; i < sizeof things / sizeof things[0]; i++) {
        add(i < 6 ? 1000000 : 30000, things[i]);
        both_rooms("one thing again and again");
        add(1, "DB 5");
        add(30000, things[i]);
        both_rooms("an item and one thing again and again");
    }
}

/* Sums of many parentheses, digits and terms, and failed lines behind many. */
static void long_texts(void)
{
    for (unsigned i = 0; i < 4; i++) {
        add(1, "DW ");
        add(9000, "(");
        add(1, "1");
        add(9000 - i % 2, ")");
        if (i >= 2) add(1, "\nFOO");
        both_rooms("nine thousand parentheses");
        add(1, "DW ");
        add(1000, i % 2 ? "7" : "0");
        add(1, i < 2 ? "Q" : "H");
        both_rooms("a thousand digits");
        add(1, "DW 9");
        add(20000, i % 2 ? "-1+2" : "-X+(X-3)");
        if (i < 2) add(1, "\nX:");
        both_rooms("some ten thousand terms");
    }
    add(1000000, "\n");
    add(1, "FOO");
    both_rooms("a million lines");
}

/* Whether a character is a control character but no blank and no line end, or past ASCII. */
static bool is_odd(unsigned c)
{
    return (c < 32 && c != '\t' && c != '\n' && c != '\r') || c >= 127;
}

/* Every character by itself and in some places. An odd one is 30 where a word must stand, 31 behind a word, and nothing
 * in a comment. */
static void every_character(void)
{
    static const struct {
        const char *before, *behind;
        unsigned place, number;
    } around[] = {
        {"", "", ODD_WORD, 30},           {"X", ":", ODD_WORD, 30},         {"X:", "NOP", ODD_WORD, 30},
        {"NOP", "", ODD_OPERAND, 31},     {"DB 1", ";", ODD_OPERAND, 31},   {"DB 1", "1", ODD_OPERAND, 31},
        {"DB ", "", ODD_OPERAND, 31},     {"INC [GA", "]", ODD_OPERAND, 31}, {";", "NOP", ODD_COMMENT, 0},
        {"X:;", "", ODD_COMMENT, 0},
    };
    for (unsigned i = 0; i < 256; i++) {
        for (size_t k = 0; k < sizeof around / sizeof around[0]; k++) {
            add(1, around[k].before);
            text[text_len++] = (uint8_t)i;
            add(1, around[k].behind);
            struct assembled a = both("a character", 0, CODE_ROOM);
            if (is_odd(i) && a.number != around[k].number) show("a character", 0, CODE_ROOM, a, 0);
            odd_characters[around[k].place] += is_odd(i);
            both("a character", 0, 0);
            text_len = 0;
        }
    }
}

/* Compares a line of three parts, at 0 and with room. */
static void both_line(const char *a, const char *b, const char *c)
{
    add(1, a);
    add(1, b);
    add(1, c);
    both("a line", 0, 64);
    text_len = 0;
}

/* Makes the next of all strings of these characters up to a length, the shorter ones first; false behind the last. */
static bool next_string(char *string, const char *characters, size_t most)
{
    size_t i = strlen(string);
    while (i > 0 && string[i - 1] == characters[strlen(characters) - 1]) string[--i] = characters[0];
    if (i > 0) {
        string[i - 1] = strchr(characters, string[i - 1])[1];
        return true;
    }
    i = strlen(string);
    string[i] = characters[0];
    string[i + 1] = '\0';
    return i < most;
}

/* Every run of up to three letters where a word may stand, of up to two in operands, and all of three as a sum. */
static void every_short_run(void)
{
    static const char letters[] = "ABCDEFGHIJKLMNOPQRSTUVWXYZ", all[] = "0123456789ABCDEFGHIJKLMNOPQRSTUVWXYZ_";
    for (char run[8] = ""; next_string(run, letters, 3);) {
        both_line(run, "", "");
        if (strlen(run) > 2) continue;
        both_line("INC ", run, "");
        both_line("MOV ", run, ",[GA]");
        both_line("MOV GA,[", run, "]");
        both_line("MOV GA,[GA+", run, "]");
        both_line("DB ", run, "-5");
        both_line(run, ":", "NOP");
    }
    for (char run[8] = ""; next_string(run, all, 3);) both_line("DW ", run, "");
}

/* Behind some start every list of up to so many tokens, of eight, with blanks between them. */
static void token_lists(const char *start, const char *const tokens[8], size_t most)
{
    char list[12] = "";
    do {
        add(1, start);
        for (size_t i = 0; list[i] != '\0'; i++) {
            add(1, tokens[list[i] - '0']);
            add(1, " ");
        }
        both_line("", "", "");
    } while (next_string(list, "01234567", most));
}

/* Every short sum, operand in memory, and line, of the right form or not. */
static void every_short_list(void)
{
    static const char *const sums[8] = {"1", "Q", "X", "GA", "+", "-", "(", ")"};
    static const char *const memory[8] = {"[", "]", "GA", "IX", "PP", "+", ".", "1"};
    static const char *const lines[8] = {"X", ":", "NOP", "DB", "1", ",", ";", "\n"};
    token_lists("X: DB ", sums, 5);
    token_lists("INC ", memory, 4);
    token_lists("INC [GB ", memory, 5);
    token_lists("INC [GC+IX ", memory, 4);
    token_lists("", lines, 5);
}

/* Lines in which several things are wrong: what is wrong with one part does not hide what is wrong with another. */
static void several_faults(void)
{
    static const char *const lines[] = {
        "DB #,#,#",       "MOVBI [GA].#,#",   "TSL [GA].#,#,#", "LPDI GA,#,#", "MOV [GA].#,[GB].#",
        "JBT [PP].#,#,#", "LJNBT [GC].#,#,#", "WID #,#",        "JZ [GB].#,#", "CALL [GA].#,(#)-(0)",
        "DW #,#"};
    static const char *const labels[] = {"", "L: ", "GA: ", "ABCDEFGHIJKLM: ", "X: "};
    static const char *const parts[] = {"1", "8", "256", "0FF7FH", "Q", "(((((((((1)))))))))", "12B"};
    enum { LINES = sizeof lines / sizeof lines[0], LABELS = sizeof labels / sizeof labels[0] };
    char list[8] = "000";
    do {
        for (size_t i = 0; i < LINES * LABELS; i++) {
            size_t part = 0;
            add(1, "X:\n");
            add(1, labels[i % LABELS]);
            for (const char *c = lines[i / LABELS]; *c != '\0'; c++) {
                char one[2] = {*c, '\0'};
                add(1, *c == '#' ? parts[list[part++] - '0'] : one);
            }
            both_line("", "", "");
        }
    } while (next_string(list, "0123456", 3));
}

/* Jumps over a line that fails: whether it has bytes decides about the border of their reach. */
static void jumps_over_failed(void)
{
    static const char *const failed[] = {
        "FOO 1,2",   "Z: FOO",
        "Y: Y: NOP", "MOVI GA",
        "DB 1,GA",   "DB (((((((((1)))))))))",
        "DW Q",      "LPDI GA,1,Q",
        "GA: DW 1",  "ABCDEFGHIJKLM: NOP",
        "A: HLT",    "LPDI GA,1,(((((((((1)))))))))",
        "DB 1,256",  "JMP 9000H",
        "WID 9,9",   "MOV [GA].256,[GB].1",
        "GA:",       "TSL [GA].Q,256,12B",
    };
    for (size_t i = 0; i < sizeof failed / sizeof failed[0]; i++) {
        for (size_t bytes = 116; bytes <= 132; bytes++) {
            add(1, "A: JMP X\nDB 0");
            add(bytes - 1, ",0");
            add(1, "\n");
            add(1, failed[i]);
            both("a jump over a failed line", 0xFFC0, 400);
            add(1, "\nX:");
            both("a jump over a failed line", 0xFFC0, 400);
            text_len = 0;
        }
    }
}

/* Whether a form is its word's first. */
static bool is_first_form(unsigned form)
{
    return form == 0 || strcmp(assembly_forms[form].word, assembly_forms[form - 1].word) != 0;
}

/* A word with a letter added, changed or lost anywhere. */
static void near_words(const char *word)
{
    char start[16];
    for (size_t at = 0; at <= strlen(word); at++) {
        const char *rest = word + at;
        snprintf(start, sizeof start, "%.*s", (int)at, word);
        for (char letter[2] = "A"; letter[0] <= 'Z'; letter[0]++) {
            both_line(start, letter, rest);
            if (rest[0] != '\0') both_line(start, letter, rest + 1);
        }
        if (rest[0] != '\0') both_line(start, "", rest + 1);
    }
}

/* A word with every list of up to three operands of every kind. */
static void operand_lists(const char *word)
{
    static const char *const operands[] = {"GA", "TP", "BC", "CC", "PP", "[GB].1", "[PP+IX+]", "0", "8"};
    char list[8] = "";
    do {
        add(1, word);
        for (size_t i = 0; list[i] != '\0'; i++) {
            add(1, i == 0 ? " " : ",");
            add(1, operands[list[i] - '0']);
        }
        both_line("", "", "");
    } while (next_string(list, "012345678", 3));
}

/* Texts by hand: nothing, much of something, and all short ones of some kinds. */
static void texts_by_hand(void)
{
    text_len = 0;
    both_rooms("the empty text");
    repeated_texts();
    long_texts();
    every_character();
    every_short_run();
    every_short_list();
    several_faults();
    jumps_over_failed();
    for (unsigned i = 0; i < ASSEMBLY_FORMS; i++) {
        if (!is_first_form(i)) continue;
        near_words(assembly_forms[i].word);
        operand_lists(assembly_forms[i].word);
    }
}

/* ---- Files ---- */

/* Opens a file, or ends. */
static FILE *opened(const char *path)
{
    FILE *file = fopen(path, "rb");
    if (file != NULL) return file;
    perror(path);
    exit(2);
}

/* A hexadecimal digit's value. */
static unsigned digit(char c)
{
    return (unsigned)(isdigit((unsigned char)c) ? c - '0' : c - 'A' + 10);
}

/* One row, "BYTES = LINE / LINE": both assemblers must make the bytes. */
static void check_row(const char *row)
{
    uint8_t want[64];
    size_t length = 0;
    const char *equals = strstr(row, " = ");
    text_len = 0;
    for (const char *c = row; equals != NULL && c < equals; c += 2)
        want[length++] = (uint8_t)(digit(c[0]) * 16 + digit(c[1]));
    for (const char *c = equals != NULL ? equals + 3 : ""; *c != '\0'; c++)
        text[text_len++] = (uint8_t)(*c == '/' ? '\n' : *c);
    struct assembled a = both(row, 0x1000, length);
    if (a.stored != length || memcmp(plain, want, length) != 0) show(row, 0x1000, length, a, 0);
}

/* The file of bytes and their listings; answers how many rows it has. */
static unsigned check_rows(const char *path)
{
    char row[512];
    unsigned rows = 0;
    FILE *file = opened(path);
    while (fgets(row, sizeof row, file) != NULL) {
        row[strcspn(row, "\n")] = 0;
        if (row[0] == 0 || row[0] == '#') continue;
        check_row(row);
        rows++;
    }
    fclose(file);
    return rows;
}

/* A source that must be done; answers how many bytes it has, and its bytes come back from their listing. */
static unsigned check_source(const char *path)
{
    static uint8_t code[CODE_ROOM];
    FILE *file = opened(path);
    text_len = fread(text, 1, TEXT_ROOM, file);
    fclose(file);
    struct assembled a = both(path, 0, CODE_ROOM);
    if (a.number != ASSEMBLY_DONE) show(path, 0, CODE_ROOM, a, 0);
    memcpy(code, plain, a.stored);
    round_trip(path, code, a.stored, 0);
    return (unsigned)a.stored;
}

/* ---- What was met ---- */

/* Prints the words with their forms that were assembled. */
static void report_forms(void)
{
    char name[64];
    puts("words with their operands, in texts that were done:");
    for (unsigned i = 0; i < ASSEMBLY_FORMS; i++) {
        const struct assembly_form *f = &assembly_forms[i];
        size_t length = (size_t)snprintf(name, sizeof name, "%s", f->word);
        for (const char *o = f->operands; *o != '\0'; o++)
            length += (size_t)snprintf(name + length, sizeof name - length, "%c%c", o == f->operands ? ' ' : ',', *o);
        print_count(name, forms[i]);
    }
}

/* Prints the parts of operands that were assembled. */
static void report_operands(void)
{
    static const char *const of_modes[4] = {"base alone", "with an offset", "with IX", "with IX that grows"};
    static const char *const of_bases[4] = {"base GA", "base GB", "base GC", "base PP"};
    static const char *const of_registers[8] = {"GA", "GB", "GC", "BC", "TP", "IX", "CC", "MC"};
    puts("operands, in texts that were done:");
    for (unsigned i = 0; i < 4; i++) print_count(of_modes[i], modes[i]);
    for (unsigned i = 0; i < 4; i++) print_count(of_bases[i], bases[i]);
    for (unsigned i = 0; i < 8; i++) print_count(of_registers[i], registers[i]);
}

/* Prints the numbers by the places of their lines, and why 33. */
static void report_numbers(void)
{
    static const char *const places[PLACES] = {"in the first line", "in a middle line", "in the last line"};
    static const char *const reasons[LABEL_FAULTS] = {"", "too long", "twice", "reserved", "one too many", "unknown"};
    char name[64];
    puts("numbers:");
    print_count("0", numbers[ASSEMBLY_DONE]);
    for (unsigned i = ASSEMBLY_BAD_WORD; i < ASSEMBLY_NUMBERS; i++) {
        for (unsigned place = 0; place < PLACES; place++) {
            snprintf(name, sizeof name, "%u %s", i, places[place]);
            print_count(name, where[i][place]);
        }
    }
    puts("labels refused by 33:");
    for (unsigned i = LABEL_TOO_LONG; i < LABEL_FAULTS; i++) print_count(reasons[i], faults[i]);
}

/* Prints where characters stood that the notation does not know. */
static void report_odd(void)
{
    puts("NUL, control characters and characters past ASCII:");
    print_count("30 where a word must stand", odd_characters[ODD_WORD]);
    print_count("31 behind a word", odd_characters[ODD_OPERAND]);
    print_count("nothing in a comment", odd_characters[ODD_COMMENT]);
}

/* Prints what texts held. */
static void report_features(void)
{
    char name[96];
    puts("in texts with the number that is given, or any where none is:");
    for (unsigned i = 0; i < ASM_FEATURES; i++) {
        if (i < ASM_DAMAGED_FEATURES)
            snprintf(name, sizeof name, "%2u: %s", asm_feature_number((enum asm_feature)i),
                     asm_feature_name((enum asm_feature)i));
        else snprintf(name, sizeof name, "    %s", asm_feature_name((enum asm_feature)i));
        print_count(name, features[i]);
    }
}

int main(int argc, char **argv)
{
    uint64_t seed = argc > 1 ? strtoull(argv[1], NULL, 10) : 1;
    uint64_t texts = argc > 2 ? strtoull(argv[2], NULL, 10) : TEXTS_TO_MEET_ALL;
    text = fenced(TEXT_ROOM);
    copy = fenced(TEXT_ROOM);
    plain = fenced(CODE_ROOM);
    proved = fenced(CODE_ROOM);
    untouched = fenced(CODE_ROOM);
    memset(untouched, UNTOUCHED, CODE_ROOM);
    unsigned rows = check_rows(argc > 3 ? argv[3] : "host/emulator/notation.txt");
    unsigned bytes = check_source(argc > 4 ? argv[4] : "examples/f59.asm");
    for (uint64_t i = 0; i < texts; i++) compare_one(seed, i, i < TEXTS_IN_EVERY_ROOM);
    texts_by_hand();
    every_pair(seed);
    random_code(seed);
    report_forms();
    report_operands();
    report_numbers();
    report_odd();
    report_features();
    printf("seed %" PRIu64 ", %" PRIu64 " random texts, %u rows of notation, a source of %u bytes\n", seed, texts, rows,
           bytes);
    printf("%llu listings assembled, %llu texts and rooms compared, %llu differences, %u never met\n", round_trips,
           calls, differences, never_met());
    return differences != 0 || (never_met() != 0 && texts >= TEXTS_TO_MEET_ALL) || rows == 0;
}
