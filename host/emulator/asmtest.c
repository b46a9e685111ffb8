/* Hand-thought cases for the assembler in C: the notation's rows, every number, and the borders of each. */
#include "assembly.h"
#include "compare/random.h"
#include "listing.h"

#include <stdbool.h>
#include <stdio.h>
#include <stdlib.h>
#include <string.h>

/* Where cases begin that do not say, room for their bytes and texts, and what the buffer holds before each. */
enum { FIRST = 0x1000, ROOM = 300000, TEXT_ROOM = 4000000, UNTOUCHED = 0xC7 };

#define DONE(text, hex) done(FIRST, (text), (hex), __LINE__)
#define DONE_AT(first, text, hex) done((first), (text), (hex), __LINE__)
#define REFUSED(number, line, text) refused(FIRST, (text), (number), (line), __LINE__)
#define REFUSED_AT(first, number, line, text) refused((first), (text), (number), (line), __LINE__)
#define ANSWER(first, room, number, line, stored) answer((first), (room), (number), (line), (stored), __LINE__)
#define CHECK(condition) check((condition), #condition, __LINE__)

static uint8_t code[ROOM + 64];
static char text[TEXT_ROOM];
static size_t length;
static unsigned long checks, failures;

/* Counts a check and shows one that fails. */
static void check(bool good, const char *what, int line)
{
    checks++;
    if (good) return;
    failures++;
    printf("line %d: not so: %s\n", line, what);
}

/* ---- Texts ---- */

/* Begins a text. */
static void begin(void)
{
    length = 0;
}

/* Adds to the text. */
static void add(const char *more)
{
    size_t n = strlen(more);
    memcpy(text + length, more, n);
    length += n;
}

/* Adds something so many times. */
static void add_times(size_t times, const char *more)
{
    while (times-- > 0) add(more);
}

/* Adds a line of so many bytes. */
static void add_filler(size_t bytes)
{
    add("DB 0");
    add_times(bytes - 1, ",0");
    add("\n");
}

/* Adds a label by its number. */
static void add_label(unsigned number)
{
    char name[16];
    snprintf(name, sizeof name, "L%u:\n", number);
    add(name);
}

/* ---- Checks of an answer ---- */

/* Whether the buffer is untouched from an index on. */
static bool untouched_from(size_t from)
{
    while (from < sizeof code && code[from] == UNTOUCHED) from++;
    return from == sizeof code;
}

/* Assembles the text and wants this answer, with no byte changed behind those stored. */
static void answer(uint32_t first, size_t room, unsigned number, uint64_t line, uint64_t stored, int from)
{
    memset(code, UNTOUCHED, sizeof code);
    struct assembled a = assemble((const uint8_t *)text, length, first, code, room);
    bool good = a.number == number && a.line == line && a.stored == stored;
    check(good && untouched_from(stored), "answer as wanted", from);
    if (!good)
        printf("  wanted %u, line %llu, %llu bytes; found %u, line %llu, %llu bytes: %.*s\n", number,
               (unsigned long long)line, (unsigned long long)stored, a.number, (unsigned long long)a.line,
               (unsigned long long)a.stored, (int)(length < 60 ? length : 60), text);
}

/* The bytes that are written in hex; answers how many. */
static size_t bytes_of(const char *hex, uint8_t *bytes)
{
    size_t n = 0;
    for (; hex[0] != '\0'; hex += 2) {
        while (*hex == ' ') hex++;
        char two[3] = {hex[0], hex[1], '\0'};
        bytes[n++] = (uint8_t)strtoul(two, NULL, 16);
    }
    return n;
}

/* Wants a text done with these bytes, in just the room that they take, and refused by 35 in less. */
static void done(uint32_t first, const char *of, const char *hex, int from)
{
    uint8_t want[512];
    size_t n = bytes_of(hex, want);
    begin();
    add(of);
    answer(first, n, ASSEMBLY_DONE, 0, n, from);
    check(memcmp(code, want, n) == 0, of, from);
    if (n > 0) check(assemble((const uint8_t *)text, length, first, code, n - 1).number == ASSEMBLY_NO_ROOM, of, from);
}

/* Wants a text refused with this number and line, in much room. */
static void refused(uint32_t first, const char *of, unsigned number, uint64_t line, int from)
{
    begin();
    add(of);
    answer(first, ROOM, number, line, 0, from);
}

/* ---- The notation's rows, and listings ---- */

/* One row, "BYTES = LINE / LINE", both ways. */
static void check_row(char *row, int from)
{
    char lines[512] = "";
    char listed[512];
    uint8_t bytes[64];
    char *equals = strstr(row, " = ");
    check(equals != NULL, row, from);
    if (equals == NULL) return;
    *equals = '\0';
    for (char *line = strtok(equals + 3, "/"); line != NULL; line = strtok(NULL, "/")) {
        while (*line == ' ') line++;
        size_t n = strlen(line);
        while (n > 0 && line[n - 1] == ' ') n--;
        snprintf(lines + strlen(lines), sizeof lines - strlen(lines), "%.*s\n", (int)n, line);
    }
    done(FIRST, lines, row, from);
    size_t n = bytes_of(row, bytes);
    struct listing l = list_code(bytes, n, FIRST, (uint8_t *)listed, sizeof listed, NULL);
    check(l.characters == strlen(lines) && memcmp(listed, lines, l.characters) == 0, lines, from);
}

/* The rows of the file. */
static void test_notation(const char *path)
{
    char row[512];
    int rows = 0;
    FILE *file = fopen(path, "r");
    if (file == NULL) {
        perror(path);
        exit(2);
    }
    while (fgets(row, sizeof row, file) != NULL) {
        row[strcspn(row, "\n")] = 0;
        if (row[0] != 0 && row[0] != '#') check_row(row, ++rows);
    }
    fclose(file);
    CHECK(rows == 83);
}

/* Every first pair, with every length of rest, comes back from its listing. */
static void test_round_trip(void)
{
    unsigned long unlike = 0;
    struct random d = seeded(1, 0);
    uint8_t given[10];
    for (unsigned pair = 0; pair < 65536; pair++) {
        for (size_t n = 2; n <= sizeof given; n++) {
            uint32_t first = (uint32_t)roll(&d);
            for (size_t i = 0; i < n; i++) given[i] = (uint8_t)below(&d, 256);
            given[0] = (uint8_t)(pair >> 8);
            given[1] = (uint8_t)pair;
            struct listing l = list_code(given, n, first, (uint8_t *)text, TEXT_ROOM, NULL);
            struct assembled a = assemble((const uint8_t *)text, l.characters, first, code, n);
            unlike += a.number != 0 || a.stored != n || memcmp(code, given, n) != 0;
        }
    }
    CHECK(unlike == 0);
}

/* The maker's sample gives the bytes printed beside it. */
static void test_sample(const char *path)
{
    static const char printed[] = "0A4F0A00 B1300A00 513000FF EABA00FC 0A4E0012 02930802CE01 D1302088 A000 238B04 "
                                  "113004FF AABA00FC 6000 02930902CE01 6ABE0105 A03C A840D0 EABA00FC 0A4E002C 8ABA00FC "
                                  "02920102CF0A 4000 2048";
    uint8_t want[128];
    size_t n = bytes_of(printed, want);
    FILE *file = fopen(path, "rb");
    if (file == NULL) {
        perror(path);
        exit(2);
    }
    length = fread(text, 1, sizeof text, file);
    fclose(file);
    ANSWER(0, 82, ASSEMBLY_DONE, 0, 82);
    CHECK(n == 82 && memcmp(code, want, n) == 0);
    ANSWER(0, 81, ASSEMBLY_NO_ROOM, 34, 0);
}

/* ---- What is taken ---- */

/* Texts without a byte. */
static void test_empty(void)
{
    DONE("", "");
    DONE("\n", "");
    DONE("\n\n \t\r\n; NOP\n", "");
    DONE("X:", "");
    DONE("X:\nY :\n_: ; one\nZ9_:", "");
    begin();
    ANSWER(0, 0, ASSEMBLY_DONE, 0, 0);
    CHECK(assemble(NULL, 0, 0, NULL, 0).number == ASSEMBLY_DONE);
}

/* Blanks, comments, line ends and case. */
static void test_characters(void)
{
    DONE("NOP", "0000");
    DONE("nop\nNoP\n", "00000000");
    DONE("NOP\r\nHLT\r\n", "00002048");
    DONE("\r \tNOP\r;\rNOP\n", "0000");
    DONE("movbi\t[ pp ] . 0aH , 0fFh;x", "0A4F0AFF");
    DONE("MOV [ GB ] , [ GA + IX + ]", "079001CD");
    DONE("mov[gb],[ga+ix+]", "079001CD");
    DONE("MOV\r[GB]\r,\r[GA\r+IX]", "059001CD");
    DONE("x:nop\nX1 :\tjmp\tX", "00008820FB");
    DONE("NOP;\xFF\x80 'A' $ & \x01 ;;", "0000");
    REFUSED(30, 1, "NOP1");
    REFUSED(30, 1, "NOP_");
    REFUSED(30, 1, "NO P");
    REFUSED(31, 1, "NOP\v");
    REFUSED(31, 1, "NOP\f");
    REFUSED(31, 1, "NOP \xC4");
    REFUSED(31, 1, "DB 1\x7F");
    REFUSED(30, 2, "NOP\n\x1A");
    REFUSED(30, 3, "NOP\n\n\xC4:");
    REFUSED(30, 2, ";\n\v");
}

/* NUL is a mark like others. */
static void test_nul(void)
{
    static const struct {
        const char *with_at;
        struct assembled want;
    } rows[] = {
        {"@", {30, 1, 0}},        {"NOP\n@NOP", {30, 2, 0}}, {"NOP@", {31, 1, 0}}, {"DB 1@2", {31, 1, 0}},
        {"NOP ;@\n", {0, 0, 2}}, {"X@:", {30, 1, 0}},       {"MOV GA,[GA@]", {31, 1, 0}},
    };
    for (size_t i = 0; i < sizeof rows / sizeof rows[0]; i++) {
        begin();
        add(rows[i].with_at);
        *(char *)memchr(text, '@', length) = '\0';
        ANSWER(0, ROOM, rows[i].want.number, rows[i].want.line, rows[i].want.stored);
    }
}

/* Constants in every radix. */
static void test_radixes(void)
{
    DONE("MOVBI GA,41H", "083041");
    DONE("MOVBI GA,65", "083041");
    DONE("MOVBI GA,65D", "083041");
    DONE("MOVBI GA,101Q", "083041");
    DONE("MOVBI GA,101O", "083041");
    DONE("MOVBI GA,01000001B", "083041");
    DONE("MOVBI GA,-5", "0830FB");
    DONE("MOVBI GA,11111011B", "0830FB");
    DONE("DB 1BH,0DH,1D,10B,0B,0D,0H,0Q,0o,17q,1bh,9d", "1B0D010200000000000F1B09");
    DONE("DW 65535,65536,65537,0FFFFFH,0ABCDEH,177777O,200001Q,11111111111111110B", "FFFF00000100FFFFDEBCFFFF0100FEFF");
    REFUSED(31, 1, "DB 12B");
    REFUSED(31, 1, "DB 0FF");
    REFUSED(31, 1, "DB 8Q");
    REFUSED(31, 1, "DB 9O");
    REFUSED(31, 1, "DB 0_1");
    REFUSED(31, 1, "DB 1_");
    REFUSED(31, 1, "DB 1_H");
    REFUSED(31, 1, "DB 5 H");
    REFUSED(31, 1, "DB 0F H");
    REFUSED(31, 1, "DB 0AD");
    REFUSED(31, 1, "DB 0GH");
    REFUSED(31, 1, "DB 1HH");
    REFUSED(31, 1, "DB 0X1");
    REFUSED(31, 1, "DB 1B1");
    REFUSED(31, 1, "DB 0B0");
    REFUSED(31, 1, "DB 2B");
    REFUSED(33, 1, "DB FFH");
    REFUSED(33, 1, "DB H");
    REFUSED(33, 1, "DB _1");
}

/* Sums. */
static void test_sums(void)
{
    DONE("DW 1+2,1-2,-1,-1-1,10-3-2,10-(3-2),-(1+2)", "0300FFFFFFFFFEFF05000900FDFF");
    DONE("DB 5-(-3),(5),((5)),-(-(5)),(1)+(2)", "0805050503");
    DONE("DW 65535+1,0-1,32768+32768,-32769", "0000FFFF0000FF7F");
    DONE("DW 0FFFFH-(0FFFFH-(0FFFFH-1))", "FEFF");
    DONE("DB 1-2-3", "FC");
    DONE("X: DW X,X+1,Y-X,-X,(Y)\nY:", "001001100A0000F00A10");
    DONE("WID 4+4,20-4\nCLR [GA].1+1,2+1\nJMP 1000H+(8)", "A00062F802882000");
    DONE("LPDI TP,2000H,1-1", "910800200000");
    DONE("TSL [GA].2+2,0FFH,1000H", "1A9404FFFB");
    REFUSED(31, 1, "DB 5--3");
    REFUSED(31, 1, "DB 5+-3");
    REFUSED(31, 1, "DB 5-+3");
    REFUSED(31, 1, "DB +5");
    REFUSED(31, 1, "DB --5");
    REFUSED(31, 1, "DB (--5)");
    REFUSED(31, 1, "DB (+5)");
    REFUSED(31, 1, "DB -");
    REFUSED(31, 1, "DB 5-");
    REFUSED(31, 1, "DB 5+");
    REFUSED(31, 1, "DB ()");
    REFUSED(31, 1, "DB (5");
    REFUSED(31, 1, "DB 5)");
    REFUSED(31, 1, "DB (5))");
    REFUSED(31, 1, "DB )5(");
    REFUSED(31, 1, "DB (5)(6)");
    REFUSED(31, 1, "DB 5(6)");
    REFUSED(31, 1, "DB (5)6");
    REFUSED(31, 1, "DB (5,6)");
    REFUSED(31, 1, "DB 5*6");
    REFUSED(31, 1, "DB 5 6");
    REFUSED(31, 1, "DB -()");
    REFUSED(31, 1, "DB (-)");
}

/* Operands in memory: a point written gives an offset byte. */
static void test_memory(void)
{
    DONE("MOV GA,[GA]", "0180");
    DONE("MOV GA,[GA].0", "038000");
    DONE("MOV GA,[GB].255", "0381FF");
    DONE("MOV GA,[GC].-1", "0382FF");
    DONE("MOV GA,[PP].-128", "038380");
    DONE("MOV GA,[PP+IX]", "0583");
    DONE("MOV GA,[GC+IX+]", "0782");
    DONE("MOVB [GC].1,[PP].8", "02930802CE01");
    DONE("MOV [GA],[PP].8", "03930801CC");
    DONE("MOV [GA].9,[PP]", "019303CC09");
    DONE("MOVB [GC+IX],[GB+IX+]", "069104CE");
    REFUSED(34, 1, "MOV GA,[GA].256");
    REFUSED(34, 1, "MOV GA,[GA].-129");
    REFUSED(34, 1, "MOV [GA].256,[GB]");
    REFUSED(34, 1, "MOV [GA],[GB].0FF7FH");
}

/* The word alone decides the size; what lists as JMP can be written as what it is. */
static void test_words(void)
{
    DONE("ADDBI TP,5\nADDI TP,5", "88200591200500");
    DONE("MOVI TP,5\nMOVBI CC,5", "91300500C83005");
    DONE("LJMP 1004H\nLJZ GA,1000H", "912000001044F8FF");
    DONE("CALL [GC],1003H\nLCALL [GC],1007H", "899E00919E0000");
    DONE("DB 1,2\nDW 1,2\nDB -1,255,-128\nDW -1", "010201000200FFFF80FFFF");
    DONE("WID 8,8\nWID 16,16\nWID 65544,16", "8000E000A000");
    DONE("JBT [GA],7,1003H\nLJNBT [PP].1,0,1008H", "E8BC0012BB010000");
}

/* Labels: before, behind, in another case, of twelve characters, before data. */
static void test_labels(void)
{
    DONE("A_: JMP A_\nJMP C\nC: DW C,A_,c", "8820FD882000061000100610");
    DONE("ABCDEFGHIJKL: DW abcdefghijkl", "0010");
    DONE("gamma: DW GAMMA", "0010");
    DONE("Q : DB 7\nMOVI GC,Q", "0751300010");
    DONE("EXIT: NOP\nAX: NOP\nEND: DW END-AX,EQU\nEQU:", "0000000002000810");
    DONE_AT(0xFFFF, "X: NOP\nY: DW X,Y", "0000FFFF0100");
    DONE_AT(0x11000, "X: DW X", "0010");
    DONE_AT(0xFFFFFFFF, "NOP\nX: DW X", "00000100");
}

/* ---- What is refused ---- */

/* Where a word must stand. */
static void test_30(void)
{
    static const char *const lines[] = {
        "FOO", "X: Y: NOP", "2ND: NOP", ": NOP", "&", "A EQU 5", "EQU", "DS 4", "DD 5", "ORG 5", "NAME X",
        "F SEGMENT", "END", "P STRUC", "ENDS", "PUBLIC X", "EXTRN X", "5", "0AH", ":", "X: 5", "X::", "X: : NOP",
        "GA", "PP", "(NOP)", "'A'", "$", "[GA]", "X: GA,5", "LNOP", "LTSL [GA],1,2", "MOVPB GA,[GA]", "LPDB GA,[GA]",
        "LMOV GA,[GA]", "NOTBI GA", "JMPB 5", "CALLB [GA],5", "SET [GA],1", "INCI GA", "SETBB [GA],1", "WIDB 8,8",
        "DBB 5", "DW_ 5", "MOVIB GA,5", "ABCDEFGHIJKLMNOP 5", "A", "AB:C", "X:Y", "DELTA DD GAMMA", "FOO (((((((((",
        "DB: 5", ",", "-5",
    };
    for (size_t i = 0; i < sizeof lines / sizeof lines[0]; i++) REFUSED(30, 1, lines[i]);
    REFUSED(30, 3, "NOP\nNOP\nFOO");
    REFUSED(30, 2, "JMP X\nX: FOO");
    REFUSED(30, 2, "X: NOP\nX: FOO");
    REFUSED(30, 2, "NOP\nFOO\nBAR");
}

/* Behind a known word. */
static void test_31(void)
{
    static const char *const lines[] = {
        "NOP 1", "NOP ,", "NOP NOP", "HLT GA", "SINTR (", "XFER X", "MOVI", "MOVI GA", "MOVI GA,", "MOVI ,5",
        "MOVI GA,5,", "MOVI GA,5,6", "MOVI GA 5", "MOVI GA,[GB]", "MOVI 5,GA", "MOVI GA,GB", "MOVI PP,5",
        "MOVI GA,PP", "MOV GA,GB", "MOV GA,5", "MOV CC,0C208H", "MOVB [GC].0,12H", "MOV AX,[GA]", "MOV GA,AX",
        "MOV PP,[GA]", "MOV GA,[TP]", "MOV GA,[BC]", "MOV GA,[IX]", "MOV GA,[IX+GA]", "MOV GA,[GA+5]",
        "MOV GA,[GA+IX].5", "MOV GA,[GA+IX++]", "MOV GA,[GA+IX+IX]", "MOV GA,[GA", "MOV GA,GA]", "MOV GA,[GA].",
        "MOV GA,[GA]5", "MOV GA,[GA].[GB]", "MOV GA,[GA].GB", "MOV GA,[]", "MOV GA,[5]", "MOV GA,[X]",
        "MOV GA,[GA]+5", "MOV GA,[GA-IX]", "MOV GA,[[GA]]", "MOV GA,([GA])", "MOV (GA),[GA]", "MOV GA,[GA.5]",
        "MOV GA,[GA+IX", "MOV GA,[GA+]", "MOV [GA],[GB],[GC]", "MOV GA,[GA],5", "MOV GA,,[GA]", "MOV ,",
        "ADDB [GA],[GB]", "ADD GA,GB", "ADD CC,[GA]", "ADD [GA],CC", "ADDI CC,5", "ADDI AX,5", "AND CC,[GA]",
        "ORBI CC,1", "NOT CC", "NOT CC,[GA]", "NOT [GA],GA", "NOT 5", "NOTB GA", "NOTB [GA],GA", "INC CC", "INC PP",
        "INC 5", "INCB GA", "DEC", "DECB BC", "DEC GA,[GA]", "JZ CC,5", "JZ 5", "JZ GA", "JZ 5,GA", "JZB GA,5",
        "JNZB GA,5", "LJZB IX,5", "JMP", "JMP [GA]", "JMP GA", "JMP 1,2", "JMP X:", "LJMP", "CALL 5", "CALL GA,5",
        "CALL [GA]", "JMCE GA,5", "JMCNE 5,[GA]", "JBT [GA],5", "JBT GA,1,5", "JNBT [GA],GA,5", "SETB GA,3",
        "SETB [GA]", "CLR 3,[GA]", "CLR [GA],GA", "TSL [GA],1", "TSL GA,1,5", "TSL [GA],1,5,6", "WID", "WID 8",
        "WID 8,16,8", "WID GA,8", "WID 8 16", "LPD BC,[GA]", "LPD CC,[GA]", "LPD [GA],GA", "LPDI IX,0,0", "LPDI GA,5",
        "LPDI GA,5:5", "MOVP CC,[GA]", "MOVP [GA],MC", "MOVP PP,[GA]", "MOVP BC,[GA]", "DB", "DW", "DB ,", "DB 1,",
        "DB ,1", "DB 1,,2", "DB GA", "DB 5+GA", "DB (GA)", "DB PP", "DB -IX", "DB [GA]", "DW gc", "DB 'A'", "DB $",
        "DB \"A\"", "DB 5:", "DB 5.5", "DB 5&", "DB 1,;5", "X: DB", "DB DUP(5)", "DW 5 DUP (5)", "DB #5", "DB 5H5",
        "DB @X",
    };
    for (size_t i = 0; i < sizeof lines / sizeof lines[0]; i++) REFUSED(31, 1, lines[i]);
    DONE("DB 1;,", "01");
    DONE("MOV CC,[GA]\nMOV [GA],CC\nMOVI CC,1\nMOVBI CC,1", "C180C184D1300100C83001");
    REFUSED(31, 2, "X: NOP\nX: DB GA");
    REFUSED(31, 1, "DB Q,GA");
    REFUSED(31, 1, "DB 256,GA");
}

/* Nine parentheses open at once, in what is otherwise of the right form. */
static void test_32(void)
{
    DONE("DB ((((((((1))))))))", "01");
    DONE("DB ((((((((1))))))))+((((((((1))))))))", "02");
    DONE("DB 1-(1-(1-(1-(1-(1-(1-(1-(1))))))))", "01");
    DONE("DB (1)+(1)+(1)+(1)+(1)+(1)+(1)+(1)+(1)+(1)", "0A");
    DONE("MOV GA,[GA].((((((((1))))))))", "038001");
    REFUSED(32, 1, "DB (((((((((1)))))))))");
    REFUSED(32, 1, "DB 1-(1-(1-(1-(1-(1-(1-(1-(1-(1)))))))))");
    REFUSED(32, 1, "DB 1,(((((((((1)))))))))");
    REFUSED(32, 1, "DB (((((((((Q)))))))))");
    REFUSED(32, 1, "DB (((((((((256)))))))))");
    REFUSED(32, 1, "MOV GA,[GA].(((((((((1)))))))))");
    REFUSED(32, 1, "MOVI CC,(((((((((1)))))))))");
    REFUSED(32, 1, "LPDI GA,1,-(((((((((1)))))))))");
    REFUSED(32, 2, "X:\nX: DB (((((((((1)))))))))");
    REFUSED(31, 1, "DB (((((((((1");
    REFUSED(31, 1, "DB (((((((((1))))))))");
    REFUSED(31, 1, "DB (((((((((1)))))))))+GA");
    REFUSED(31, 1, "DB (((((((((1))))))))),");
    REFUSED(31, 1, "DB (((((((((1))))))))),12B");
    REFUSED(31, 1, "ADDI CC,(((((((((1)))))))))");
    REFUSED(31, 1, "MOV GA,(((((((((1)))))))))");
    REFUSED(31, 1, "NOP (((((((((1)))))))))");
    begin();
    add("DB ");
    add_times(9000, "(");
    add("1");
    add_times(9000, ")");
    ANSWER(0, ROOM, ASSEMBLY_TOO_DEEP, 1, 0);
    length--;
    ANSWER(0, ROOM, ASSEMBLY_BAD_OPERANDS, 1, 0);
}

/* Labels that are not kept, and names that are none. */
static void test_33(void)
{
    REFUSED(33, 2, "NOP\nJMP Q\nFOO");
    REFUSED(33, 1, "JMP Q\nFOO");
    REFUSED(33, 1, "DB FFH");
    REFUSED(33, 1, "DB NOP");
    REFUSED(33, 1, "DW DB");
    REFUSED(33, 1, "MOVI GA,MOVI");
    REFUSED(33, 2, "X: NOP\nX: NOP");
    REFUSED(33, 2, "X: NOP\nx:");
    REFUSED(33, 3, "X: NOP\nJMP X\nX: NOP");
    REFUSED(33, 1, "ABCDEFGHIJKLM: NOP");
    REFUSED(33, 1, "DW ABCDEFGHIJKLM");
    REFUSED(33, 1, "NOP: NOP");
    REFUSED(33, 1, "NOP :");
    REFUSED(33, 1, "GA: NOP");
    REFUSED(33, 1, "pp:");
    REFUSED(33, 1, "dw: NOP");
    REFUSED(33, 1, "LJMCNE: NOP");
    REFUSED(33, 1, "DB 256,Q");
    REFUSED(33, 1, "CLR [GA].256,Q");
    REFUSED(33, 1, "MOV [GA].256,[GA].Q");
    REFUSED(33, 1, "GA: DB 256");
    REFUSED(33, 1, "JBT [GA],8,Q");
    REFUSED(33, 1, "WID 9,Q");
    DONE("JMP X\nX: NOP\nDW X", "88200000000310");
    /* the first of two stands, also for those before it */
    REFUSED(33, 3, "DW X\nX: NOP\nX: NOP");
    begin();
    add("JMP X\nX:\n");
    add_filler(200);
    add("X: NOP\n");
    ANSWER(0, ROOM, ASSEMBLY_BAD_LABEL, 4, 0);
}

/* Sixty-four labels, and one more. */
static void test_label_count(void)
{
    begin();
    for (unsigned i = 1; i <= 64; i++) add_label(i);
    ANSWER(0, 0, ASSEMBLY_DONE, 0, 0);
    add("DW L1,L64\n");
    ANSWER(7, ROOM, ASSEMBLY_DONE, 0, 4);
    CHECK(code[0] == 7 && code[2] == 7);
    size_t here = length;
    add_label(65);
    ANSWER(0, ROOM, ASSEMBLY_BAD_LABEL, 66, 0);
    length = here;
    add_label(64);
    ANSWER(0, ROOM, ASSEMBLY_BAD_LABEL, 66, 0);
    length = here;
    add("GA: NOP\n");
    ANSWER(0, ROOM, ASSEMBLY_BAD_LABEL, 66, 0);
    begin();
    add("NOP\nDW L65\n");
    for (unsigned i = 1; i <= 65; i++) add_label(i);
    ANSWER(0, ROOM, ASSEMBLY_BAD_LABEL, 2, 0);
    begin();
    add("DW L64\nABCDEFGHIJKLM: NOP\nL1:\nGA:\n");
    for (unsigned i = 1; i <= 64; i++) add_label(i);
    ANSWER(0, ROOM, ASSEMBLY_BAD_LABEL, 2, 0);
    /* labels that are not kept take no place */
    begin();
    add("DW L64\n");
    for (unsigned i = 1; i <= 63; i++) add_label(i);
    add("L64: FOO\nL65:");
    ANSWER(0, ROOM, ASSEMBLY_BAD_WORD, 65, 0);
}

/* Bytes, bit numbers and widths at their borders. */
static void test_34(void)
{
    DONE("DB 255,-128,0,0FF80H,65535,-1", "FF800080FFFF");
    REFUSED(34, 1, "DB 256");
    REFUSED(34, 1, "DB -129");
    REFUSED(34, 1, "DB 0FF7FH");
    REFUSED(34, 1, "DB 1,2,256");
    REFUSED(34, 1, "DB 8000H");
    REFUSED(34, 2, "NOP\nMOVBI GA,256");
    DONE("MOVBI GA,-128\nMOVBI [GA],255", "083080084CFF");
    REFUSED(34, 1, "MOVBI [GA],0FF7FH");
    REFUSED(34, 1, "TSL [GA],256,1000H");
    DONE("TSL [GA],-1,1000H", "1894FFFC");
    DONE("CLR [GA],7\nSETB [GA],0", "E0F800F4");
    REFUSED(34, 1, "CLR [GA],8");
    REFUSED(34, 1, "SETB [GA],-1");
    REFUSED(34, 1, "JBT [GA],8,1000H");
    REFUSED(34, 1, "LJBT [GA],0FFFFH,1000H");
    REFUSED(34, 1, "WID 9,16");
    REFUSED(34, 1, "WID 8,0");
    REFUSED(34, 1, "WID 0,8");
    REFUSED(34, 1, "WID 8,32");
}

/* Targets at the borders of one byte's reach, by numbers, across 65,535, and by labels. */
static void test_reach(void)
{
    DONE_AT(0, "JMP 82H", "88207F");
    DONE_AT(0, "JMP 3", "882000");
    DONE_AT(0, "JMP 0", "8820FD");
    DONE_AT(0, "JMP 0FF83H", "882080");
    REFUSED_AT(0, 34, 1, "JMP 83H");
    REFUSED_AT(0, 34, 1, "JMP 0FF82H");
    REFUSED_AT(0, 34, 1, "JMP 8003H");
    DONE_AT(0xFFF0, "JMP 72H", "88207F");
    REFUSED_AT(0xFFF0, 34, 1, "JMP 73H");
    DONE_AT(0xFFFE, "X: JMP X\nJMP X", "8820FD8820FA");
    DONE_AT(0xFFFD, "JMP 0\nJMP 0FFFFH", "8820008820FC");
    DONE_AT(0, "JZ GA,82H\nJBT [GA].1,3,86H", "08447F6ABC017F");
    REFUSED_AT(0, 34, 2, "JZ GA,82H\nJBT [GA].1,3,87H");
    DONE_AT(0x8000, "LJMP 4\nLJMP 8003H\nLJMP 8008H", "912000809120FBFF9120FCFF");
    for (unsigned more = 0; more < 2; more++) {
        begin();
        add("X:");
        add_filler(125 + more);
        add("JMP X\n");
        ANSWER(0xFFA0, ROOM, more ? ASSEMBLY_OUT_OF_RANGE : ASSEMBLY_DONE, more ? 2 : 0, more ? 0 : 128);
        begin();
        add("JMP X\n");
        add_filler(127 + more);
        add("X:");
        ANSWER(0xFFA0, ROOM, more ? ASSEMBLY_OUT_OF_RANGE : ASSEMBLY_DONE, more ? 1 : 0, more ? 0 : 130);
        begin();
        add("X:");
        add_filler(122 + more);
        add("TSL [GA].1,5,X-1\nX1: JNZ [GB].1,X1");
        ANSWER(1, ROOM, more ? ASSEMBLY_OUT_OF_RANGE : ASSEMBLY_DONE, more ? 2 : 0, more ? 0 : 131);
    }
}

/* Room, and what comes before it. */
static void test_35(void)
{
    begin();
    add("NOP\nX:\nLPDI GA,1,2\nY: ; \nDB 1,2,3");
    ANSWER(0, 11, ASSEMBLY_DONE, 0, 11);
    ANSWER(0, 10, ASSEMBLY_NO_ROOM, 5, 0);
    ANSWER(0, 8, ASSEMBLY_NO_ROOM, 5, 0);
    ANSWER(0, 7, ASSEMBLY_NO_ROOM, 3, 0);
    ANSWER(0, 2, ASSEMBLY_NO_ROOM, 3, 0);
    ANSWER(0, 1, ASSEMBLY_NO_ROOM, 1, 0);
    ANSWER(0, 0, ASSEMBLY_NO_ROOM, 1, 0);
    begin();
    add("X:\n\nY: ;\nNOP\nZ:\nFOO");
    ANSWER(0, 0, ASSEMBLY_NO_ROOM, 4, 0);
    ANSWER(0, 2, ASSEMBLY_BAD_WORD, 6, 0);
    begin();
    add("DB 1\nDB 256,2");
    ANSWER(0, 1, ASSEMBLY_OUT_OF_RANGE, 2, 0);
    ANSWER(0, 0, ASSEMBLY_NO_ROOM, 1, 0);
    begin();
    add("DB 1\nDB 256,Q");
    ANSWER(0, 1, ASSEMBLY_BAD_LABEL, 2, 0);
    begin();
    add("JMP Q\nFOO");
    ANSWER(0, 0, ASSEMBLY_BAD_LABEL, 1, 0);
}

/* A line of 30 to 32 has no bytes, one of 33 to 35 has its size; its label stands either way. */
static void test_behind_failed(void)
{
    static const struct {
        const char *line;
        unsigned number;
        bool has_bytes;
    } rows[] = {
        {"FOO 1,2", 30, false}, {"Y: FOO", 30, false},  {"MOVI GA", 31, false},  {"DB 1,2,GA", 31, false},
        {"DB 1,(((((((((2)))))))))", 32, false},        {"DB Q", 33, true},       {"GA: DB 1", 33, true},
        {"X: DB 1", 33, true},  {"DB 256", 34, true},   {"Y: X:", 30, false},     {"GA:", 33, false},
    };
    for (size_t i = 0; i < sizeof rows / sizeof rows[0]; i++) {
        begin();
        add(strcmp(rows[i].line, "X: DB 1") == 0 ? "X:\nJMP Z\n" : "\nJMP Z\n");
        add_filler(127);
        add(rows[i].line);
        add("\nZ:");
        ANSWER(0, ROOM, rows[i].has_bytes ? 34 : rows[i].number, rows[i].has_bytes ? 2 : 4, 0);
    }
    /* 35 changes no address */
    begin();
    add("JMP Z\n");
    add_filler(126);
    add("DB 1\nZ:");
    ANSWER(0, 129, ASSEMBLY_NO_ROOM, 3, 0);
    begin();
    add("JMP Z\n");
    add_filler(126);
    add("DB 1,2\nZ:");
    ANSWER(0, 129, ASSEMBLY_OUT_OF_RANGE, 1, 0);
    REFUSED(30, 2, "DW X\nX: FOO");
    REFUSED(31, 2, "DW X\nX: NOP 1");
    REFUSED(33, 1, "DW X,Q\nX: NOP 1");
}

/* ---- Much of something ---- */

/* Long lines, many lines, long constants and labels, more bytes than 65,536. */
static void test_much(void)
{
    begin();
    add("DB 1");
    add_times(1000000, " ");
    ANSWER(0, 1, ASSEMBLY_DONE, 0, 1);
    add(")");
    ANSWER(0, 1, ASSEMBLY_BAD_OPERANDS, 1, 0);
    begin();
    add_times(1000000, "\n");
    ANSWER(0, 0, ASSEMBLY_DONE, 0, 0);
    add("FOO");
    ANSWER(0, 0, ASSEMBLY_BAD_WORD, 1000001, 0);
    begin();
    add("DW ");
    add_times(1000, "1");
    ANSWER(0, ROOM, ASSEMBLY_DONE, 0, 2);
    CHECK(code[0] == 0xC7 && code[1] == 0x71);
    add("H");
    ANSWER(0, ROOM, ASSEMBLY_DONE, 0, 2);
    CHECK(code[0] == 0x11 && code[1] == 0x11);
    begin();
    add_times(100000, "A");
    add(": DB 1");
    ANSWER(0, ROOM, ASSEMBLY_BAD_LABEL, 1, 0);
    begin();
    add_times(100000, "A");
    ANSWER(0, ROOM, ASSEMBLY_BAD_WORD, 1, 0);
    begin();
    add("DW 5");
    add_times(100000, "-1+2");
    ANSWER(0, ROOM, ASSEMBLY_DONE, 0, 2);
    CHECK(code[0] == (100005 & 255) && code[1] == (100005 >> 8 & 255));
    begin();
    for (unsigned i = 0; i < 256; i++) add_filler(256);
    add("NOP\nX: DW X");
    ANSWER(0x1234, ROOM, ASSEMBLY_DONE, 0, 65540);
    CHECK(code[65538] == 0x36 && code[65539] == 0x12);
    ANSWER(0x1234, 65539, ASSEMBLY_NO_ROOM, 258, 0);
}

/* ---- Why 33 ---- */

/* Wants this fault of this label in a line of the text. */
static void fault(uint64_t line, enum label_fault want, const char *name, int from)
{
    struct faulty_label f = assembly_label((const uint8_t *)text, length, line);
    check(f.fault == want, "fault as wanted", from);
    check(f.length == strlen(name) && memcmp(text + f.at, name, f.length) == 0, name, from);
}

/* What is wrong with a label or a name, and where it stands. */
static void test_faults(void)
{
    begin();
    add("X: DW Y,Q,R\nY: DB (Q\nx: DW Q\n ABCDEFGHIJKLM : NOP\nlpd:\nPP: FOO\nDB [GA]\n");
    add("MOV [GA].Z,[GB].X\nDW ABCDEFGHIJKLM");
    fault(1, LABEL_UNKNOWN, "Q", __LINE__);
    fault(2, LABEL_GOOD, "", __LINE__);
    fault(3, LABEL_TWICE, "x", __LINE__);
    fault(4, LABEL_TOO_LONG, "ABCDEFGHIJKLM", __LINE__);
    fault(5, LABEL_RESERVED, "lpd", __LINE__);
    fault(6, LABEL_GOOD, "", __LINE__);
    fault(7, LABEL_GOOD, "", __LINE__);
    fault(8, LABEL_UNKNOWN, "Z", __LINE__);
    fault(9, LABEL_UNKNOWN, "ABCDEFGHIJKLM", __LINE__);
    fault(0, LABEL_GOOD, "", __LINE__);
    fault(10, LABEL_GOOD, "", __LINE__);
    begin();
    for (unsigned i = 1; i <= 66; i++) add_label(i);
    add("L5: NOP\nDW L66");
    fault(64, LABEL_GOOD, "", __LINE__);
    fault(65, LABEL_ONE_TOO_MANY, "L65", __LINE__);
    fault(66, LABEL_ONE_TOO_MANY, "L66", __LINE__);
    fault(67, LABEL_TWICE, "L5", __LINE__);
    fault(68, LABEL_UNKNOWN, "L66", __LINE__);
}

/* Runs every case and fails if one check did. */
int main(int argc, char **argv)
{
    test_notation(argc > 1 ? argv[1] : "host/emulator/notation.txt");
    test_sample(argc > 2 ? argv[2] : "examples/f59.asm");
    test_round_trip();
    test_empty();
    test_characters();
    test_nul();
    test_radixes();
    test_sums();
    test_memory();
    test_words();
    test_labels();
    test_30();
    test_31();
    test_32();
    test_33();
    test_label_count();
    test_34();
    test_reach();
    test_35();
    test_behind_failed();
    test_much();
    test_faults();
    printf("%lu checks, %lu failures\n", checks, failures);
    return failures == 0 ? 0 : 1;
}
