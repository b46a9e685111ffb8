/* The bench tool's PROM files: told by their content, read by the library, and what is wrong with one in words. */
#include "tool.h"

#include <inttypes.h>
#include <stdlib.h>
#include <string.h>

/* How much of a text is looked at to tell what it is, and the digits of the shortest record. */
enum { LOOKED_AT = 4096, LEAST_DIGITS = 10 };

/* ---- What a text is ---- */

/* Whether a character is a hexadecimal digit. */
static bool is_digit(uint8_t c)
{
    return (c >= '0' && c <= '9') || (c >= 'a' && c <= 'f') || (c >= 'A' && c <= 'F');
}

/* Whether a record's mark and the digits of a short one stand here: a colon, or S and a digit. */
static bool begins(struct tool_text text, size_t at, bool motorola)
{
    if (at + LEAST_DIGITS + 1 > text.length || text.bytes[at] != (motorola ? 'S' : ':')) return false;
    for (size_t i = 1; i <= LEAST_DIGITS - 2 + (motorola ? 0u : 2u); i++)
        if (!is_digit(text.bytes[at + i])) return false;
    return true;
}

/* Whether a text has a line of other characters before its first record. */
static bool has_title(struct tool_text text)
{
    for (size_t at = 0; at + 1 < text.length && at < LOOKED_AT; at++) {
        uint8_t c = text.bytes[at];
        if (c == '\n' && begins(text, at + 1, false)) return true;
        if (c == 127 || (c < 32 && c != '\n' && c != '\r' && c != '\t')) return false;
    }
    return false;
}

enum tool_form tool_form_of(const char *name, struct tool_text text)
{
    if (begins(text, 0, true)) {
        fflush(stdout);
        fprintf(stderr,
                "iop89: %s: a Motorola S file; write it as Intel hexadecimal with segmented addresses:\n"
                "    srec_cat %s -motorola -o %s.hex -intel -address-length=3\n"
                "iop89: or take its bytes as they are: -raw\n",
                name, name, name);
        exit(TOOL_FAILED);
    }
    return (text.length > 0 && text.bytes[0] == ':') || has_title(text) ? TOOL_HEX : TOOL_RAW;
}

/* ---- What is wrong with one ---- */

/* A line of a text, without its end. */
static struct tool_text line_of(struct tool_text text, uint32_t number)
{
    uint8_t *from = text.bytes, *end = text.bytes + text.length, *lf;
    while ((lf = memchr(from, '\n', (size_t)(end - from))) != NULL && --number > 0) from = lf + 1;
    if (lf != NULL) end = lf;
    while (end > from && end[-1] == '\r') end--;
    struct tool_text line = {from, (size_t)(end - from)};
    return line;
}

/* Says what a line is that is no record. */
static void say_no_record(struct tool_text line, uint32_t number)
{
    uint8_t last = line.length > 0 ? line.bytes[line.length - 1] : 0;
    if (line.length == 0) fputs(": an empty line; take it away", stderr);
    else if (line.bytes[0] != ':')
        fprintf(stderr, ":%s records begin with a colon; take the line away", number == 1 ? " a title?" : "");
    else if (last == ' ' || last == '\t')
        fputs(": blanks behind the record; take them away: sed 's/[[:blank:]]*$//'", stderr);
    else fputs(": not as many digits as its length says, or other characters", stderr);
}

/* Says which type a record has that is none here. */
static void say_bad_type(const char *name, struct tool_text line)
{
    const char *what = "", *type = line.length > 8 ? (const char *)line.bytes + 7 : "  ";
    if (memcmp(type, "04", 2) == 0) what = ", linear addresses";
    else if (memcmp(type, "05", 2) == 0) what = ", a linear start address";
    fprintf(stderr, ": type %.2s%s", type, what);
    if (what[0] == '\0') return;
    fputs("; write the file with segmented addresses:\n", stderr);
    fprintf(stderr, "    srec_cat %s -intel -o %s.seg.hex -intel -address-length=3", name, name);
}

/* Says which number refused a file, in words, at which line, and what to do; nothing is run after it. */
static _Noreturn void refuse(const char *name, struct tool_text text, iop89_load_answer answer)
{
    unsigned number = IOP89_LOAD_NUMBER(answer);
    struct tool_text line = line_of(text, IOP89_LOAD_LINE(answer));
    fflush(stdout);
    fprintf(stderr, "iop89: %s: line %" PRIu32 ": %u, %s", name, IOP89_LOAD_LINE(answer), number, iop89_load_words(number));
    if (number == IOP89_NO_RECORD) say_no_record(line, IOP89_LOAD_LINE(answer));
    if (number == IOP89_BAD_TYPE) say_bad_type(name, line);
    if (number == IOP89_NO_END) fputs(": the file is cut off? it ends with :00000001FF", stderr);
    fputc('\n', stderr);
    exit(TOOL_REFUSED);
}

/* ---- What one holds ---- */

/* A megabyte filled with one byte and a text read into it: where two fillings agree, a record has stored. */
static iop89_load_answer fill_and_load(struct tool_text text, uint8_t *bytes, int filling)
{
    memset(bytes, filling, TOOL_MOST);
    return iop89_load(text.bytes, text.length, bytes, TOOL_MOST);
}

uint32_t tool_each_byte(const char *name, struct tool_text text, void (*put)(void *to, uint32_t at, uint8_t byte), void *to)
{
    uint8_t *low = malloc(TOOL_MOST), *high = malloc(TOOL_MOST);
    if (low == NULL || high == NULL) tool_give_up("memory");
    iop89_load_answer answer = fill_and_load(text, low, 0x00);
    if (IOP89_LOAD_NUMBER(answer) != IOP89_DONE) refuse(name, text, answer);
    (void)fill_and_load(text, high, 0xFF);
    for (uint32_t at = 0; at < TOOL_MOST; at++)
        if (low[at] == high[at]) put(to, at, low[at]);
    free(low);
    free(high);
    return IOP89_LOAD_START(answer);
}

/* ---- The command that shows them ---- */

/* The bytes of a file, those that it stores marked. */
struct held {
    uint8_t bytes[TOOL_MOST], stored[TOOL_MOST];
};

/* Keeps a byte. */
static void keep(void *to, uint32_t at, uint8_t byte)
{
    struct held *held = to;
    held->bytes[at] = byte;
    held->stored[at] = 1;
}

/* Prints the bytes of a range, sixteen to a line. */
static void print_range(const uint8_t *bytes, size_t from, size_t to)
{
    printf("%05zX-%05zX  %zu bytes\n", from, to - 1, to - from);
    for (size_t at = from; at < to; at++) {
        if (at == from || at % 16 == 0) printf("  %05zX ", at);
        printf(" %02X", bytes[at]);
        if (at + 1 == to || at % 16 == 15) putchar('\n');
    }
}

/* Prints each range that a file stores, and how many bytes they are in all. */
static void print_held(const char *name, const struct held *held, uint32_t start)
{
    size_t total = 0, to = 0;
    printf("%s\n", name);
    for (size_t from = 0; from < TOOL_MOST; from = to) {
        for (to = from; to < TOOL_MOST && held->stored[to] == held->stored[from]; to++) continue;
        if (held->stored[from] == 0) continue;
        print_range(held->bytes, from, to);
        total += to - from;
    }
    printf("start %05" PRIX32 ", %zu bytes\n", start, total);
}

enum tool_status tool_show_files(const struct tool_order *order)
{
    for (unsigned i = 0; i < order->files; i++) {
        const struct tool_file *file = &order->file[i];
        struct tool_text text = tool_read_text(file->name);
        struct held *held = calloc(1, sizeof *held);
        if (held == NULL) tool_give_up("memory");
        if (file->form != TOOL_HEX && tool_form_of(file->name, text) != TOOL_HEX)
            tool_usage("load shows PROM files, and this one has no record", file->name);
        uint32_t start = tool_each_byte(file->name, text, keep, held);
        print_held(file->name, held, start);
        free(held);
        free(text.bytes);
    }
    return TOOL_DONE;
}
