/* The bench tool's listing of channel programs, with labels for targets, and the instruction at which a run was refused. */
#include "tool.h"

#include <inttypes.h>
#include <stdlib.h>
#include <string.h>

/* The first line of a part: listed once to see how long it is, and once more in just that room. */
struct tool_line tool_first_line(const uint8_t *code, size_t length, uint32_t first)
{
    struct tool_line line = {.bytes = 0};
    uint8_t text[TOOL_LINE] = {0};
    (void)iop89_list(code, length, first, text, sizeof text);
    const uint8_t *end = memchr(text, '\n', sizeof text);
    size_t room = end == NULL ? sizeof text : (size_t)(end - text) + 1;
    line.bytes = IOP89_LIST_STOP(iop89_list(code, length, first, text, room));
    memcpy(line.text, text, room - 1);
    return line;
}

/* ---- Targets ---- */

/* The words whose last operand is a target: jumps, calls and TSL. */
static bool has_target(const char *line)
{
    size_t length = strcspn(line, " ");
    if (line[0] == 'L' && (line[1] == 'J' || line[1] == 'C')) line++, length--;
    return line[0] == 'J' || (length == 4 && memcmp(line, "CALL", 4) == 0) || (length == 3 && memcmp(line, "TSL", 3) == 0);
}

bool tool_target(const char *line, uint32_t *target)
{
    const char *from = line + strlen(line), *end = from - 1;
    if (!has_target(line)) return false;
    while (from > line && from[-1] != ',' && from[-1] != ' ') from--;
    *target = (uint32_t)strtoul(from, NULL, 16);
    return end > from && *end == 'H';
}

/* ---- One line ---- */

int tool_digits(uint32_t first, size_t length)
{
    return length > 0 && first + (uint64_t)length > 0x10000u ? 5 : 4;
}

/* Prints a line's words, its target as a label where it has one. */
static void print_text(const struct tool_line *line, bool label)
{
    uint32_t target = 0;
    if (!label || !tool_target(line->text, &target)) {
        puts(line->text);
        return;
    }
    const char *last = strrchr(line->text, ',');
    if (last == NULL) last = strrchr(line->text, ' ');
    printf("%.*sL%04" PRIX32 "\n", (int)(last - line->text) + 1, line->text, target & 0xFFFFu);
}

void tool_print_line(const uint8_t *code, uint32_t address, int digits, const struct tool_line *line, bool label)
{
    printf("%0*" PRIX32 "  ", digits, address & 0xFFFFFu);
    for (size_t i = 0; i < line->bytes; i++) printf("%02X", code[i]);
    printf("%*s  ", line->bytes < 6 ? (int)(12 - 2 * line->bytes) : 0, "");
    print_text(line, label);
}

void tool_print_instruction(const uint8_t *code, size_t length, uint32_t address)
{
    if (length == 0) return;
    struct tool_line line = tool_first_line(code, length, address);
    printf("  ");
    tool_print_line(code, address, tool_digits(address, line.bytes), &line, false);
}

/* ---- A listing ---- */

/* Where lines begin, and which of them are targets, by their places from the first byte on, mod 65,536. */
enum { BEGINS = 1, TARGET = 2, LABELLED = 3, PLACES = 65536 };

/* Marks the lines and targets of some bytes; labels stand where a target is the first byte of a line. */
static void mark(uint8_t *marks, const uint8_t *code, size_t length, uint32_t first)
{
    for (size_t at = 0; at < length;) {
        struct tool_line line = tool_first_line(code + at, length - at, first + (uint32_t)at);
        uint32_t target = 0;
        marks[(first + at) % PLACES] |= BEGINS;
        if (tool_target(line.text, &target)) marks[target % PLACES] |= TARGET;
        at += line.bytes;
    }
}

/* How many labels there would be. */
static unsigned labels_in(const uint8_t *marks)
{
    unsigned count = 0;
    for (size_t i = 0; i < PLACES; i++) count += marks[i] == LABELLED;
    return count;
}

/* Whether the target of a line has a label. */
static bool goes_to_label(const struct tool_line *line, const uint8_t *marks)
{
    uint32_t target = 0;
    return tool_target(line->text, &target) && marks[target % PLACES] == LABELLED;
}

void tool_print_listing(const uint8_t *code, size_t length, uint32_t first, bool source, bool labels)
{
    uint8_t *marks = calloc(PLACES, 1);
    int digits = tool_digits(first, length);
    if (marks == NULL) tool_give_up("memory");
    /* Where addresses come round a label would stand twice. */
    if (labels && length <= PLACES) mark(marks, code, length, first);
    if (source && labels_in(marks) > 64) tool_usage("more than 64 labels, which asm does not keep", NULL);
    for (size_t at = 0; at < length;) {
        uint32_t address = first + (uint32_t)at;
        struct tool_line line = tool_first_line(code + at, length - at, address);
        bool label = goes_to_label(&line, marks);
        if (marks[address % PLACES] == LABELLED) printf("L%04" PRIX32 ":\n", address & 0xFFFFu);
        if (source) print_text(&line, label);
        else tool_print_line(code + at, address, digits, &line, label);
        at += line.bytes;
    }
    free(marks);
}

enum tool_status tool_list(const struct tool_order *order)
{
    if (order->follow) return tool_follow(order);
    struct tool_memory memory = tool_load(order);
    size_t from = order->from < memory.sys_len ? order->from : memory.sys_len;
    size_t length = memory.sys_len - from;
    bool labels = order->labels || (!order->source && !order->no_labels);
    if (order->count < length) length = order->count;
    if (length == 0) tool_usage("nothing to list: no byte is there", order->file[0].name);
    tool_print_listing(memory.sys + from, length, order->has_first ? order->first : order->from, order->source, labels);
    tool_free(memory);
    return TOOL_DONE;
}
