/* Reads the words of the bench tool's command line that have a form of their own: numbers, line numbers, settings, spaces. */
#include "tool.h"

#include <stdlib.h>
#include <string.h>

/* A digit's value, or 16 for any other character. */
static unsigned digit(char c)
{
    if (c >= '0' && c <= '9') return (unsigned)(c - '0');
    if (c >= 'a' && c <= 'f') return (unsigned)(c - 'a') + 10;
    if (c >= 'A' && c <= 'F') return (unsigned)(c - 'A') + 10;
    return 16;
}

/* Decimal, or hexadecimal behind 0x; a leading 0 alone means nothing. */
const char *tool_read_number(const char *from, size_t length, uint32_t *number)
{
    bool hex = length >= 2 && from[0] == '0' && (from[1] == 'x' || from[1] == 'X');
    unsigned base = hex ? 16 : 10;
    uint64_t value = 0;
    size_t at = hex ? 2 : 0;
    if (at == length) return "not a number";
    for (; at < length; at++) {
        if (digit(from[at]) >= base) return "not a number";
        value = value * base + digit(from[at]);
        if (value > UINT32_MAX) return "a number over 4,294,967,295";
    }
    *number = (uint32_t)value;
    return NULL;
}

void tool_add_line(struct tool_lines *lines, uint32_t number)
{
    if (lines->count == lines->room) {
        lines->room = lines->room == 0 ? 16 : 2 * lines->room;
        lines->number = realloc(lines->number, lines->room * sizeof lines->number[0]);
        if (lines->number == NULL) tool_give_up("memory");
    }
    lines->number[lines->count++] = number;
}

/* Commas alone stand between those of a word; a text has blanks and ends of lines too, and # before what is left out. */
const char *tool_read_lines(const char *from, size_t length, struct tool_lines *lines)
{
    const char *end = from + length;
    while (from < end) {
        size_t skipped = strspn(from, " \t\r\n,");
        if (from[skipped] == '#') skipped += strcspn(from + skipped, "\n");
        from += skipped;
        if (skipped > 0) continue;
        size_t taken = strcspn(from, " \t\r\n,#");
        uint32_t number = 0;
        const char *complaint = tool_read_number(from, taken, &number);
        if (complaint != NULL) return complaint;
        tool_add_line(lines, number);
        from += taken;
    }
    return lines->count == 0 ? "no line number" : NULL;
}

/* A register that can be set, by its name; pointers may have /io behind their value. */
static const struct {
    const char *name;
    enum iop89_register which;
    uint32_t most;
} settable[] = {
    {"GA", IOP89_GA, 0xFFFFF}, {"GB", IOP89_GB, 0xFFFFF}, {"GC", IOP89_GC, 0xFFFFF}, {"TP", IOP89_TP, 0xFFFFF},
    {"PP", IOP89_PP, 0xFFFFF}, {"BC", IOP89_BC, 0xFFFF},  {"IX", IOP89_IX, 0xFFFF},  {"CC", IOP89_CC, 0xFFFF},
    {"MC", IOP89_MC, 0xFFFF},  {"PSW", IOP89_PSW, 0xFF},
};

/* Takes /io off the end of a value of so many characters. */
static bool in_io_space(const char *value, size_t *length)
{
    if (*length < 3 || memcmp(value + *length - 3, "/io", 3) != 0) return false;
    *length -= 3;
    return true;
}

const char *tool_read_setting(const char *word, struct tool_setting *setting)
{
    const char *equals = strchr(word, '=');
    setting->channel = 0;
    if (word[0] != '\0' && word[1] == ':') {
        setting->channel = (unsigned)(word[0] - '0');
        if (setting->channel != 1 && setting->channel != 2) return "no channel";
        word += 2;
    }
    if (equals == NULL || equals < word) return "no REGISTER=VALUE";
    size_t length = strlen(equals + 1), name = (size_t)(equals - word);
    setting->in_io = in_io_space(equals + 1, &length);
    for (size_t i = 0; i < sizeof settable / sizeof settable[0]; i++) {
        if (strlen(settable[i].name) != name || strncmp(settable[i].name, word, name) != 0) continue;
        setting->which = settable[i].which;
        const char *complaint = tool_read_number(equals + 1, length, &setting->value);
        if (complaint != NULL) return complaint;
        if (setting->value > settable[i].most) return "more than the register holds";
        return setting->in_io && setting->which > IOP89_TP ? "no pointer with a space" : NULL;
    }
    return "no register: GA, GB, GC, TP, PP, BC, IX, CC, MC or PSW";
}

const char *tool_read_space(const char *word, bool *in_io, bool *second)
{
    *second = strcmp(word, "io2") == 0;
    *in_io = *second || strcmp(word, "io") == 0;
    return *in_io || strcmp(word, "sys") == 0 ? NULL : "no space, sys or io";
}
