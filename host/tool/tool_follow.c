/* The bench tool's listing of what is reached from the control block: the blocks and programs of both channels. */
#include "tool.h"

#include <inttypes.h>
#include <stdlib.h>
#include <string.h>

/* A program that is followed: its space, how long the line at each address is, which are targets, what is still to be
 * looked at, and the last number moved to CC. */
struct program {
    const uint8_t *code;
    size_t length;
    bool in_io;
    uint8_t line[TOOL_MOST], target[TOOL_MOST];
    uint32_t ahead[TOOL_MOST], cc;
    size_t waiting;
};

/* ---- The blocks ---- */

/* A word of system memory, 0 where it is not lent. */
static uint32_t word_at(const struct tool_memory *m, uint32_t at)
{
    uint32_t low = at & 0xFFFFFu, high = (at + 1) & 0xFFFFFu;
    return (low < m->sys_len ? m->sys[low] : 0u) | (high < m->sys_len ? (uint32_t)m->sys[high] << 8 : 0u);
}

/* The address that a doubleword pointer means: offset first, then segment. */
static uint32_t pointer_at(const struct tool_memory *m, uint32_t at)
{
    return (word_at(m, at + 2) * 16 + word_at(m, at)) & 0xFFFFFu;
}

/* ---- What is reached ---- */

/* Notes an address to be looked at. */
static void push(struct program *p, uint32_t at)
{
    if (at < p->length && p->line[at] == 0 && p->waiting < TOOL_MOST) p->ahead[p->waiting++] = at;
}

/* Whether a line begins with a word. */
static bool is(const char *line, const char *word)
{
    return strncmp(line, word, strlen(word)) == 0;
}

/* Whether nothing follows a line: the end, a jump, another value for TP, and what is no instruction. */
static bool ends(const char *line)
{
    static const char *const words[] = {"HLT",     "JMP ",     "LJMP ",   "DB ",     "MOVP TP,",
                                        "MOV TP,", "MOVI TP,", "LPD TP,", "LPDI TP,"};
    for (size_t i = 0; i < sizeof words / sizeof words[0]; i++)
        if (is(line, words[i])) return true;
    return false;
}

/* Notes a target. */
static void reach(struct program *p, uint32_t to)
{
    if (to < p->length) p->target[to] = 1;
    push(p, to);
}

/* Notes where a transfer behind this place may go on: at offset 4 or 8, by TX, TBC or TMC of the last CC. */
static void reach_ends(struct program *p, uint32_t at, uint32_t cc)
{
    if (at >= p->length) return;
    uint32_t end = at + (uint32_t)tool_first_line(p->code + at, p->length - at, at).bytes;
    const uint32_t offsets[] = {cc >> 5 & 3u, cc >> 3 & 3u, cc & 3u};
    for (unsigned i = 0; i < 3; i++)
        if (offsets[i] > 1) reach(p, end + 4 * (offsets[i] - 1));
}

/* Goes through the lines from an address on up to one that nothing follows, and notes their targets. */
static void walk(struct program *p, uint32_t at)
{
    while (at < p->length && p->line[at] == 0) {
        struct tool_line line = tool_first_line(p->code + at, p->length - at, at);
        uint32_t target = 0;
        p->line[at] = (uint8_t)line.bytes;
        if (tool_target(line.text, &target)) {
            uint32_t far = (target - at) & 0xFFFFu;
            reach(p, (at + (far < 0x8000u ? far : far | 0xFFFF0000u)) & 0xFFFFFu);
        }
        if (is(line.text, "MOVI CC,")) p->cc = (uint32_t)strtoul(line.text + 8, NULL, 16);
        if (is(line.text, "XFER")) reach_ends(p, at + (uint32_t)line.bytes, p->cc);
        if (ends(line.text)) return;
        at += (uint32_t)line.bytes;
    }
}

/* Prints the lines that were reached in the order of their addresses, parts of them apart. */
static void print_program(const struct program *p)
{
    uint32_t end = UINT32_MAX;
    int digits = 4;
    for (uint32_t at = 0x10000; at < p->length; at++)
        if (p->line[at] != 0) digits = 5;
    for (uint32_t at = 0; at < p->length; at++) {
        if (p->line[at] == 0) continue;
        struct tool_line line = tool_first_line(p->code + at, p->length - at, at);
        uint32_t target = 0;
        bool labelled = tool_target(line.text, &target) && target < p->length && p->line[target] != 0;
        if (end != UINT32_MAX && at != end) putchar('\n');
        if (p->target[at] != 0) printf("L%04" PRIX32 ":\n", at & 0xFFFFu);
        tool_print_line(p->code + at, at, digits, &line, labelled);
        end = at + p->line[at];
    }
}

/* Follows one program from an address on, and prints it. */
static void follow(const struct tool_memory *m, bool in_io, uint32_t at)
{
    struct program *p = calloc(1, sizeof *p);
    if (p == NULL) tool_give_up("memory");
    p->code = in_io ? m->io : m->sys;
    p->length = in_io ? m->io_len : m->sys_len;
    push(p, at);
    while (p->waiting > 0) walk(p, p->ahead[--p->waiting]);
    if (at >= p->length) puts("  its first byte is not lent");
    print_program(p);
    free(p);
}

/* ---- The command ---- */

/* Prints the blocks of a channel and, where its CCW starts one, its program; answers whether it does. */
static bool follow_channel(const struct tool_memory *m, uint32_t cp, unsigned channel)
{
    static const char *const commands[] = {"nothing more", "start in I/O space",  "no command", "start in system space",
                                           "no command",   "resume", "suspend",    "halt"};
    uint32_t block = (cp + 8 * (channel - 1)) & 0xFFFFFu, command = word_at(m, block) & 7u;
    bool starts = command == 1 || command == 3, in_io = command == 1;
    printf("channel %u: CCW %02" PRIX32 " at %05" PRIX32 ", %s", channel, word_at(m, block) & 0xFFu, block,
           commands[command]);
    if (!starts) {
        putchar('\n');
        return false;
    }
    uint32_t pb = pointer_at(m, block + 2), at = in_io ? word_at(m, pb) : pointer_at(m, pb);
    printf("; PB at %05" PRIX32 ", program at %05" PRIX32 "%s\n", pb, at, in_io ? "/io" : "");
    follow(m, in_io, at);
    return true;
}

enum tool_status tool_follow(const struct tool_order *order)
{
    uint8_t state[IOP89_STATE_LENGTH];
    if (order->has_from || order->has_first || order->source) tool_usage("-follow with -from, -first or -source", NULL);
    struct tool_memory memory = tool_load(order);
    unsigned number = tool_make_state(order, 0, state, &memory);
    if (number != IOP89_DONE) {
        printf("number %u: %s\n", number, iop89_service_words(number));
        return TOOL_REFUSED;
    }
    bool one = follow_channel(&memory, iop89_cp(state), 1), two = follow_channel(&memory, iop89_cp(state), 2);
    tool_free(memory);
    if (!one && !two) puts("nothing to list: no CCW starts a program");
    return one || two ? TOOL_DONE : TOOL_NEVER;
}
