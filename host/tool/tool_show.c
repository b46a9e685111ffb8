/* What the bench tool prints of a machine: steps, registers, numbers with where the channels stand, and bytes. */
#include "examples/changes.h"
#include "tool.h"

#include <inttypes.h>
#include <string.h>

/* ---- Registers ---- */

/* A register in the order of a line, with the digits of its value. */
struct shown_register {
    enum iop89_register which;
    const char *name;
    int digits;
};

static const struct shown_register registers[] = {
    {IOP89_GA, "GA", 5}, {IOP89_GB, "GB", 5}, {IOP89_GC, "GC", 5}, {IOP89_PP, "PP", 5},   {IOP89_BC, "BC", 4},
    {IOP89_IX, "IX", 4}, {IOP89_CC, "CC", 4}, {IOP89_MC, "MC", 4}, {IOP89_PSW, "PSW", 2},
};

enum { REGISTERS = sizeof registers / sizeof registers[0] };

/* Whether a register is a pointer with a tag behind its address. */
static bool has_tag(enum iop89_register which)
{
    return which == IOP89_GA || which == IOP89_GB || which == IOP89_GC;
}

/* The tag of such a register, 0 for any other. */
static uint32_t tag_of(const uint8_t *state, unsigned channel, enum iop89_register which)
{
    return has_tag(which) ? state[IOP89_AT_CHANNEL(channel) + (size_t)which + 4] : 0;
}

/* What a mode is called. */
static const char *mode_name(uint32_t mode)
{
    static const char *const names[] = {"idle", "running", "suspended"};
    return mode < 3 ? names[mode] : "no mode";
}

void tool_print_tp(const uint8_t *state, unsigned channel)
{
    const char *space = iop89_get(state, channel, IOP89_TP_TAG) != 0 ? "/io" : "";
    printf("%05" PRIX32 "%s", iop89_get(state, channel, IOP89_TP), space);
}

/* Prints a register with its value. */
static void print_register(const uint8_t *state, unsigned channel, size_t i)
{
    enum iop89_register which = registers[i].which;
    printf(" %s=%0*" PRIX32 "%s", registers[i].name, registers[i].digits, iop89_get(state, channel, which),
           tag_of(state, channel, which) != 0 ? "/io" : "");
}

/* Prints what a channel holds between the halves of a pair: the byte, or that there is none. */
static void print_held(uint32_t held)
{
    if (held == 0) fputs(" held=none", stdout);
    else printf(" held=%02" PRIX32, held & 0xFFu);
}

void tool_print_changes(const uint8_t *before, const uint8_t *state, unsigned channel)
{
    for (size_t i = 0; i < REGISTERS; i++) {
        enum iop89_register which = registers[i].which;
        bool same = iop89_get(state, channel, which) == iop89_get(before, channel, which);
        if (!same || tag_of(state, channel, which) != tag_of(before, channel, which)) print_register(state, channel, i);
    }
    uint32_t mode = iop89_get(state, channel, IOP89_MODE), armed = iop89_get(state, channel, IOP89_ARMED);
    uint32_t held = iop89_get(state, channel, IOP89_HELD);
    if (held != iop89_get(before, channel, IOP89_HELD)) print_held(held);
    if (mode != iop89_get(before, channel, IOP89_MODE)) printf(" %s", mode_name(mode));
    if (armed != iop89_get(before, channel, IOP89_ARMED)) printf(" %s", armed ? "armed" : "unarmed");
}

void tool_print_registers(const uint8_t *state)
{
    printf("CP %05" PRIX32 ", channel %u stepped last\n", iop89_cp(state), iop89_last(state));
    for (unsigned channel = 1; channel <= 2; channel++) {
        printf("channel %u: %s TP=", channel, mode_name(iop89_get(state, channel, IOP89_MODE)));
        tool_print_tp(state, channel);
        for (size_t i = 0; i < REGISTERS; i++) print_register(state, channel, i);
        print_held(iop89_get(state, channel, IOP89_HELD));
        puts(iop89_get(state, channel, IOP89_ARMED) != 0 ? " armed" : "");
    }
}

/* ---- Steps ---- */

void tool_print_header(const struct tool_order *order)
{
    if (!order->no_header) printf("step %schannel kind bytes TP changed  ; instruction\n", order->pair ? "processor " : "");
}

void tool_print_done(iop89_answer answer, const uint8_t *before, const uint8_t *state, const char *tail)
{
    unsigned channel = IOP89_ANSWER_CHANNEL(answer);
    printf(" %u %c %u ", channel, "-ITX"[IOP89_ANSWER_KIND(answer)], (unsigned)IOP89_ANSWER_COUNT(answer));
    tool_print_tp(state, channel);
    tool_print_changes(before, state, channel);
    printf("%s%s\n", tail[0] != '\0' ? "  ; " : "", tail);
}

/* A line for each of them. */
void tool_print_waiting(const char *whose, uint32_t number, const uint8_t *state)
{
    for (unsigned channel = 1; channel <= 2; channel++) {
        if (iop89_get(state, channel, IOP89_MODE) != IOP89_RUNNING) continue;
        printf("%" PRIu32 " %s%u - 0 ", number, whose, channel);
        tool_print_tp(state, channel);
        puts(" waits");
    }
}

void tool_print_count(iop89_answer answer)
{
    unsigned count = IOP89_ANSWER_COUNT(answer);
    printf(", %u byte%s\n", count, count == 1 ? "" : "s");
}

unsigned tool_print_attention(const char *whose, uint32_t channel, iop89_answer answer)
{
    unsigned number = IOP89_ANSWER_NUMBER(answer);
    printf("%sattention to channel %" PRIu32 ": %s", whose, channel, number == IOP89_DONE ? "accepted" : "refused\n");
    if (number == IOP89_DONE) tool_print_count(answer);
    return number;
}

/* ---- Numbers ---- */

/* Prints the instruction at a channel's TP, as far as its bytes are lent. */
static void print_here(const uint8_t *state, unsigned channel, const struct tool_memory *memory)
{
    bool in_io = iop89_get(state, channel, IOP89_TP_TAG) != 0;
    uint32_t at = iop89_get(state, channel, IOP89_TP) & (in_io ? 0xFFFFu : 0xFFFFFu);
    size_t length = in_io ? memory->io_len : memory->sys_len;
    if (at < length) tool_print_instruction((in_io ? memory->io : memory->sys) + at, length - at, at);
}

void tool_print_never(const char *whose, const uint8_t *state, const struct tool_memory *memory, uint32_t channel)
{
    uint32_t block = (iop89_cp(state) + (channel == 2 ? 8u : 0u)) & 0xFFFFFu;
    unsigned command = block < memory->sys_len ? memory->sys[block] & 7u : 0;
    const char *words = command == 7 ? "halt command: nothing ran (" : "never started: command 000 (nothing more; ";
    if (command == 0 || command == 7)
        printf("%s%schannel %" PRIu32 ", CCW at %05" PRIX32 ")\n", whose, words, channel, block);
    else printf("%snever started: no channel runs\n", whose);
}

void tool_print_number(const char *whose, unsigned number, const char *words, const uint8_t *state,
                       const struct tool_memory *memory, uint32_t steps)
{
    printf("%snumber %u: %s\n", whose, number, words);
    for (unsigned channel = 1; number != IOP89_DONE && channel <= 2; channel++) {
        if (iop89_get(state, channel, IOP89_MODE) != IOP89_RUNNING) continue;
        printf("%schannel %u %s, TP ", whose, channel, number == IOP89_NO_CHANNEL ? "waits" : "runs");
        tool_print_tp(state, channel);
        putchar('\n');
        if (number != IOP89_NO_CHANNEL) print_here(state, channel, memory);
    }
    if (number == IOP89_NO_CHANNEL && !tool_runs(state) && steps > 0) printf("%shalted\n", whose);
}

/* ---- Bytes ---- */

/* Sixteen bytes to a row, -- where nothing is lent. */
void tool_print_range(struct tool_range range, const struct tool_memory *m)
{
    const uint8_t *bytes = range.in_io ? m->io : m->sys;
    const char *space = range.second ? "/io2" : range.in_io ? "/io" : "";
    size_t length = range.in_io ? m->io_len : m->sys_len;
    for (uint32_t k = 0; k < range.count; k++) {
        uint32_t at = range.from + k;
        if (k % 16 == 0) printf("%s%05" PRIX32 "%s:", k > 0 ? "\n" : "", at, space);
        if (at < length) printf(" %02X", bytes[at]);
        else fputs(" --", stdout);
    }
    if (range.count > 0) putchar('\n');
}

void tool_print_shown(const struct tool_order *order, const struct tool_memory *memory)
{
    for (unsigned i = 0; i < order->ranges; i++) tool_print_range(order->shown[i], &memory[order->shown[i].second ? 1 : 0]);
}

void tool_print_diff_of(const char *space, uint8_t *before, uint8_t *now, size_t length)
{
    struct lent lent = {before, now, length};
    print_changes(space, &lent);
}

void tool_print_diff(const struct tool_memory *before, const struct tool_memory *now)
{
    tool_print_diff_of("system memory", before->sys, now->sys, now->sys_len);
    tool_print_diff_of("I/O memory", before->io, now->io, now->io_len);
}
