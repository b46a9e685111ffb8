/* Why a call was refused, in words: the address that is not lent, the argument, the fields, the byte of a state. */
#include "emulator/state_bytes.h"
#include "tool.h"

#include <inttypes.h>
#include <string.h>

/* ---- What a call touched ---- */

/* Writes a place as it is printed everywhere. */
static int write_place(char *to, size_t room, uint32_t place)
{
    return snprintf(to, room, "%05" PRIX32 "%s", IOP89_PLACE_ADDRESS(place), IOP89_PLACE_IO(place) ? "/io" : "");
}

void tool_print_bus(const struct tool_machine *m)
{
    for (unsigned i = 0; m->order->bus && i < m->bus.touched; i++) {
        char place[16];
        bool stored = IOP89_PLACE_STORE(m->bus.place[i]) != 0, done = IOP89_ANSWER_NUMBER(m->answer) == IOP89_DONE;
        write_place(place, sizeof place, m->bus.place[i]);
        printf("    %s %s", stored ? "store" : "read ", place);
        if (IOP89_PLACE_BEYOND(m->bus.place[i])) puts(": not lent");
        else if (done || !stored) printf(": %02X\n", m->bus.byte[i]);
        else putchar('\n');
    }
}

/* Writes so many bytes of a transfer step, and where they begin; answers how many characters. */
static int write_side(char *to, size_t room, const struct card_bus *bus, unsigned from, unsigned count)
{
    if (count == 0) return 0;
    int length = snprintf(to, room, IOP89_PLACE_STORE(bus->place[from]) ? "to " : "from ");
    length += write_place(to + length, room - (size_t)length, bus->place[from]);
    to[length++] = ':';
    for (unsigned i = from; i < from + count; i++)
        length += snprintf(to + length, room - (size_t)length, " %02X", bus->byte[i]);
    return length;
}

/* Of the bytes that a transfer step read the last one is the table's where it translates. */
static void write_moved(char tail[64], const struct card_bus *bus, bool translates)
{
    int length = write_side(tail, 64, bus, 0, translates ? 1 : bus->reads);
    if (length > 0 && bus->touched > bus->reads) tail[length++] = ' ';
    length += write_side(tail + length, 64 - (size_t)length, bus, bus->reads, bus->touched - bus->reads);
    tail[length] = '\0';
}

/* The code of an instruction is what it read first. */
void tool_write_tail(char tail[64], const struct tool_machine *m, const uint8_t *before)
{
    unsigned channel = IOP89_ANSWER_CHANNEL(m->answer), kind = IOP89_ANSWER_KIND(m->answer);
    tail[0] = '\0';
    if (kind == IOP89_EXTERNAL_END) strcpy(tail, "external end");
    if (kind == IOP89_TRANSFER) write_moved(tail, &m->bus, iop89_get(before, channel, IOP89_TRANSLATE) != 0);
    if (kind == IOP89_INSTRUCTION)
        snprintf(tail, 64, "%s", tool_first_line(m->bus.byte, m->bus.reads, iop89_get(before, channel, IOP89_TP)).text);
}

/* ---- Why it was refused ---- */

/* The place at which a call stops that is refused by 2. */
static uint32_t beyond(const uint8_t *state, const struct tool_memory *m, struct bus_call call)
{
    uint32_t places[IOP89_PLACES];
    size_t n = IOP89_STATE_LENGTH;
    iop89_answer told;
    if (call.kind == BUS_POWER_UP)
        told = iop89_touches_power_up(state, n, m->sys, m->sys_len, m->io, m->io_len, places, IOP89_PLACES);
    else if (call.kind == BUS_ATTENTION)
        told = iop89_touches_attention(state, n, m->sys, m->sys_len, m->io, m->io_len, call.value, places, IOP89_PLACES);
    else told = iop89_touches_step(state, n, m->sys, m->sys_len, m->io, m->io_len, call.value, places, IOP89_PLACES);
    return iop89_beyond(places, IOP89_ANSWER_COUNT(told));
}

/* Prints the first byte that is not lent. */
static void print_beyond(const char *whose, const uint8_t *state, const struct tool_memory *memory, struct bus_call call)
{
    uint32_t place = beyond(state, memory, call);
    if (place == IOP89_NO_PLACE) return;
    printf("%s%s %05" PRIX32 " of system space: %zu bytes are lent\n", whose, IOP89_PLACE_STORE(place) ? "stores at" : "reads",
           IOP89_PLACE_ADDRESS(place), memory->sys_len);
}

/* Prints the fields of CC that differ. */
static void print_fields(const char *whose, struct iop89_cause cause)
{
    printf("%schannel %u: CC is %04" PRIX32 ", and these fields beside it are others:", whose, cause.channel, cause.value);
    for (unsigned i = 0; i < EMU_FIELDS; i++)
        if ((cause.fields & emu_field_bits(i)) != 0) printf(" %s,", emu_field_name(i));
    puts(" which iop89_set_cc sets with CC");
}

/* Prints the byte that makes a state none. */
static void print_no_state(const char *whose, struct iop89_cause cause, const uint8_t *state)
{
    static const char *const of_channel[] = {"", " of channel 1", " of channel 2"};
    struct emu_state unused;
    enum state_fault fault = state_from_bytes(state, IOP89_STATE_LENGTH, &unused);
    if (cause.at == IOP89_AT_VERSION)
        printf("%sversion %" PRIu32 ", this library has %" PRIu32 "\n", whose, cause.value, cause.most);
    else
        printf("%sbyte %zu, %s%s, is %" PRIu32 ", and the most is %" PRIu32 "\n", whose, cause.at, state_fault_name(fault),
               of_channel[cause.channel], cause.value, cause.most);
}

/* Prints the mode in which a channel was for a command that asks for another one. */
static void print_command(const char *whose, const uint8_t *state, uint32_t channel)
{
    static const char *const modes[] = {"idle", "running", "suspended"};
    uint32_t mode = iop89_get(state, channel, IOP89_MODE);
    printf("%schannel %" PRIu32 " is %s, CCW at %05" PRIX32 "\n", whose, channel, mode < 3 ? modes[mode] : "in no mode",
           (iop89_cp(state) + 8 * (channel - 1)) & 0xFFFFFu);
}

/* Prints which argument is none, and what it is. */
static void print_argument(const char *whose, uint32_t channel, uint32_t lines, uint32_t limit)
{
    switch (iop89_wrong_argument(1, channel, lines, limit)) {
    case IOP89_CHANNEL: printf("%sthe channel, 1 or 2, is %" PRIu32 "\n", whose, channel); break;
    case IOP89_LINES: printf("%sthe line number, at most 15, is %" PRIu32 "\n", whose, lines); break;
    case IOP89_LIMIT: printf("%sthe step limit, at most 65535, is %" PRIu32 "\n", whose, limit); break;
    default: break;
    }
}

void tool_print_cause(const char *whose, unsigned number, const uint8_t *state, const struct tool_memory *memory,
                      struct bus_call call)
{
    struct iop89_cause cause = iop89_cause(number, state, IOP89_STATE_LENGTH);
    if (number == IOP89_BEYOND_MEMORY) print_beyond(whose, state, memory, call);
    else if (number >= IOP89_BAD_COMMAND && number <= IOP89_NOT_RUNNING) print_command(whose, state, call.value);
    else if (number == IOP89_FIELDS_DISAGREE) print_fields(whose, cause);
    else if (number == IOP89_NO_STATE) print_no_state(whose, cause, state);
    else if (number == IOP89_BAD_ARGUMENT)
        print_argument(whose, call.kind == BUS_ATTENTION ? call.value : 1, call.kind == BUS_ATTENTION ? 0 : call.value, 0);
    else if (number == IOP89_BAD_BUFFER)
        printf("%ssystem memory has %zu bytes of at most 1048576, I/O memory %zu of at most 65536\n", whose, memory->sys_len,
               memory->io_len);
    else if (number == IOP89_BAD_POINTER && cause.value != 0)
        printf("%sthe address at byte %zu of the state is %" PRIX32 "\n", whose, cause.at, cause.value);
}

void tool_print_argument(unsigned number, const struct tool_order *order)
{
    const struct tool_processor *p = &order->of[0];
    if (number == IOP89_BAD_ARGUMENT) print_argument("", p->channel[0], p->lines.number[0], order->limit);
}
