/* A machine that the bench tool steps: made, attended, its ports filled, stepped once at a time, and stopped. */
#include "tool.h"

#include <inttypes.h>
#include <stdlib.h>
#include <string.h>

/* ---- Single calls ---- */

iop89_answer tool_attend(uint8_t *state, struct tool_memory *m, uint32_t channel)
{
    return iop89_attention(state, IOP89_STATE_LENGTH, m->sys, m->sys_len, m->io, m->io_len, channel);
}

iop89_answer tool_do_step(uint8_t *state, struct tool_memory *m, uint32_t lines)
{
    return iop89_step(state, IOP89_STATE_LENGTH, m->sys, m->sys_len, m->io, m->io_len, lines);
}

/* Reads a saved state; whether its bytes are one the calls themselves test. */
static unsigned read_state(const char *name, uint8_t *state)
{
    struct tool_text text = tool_read_text(name);
    if (text.length != IOP89_STATE_LENGTH) tool_usage("a state has 104 bytes, and this file other ones", name);
    memcpy(state, text.bytes, IOP89_STATE_LENGTH);
    free(text.bytes);
    struct iop89_cause cause = iop89_cause(IOP89_NO_STATE, state, IOP89_STATE_LENGTH);
    return cause.value != cause.most ? IOP89_NO_STATE : IOP89_DONE;
}

/* Prints what a power-up found. */
static void print_power_up(iop89_answer answer, const uint8_t *state)
{
    if (IOP89_ANSWER_NUMBER(answer) != IOP89_DONE) {
        puts("power-up: refused");
        return;
    }
    printf("power-up: CP %05" PRIX32 ", SYSBUS bit 0 %u, SOC bit 0 %u, SOC bit 1 %u", iop89_cp(state),
           state[IOP89_AT_SYSBUS], state[IOP89_AT_SOC], state[IOP89_AT_SOC_1]);
    tool_print_count(answer);
}

unsigned tool_make_state(const struct tool_order *order, unsigned which, uint8_t *state, struct tool_memory *m)
{
    const struct tool_processor *processor = &order->of[which];
    if (processor->state != NULL) return read_state(processor->state, state);
    if (!order->board || which != 0) return IOP89_ANSWER_NUMBER(iop89_fresh(state, IOP89_STATE_LENGTH, processor->cp));
    (void)iop89_reset(state, IOP89_STATE_LENGTH);
    iop89_answer answer = iop89_power_up(state, IOP89_STATE_LENGTH, m->sys, m->sys_len, m->io, m->io_len);
    print_power_up(answer, state);
    return IOP89_ANSWER_NUMBER(answer);
}

/* ---- One of two: the same calls, with the other one beside it ---- */

/* The machine of a processor, 0 for the first. */
static struct tool_machine *of_pair(struct tool_machine *m, unsigned which)
{
    return m->which == which ? m : m->other;
}

/* An attention and a step of a machine, alone or of a pair. */
static iop89_answer attention_of(struct tool_machine *m, uint32_t channel)
{
    if (m->other == NULL) return tool_attend(m->state, &m->memory, channel);
    struct tool_machine *one = of_pair(m, 0), *two = of_pair(m, 1);
    return iop89_pair_attention(1 + m->which, one->state, IOP89_STATE_LENGTH, two->state, IOP89_STATE_LENGTH,
                                m->memory.sys, m->memory.sys_len, one->memory.io, one->memory.io_len, two->memory.io,
                                two->memory.io_len, channel);
}

static iop89_answer step_of(struct tool_machine *m, uint32_t lines)
{
    if (m->other == NULL) return tool_do_step(m->state, &m->memory, lines);
    struct tool_machine *one = of_pair(m, 0), *two = of_pair(m, 1);
    return iop89_pair_step(1 + m->which, one->state, IOP89_STATE_LENGTH, two->state, IOP89_STATE_LENGTH, m->memory.sys,
                           m->memory.sys_len, one->memory.io, one->memory.io_len, two->memory.io, two->memory.io_len, lines);
}

const char *tool_whose(const struct tool_machine *m)
{
    return m->other == NULL ? "" : m->which == 0 ? "P1 " : "P2 ";
}

const struct tool_processor *tool_asked(const struct tool_machine *m)
{
    return &m->order->of[m->which];
}

/* Whether something of the order is this machine's: of memory's spaces only I/O memory is one processor's own. */
static bool is_own(const struct tool_machine *m, bool second)
{
    return second == (m->which != 0);
}

static bool is_in(const struct tool_machine *m, bool in_io, bool second, uint32_t place)
{
    return (IOP89_PLACE_IO(place) != 0) == in_io && (!in_io || is_own(m, second));
}

/* ---- From the first call on ---- */

/* Gives one attention over the bus, with a line unless it is to be quiet. */
static unsigned attend(struct tool_machine *m, uint32_t channel, bool quiet)
{
    m->last.kind = BUS_ATTENTION;
    m->last.value = channel;
    bus_fetch(&m->bus, m->state, m->last);
    m->answer = attention_of(m, channel);
    bus_hand_over(&m->bus, m->answer);
    if (quiet) return IOP89_ANSWER_NUMBER(m->answer);
    unsigned number = tool_print_attention(tool_whose(m), channel, m->answer);
    tool_print_bus(m);
    return number;
}

/* Sets the registers that an order asks for; CC with its fields, a pointer with its space. */
static void set_registers(struct tool_machine *m)
{
    const struct tool_processor *processor = tool_asked(m);
    for (unsigned i = 0; i < m->order->settings; i++) {
        const struct tool_setting *s = &m->order->setting[i];
        uint32_t channel = s->channel != 0 ? s->channel : processor->channels > 0 ? processor->channel[0] : 1;
        if (!is_own(m, s->second)) continue;
        if (s->which == IOP89_CC) iop89_set_cc(m->state, channel, s->value);
        else iop89_set(m->state, channel, s->which, s->value);
        if (s->which <= IOP89_TP && (channel == 1 || channel == 2))
            m->state[IOP89_AT_CHANNEL(channel) + (size_t)s->which + 4] = s->in_io;
    }
}

/* What a port gives: the next byte of its text, which a port in system memory has for both of a pair, or, behind its last
 * one, what memory has. */
static uint8_t read_port(void *own, uint32_t address)
{
    const struct tool_reader *reader = own;
    struct tool_machine *m = reader->machine;
    size_t *next = &m->next[reader->port];
    const struct tool_text *text = &m->text[reader->port];
    if (*next >= text->length) return (m->order->port[reader->port].in_io ? m->memory.io : m->memory.sys)[address];
    uint8_t byte = text->bytes[(*next)++];
    if (m->other != NULL) m->other->next[reader->port] = *next;
    return byte;
}

/* Puts the order's ports on the machine's bus; that of the other one's I/O memory has no address here. */
static void plug(struct tool_machine *m)
{
    for (unsigned i = 0; i < m->order->ports; i++) {
        const struct tool_port *port = &m->order->port[i];
        bool own = !port->in_io || is_own(m, port->second);
        struct tool_reader reader = {m, i};
        m->reader[i] = reader;
        struct card card = {port->at, own ? 1 : 0, port->in_io, read_port, NULL, &m->reader[i]};
        m->card[i] = card;
        m->text[i] = tool_read_text(port->name);
    }
    struct card_bus bus = {.sys = m->memory.sys, .io = m->memory.io, .sys_len = m->memory.sys_len, .io_len = m->memory.io_len,
                           .card = m->card, .cards = m->order->ports};
    m->bus = bus;
}

void tool_make(struct tool_machine *m, const struct tool_order *order, unsigned which, struct tool_memory memory)
{
    memset(m, 0, sizeof *m);
    m->order = order;
    m->which = which;
    m->memory = memory;
    m->given = tool_copy(memory);
    m->last.kind = BUS_POWER_UP;
    plug(m);
}

unsigned tool_begin(struct tool_machine *m)
{
    return tool_make_state(m->order, m->which, m->state, &m->memory);
}

unsigned tool_attend_all(struct tool_machine *m, bool quiet)
{
    const struct tool_processor *processor = tool_asked(m);
    unsigned number = IOP89_DONE;
    for (unsigned i = 0; number == IOP89_DONE && i < processor->channels; i++)
        number = attend(m, processor->channel[i], quiet);
    if (number == IOP89_DONE) set_registers(m);
    return number;
}

unsigned tool_start(struct tool_machine *m, const struct tool_order *order, bool quiet)
{
    tool_make(m, order, 0, tool_load(order));
    unsigned number = tool_begin(m);
    return number == IOP89_DONE ? tool_attend_all(m, quiet) : number;
}

/* System memory is the first one's. */
void tool_end(struct tool_machine *m)
{
    for (unsigned i = 0; i < m->order->ports; i++) free(m->text[i].bytes);
    if (m->which == 0) tool_free(m->memory);
    else tool_free_second(m->memory);
    tool_free(m->given);
}

/* ---- Attentions between steps ---- */

const struct tool_event *tool_due(const struct tool_machine *m, uint32_t step)
{
    for (unsigned i = 0; i < m->order->events; i++) {
        const struct tool_event *event = &m->order->event[i];
        if (event->step == step && is_own(m, event->second) && (m->attended >> i & 1u) == 0) return event;
    }
    return NULL;
}

unsigned tool_give(struct tool_machine *m, const struct tool_event *event, bool quiet)
{
    uint32_t block = (iop89_cp(m->state) + (event->channel == 2 ? 8u : 0u)) & 0xFFFFFu;
    if (event->has_ccw && block < m->memory.sys_len) m->memory.sys[block] = (uint8_t)event->ccw;
    if (event->place < TOOL_EVENTS) m->attended |= (uint64_t)1 << event->place;
    return attend(m, event->channel, quiet);
}

unsigned tool_give_due(struct tool_machine *m, uint32_t step, bool quiet)
{
    const struct tool_event *event;
    unsigned number = IOP89_DONE;
    while (number == IOP89_DONE && (event = tool_due(m, step)) != NULL) number = tool_give(m, event, quiet);
    return number;
}

uint32_t tool_next_due(const struct tool_order *order, uint32_t behind)
{
    uint32_t next = UINT32_MAX;
    for (unsigned i = 0; i < order->events; i++)
        if (order->event[i].step > behind && order->event[i].step < next) next = order->event[i].step;
    return next;
}

bool tool_skip_to_event(struct tool_machine *m)
{
    uint32_t next = tool_next_due(m->order, m->tried);
    if (next > m->order->limit) return false;
    m->tried = next - 1;
    return true;
}

/* ---- One step ---- */

iop89_answer tool_try_step(struct tool_machine *m, char tail[64])
{
    uint8_t before[IOP89_STATE_LENGTH];
    memcpy(before, m->state, sizeof before);
    m->last.kind = BUS_STEP;
    m->last.value = tool_lines_at(tool_asked(m), m->tried++);
    bus_fetch(&m->bus, m->state, m->last);
    m->answer = step_of(m, m->last.value);
    bus_hand_over(&m->bus, m->answer);
    m->done += IOP89_ANSWER_NUMBER(m->answer) == IOP89_DONE;
    tool_write_tail(tail, m, before);
    return m->answer;
}

/* ---- Stops and ends ---- */

/* Whether TP of a running channel is at an address, of system space or of I/O space. */
static bool comes_to(const uint8_t *state, uint32_t address)
{
    for (unsigned channel = 1; channel <= 2; channel++) {
        bool runs = iop89_get(state, channel, IOP89_MODE) == IOP89_RUNNING;
        if (runs && iop89_get(state, channel, IOP89_TP) == address) return true;
    }
    return false;
}

bool tool_stops(const struct tool_machine *m)
{
    bool stop = m->order->has_until && comes_to(m->state, m->order->until);
    if (stop) printf("%suntil %05" PRIX32 "\n", tool_whose(m), m->order->until);
    for (unsigned i = 0; !stop && i < m->order->stops; i++) {
        stop = comes_to(m->state, m->order->stop[i]);
        if (stop) printf("%sbreak at %05" PRIX32 "\n", tool_whose(m), m->order->stop[i]);
    }
    return stop;
}

/* Whether a place is one of those that are watched, and lent. */
static bool is_watched(const struct tool_machine *m, const struct tool_range *w, uint32_t place)
{
    uint32_t at = IOP89_PLACE_ADDRESS(place);
    bool lent = at < (IOP89_PLACE_IO(place) ? m->memory.io_len : m->memory.sys_len);
    return lent && is_in(m, w->in_io, w->second, place) && at - w->from < w->count;
}

bool tool_watch_hit(const struct tool_machine *m)
{
    if (IOP89_ANSWER_NUMBER(m->answer) != IOP89_DONE) return false;
    for (unsigned i = 0; i < m->order->watches; i++) {
        const struct tool_range *w = &m->order->watch[i];
        for (unsigned k = m->bus.reads; k < m->bus.touched; k++) {
            if (!is_watched(m, w, m->bus.place[k])) continue;
            printf("%swatch: %05" PRIX32 "%s is %02X\n", tool_whose(m), IOP89_PLACE_ADDRESS(m->bus.place[k]),
                   w->in_io ? "/io" : "", m->bus.byte[k]);
            return true;
        }
    }
    return false;
}

uint32_t tool_lines_at(const struct tool_processor *processor, uint32_t at)
{
    return processor->lines.number[at % processor->lines.count];
}

bool tool_runs(const uint8_t *state)
{
    return iop89_get(state, 1, IOP89_MODE) == IOP89_RUNNING || iop89_get(state, 2, IOP89_MODE) == IOP89_RUNNING;
}

/* Under one line number a channel that waits would wait for ever; under several the next may be what it waits for. */
bool tool_goes_on(const struct tool_processor *processor, unsigned number, const uint8_t *state)
{
    return number == IOP89_NO_CHANNEL && processor->lines.count > 1 && tool_runs(state);
}

/* No channel that can run is an end where none runs and something was done. */
enum tool_status tool_status_of(unsigned number, const uint8_t *state, uint32_t steps)
{
    if (number == IOP89_DONE) return TOOL_LIMIT;
    if (number == IOP89_BAD_ARGUMENT) return TOOL_FAILED;
    if (number != IOP89_NO_CHANNEL) return TOOL_REFUSED;
    if (tool_runs(state)) return TOOL_WAITS;
    return steps == 0 ? TOOL_NEVER : TOOL_DONE;
}
