/* The bench tool's commands that run the machine: all at once, and call by call. */
#include "tool.h"

#include <inttypes.h>
#include <string.h>

/* ---- All at once ---- */

/* The state that a run leaves behind so many steps: the same calls once more, on a copy of its memory. */
static void state_behind(const struct tool_order *order, struct tool_memory again, uint32_t steps, uint8_t *state,
                         struct bus_call *last)
{
    (void)iop89_fresh(state, IOP89_STATE_LENGTH, order->of[0].cp);
    if (order->board) {
        (void)iop89_reset(state, IOP89_STATE_LENGTH);
        iop89_answer up = iop89_power_up(state, IOP89_STATE_LENGTH, again.sys, again.sys_len, again.io, again.io_len);
        if (IOP89_ANSWER_NUMBER(up) != IOP89_DONE) return;
    }
    iop89_answer attended = tool_attend(state, &again, order->of[0].channel[0]);
    bool refused = IOP89_ANSWER_NUMBER(attended) != IOP89_DONE;
    last->kind = refused ? BUS_ATTENTION : BUS_STEP;
    last->value = refused ? order->of[0].channel[0] : order->of[0].lines.number[0];
    for (uint32_t i = 0; i < steps; i++) (void)tool_do_step(state, &again, order->of[0].lines.number[0]);
}

/* Whether a run with this number came as far as its attention. */
static bool was_started(unsigned number)
{
    return number != IOP89_BAD_ARGUMENT && number != IOP89_BAD_BUFFER && number != IOP89_BAD_POINTER;
}

/* Makes the call. */
static iop89_run_answer run(const struct tool_order *order, struct tool_memory *m)
{
    const struct tool_processor *p = &order->of[0];
    if (order->board)
        return iop89_board(m->sys, m->sys_len, m->io, m->io_len, p->channel[0], p->lines.number[0], order->limit);
    return iop89_run(m->sys, m->sys_len, m->io, m->io_len, p->cp, p->channel[0], p->lines.number[0], order->limit);
}

enum tool_status tool_run(const struct tool_order *order)
{
    uint8_t state[IOP89_STATE_LENGTH];
    struct bus_call last = {BUS_POWER_UP, 0};
    if (order->of[0].channels > 1) tool_usage("run starts one channel", NULL);
    if (order->of[0].lines.count > 1) tool_usage("run takes one line number", NULL);
    struct tool_memory memory = tool_load(order), before = tool_copy(memory), again = tool_copy(memory);
    iop89_run_answer answer = run(order, &memory);
    unsigned number = IOP89_NUMBER(answer);
    uint32_t steps = IOP89_STEPS(answer);
    if (was_started(number)) state_behind(order, again, steps, state, &last);
    else (void)iop89_fresh(state, IOP89_STATE_LENGTH, 0);
    tool_print_number("", number, iop89_words(number), state, &memory, steps);
    enum tool_status status = tool_status_of(number, state, steps);
    if (status == TOOL_NEVER) tool_print_never("", state, &memory, order->of[0].channel[0]);
    else if (was_started(number) || number == IOP89_BAD_BUFFER) tool_print_cause("", number, state, &again, last);
    tool_print_argument(number, order);
    printf("steps done: %" PRIu32 "\n", steps);
    if (order->regs) tool_print_registers(state);
    if (order->diff) tool_print_diff(&before, &memory);
    tool_print_shown(order, &memory);
    tool_save_system(order, &memory);
    tool_save_own(&order->of[0], &memory, state);
    tool_free(memory);
    tool_free(before);
    tool_free(again);
    return status;
}

/* ---- A transfer in one go ---- */

/* XF of PSW: a transfer is under way. */
enum { XF = 0x40 };

/* The first running channel with a transfer under way, 0 where there is none. That the other must not run the sweep
 * tests itself. */
static unsigned transferring(const uint8_t *state)
{
    for (unsigned channel = 1; channel <= 2; channel++) {
        bool runs = iop89_get(state, channel, IOP89_MODE) == IOP89_RUNNING;
        if (runs && (iop89_get(state, channel, IOP89_PSW) & XF) != 0) return channel;
    }
    return 0;
}

/* Makes one sweep. */
static iop89_sweep_answer sweep(uint8_t *state, struct tool_memory *m, unsigned channel, uint32_t lines)
{
    return iop89_sweep(state, IOP89_STATE_LENGTH, m->sys, m->sys_len, m->io, m->io_len, channel, lines);
}

/* Whether each of so many steps, from one on, has a line number that a sweep takes: no EXT up, and DRQ as it likes. A
 * sweep has one number for all its steps, so it stands for steps under several only where each of these would do. */
static bool lines_fit(const struct tool_order *order, uint32_t at, uint32_t steps)
{
    for (uint32_t i = 0; i < steps && i < order->of[0].lines.count; i++)
        if (tool_lines_at(&order->of[0], at + i) > (IOP89_DRQ1 | IOP89_DRQ2)) return false;
    return true;
}

/* How many steps a sweep would stand for here, 0 where the next step is to be made plainly. It is tried on a copy of the
 * state and on spare memory of the same lengths: what lies in memory changes neither its number nor its steps. */
static uint32_t steps_ahead(const struct tool_machine *m, struct tool_memory *spare)
{
    uint8_t asked[IOP89_STATE_LENGTH];
    unsigned channel = transferring(m->state);
    if (!m->order->sweep || channel == 0) return 0;
    memcpy(asked, m->state, sizeof asked);
    uint32_t steps = IOP89_SWEEP_STEPS(sweep(asked, spare, channel, tool_lines_at(&m->order->of[0], m->tried)));
    return steps <= m->order->limit - m->tried && lines_fit(m->order, m->tried, steps) ? steps : 0;
}

/* Makes the sweep from a step on, and prints it as one line: the numbers of its first and last step, what a step's line
 * has, and how many steps it stands for. */
static void sweep_line(struct tool_machine *m)
{
    uint8_t before[IOP89_STATE_LENGTH];
    unsigned channel = transferring(m->state);
    memcpy(before, m->state, sizeof before);
    iop89_sweep_answer answer = sweep(m->state, &m->memory, channel, tool_lines_at(&m->order->of[0], m->tried));
    uint32_t steps = IOP89_SWEEP_STEPS(answer);
    printf("%" PRIu32 "-%" PRIu32 " %u T %" PRIu32 " ", m->tried + 1, m->tried + steps, channel, IOP89_SWEEP_COUNT(answer));
    tool_print_tp(m->state, channel);
    tool_print_changes(before, m->state, channel);
    printf(" %" PRIu32 " step%s swept\n", steps, steps == 1 ? "" : "s");
    m->tried += steps;
    m->done += steps;
}

/* ---- Call by call ---- */

/* Writes a done step as make run prints it. */
static void trace_line(const struct tool_machine *m, iop89_answer answer)
{
    unsigned channel = IOP89_ANSWER_CHANNEL(answer);
    if (m->trace != NULL)
        fprintf(m->trace, "%" PRIu32 " %u %c %05" PRIX32 "\n", m->done, channel, "-ITX"[IOP89_ANSWER_KIND(answer)],
                iop89_get(m->state, channel, IOP89_TP));
}

/* Tries one step, and prints its line; answers the number that stops the steps, 0 where they go on. */
static unsigned step_line(struct tool_machine *m)
{
    uint8_t before[IOP89_STATE_LENGTH];
    char tail[64];
    memcpy(before, m->state, sizeof before);
    iop89_answer answer = tool_try_step(m, tail);
    unsigned number = IOP89_ANSWER_NUMBER(answer);
    if (number == IOP89_DONE) {
        printf("%" PRIu32, m->tried);
        tool_print_done(answer, before, m->state, tail);
        tool_print_bus(m);
        trace_line(m, answer);
    } else if (tool_goes_on(&m->order->of[0], number, m->state)) {
        tool_print_waiting("", m->tried, m->state);
    } else if (number != IOP89_NO_CHANNEL || !tool_skip_to_event(m)) {
        return number;
    }
    return IOP89_DONE;
}

/* Tries steps up to the limit or a stop, a line for each, or for each sweep; answers the number that stopped them. */
static unsigned step_lines(struct tool_machine *m, bool *stopped)
{
    struct tool_memory spare = tool_copy(m->memory);
    unsigned number = IOP89_DONE;
    *stopped = false;
    while (number == IOP89_DONE && !*stopped && m->tried < m->order->limit) {
        number = tool_give_due(m, m->tried + 1, false);
        if (number != IOP89_DONE) break;
        if (steps_ahead(m, &spare) > 0) sweep_line(m);
        else number = step_line(m);
        if (number == IOP89_DONE) *stopped = tool_watch_hit(m) || tool_stops(m);
    }
    tool_free(spare);
    return number;
}

/* Opens the trace, and closes it behind its last line. */
static FILE *open_trace(const struct tool_order *order)
{
    FILE *file = order->trace_file != NULL ? fopen(order->trace_file, "w") : NULL;
    if (order->trace_file != NULL && file == NULL) tool_give_up(order->trace_file);
    return file;
}

static void close_trace(const struct tool_machine *m, unsigned number)
{
    if (m->trace == NULL) return;
    fprintf(m->trace, "end %u %" PRIu32 "\n", number, m->done);
    bool failed = fflush(m->trace) != 0 || ferror(m->trace);
    if (failed || fclose(m->trace) != 0) tool_give_up(m->order->trace_file);
}

/* Prints how the steps ended, and what the order asks for. */
static enum tool_status print_end(const struct tool_machine *m, unsigned number, bool stopped)
{
    const struct tool_order *order = m->order;
    enum tool_status status = tool_status_of(number, m->state, m->done);
    if (number == IOP89_DONE && !stopped) puts("the limit");
    if (number != IOP89_DONE)
        tool_print_number("", number, iop89_service_words(number), m->state, &m->memory, m->done);
    if (status == TOOL_NEVER)
        tool_print_never("", m->state, &m->memory, order->of[0].channels > 0 ? order->of[0].channel[0] : 0);
    else {
        if (number != IOP89_DONE) tool_print_bus(m);
        tool_print_cause("", number, m->state, &m->memory, m->last);
    }
    if (order->regs) tool_print_registers(m->state);
    return status;
}

enum tool_status tool_step(const struct tool_order *order)
{
    struct tool_machine machine;
    bool stopped = false;
    if (order->pair) return tool_step_pair(order);
    unsigned number = tool_start(&machine, order, false);
    machine.trace = open_trace(order);
    if (number == IOP89_DONE) {
        tool_print_header(order);
        number = step_lines(&machine, &stopped);
    }
    close_trace(&machine, number);
    enum tool_status status = print_end(&machine, number, stopped);
    if (order->diff) tool_print_diff(&machine.given, &machine.memory);
    tool_print_shown(order, &machine.memory);
    tool_save_system(order, &machine.memory);
    tool_save_own(&order->of[0], &machine.memory, machine.state);
    tool_end(&machine);
    return status;
}
