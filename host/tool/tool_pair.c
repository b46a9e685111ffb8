/* The bench tool's steps of two processors on one system memory, each with its own I/O memory, in turn. */
#include "tool.h"

#include <inttypes.h>
#include <string.h>

/* Two processors, and which of them is passed over. */
struct pair {
    const struct tool_order *order;
    struct tool_machine machine[2];
    bool over[2];
};

/* Makes both machines, neither with a state. */
static void make(struct pair *p)
{
    struct tool_memory first = tool_load(p->order);
    tool_make(&p->machine[0], p->order, 0, first);
    tool_make(&p->machine[1], p->order, 1, tool_load_second(p->order, first));
    for (unsigned i = 0; i < 2; i++) p->machine[i].other = &p->machine[1 - i];
}

/* Makes both states, then gives all attentions; answers the number that refused one of these, and whose it was. */
static unsigned start(struct pair *p, unsigned *who)
{
    unsigned number = IOP89_DONE;
    for (unsigned i = 0; number == IOP89_DONE && i < 4; i++) {
        *who = i % 2;
        number = i < 2 ? tool_begin(&p->machine[i]) : tool_attend_all(&p->machine[i - 2], false);
    }
    return number;
}

/* Gives the attentions that are due before a step, of both; who gets one is passed over no more. Answers the number that
 * refused one, and whose it was. */
static unsigned give_due(struct pair *p, uint32_t place, unsigned *who)
{
    unsigned number = IOP89_DONE;
    for (unsigned i = 0; number == IOP89_DONE && i < 2; i++) {
        if (tool_due(&p->machine[i], place) == NULL) continue;
        p->over[i] = false;
        *who = i;
        number = tool_give_due(&p->machine[i], place, false);
    }
    return number;
}

/* Tries one step of a processor, and prints its line; answers the number that stops it, 0 where it goes on. */
static unsigned step_line(struct tool_machine *m, uint32_t place)
{
    uint8_t before[IOP89_STATE_LENGTH];
    char tail[64];
    memcpy(before, m->state, sizeof before);
    iop89_answer answer = tool_try_step(m, tail);
    unsigned number = IOP89_ANSWER_NUMBER(answer);
    if (number == IOP89_DONE) {
        printf("%" PRIu32 " P%u", place, 1 + m->which);
        tool_print_done(answer, before, m->state, tail);
        tool_print_bus(m);
    } else if (tool_goes_on(tool_asked(m), number, m->state)) tool_print_waiting(tool_whose(m), place, m->state);
    else return number;
    return IOP89_DONE;
}

/* Whether both are passed over with no attention to come; with one, its step is the next. */
static bool is_over(const struct pair *p, uint32_t *at)
{
    uint32_t next = tool_next_due(p->order, *at);
    if (!p->over[0] || !p->over[1]) return false;
    if (next > p->order->limit) return true;
    *at = next - 1;
    return false;
}

/* Steps both in turn, up to the limit or a stop. One that answers 1 is passed over until it gets an attention: what the
 * other does changes none of its registers. Answers the number that stopped them, and whose it was where that is not 1. */
static unsigned step_in_turn(struct pair *p, unsigned *who, bool *stopped)
{
    unsigned i = 0;
    for (uint32_t at = 0; at < p->order->limit && !*stopped; i = 1 - i) {
        unsigned number = give_due(p, at + 1, who);
        if (number != IOP89_DONE) return number;
        if (is_over(p, &at)) return IOP89_NO_CHANNEL;
        number = p->over[i] ? IOP89_NO_CHANNEL : step_line(&p->machine[i], at + 1);
        *who = i;
        if (number != IOP89_DONE && number != IOP89_NO_CHANNEL) return number;
        p->over[i] = number == IOP89_NO_CHANNEL;
        at += number == IOP89_DONE;
        *stopped = number == IOP89_DONE && (tool_watch_hit(&p->machine[i]) || tool_stops(&p->machine[i]));
    }
    return p->over[0] && p->over[1] ? IOP89_NO_CHANNEL : IOP89_DONE;
}

/* Prints what stopped one of the two. */
static void print_one(const struct tool_machine *m, unsigned number)
{
    const char *whose = tool_whose(m);
    uint32_t channel = tool_asked(m)->channels > 0 ? tool_asked(m)->channel[0] : 1;
    tool_print_number(whose, number, iop89_service_words(number), m->state, &m->memory, m->done);
    if (tool_status_of(number, m->state, m->done) == TOOL_NEVER) tool_print_never(whose, m->state, &m->memory, channel);
    else tool_print_cause(whose, number, m->state, &m->memory, m->last);
}

/* Prints what stopped the steps: the limit, what refused one of the two, or 1 of both. */
static void print_end(const struct pair *p, unsigned number, unsigned who, bool stopped)
{
    if (number == IOP89_DONE && !stopped) puts("the limit");
    for (unsigned i = 0; number != IOP89_DONE && i < 2; i++)
        if (number == IOP89_NO_CHANNEL || i == who) print_one(&p->machine[i], number);
}

/* What the end of both makes of the command: of 1, that one waits, that neither started, or that they are done. */
static enum tool_status status_of(const struct pair *p, unsigned number)
{
    const struct tool_machine *one = &p->machine[0], *two = &p->machine[1];
    if (number != IOP89_NO_CHANNEL || tool_runs(one->state)) return tool_status_of(number, one->state, one->done);
    return tool_status_of(number, two->state, one->done + two->done);
}

/* Prints and saves what is asked for behind the last step. */
static void print_asked(const struct pair *p)
{
    const struct tool_machine *one = &p->machine[0], *two = &p->machine[1];
    const struct tool_memory memory[2] = {one->memory, two->memory};
    for (unsigned i = 0; p->order->regs && i < 2; i++)
        printf("%s", tool_whose(&p->machine[i])), tool_print_registers(p->machine[i].state);
    if (p->order->diff) {
        tool_print_diff(&one->given, &one->memory);
        tool_print_diff_of("I/O memory of P2", two->given.io, two->memory.io, two->memory.io_len);
    }
    tool_print_shown(p->order, memory);
    tool_save_system(p->order, &one->memory);
    for (unsigned i = 0; i < 2; i++) tool_save_own(&p->order->of[i], &memory[i], p->machine[i].state);
}

/* Says which of the words are not for two. */
static void refuse_words(const struct tool_order *order)
{
    if (order->sweep) tool_usage("-pair makes no sweeps", NULL);
    if (order->trace_file != NULL) tool_usage("-pair writes no -trace: make run's lines have no place for a processor", NULL);
}

enum tool_status tool_step_pair(const struct tool_order *order)
{
    static struct pair p;
    unsigned who = 0;
    bool stopped = false;
    refuse_words(order);
    p.order = order;
    make(&p);
    unsigned number = start(&p, &who);
    if (number == IOP89_DONE) {
        tool_print_header(order);
        number = step_in_turn(&p, &who, &stopped);
    }
    print_end(&p, number, who, stopped);
    print_asked(&p);
    enum tool_status status = status_of(&p, number);
    tool_end(&p.machine[1]);
    tool_end(&p.machine[0]);
    return status;
}
