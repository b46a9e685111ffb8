/* The bench tool's prompt: the machine step by step, with breaks, watches, looks at it, and steps taken back. */
#include "tool.h"

#include <inttypes.h>
#include <stdlib.h>
#include <string.h>
#include <unistd.h>

#ifdef TOOL_READLINE
#include <readline/history.h>
#include <readline/readline.h>
#endif

/* How many steps can be taken back, the characters and words of a line, and the bytes that are listed around TP. */
enum { KEPT = 4096, LINE = 512, WORDS = 4, AROUND = 32 };

/* What one call changed: the state and the counts before it, and each byte that it stored over. */
struct kept {
    uint8_t state[IOP89_STATE_LENGTH];
    uint32_t tried, done;
    uint64_t attended;
    size_t next[TOOL_PORTS];
    unsigned stores;
    struct {
        bool in_io;
        uint32_t at;
        uint8_t old;
    } store[IOP89_PLACES + 1];
};

/* A session: its order, which breaks and settings are added to, its machine, what can be taken back, and the input. */
struct session {
    struct tool_order order;
    struct tool_machine machine;
    struct kept *kept;
    size_t first, count;
    FILE *script;
    bool prompts, over;
    unsigned number;
};

/* ---- Taking back ---- */

/* What was kept last. */
static struct kept *last_kept(const struct session *s)
{
    return &s->kept[(s->first + s->count - 1) % KEPT];
}

/* Keeps a byte that is stored over. */
static void keep_byte(struct kept *k, bool in_io, uint32_t at, uint8_t old)
{
    k->store[k->stores].in_io = in_io;
    k->store[k->stores].at = at;
    k->store[k->stores++].old = old;
}

/* Keeps the machine as it is before the next call. */
static void keep(struct session *s)
{
    struct kept *k = &s->kept[(s->first + s->count) % KEPT];
    struct tool_machine *m = &s->machine;
    memcpy(k->state, m->state, sizeof k->state);
    memcpy(k->next, m->next, sizeof k->next);
    k->tried = m->tried;
    k->done = m->done;
    k->attended = m->attended;
    k->stores = 0;
    if (s->count < KEPT) s->count++;
    else s->first = (s->first + 1) % KEPT;
}

/* Keeps what stood where the last call touched memory: what it stored over, and what ports gave. */
static void keep_touched(struct session *s)
{
    const struct tool_machine *m = &s->machine;
    for (unsigned i = 0; i < m->bus.touched; i++) {
        bool in_io = IOP89_PLACE_IO(m->bus.place[i]) != 0;
        uint32_t at = IOP89_PLACE_ADDRESS(m->bus.place[i]);
        if (at < (in_io ? m->memory.io_len : m->memory.sys_len)) keep_byte(last_kept(s), in_io, at, m->bus.before[i]);
    }
}

/* Takes the last call back; answers whether there was one. */
static bool undo(struct session *s)
{
    struct tool_machine *m = &s->machine;
    if (s->count == 0) {
        puts("nothing to take back");
        return false;
    }
    struct kept *k = &s->kept[(s->first + --s->count) % KEPT];
    memcpy(m->state, k->state, sizeof m->state);
    memcpy(m->next, k->next, sizeof m->next);
    m->tried = k->tried;
    m->done = k->done;
    m->attended = k->attended;
    while (k->stores-- > 0)
        (k->store[k->stores].in_io ? m->memory.io : m->memory.sys)[k->store[k->stores].at] = k->store[k->stores].old;
    printf("back before step %" PRIu32 "\n", m->tried + 1);
    return true;
}

/* ---- Attentions ---- */

/* Gives an attention, with its CCW where it has one; it can be taken back. */
static void attend(struct session *s, const struct tool_event *event)
{
    struct tool_machine *m = &s->machine;
    uint32_t block = (iop89_cp(m->state) + (event->channel == 2 ? 8u : 0u)) & 0xFFFFFu;
    bool stores = event->has_ccw && block < m->memory.sys_len;
    keep(s);
    if (stores) keep_byte(last_kept(s), false, block, m->memory.sys[block]);
    s->number = tool_give(m, event, false);
    keep_touched(s);
    if (s->number == IOP89_DONE) return;
    printf("number %u: %s\n", s->number, iop89_service_words(s->number));
    tool_print_cause("", s->number, m->state, &m->memory, m->last);
}

/* Gives those of the order that are due before the next step; answers whether each was accepted. */
static bool attend_due(struct session *s)
{
    const struct tool_event *event;
    s->number = IOP89_DONE;
    while (s->number == IOP89_DONE && (event = tool_due(&s->machine, s->machine.tried + 1)) != NULL) attend(s, event);
    return s->number == IOP89_DONE;
}

/* ---- Steps ---- */

/* Tries one step with its line; answers whether it was done and nothing stops. */
static bool step(struct session *s)
{
    struct tool_machine *m = &s->machine;
    uint8_t before[IOP89_STATE_LENGTH];
    char tail[64];
    if (!attend_due(s)) return false;
    keep(s);
    memcpy(before, m->state, sizeof before);
    iop89_answer answer = tool_try_step(m, tail);
    keep_touched(s);
    s->number = IOP89_ANSWER_NUMBER(answer);
    if (s->number == IOP89_DONE) {
        printf("%" PRIu32, m->tried);
        tool_print_done(answer, before, m->state, tail);
        tool_print_bus(m);
        return !tool_watch_hit(m) && !tool_stops(m);
    }
    if (tool_goes_on(&m->order->of[0], s->number, m->state)) {
        tool_print_waiting("", m->tried, m->state);
        return true;
    }
    s->count--;
    if (s->number == IOP89_NO_CHANNEL && tool_skip_to_event(m)) return true;
    m->tried--;
    tool_print_number("", s->number, iop89_service_words(s->number), m->state, &m->memory, m->done);
    if (m->done > 0 || tool_runs(m->state) || s->number != IOP89_NO_CHANNEL)
        tool_print_cause("", s->number, m->state, &m->memory, m->last);
    else tool_print_never("", m->state, &m->memory, m->order->of[0].channels > 0 ? m->order->of[0].channel[0] : 1);
    return false;
}

/* Steps so often, or until something stops. */
static void steps(struct session *s, uint32_t count)
{
    while (count-- > 0 && step(s)) continue;
}

/* Steps on until an instruction was done: a transfer is stepped whole. */
static void next(struct session *s)
{
    uint32_t left = s->order.limit;
    while (left-- > 0 && step(s))
        if (IOP89_ANSWER_KIND(s->machine.answer) == IOP89_INSTRUCTION) return;
}

/* ---- Looks ---- */

/* The running channel, 1 where none runs. */
static unsigned shown_channel(const uint8_t *state)
{
    return iop89_get(state, 1, IOP89_MODE) != IOP89_RUNNING && iop89_get(state, 2, IOP89_MODE) == IOP89_RUNNING ? 2 : 1;
}

/* Lists from an address on, or from TP. */
static void list(const struct session *s, const uint32_t *from)
{
    const struct tool_machine *m = &s->machine;
    unsigned channel = shown_channel(m->state);
    bool in_io = from == NULL && iop89_get(m->state, channel, IOP89_TP_TAG) != 0;
    uint32_t at = from != NULL ? *from : iop89_get(m->state, channel, IOP89_TP);
    size_t length = in_io ? m->memory.io_len : m->memory.sys_len;
    if (at >= length) {
        puts("nothing to list: no byte is there");
        return;
    }
    size_t count = length - at < AROUND ? length - at : AROUND;
    tool_print_listing((in_io ? m->memory.io : m->memory.sys) + at, count, at, false, false);
}

/* ---- Commands ---- */

/* A command of the prompt: its name, a short one, and what it does. */
static const struct {
    const char *name, *takes, *does;
} verbs[] = {
    {"step", "[N]", "one step, or N"},
    {"next", "", "steps up to the next instruction: a transfer is stepped whole"},
    {"run", "[N]", "steps to a break, a watch or the end, at most N (the limit)"},
    {"break", "[ADDR]", "stops where TP comes to ADDR; without one: no breaks any more"},
    {"watch", "[SPACE ADDR [N]]", "stops behind a step that stores there; without one: no watches any more"},
    {"registers", "", "all registers"},
    {"memory", "SPACE ADDR [N]", "N bytes (16) of sys or io"},
    {"list", "[ADDR]", "lists from ADDR, or from TP on"},
    {"attention", "CHANNEL [CCW]", "an attention, with this CCW stored first"},
    {"lines", "N[,N..]", "line numbers from the next step on"},
    {"set", "REG=VALUE", "sets a register: GA=0x60/io, 2:BC=5"},
    {"undo", "[N]", "takes the last step or attention back, or N; up to 4,096 are kept"},
    {"save", "FILE", "writes system memory, as a PROM file by its name"},
    {"state", "FILE", "writes the state"},
    {"help", "", "these words"},
    {"quit", "", "ends"},
};

/* The verb that a word is, whole or begun, or NULL. */
static const char *verb_of(const char *word)
{
    for (size_t i = 0; i < sizeof verbs / sizeof verbs[0]; i++)
        if (strncmp(verbs[i].name, word, strlen(word)) == 0) return verbs[i].name;
    return strcmp(word, "regs") == 0 ? "registers" : NULL;
}

/* Prints the commands. */
static void help(void)
{
    for (size_t i = 0; i < sizeof verbs / sizeof verbs[0]; i++)
        printf("  %-9s %-17s %s\n", verbs[i].name, verbs[i].takes, verbs[i].does);
    puts("A command may be cut short: s, b 0x50, undo. An empty line repeats a step.");
}

/* Reads a number; says what is wrong with it and answers false where it is none. */
static bool read_number(const char *word, uint32_t *number)
{
    const char *complaint = tool_read_number(word, strlen(word), number);
    if (complaint != NULL) printf("%s: %s\n", complaint, word);
    return complaint == NULL;
}

/* Reads a space of this one machine; answers what is wrong with it, or NULL. */
static const char *read_space(const char *word, struct tool_range *range)
{
    const char *complaint = tool_read_space(word, &range->in_io, &range->second);
    return complaint == NULL && range->second ? "no space, sys or io" : complaint;
}

/* Gives the attention that the words ask for. */
static void attend_now(struct session *s, unsigned count, char **words)
{
    struct tool_event event = {.channel = 1, .has_ccw = count > 2, .place = TOOL_EVENTS};
    if (count > 1 && !read_number(words[1], &event.channel)) return;
    if (count > 2 && !read_number(words[2], &event.ccw)) return;
    attend(s, &event);
}

/* Sets a break or a watch, or drops all of them. */
static void set_break(struct session *s, unsigned count, char **words)
{
    uint32_t at = 0;
    if (count < 2) s->order.stops = 0;
    else if (s->order.stops == TOOL_STOPS) puts("more than 16 breaks");
    else if (read_number(words[1], &at)) s->order.stop[s->order.stops++] = at;
}

static void set_watch(struct session *s, unsigned count, char **words)
{
    struct tool_range range = {0, 1, false, false};
    if (count < 2) {
        s->order.watches = 0;
        return;
    }
    const char *complaint = count < 3 ? "watch SPACE ADDR [N]" : read_space(words[1], &range);
    if (complaint != NULL) printf("%s: %s\n", complaint, words[1]);
    else if (s->order.watches == TOOL_STOPS) puts("more than 16 to watch");
    else if (read_number(words[2], &range.from) && (count < 4 || read_number(words[3], &range.count)))
        s->order.watch[s->order.watches++] = range;
}

/* Shows bytes. */
static void show(const struct session *s, unsigned count, char **words)
{
    struct tool_range range = {0, 16, false, false};
    const char *complaint = count < 3 ? "memory SPACE ADDR [N]" : read_space(words[1], &range);
    if (complaint != NULL) printf("%s\n", complaint);
    else if (read_number(words[2], &range.from) && (count < 4 || read_number(words[3], &range.count)))
        tool_print_range(range, &s->machine.memory);
}

/* Sets a register of the shown channel. */
static void set(struct session *s, const char *word)
{
    struct tool_setting setting = {0, IOP89_GA, 0, false, false};
    uint8_t *state = s->machine.state;
    const char *complaint = word == NULL ? "set REG=VALUE" : tool_read_setting(word, &setting);
    if (complaint != NULL) {
        printf("%s\n", complaint);
        return;
    }
    unsigned channel = setting.channel != 0 ? setting.channel : shown_channel(state);
    if (setting.which == IOP89_CC) iop89_set_cc(state, channel, setting.value);
    else iop89_set(state, channel, setting.which, setting.value);
    if (setting.which <= IOP89_TP) state[IOP89_AT_CHANNEL(channel) + (size_t)setting.which + 4] = setting.in_io;
}

/* Takes other line numbers, the first of them for the next step. */
static void set_lines(struct session *s, const char *word)
{
    struct tool_lines lines = {NULL, 0, 0};
    const char *complaint = word == NULL ? "lines N[,N..]" : tool_read_lines(word, strlen(word), &lines);
    if (complaint != NULL) {
        printf("%s\n", complaint);
        free(lines.number);
        return;
    }
    struct tool_lines *own = &s->order.of[0].lines, turned = {NULL, 0, 0};
    size_t shift = lines.count - s->machine.tried % lines.count;
    for (size_t i = 0; i < lines.count; i++) tool_add_line(&turned, lines.number[(i + shift) % lines.count]);
    free(own->number);
    free(lines.number);
    *own = turned;
}

/* Does what a verb with a number or nothing behind it asks for; answers whether it is one. */
static bool do_counted(struct session *s, const char *verb, unsigned count, char **words)
{
    uint32_t number = 1;
    if (strcmp(verb, "run") == 0) number = s->order.limit;
    else if (strcmp(verb, "step") != 0 && strcmp(verb, "undo") != 0) return false;
    if (count > 1 && !read_number(words[1], &number)) return true;
    if (strcmp(verb, "undo") != 0) steps(s, number);
    else while (number-- > 0 && undo(s)) continue;
    return true;
}

/* Does what a line asks for. */
static void do_line(struct session *s, unsigned count, char **words)
{
    const char *verb = verb_of(words[0]);
    uint32_t from = 0;
    if (verb == NULL) printf("no such command: %s; help says which there are\n", words[0]);
    else if (do_counted(s, verb, count, words)) return;
    else if (strcmp(verb, "next") == 0) next(s);
    else if (strcmp(verb, "break") == 0) set_break(s, count, words);
    else if (strcmp(verb, "watch") == 0) set_watch(s, count, words);
    else if (strcmp(verb, "registers") == 0) tool_print_registers(s->machine.state);
    else if (strcmp(verb, "memory") == 0) show(s, count, words);
    else if (strcmp(verb, "list") == 0 && (count < 2 || read_number(words[1], &from))) list(s, count < 2 ? NULL : &from);
    else if (strcmp(verb, "attention") == 0) attend_now(s, count, words);
    else if (strcmp(verb, "lines") == 0) set_lines(s, count > 1 ? words[1] : NULL);
    else if (strcmp(verb, "set") == 0) set(s, count > 1 ? words[1] : NULL);
    else if (strcmp(verb, "save") == 0 && count > 1)
        tool_save(words[1], s->machine.memory.sys, s->machine.memory.sys_len, 0);
    else if (strcmp(verb, "state") == 0 && count > 1) tool_save(words[1], s->machine.state, IOP89_STATE_LENGTH, 0);
    else if (strcmp(verb, "save") == 0 || strcmp(verb, "state") == 0) puts("a file is missing");
    else if (strcmp(verb, "help") == 0) help();
    else if (strcmp(verb, "quit") == 0) s->over = true;
}

/* ---- Lines ---- */

/* Reads a line, at the prompt where there is one; false at the end. */
static bool read_line(struct session *s, char line[LINE])
{
#ifdef TOOL_READLINE
    if (s->prompts) {
        char *read = readline("iop89> ");
        if (read == NULL) return false;
        if (read[0] != '\0') add_history(read);
        snprintf(line, LINE, "%s", read);
        free(read);
        return true;
    }
#endif
    if (s->prompts) fputs("iop89> ", stdout), fflush(stdout);
    return fgets(line, LINE, s->script) != NULL;
}

/* Takes the words of a line, without what follows #; an empty one at the prompt is a step. */
static unsigned split(const struct session *s, char *line, char **words)
{
    unsigned count = 0;
    static char again[] = "step";
    line[strcspn(line, "#")] = '\0';
    for (char *word = strtok(line, " \t\r\n"); word != NULL && count < WORDS; word = strtok(NULL, " \t\r\n"))
        words[count++] = word;
    if (count == 0 && s->prompts) words[count++] = again;
    return count;
}

/* Does one line after another. */
static void talk(struct session *s)
{
    char line[LINE], *words[WORDS];
    if (s->prompts) puts("help says which commands there are, quit ends");
    while (!s->over && read_line(s, line)) {
        unsigned count = split(s, line, words);
        if (count > 0) do_line(s, count, words);
        fflush(stdout);
    }
    if (s->prompts && !s->over) putchar('\n');
}

/* Opens what the commands come from: a script, or standard input, with a prompt where that is a terminal. */
static void open_input(struct session *s)
{
    s->script = s->order.script != NULL ? fopen(s->order.script, "r") : stdin;
    if (s->script == NULL) tool_give_up(s->order.script);
    s->prompts = s->order.script == NULL && isatty(STDIN_FILENO);
}

enum tool_status tool_debug(const struct tool_order *order)
{
    static struct session s;
    s.order = *order;
    s.kept = calloc(KEPT, sizeof s.kept[0]);
    if (s.kept == NULL) tool_give_up("memory");
    open_input(&s);
    s.number = tool_start(&s.machine, &s.order, false);
    if (s.number != IOP89_DONE) {
        printf("number %u: %s\n", s.number, iop89_service_words(s.number));
        tool_print_cause("", s.number, s.machine.state, &s.machine.memory, s.machine.last);
    } else tool_print_header(&s.order);
    talk(&s);
    if (s.order.diff) tool_print_diff(&s.machine.given, &s.machine.memory);
    tool_save_system(&s.order, &s.machine.memory);
    tool_save_own(&s.order.of[0], &s.machine.memory, s.machine.state);
    enum tool_status status = tool_status_of(s.number, s.machine.state, s.machine.done);
    if (s.script != stdin) fclose(s.script);
    tool_end(&s.machine);
    free(s.kept);
    return s.number == IOP89_DONE ? TOOL_DONE : status;
}
