/* Reads the bench tool's command line into what it asks for. */
#include "tool.h"

#include <stdlib.h>
#include <string.h>

/* What is read: the order, the words that are left, the option that is read, and what is known of the next file. */
struct reader {
    struct tool_order *order;
    char **words;
    int left;
    const char *option;
    struct tool_file next;
};

/* ---- Values ---- */

/* The number that some characters of a word write. */
static uint32_t number_in(const char *word, const char *from, size_t length)
{
    uint32_t number = 0;
    const char *complaint = tool_read_number(from, length, &number);
    if (complaint != NULL) tool_usage(complaint, word);
    return number;
}

/* The next word, which an option asks for as this. */
static const char *value(struct reader *r, const char *what)
{
    if (r->left < 2) tool_usage(what, r->option);
    r->left--;
    return *++r->words;
}

/* The number behind an option; and one that is held to the most that a length may be. */
static uint32_t number_of(struct reader *r)
{
    const char *word = value(r, "a number is missing behind");
    return number_in(word, word, strlen(word));
}

static uint32_t length_of(struct reader *r)
{
    const char *word = value(r, "a number is missing behind");
    uint32_t number = number_in(word, word, strlen(word));
    if (number > TOOL_MOST) tool_usage("over 1,048,576", word);
    return number;
}

/* The file behind an option. */
static const char *file_of(struct reader *r)
{
    return value(r, "a file is missing behind");
}

/* The space behind an option, and whose it is. */
static bool space_of(struct reader *r, bool *second)
{
    bool in_io = false;
    const char *word = value(r, "a space is missing behind"), *complaint = tool_read_space(word, &in_io, second);
    if (complaint != NULL) tool_usage(complaint, word);
    if (*second && r->order->second_word == NULL) r->order->second_word = word;
    return in_io;
}

/* ---- Options that are more than a number ---- */

/* Room for one more of something. */
static unsigned one_more(unsigned *count, unsigned most, const char *complaint)
{
    if (*count == most) tool_usage(complaint, NULL);
    return (*count)++;
}

/* Takes line numbers: a word of digits and commas, or the name of a text. */
static void take_lines(struct tool_processor *processor, struct reader *r)
{
    const char *word = value(r, "a number is missing behind"), *complaint;
    processor->lines.count = 0;
    if (word[0] == '\0' || word[0] == ',' || (word[0] >= '0' && word[0] <= '9')) {
        for (const char *from = word;; from++) {
            size_t length = strcspn(from, ",");
            tool_add_line(&processor->lines, number_in(word, from, length));
            from += length;
            if (*from == '\0') return;
        }
    }
    struct tool_text text = tool_read_text(word);
    complaint = tool_read_lines((const char *)text.bytes, text.length, &processor->lines);
    if (complaint != NULL) tool_usage(complaint, word);
    free(text.bytes);
}

/* Adds a channel. */
static void add_channel(struct tool_processor *processor, struct reader *r)
{
    const char *word = value(r, "a number is missing behind");
    if (processor->channels == TOOL_CHANNELS) tool_usage("more than two channels", word);
    processor->channel[processor->channels++] = number_in(word, word, strlen(word));
}

/* Adds a range to be shown. */
static void add_range(struct reader *r, bool in_io, bool second)
{
    struct tool_range *range =
        &r->order->shown[one_more(&r->order->ranges, TOOL_SHOWN, "more than 16 ranges to show")];
    range->from = length_of(r);
    range->count = length_of(r);
    range->in_io = in_io;
    range->second = second;
}

/* Adds a range to be watched, of one byte where the next word is no length. */
static void add_watch(struct reader *r)
{
    struct tool_range *range = &r->order->watch[one_more(&r->order->watches, TOOL_STOPS, "more than 16 to watch")];
    range->in_io = space_of(r, &range->second);
    range->from = length_of(r);
    range->count = 1;
    if (r->left > 1 && r->words[1][0] >= '0' && r->words[1][0] <= '9') range->count = length_of(r);
}

/* Adds a port. */
static void add_port(struct reader *r)
{
    struct tool_port *port = &r->order->port[one_more(&r->order->ports, TOOL_PORTS, "more than 8 ports")];
    port->in_io = space_of(r, &port->second);
    port->at = length_of(r);
    port->name = file_of(r);
}

/* Adds an attention, STEP:CHANNEL[:CCW]. */
static void add_event(struct reader *r, bool second)
{
    const char *word = value(r, "an attention is missing behind"), *from = word;
    struct tool_event *event = &r->order->event[one_more(&r->order->events, TOOL_EVENTS, "more than 64 attentions")];
    size_t length = strcspn(from, ":");
    event->place = r->order->events - 1;
    event->second = second;
    event->step = number_in(word, from, length);
    if (from[length] != ':') tool_usage("no STEP:CHANNEL", word);
    if (event->step == 0) tool_usage("steps count from 1", word);
    from += length + 1;
    length = strcspn(from, ":");
    event->channel = number_in(word, from, length);
    event->has_ccw = from[length] == ':';
    if (event->has_ccw) event->ccw = number_in(word, from + length + 1, strlen(from + length + 1));
    if (event->ccw > 255) tool_usage("a CCW over 255", word);
}

/* Adds a setting. */
static void add_setting(struct reader *r, bool second)
{
    const char *word = value(r, "a setting is missing behind");
    struct tool_setting *setting =
        &r->order->setting[one_more(&r->order->settings, TOOL_SETTINGS, "more than 32 settings")];
    const char *complaint = tool_read_setting(word, setting);
    if (complaint != NULL) tool_usage(complaint, word);
    setting->second = second;
}

/* Adds a file, with what was said of it. */
static void add_file(struct reader *r, const char *name, enum tool_half half)
{
    if (r->order->files == TOOL_FILES) tool_usage("more than 16 files", name);
    r->next.name = name;
    r->next.half = half;
    r->order->file[r->order->files++] = r->next;
    uint32_t at = r->next.at;
    unsigned halves = 0;
    for (unsigned i = 0; i < r->order->files; i++) halves += r->order->file[i].half != TOOL_WHOLE;
    memset(&r->next, 0, sizeof r->next);
    /* The second PROM of a pair lies where the first one does, unless it is said otherwise. */
    if (half != TOOL_WHOLE && halves % 2 == 1) r->next.at = at;
}

/* ---- Which option ---- */

/* Takes an option that fills a number; answers whether it is one. */
static bool take_number(struct reader *r, const char *option)
{
    struct tool_order *o = r->order;
    if (strcmp(option, "-cp") == 0) o->has_cp = true, o->of[0].cp = number_of(r);
    else if (strcmp(option, "-pair") == 0) o->pair = true, o->of[1].cp = number_of(r);
    else if (strcmp(option, "-limit") == 0) o->limit = number_of(r);
    else if (strcmp(option, "-first") == 0) o->has_first = true, o->first = number_of(r);
    else if (strcmp(option, "-until") == 0) o->has_until = true, o->until = number_of(r);
    else if (strcmp(option, "-at") == 0) r->next.has_at = true, r->next.at = length_of(r);
    else if (strcmp(option, "-from") == 0) o->has_from = true, o->from = length_of(r);
    else if (strcmp(option, "-count") == 0) o->count = length_of(r);
    else if (strcmp(option, "-system") == 0) o->system_length = length_of(r);
    else if (strcmp(option, "-room") == 0) o->room = length_of(r);
    else if (strcmp(option, "-break") == 0)
        o->stop[one_more(&o->stops, TOOL_STOPS, "more than 16 breaks")] = number_of(r);
    else return false;
    return true;
}

/* The mark that an option without a value sets, or NULL for any other word. */
static bool *mark_of(struct tool_order *o, const char *option)
{
    const struct {
        const char *name;
        bool *mark;
    } marks[] = {{"-source", &o->source}, {"-board", &o->board},         {"-sweep", &o->sweep},   {"-over", &o->over},
                 {"-diff", &o->diff},     {"-regs", &o->regs},           {"-follow", &o->follow}, {"-labels", &o->labels},
                 {"-no-labels", &o->no_labels}, {"-no-header", &o->no_header}, {"-bus", &o->bus}};
    for (size_t i = 0; i < sizeof marks / sizeof marks[0]; i++)
        if (strcmp(option, marks[i].name) == 0) return marks[i].mark;
    return NULL;
}

/* The place for the name of a file that an option gives, or NULL for any other word. */
static const char **name_of(struct tool_order *o, const char *option)
{
    const struct {
        const char *name;
        const char **place;
    } names[] = {{"-out", &o->out},
                 {"-save", &o->save},
                 {"-trace", &o->trace_file},
                 {"-script", &o->script},
                 {"-io-image", &o->of[0].io_image},
                 {"-io-image2", &o->of[1].io_image},
                 {"-state", &o->of[0].state},
                 {"-state2", &o->of[1].state},
                 {"-save-io", &o->of[0].save_io},
                 {"-save-io2", &o->of[1].save_io},
                 {"-save-state", &o->of[0].save_state},
                 {"-save-state2", &o->of[1].save_state}};
    for (size_t i = 0; i < sizeof names / sizeof names[0]; i++)
        if (strcmp(option, names[i].name) == 0) return names[i].place;
    return NULL;
}

/* Takes an option that adds something; answers whether it is one. */
static bool take_more(struct reader *r, const char *option)
{
    struct tool_order *o = r->order;
    if (strcmp(option, "-lines") == 0) take_lines(&o->of[0], r);
    else if (strcmp(option, "-lines2") == 0) take_lines(&o->of[1], r);
    else if (strcmp(option, "-channel") == 0) add_channel(&o->of[0], r);
    else if (strcmp(option, "-channel2") == 0) add_channel(&o->of[1], r);
    else if (strcmp(option, "-io") == 0) o->of[0].io_length = length_of(r);
    else if (strcmp(option, "-io2") == 0) o->of[1].io_length = length_of(r);
    else if (strcmp(option, "-show") == 0) add_range(r, false, false);
    else if (strcmp(option, "-show-io") == 0) add_range(r, true, false);
    else if (strcmp(option, "-show-io2") == 0) add_range(r, true, true);
    else if (strcmp(option, "-watch") == 0) add_watch(r);
    else if (strcmp(option, "-port") == 0) add_port(r);
    else if (strcmp(option, "-attention") == 0) add_event(r, false);
    else if (strcmp(option, "-attention2") == 0) add_event(r, true);
    else if (strcmp(option, "-set") == 0) add_setting(r, false);
    else if (strcmp(option, "-set2") == 0) add_setting(r, true);
    else if (strcmp(option, "-even") == 0) add_file(r, file_of(r), TOOL_EVEN);
    else if (strcmp(option, "-odd") == 0) add_file(r, file_of(r), TOOL_ODD);
    else if (strcmp(option, "-raw") == 0) r->next.form = TOOL_RAW;
    else if (strcmp(option, "-hex") == 0) r->next.form = TOOL_HEX;
    else return false;
    return true;
}

/* Whether the command takes an option: one that no command has ends the program, and so does one of another command. */
static void know(const struct tool_order *order, const char *option)
{
    bool known = false;
    for (const struct tool_option *o = tool_options; o->name != NULL; o++) {
        if (strcmp(o->name, option) != 0) continue;
        if ((o->commands & order->command->bit) != 0) return;
        known = true;
    }
    if (!known) tool_usage("unknown option", option);
    fflush(stdout);
    fprintf(stderr, "iop89: %s does not take %s\niop89: \"iop89 help %s\" says what it takes\n", order->command->name,
            option, order->command->name);
    exit(TOOL_FAILED);
}

/* Takes one option with its values. */
static void take_option(struct reader *r)
{
    const char *option = r->option = r->words[0];
    size_t length = strlen(option);
    know(r->order, option);
    if (option[length - 1] == '2' && r->order->second_word == NULL) r->order->second_word = option;
    if (strcmp(option, "-trace") == 0 && r->order->command->bit == TOOL_SCHEDULE) {
        r->order->trace = true;
        return;
    }
    bool *mark = mark_of(r->order, option);
    const char **name = name_of(r->order, option);
    if (mark != NULL) *mark = true;
    else if (name != NULL) *name = file_of(r);
    else if (!take_number(r, option)) take_more(r, option);
}

/* ---- The whole line ---- */

/* Whether the files of an order come in pairs where they are halves. */
static void check_halves(const struct tool_order *order)
{
    unsigned even = 0, odd = 0;
    for (unsigned i = 0; i < order->files; i++) {
        even += order->file[i].half == TOOL_EVEN;
        odd += order->file[i].half == TOOL_ODD;
    }
    if (even > odd) tool_usage("-even without -odd", NULL);
    if (odd > even) tool_usage("-odd without -even", NULL);
}

/* Fills in what one processor was not given. */
static void fill(struct tool_processor *p, bool first)
{
    if (p->io_image != NULL && p->io_length != UINT32_MAX)
        tool_usage(first ? "-io and -io-image" : "-io2 and -io-image2", NULL);
    if (p->channels == 0 && p->state == NULL) p->channel[p->channels++] = 1;
    if (p->lines.count == 0) tool_add_line(&p->lines, 0);
}

/* Says what does not go together. */
static void check_order(struct reader *r)
{
    struct tool_order *order = r->order;
    bool assembles = order->command->bit == TOOL_ASM;
    /* One text has one place, so there -at may stand behind it too. */
    if (r->next.has_at && assembles && order->files > 0) order->file[0].at = r->next.at;
    else if (r->next.has_at) tool_usage("no file behind -at", NULL);
    if (r->next.form == TOOL_RAW) tool_usage("no file behind -raw", NULL);
    if (r->next.form == TOOL_HEX) tool_usage("no file behind -hex", NULL);
    if (order->files == 0) tool_usage("no file", NULL);
    check_halves(order);
    if (order->board && order->has_cp) tool_usage("-board and -cp", NULL);
    if (order->of[0].state != NULL && (order->board || order->has_cp))
        tool_usage("-state, which has its own CP, and -board or -cp", NULL);
    if (order->second_word != NULL && !order->pair)
        tool_usage("no -pair, and so no second processor for", order->second_word);
    if (order->sweep && (order->ports + order->stops + order->watches + order->events > 0 || order->has_until || order->bus))
        tool_usage("-sweep goes with none of -port, -watch, -break, -until, -attention and -bus", NULL);
}

void tool_read_order(struct tool_order *order, int count, char **words)
{
    struct reader r = {order, words, count, NULL, {NULL, 0, false, TOOL_BY_CONTENT, TOOL_WHOLE}};
    for (; r.left > 0; r.words++, r.left--) {
        if (r.words[0][0] == '-' && r.words[0][1] != '\0') take_option(&r);
        else add_file(&r, r.words[0], TOOL_WHOLE);
    }
    check_order(&r);
    fill(&order->of[0], true);
    fill(&order->of[1], false);
}
