/* The independent side of two comparisons: random scripts and images, and what the two programs must print for them. */
#include "cases.h"
#include "coverage.h"
#include "session.h"
#include "writer.h"

#include <inttypes.h>
#include <stdlib.h>
#include <string.h>

/* Calls after which everything that scripts can meet must have been met. */
#define CALLS_TO_MEET_ALL 40000u

/* The numbers that a fresh state, a power-up, an attention, a step and a sweep can answer. */
#define MAKE_NUMBERS (1u << EMU_DONE | 1u << EMU_BAD_POINTER)
#define POWER_NUMBERS (1u << EMU_DONE | 1u << EMU_BEYOND_LENT_MEMORY | 1u << EMU_BAD_BUFFER)
#define EARLY_NUMBERS                                                                              \
    (1u << EMU_BAD_POINTER | 1u << EMU_BAD_BUFFER | 1u << EMU_BAD_ARGUMENT | 1u << EMU_NOT_POWERED_UP | \
     1u << EMU_FIELDS_DISAGREE)
#define CA_NUMBERS                                                                                                    \
    (EARLY_NUMBERS | 1u << EMU_DONE | 1u << EMU_BEYOND_LENT_MEMORY | 1u << EMU_BAD_COMMAND | 1u << EMU_NOT_SUSPENDED | \
     1u << EMU_ALREADY_RUNNING | 1u << EMU_NOT_RUNNING)
#define STEP_NUMBERS                                                                                                 \
    (EARLY_NUMBERS | 1u << EMU_DONE | 1u << EMU_NO_CHANNEL_CAN_RUN | 1u << EMU_BEYOND_LENT_MEMORY |                  \
     1u << EMU_NO_INSTRUCTION | 1u << EMU_CC_USED | 1u << EMU_BAD_TRANSFER)

#define SWEEP_NUMBERS (EARLY_NUMBERS | 1u << EMU_DONE | 1u << EMU_NOT_SWEEPABLE)

/* The commands that are in use. */
#define COMMANDS (0xFFu & ~(1u << 2 | 1u << 4))

/* Standard input, of which one byte more is kept than either program reads. */
static char text[SCRIPT_LIMIT + 1];

/* Says why nothing was done, and ends the program. */
static _Noreturn void fail(const char *why)
{
    fprintf(stderr, "scripts: %s\n", why);
    exit(2);
}

/* Reads standard input, and answers how much of it is kept. */
static size_t read_text(void)
{
    return fread(text, 1, sizeof text, stdin);
}

/* ---- Scripts ---- */

/* The length of the line at an index, without its line feed. */
static size_t line_length(size_t at, size_t length)
{
    const char *end = memchr(text + at, '\n', length - at);
    return end != NULL ? (size_t)(end - (text + at)) : length - at;
}

/* How much of the line of that length at an index is its call: a carriage return before its line feed is not. */
static size_t call_length(size_t at, size_t size, size_t length)
{
    return size > 0 && at + size < length && text[at + size - 1] == '\r' ? size - 1 : size;
}

/* Where a line of the text starts, and its number from 1. */
struct place {
    size_t at;
    unsigned long line;
};

/* The line behind this one. */
static struct place behind(struct place p, size_t length)
{
    struct place next = {p.at + line_length(p.at, length) + 1, p.line + 1};
    return next;
}

/* The line that closes a file which begins here, or the text's end. */
static struct place file_end(struct place p, size_t length)
{
    while (p.at < length) {
        size_t size = line_length(p.at, length);
        if (session_closes_file(text + p.at, call_length(p.at, size, length))) return p;
        p = behind(p, length);
    }
    return p;
}

/* Performs the call at a place and answers the place behind it; adds to the lines printed. */
static struct place perform_call(struct session *s, struct place p, size_t length, unsigned long *printed, FILE *out)
{
    size_t size = call_length(p.at, line_length(p.at, length), length);
    struct place next = behind(p, length);
    if (!session_opens_file(text + p.at, size)) {
        *printed += session_perform(s, text + p.at, size, out);
        return next;
    }
    struct place end = file_end(next, length);
    size_t from = next.at < length ? next.at : length, to = end.at < length ? end.at : length;
    *printed += session_load(s, text + from, to - from, out);
    return end.at < length ? behind(end, length) : end;
}

/* Performs the script on standard input. With a line of the output asked for, stops and answers the call's own line. */
static unsigned long perform_script(struct session *s, unsigned long asked, FILE *out)
{
    size_t length = read_text();
    unsigned long printed = 0;
    if (length > SCRIPT_LIMIT) {
        fputs("?\n", out);
        return 0;
    }
    for (struct place p = {0, 1}, next; p.at < length; p = next) {
        next = perform_call(s, p, length, &printed, out);
        if (asked > 0 && printed >= asked) return p.line;
    }
    return 0;
}

/* Takes a tally up again where a file of that name exists. */
static void load_tally(struct tally *tally, const char *name)
{
    FILE *file = fopen(name, "rb");
    if (file == NULL) return;
    if (fread(tally, sizeof *tally, 1, file) != 1) fail("the file is no tally");
    fclose(file);
}

/* Leaves a tally in a file. */
static void save_tally(const struct tally *tally, const char *name)
{
    FILE *file = fopen(name, "wb");
    if (file == NULL || fwrite(tally, sizeof *tally, 1, file) != 1 || fclose(file) != 0) fail("cannot write the tally");
}

/* Prints what the script program must print, and adds to the tally of that name. */
static int expect(const char *tally_name)
{
    static struct session s;
    session_begin(&s);
    if (tally_name != NULL) load_tally(&s.tally, tally_name);
    perform_script(&s, 0, stdout);
    s.tally.scripts++;
    if (tally_name != NULL) save_tally(&s.tally, tally_name);
    return 0;
}

/* Prints the number of the script's line whose call prints this line of the output, or 0. */
static int where(unsigned long asked)
{
    static struct session s;
    FILE *nowhere = fopen("/dev/null", "w");
    if (nowhere == NULL) fail("cannot open /dev/null");
    session_begin(&s);
    printf("%lu\n", perform_script(&s, asked, nowhere));
    return 0;
}

/* Prints how often each call was made. */
static void print_calls(const struct tally *t)
{
    static const char *const names[SCRIPT_CALLS] = {"make", "put",  "set",   "ca",    "step", "dump",
                                                    "show", "list", "reset", "power", "sweep", "prom"};
    puts("calls of the scripts:");
    for (unsigned i = 0; i < SCRIPT_CALLS; i++) print_count(names[i], t->call[i]);
    print_count("? (no call, or one that is shut out)", t->no_call);
}

/* Prints the done steps by channel and kind, and by lines. */
static void print_steps(const struct tally *t)
{
    static const char *const kinds[3] = {"I instruction", "T transfer", "X external end"};
    char name[40];
    puts("done steps:");
    for (unsigned i = 0; i < 6; i++) {
        snprintf(name, sizeof name, "channel %u, %s", i / 3 + 1, kinds[i % 3]);
        print_count(name, t->kind[i / 3][i % 3]);
    }
    for (unsigned i = 0; i < 16; i++) {
        snprintf(name, sizeof name, "under line number %u", i);
        print_count(name, t->stepped_under[i]);
    }
}

/* Prints how often each register was set. */
static void print_registers(const struct tally *t)
{
    char name[40];
    puts("registers set:");
    for (unsigned i = 0; i < 2 * SCRIPT_REGISTERS; i++) {
        const struct script_register *r = &script_registers[i / 2];
        snprintf(name, sizeof name, "%s of channel %u", r->name, i % 2 + 1);
        if (!r->shared) print_count(name, t->set[i % 2][i / 2]);
        else if (i % 2 == 0) print_count(r->name, t->set[0][i / 2]);
    }
    print_count("held of channel 1, to none", t->none_held[0]);
    print_count("held of channel 2, to none", t->none_held[1]);
}

/* Prints what listings and files met. */
static void print_texts(const struct tally *t)
{
    static const unsigned numbers[] = {HEX_DONE,      HEX_BEYOND_MEMORY, HEX_BAD_BUFFER, HEX_NO_RECORD,
                                       HEX_BAD_CHECK, HEX_BAD_TYPE,      HEX_NO_END};
    char name[40];
    puts("listings, lines of:");
    print_count("instructions", t->listed_instructions);
    print_count("data", t->listed_data);
    puts("files, by number:");
    for (unsigned i = 0; i < sizeof numbers / sizeof numbers[0]; i++) {
        snprintf(name, sizeof name, "number %u", numbers[i]);
        print_count(name, t->prom[numbers[i]]);
    }
    print_count("with a start address", t->started);
}

/* Prints what the tally of that name met; fails where that should have been all and was not. */
static int met(const char *tally_name)
{
    static struct tally t;
    load_tally(&t, tally_name);
    print_calls(&t);
    print_numbers("fresh states", t.make, MAKE_NUMBERS);
    print_numbers("power-ups", t.power, POWER_NUMBERS);
    print_numbers("attentions", t.ca, CA_NUMBERS);
    print_numbers("steps", t.step, STEP_NUMBERS);
    print_numbers("sweeps", t.sweep, SWEEP_NUMBERS);
    print_steps(&t);
    print_touched(t.bytes);
    print_registers(&t);
    print_texts(&t);
    print_fields(&t.coverage);
    print_coverage(&t.coverage, COMMANDS);
    print_pairs(&t.coverage, PAIRS_OF_ANY_KIND);
    print_held(&t.coverage);
    print_anew(t.anew);
    print_barred(&t.coverage);
    print_swept(&t.coverage);
    bool all = all_met(t.calls, CALLS_TO_MEET_ALL, "calls");
    printf("%lu scripts, %lu calls\n", t.scripts, t.calls);
    return all ? 0 : 1;
}

/* ---- Images ---- */

/* Writes the image of this seed and number. */
static int image(uint64_t seed, uint64_t number)
{
    static uint8_t sys[PANEL_ROOM];
    fwrite(sys, 1, make_panel_image(sys, seed, number), stdout);
    return 0;
}

/* Prints what the trace program must print for the image on standard input, and adds to the tally of that name. */
static int trace(const char *tally_name)
{
    static struct tally t;
    size_t length = read_text();
    if (tally_name != NULL) load_tally(&t, tally_name);
    emu_coverage = &t.coverage;
    emu_panel((const uint8_t *)text, length, stdout);
    if (tally_name != NULL) save_tally(&t, tally_name);
    return 0;
}

/* Prints how transfers of a tally's traces ended by the first of two single stores; fails where one way never came. No
 * line is up in a trace, so that none has pairs. */
static int traced(const char *tally_name)
{
    static struct tally t;
    load_tally(&t, tally_name);
    print_leftovers(&t.coverage, false);
    return all_met(1, 1, "images") ? 0 : 1;
}

/* ---- The command line ---- */

/* Says how the program is called, and ends it. */
static _Noreturn void usage(void)
{
    fputs("usage: scripts write SEED CALLS [LENGTH]  a random script, with a comment up to LENGTH bytes\n"
          "       scripts expect [TALLY] < SCRIPT    what the script program must print; adds to a tally\n"
          "       scripts where LINE < SCRIPT        the script's line whose call prints that line\n"
          "       scripts met TALLY                  what all scripts of a tally met\n"
          "       scripts image SEED NUMBER          a random image for the trace program\n"
          "       scripts trace [TALLY] < IMAGE      what the trace program must print; adds to a tally\n"
          "       scripts traced TALLY               how transfers of a tally's traces ended in mid-word\n",
          stderr);
    exit(2);
}

/* The number that a word of the command line writes; 0 for a word that is left out. */
static uint64_t value_of(const char *word)
{
    char *end = NULL;
    if (word == NULL) return 0;
    uint64_t value = strtoull(word, &end, 10);
    if (*word < '0' || *word > '9' || *end != '\0') usage();
    return value;
}

int main(int count, char **words)
{
    const char *word = count > 1 ? words[1] : "", *first = count > 2 ? words[2] : NULL;
    const char *second = count > 3 ? words[3] : NULL, *third = count > 4 ? words[4] : NULL;
    if (strcmp(word, "expect") == 0 && count <= 3) return expect(first);
    if (strcmp(word, "trace") == 0 && count <= 3) return trace(first);
    if (strcmp(word, "traced") == 0 && count == 3) return traced(first);
    if (strcmp(word, "met") == 0 && count == 3) return met(first);
    if (strcmp(word, "where") == 0 && count == 3) return where((unsigned long)value_of(first));
    if (strcmp(word, "image") == 0 && count == 4) return image(value_of(first), value_of(second));
    if (strcmp(word, "write") != 0 || count < 4 || count > 5) usage();
    if (!write_script(value_of(first), (unsigned long)value_of(second), (size_t)value_of(third), stdout))
        fail("cannot open /dev/null");
    return 0;
}
