/* Compares the library's run with the independent emulator's over random cases: the answer and every lent byte. */
#include "cases.h"
#include "emulator/emulator.h"
#include "iop89.h"
#include "lent.h"
#include "coverage.h"
#include "options.h"

#include <inttypes.h>
#include <signal.h>
#include <stdlib.h>
#include <string.h>

/* How many differences are shown in full, and how many bytes of each. */
enum { SHOWN_DIFFERENCES = 3, SHOWN_BYTES = 16 };

static const struct comparison comparison = {"compare", "case", "cases", 200000};

/* The case as it was made, and the emulator's and the library's copy of its buffers. */
static struct machine made, emulated, proved;
static struct emu_coverage coverage;
static unsigned long numbers[EMU_NUMBERS];
static uint64_t seed = 1, current;

/* Every so many cases there is one more whose program begins about the end of its memory; which of these are made, if any,
 * and how the last one lies. */
enum { CASES_FOR_AN_EDGE = 100 };
static enum { NO_EDGE, SYSTEM_EDGE, IO_EDGE } about = NO_EDGE;
static enum edge edge;
static unsigned long edges[2][EDGES];

/* ---- Running one case ---- */

/* Makes a case in a machine's memories. */
static struct run_case make_in(const struct machine *m, uint64_t number)
{
    struct run_case c = {m->memory[SYS], m->memory[IO], 0, 0, 0, 0, 0, 0};
    if (about == NO_EDGE) make_case(&c, seed, number);
    else edge = make_edge_case(&c, seed, number, about == IO_EDGE);
    return c;
}

/* The emulator's answer. */
static uint32_t run_emulator(const struct run_case *c, uint32_t limit)
{
    struct emu_memory memory = {emulated.memory[SYS], c->sys_len, emulated.memory[IO], c->io_len};
    return emu_run(&memory, c->cp, c->channel, c->lines, limit);
}

/* The library's answer. */
static uint32_t run_library(const struct run_case *c, uint32_t limit)
{
    return iop89_run(proved.memory[SYS], c->sys_len, proved.memory[IO], c->io_len, c->cp, c->channel, c->lines, limit);
}

/* ---- Showing a difference ---- */

/* Runs both sides on a case that was made before, under another limit. */
static bool agrees_at(const struct run_case *c, uint32_t limit, uint32_t *emulator, uint32_t *library)
{
    lend_memories(&emulated, &made, LENT_BY(c));
    lend_memories(&proved, &made, LENT_BY(c));
    *emulator = run_emulator(c, limit);
    *library = run_library(c, limit);
    return *emulator == *library && same_memories(&proved, &emulated, LENT_BY(c));
}

/* The smallest limit at which halving finds the sides to differ, so that its last step is the one to look at. */
static uint32_t smallest_limit(const struct run_case *c)
{
    uint32_t low = 0, high = c->limit, emulator = 0, library = 0;
    if (high > 65535) return high;
    while (low < high) {
        uint32_t middle = low + (high - low) / 2;
        if (agrees_at(c, middle, &emulator, &library)) low = middle + 1;
        else high = middle;
    }
    return high;
}

/* Prints an answer. */
static void print_answer(const char *who, uint32_t answer)
{
    printf("  %-8s  %08" PRIX32 ": number %u, %u steps\n", who, answer, IOP89_NUMBER(answer), IOP89_STEPS(answer));
}

/* Prints lent bytes of one space as they now are, each at its own reduced address. */
static void print_bytes(const char *what, const struct emu_memory *m, uint32_t address, bool in_io, unsigned count)
{
    printf("  %-8s  %s %05" PRIX32 ":", what, in_io ? "io    " : "system", address);
    for (unsigned i = 0; i < count; i++) {
        uint32_t at = (address + i) & (in_io ? 0xFFFFu : 0xFFFFFu);
        if (at < (in_io ? m->io_len : m->sys_len)) printf(" %02X", (in_io ? m->io : m->sys)[at]);
        else fputs(" --", stdout);
    }
    putchar('\n');
}

/* Prints the first bytes of one buffer on which the sides differ. */
static void print_bytes_apart(const char *name, const uint8_t *old, const uint8_t *a, const uint8_t *b, size_t length)
{
    unsigned shown = 0;
    for (size_t i = 0; i < length && shown < SHOWN_BYTES; i++) {
        if (a[i] == b[i]) continue;
        printf("  %s %05zX: was %02X, emulator %02X, library %02X\n", name, i, old[i], a[i], b[i]);
        shown++;
    }
}

/* Prints a pointer with its tag. */
static void print_pointer(const char *name, struct emu_pointer p)
{
    printf(" %s %05" PRIX32 "%s", name, p.address, p.tag ? "/io" : "");
}

/* Prints a channel's registers. */
static void print_channel(const struct emu_channel *ch)
{
    fputs("  before: ", stdout);
    print_pointer("GA", ch->ga);
    print_pointer("GB", ch->gb);
    print_pointer("GC", ch->gc);
    print_pointer("TP", ch->tp);
    printf(" PP %05" PRIX32 "\n          ", ch->pp);
    printf(" BC %04X IX %04X CC %04X MC %04X PSW %02X held %03X%s\n", ch->bc, ch->ix, ch->cc, ch->mc, ch->psw, ch->held,
           ch->armed ? " armed" : "");
}

/* Shows the emulator's channel, and the bytes that its pointers reach, before the last step under a limit. */
static void print_before(const struct run_case *c, uint32_t limit)
{
    struct emu_memory m = {made.memory[SYS], c->sys_len, made.memory[IO], c->io_len};
    struct emu_state state;
    const struct emu_channel *ch = &state.channel[c->channel == 2];
    print_bytes("block", &m, c->channel == 2 ? c->cp + 8 : c->cp, false, 6);
    if (emu_fresh(c->cp, &state) != EMU_DONE || emu_attention(&state, &m, c->channel).number != EMU_DONE) return;
    for (uint32_t i = 1; i < limit; i++)
        if (emu_step(&state, &m, c->lines).number != EMU_DONE) break;
    print_channel(ch);
    print_bytes("at PP", &m, ch->pp, false, 16);
    print_bytes("at TP", &m, ch->tp.address, ch->tp.tag, 12);
    print_bytes("at GA", &m, ch->ga.address, ch->ga.tag, 8);
    print_bytes("at GB", &m, ch->gb.address, ch->gb.tag, 8);
    print_bytes("at GC", &m, ch->gc.address, ch->gc.tag, 8);
}

/* Shows a case on which the sides differ, cut down to the smallest limit. */
static void show_difference(uint64_t number)
{
    struct run_case c = make_in(&made, number);
    uint32_t limit = smallest_limit(&c), emulator = 0, library = 0;
    bool settled = !agrees_at(&c, limit, &emulator, &library);
    printf("DIFFERENCE in case %" PRIu64 " of seed %" PRIu64 " (again: compare %" PRIu64 " 1 %" PRIu64 ")%s\n", number,
           seed, seed, number, settled ? "" : ", not seen when run again");
    printf("  sys_len %zu, io_len %zu, cp %" PRIX32 "h, channel %" PRIu32 ", lines %" PRIu32 ", limit %" PRIu32
           " (first differs at %" PRIu32 ")\n",
           c.sys_len, c.io_len, c.cp, c.channel, c.lines, c.limit, limit);
    print_answer("emulator", emulator);
    print_answer("library", library);
    print_bytes_apart("system", made.memory[SYS], emulated.memory[SYS], proved.memory[SYS], c.sys_len);
    print_bytes_apart("io    ", made.memory[IO], emulated.memory[IO], proved.memory[IO], c.io_len);
    if (!fences_stand(proved.memory[SYS], c.sys_len)) puts("  the library stored beside system memory");
    if (!fences_stand(proved.memory[IO], c.io_len)) puts("  the library stored beside I/O memory");
    print_before(&c, limit);
}

/* Names the case in which the program was stopped. */
static void on_stop(int signal_number)
{
    fprintf(stderr, "compare: signal %d in case %" PRIu64 " of seed %" PRIu64 "\n", signal_number, current, seed);
    _Exit(1);
}

/* Compares one case; counts only what the emulator does for the comparison itself. */
static bool agree(uint64_t number)
{
    struct run_case c = make_in(&emulated, number);
    current = number;
    lend_memories(&proved, &emulated, LENT_BY(&c));
    emu_coverage = &coverage;
    uint32_t emulator = run_emulator(&c, c.limit);
    emu_coverage = NULL;
    uint32_t library = run_library(&c, c.limit);
    numbers[IOP89_NUMBER(emulator)]++;
    if (about != NO_EDGE) edges[about == IO_EDGE][edge]++;
    return emulator == library && same_memories(&proved, &emulated, LENT_BY(&c));
}

/* Compares so many cases, shows the first differences, and answers how many there are. */
static unsigned long long compare_runs(struct options o, uint64_t cases)
{
    unsigned long long differences = 0;
    for (uint64_t i = o.first; i < o.first + cases; i++) {
        if (agree(i)) continue;
        if (differences++ < SHOWN_DIFFERENCES) show_difference(i);
    }
    return differences;
}

/* ---- What was met ---- */

/* Prints how the programs lay that began about the end of their memory; a short system memory starts none. */
static void print_edges(void)
{
    static const char *const names[EDGES] = {"over the end of memory", "over the top of a whole memory",
                                             "over the end and the top", "in a memory of fewer than eight", "behind the end"};
    char name[80];
    puts("programs whose first eight bytes lie, in system and in I/O space:");
    for (unsigned i = 0; i < EDGES; i++) {
        snprintf(name, sizeof name, "system, %s", names[i]);
        if (i != EDGE_SHORT) print_count(name, edges[0][i]);
        snprintf(name, sizeof name, "I/O, %s", names[i]);
        print_count(name, edges[1][i]);
    }
}

/* The numbers that a run can answer: all but 8, 13, 14, 15 and 16, since it starts with idle channels from a CP, every
 * operation that writes CC renews its fields, and it makes no sweep and has no rows. */
#define RUN_NUMBERS                                                                              \
    (ALL_NUMBERS & ~(1u << EMU_ALREADY_RUNNING | 1u << EMU_NOT_POWERED_UP | 1u << EMU_FIELDS_DISAGREE | \
                     1u << EMU_NOT_SWEEPABLE | 1u << EMU_UNKNOWN_ROW))

/* The commands that a fresh channel takes. */
#define FRESH_COMMANDS (1u << 0 | 1u << 1 | 1u << 3 | 1u << 7)

int main(int count, char **words)
{
    struct options o = read_options(&comparison, count, words);
    unsigned long long differences = 0;
    seed = o.seed;
    signal(SIGSEGV, on_stop);
    signal(SIGILL, on_stop);
    signal(SIGABRT, on_stop);
    made = new_machine();
    emulated = new_machine();
    proved = new_machine();
    differences += compare_runs(o, o.cases);
    about = SYSTEM_EDGE;
    differences += compare_runs(o, o.cases / CASES_FOR_AN_EDGE);
    about = IO_EDGE;
    differences += compare_runs(o, o.cases / CASES_FOR_AN_EDGE);
    print_options(&comparison, o);
    print_numbers("answers", numbers, RUN_NUMBERS);
    print_coverage(&coverage, FRESH_COMMANDS);
    print_pairs(&coverage, PAIRS_UNDISTURBED);
    print_edges();
    return conclude(&comparison, o, differences);
}
