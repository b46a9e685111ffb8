/* Compares sweeps made three ways: by the service archive, by the emulator, and in plain steps of the archive. What they
 * answer, the state and every lent byte must be the same, and a refused sweep changes nothing. */
#include "iop89_service.h"
#include "coverage.h"
#include "options.h"
#include "sweeps.h"

#include <inttypes.h>
#include <stdlib.h>
#include <string.h>

static const struct comparison comparison = {"compare_sweep", "sweep", "sweeps", 200000};

/* More steps than a sweep stands for. */
enum { STEP_LIMIT = 70000 };

/* What the plain steps came to: the number of the last, how many were done, and the sum of their counts. */
struct plainly {
    uint32_t number, steps, count;
};

/* As it was given, as the emulator and the archive left it by a sweep, and as the archive left it by plain steps. */
static struct machine given, emulated, swept, stepped;
static struct emu_coverage coverage;

/* Gives a machine what was given. */
static void lend_given(const struct machine *to, const struct sweep *s)
{
    lend_machine(to, &given, s->length);
}

/* Whether the second machine is what the first one is, and has its fences. */
static bool same_machine(const struct machine *a, const struct machine *b, const struct sweep *s)
{
    return same_state(b, a) && same_memories(b, a, s->length);
}

/* ---- The three answers ---- */

/* The emulator's answer, laid out as the archive's. */
static uint64_t by_emulator(const struct sweep *s)
{
    struct emu_memory memory = {emulated.memory[0], s->length[0], emulated.memory[1], s->length[1]};
    struct emu_state state;
    if (state_from_bytes(emulated.state, s->state_len, &state) != FAULT_NONE) return IOP89_NO_STATE;
    struct emu_swept answer = emu_sweep(&state, &memory, s->channel, s->lines);
    state_to_bytes(&state, emulated.state);
    return (uint64_t)answer.count << 32 | (uint64_t)answer.steps << 8 | answer.number;
}

/* The archive's answer. */
static uint64_t by_archive(const struct sweep *s)
{
    return iop89_sweep(swept.state, s->state_len, swept.memory[0], s->length[0], swept.memory[1], s->length[1],
                       s->channel, s->lines);
}

/* The archive's plain steps under the same lines, until XF of the channel is clear or one is refused. */
static struct plainly by_steps(const struct sweep *s)
{
    struct plainly p = {IOP89_DONE, 0, 0};
    while (p.steps < STEP_LIMIT && (iop89_get(stepped.state, s->channel, IOP89_PSW) & EMU_PSW_XF) != 0) {
        uint32_t answer = iop89_step(stepped.state, s->state_len, stepped.memory[0], s->length[0], stepped.memory[1],
                                     s->length[1], s->lines);
        p.number = IOP89_ANSWER_NUMBER(answer);
        if (p.number != IOP89_DONE) return p;
        p.count += IOP89_ANSWER_COUNT(answer);
        p.steps++;
    }
    return p;
}

/* ---- What was met ---- */

/* What done sweeps meet besides their sides: channels, fields, marks, pointers, and how their ranges lie. */
enum met {
    MET_GA, MET_GB, MET_IDLE, MET_SUSPENDED, MET_OTHER_LAST, MET_SAME_LAST, MET_TMC_000, MET_TMC_100, MET_CHAINED,
    MET_BIT_9, MET_PRIORITY, MET_NO_TB, MET_HELD_ARMED, MET_OTHER_HOLDS, MET_TP_WRAPS, MET_SOURCE_HIGH,
    MET_DESTINATION_HIGH, MET_EQUAL, MET_SOURCE_FIRST, MET_DESTINATION_FIRST, MET_SOURCE_NEXT, MET_DESTINATION_NEXT, METS
};

static const char *const met_names[METS] = {
    "source GA", "source GB", "the other channel idle", "the other channel suspended", "the other channel stepped last",
    "the same channel stepped last", "TMC 000", "TMC 100", "chained", "bit 9 of CC set", "priority set", "TB clear",
    "a byte held and the armed mark set", "the other channel holds a byte", "TP wraps",
    "high bits in the source's I/O pointer", "high bits in the destination's I/O pointer", "equal addresses in two spaces",
    "source before destination", "destination before source", "source right before destination",
    "destination right before source"};

/* Sweeps that were refused by 15 for one thing alone, where there are several of its kind. */
enum alone {
    ALONE_IDLE, ALONE_SUSPENDED, ALONE_SOURCE_PAST, ALONE_SOURCE_WRAPS, ALONE_DESTINATION_PAST, ALONE_DESTINATION_WRAPS,
    ALONE_SHARED_BEHIND, ALONE_SHARED_BEFORE, ALONE_SHARED_ALL, ALONE_SHARED_HIGH, ALONES
};

static const char *const alone_names[ALONES] = {
    "the channel idle", "the channel suspended", "source one byte past what is lent",
    "source across the top of its space", "destination one byte past what is lent",
    "destination across the top of its space", "the source's last byte is the destination's first",
    "the destination's last byte is the source's first", "both ranges the same",
    "shared in I/O space, high bits of the pointers not the same"};

static unsigned long numbers[IOP89_NO_STATE + 1], order[IOP89_NO_STATE + 1][IOP89_NO_STATE + 1], faults[STATE_FAULTS];
static unsigned long met[METS], alone[ALONES], syn[4], tx[4], tmc[8], ext[16], under[2][4], ends[2][2][2], tbc[4];
static unsigned long few[FEW + 1], between, many[4], plain, plain_many[4];
static unsigned long by_channel, by_lines, by_system, by_io, by_count;

/* The ranges of a channel's transfer, as the papers have them. */
struct ranges {
    struct emu_pointer pointer[2]; /* source, destination */
    uint32_t at[2], n;
};

/* The ranges that a state gives a channel. */
static struct ranges ranges_of(const struct emu_channel *c)
{
    struct ranges r = {{c->ga, c->gb}, {0, 0}, c->bc == 0 ? MOST : c->bc};
    if (c->fields.source_is_gb) r.pointer[0] = c->gb, r.pointer[1] = c->ga;
    for (unsigned i = 0; i < 2; i++) r.at[i] = r.pointer[i].address % space_limits[r.pointer[i].tag];
    return r;
}

/* Counts how the ranges of a done sweep lie. */
static void count_ranges(const struct sweep *s, const struct ranges *r)
{
    bool together = r->pointer[0].tag == r->pointer[1].tag;
    met[MET_SOURCE_HIGH] += r->pointer[0].tag && r->pointer[0].address > 0xFFFF;
    met[MET_DESTINATION_HIGH] += r->pointer[1].tag && r->pointer[1].address > 0xFFFF;
    met[MET_EQUAL] += !together && r->at[0] == r->at[1];
    met[MET_SOURCE_FIRST] += together && r->at[0] < r->at[1];
    met[MET_DESTINATION_FIRST] += together && r->at[0] > r->at[1];
    met[MET_SOURCE_NEXT] += together && r->at[0] + r->n == r->at[1];
    met[MET_DESTINATION_NEXT] += together && r->at[1] + r->n == r->at[0];
    for (unsigned i = 0; i < 2; i++) {
        bool in_io = r->pointer[i].tag, top = s->length[in_io] == space_limits[in_io];
        if (r->at[i] + r->n == s->length[in_io]) ends[i][in_io][top]++;
    }
}

/* Counts a done sweep. */
static void count_done(const struct sweep *s, const struct emu_state *state)
{
    const struct emu_channel *c = &state->channel[s->channel - 1], *other = &state->channel[2 - s->channel];
    struct ranges r = ranges_of(c);
    met[c->fields.source_is_gb ? MET_GB : MET_GA]++;
    met[other->mode == EMU_IDLE ? MET_IDLE : MET_SUSPENDED]++;
    met[state->last == s->channel ? MET_SAME_LAST : MET_OTHER_LAST]++;
    met[c->fields.tmc == 4 ? MET_TMC_100 : MET_TMC_000]++;
    met[MET_CHAINED] += c->fields.chained;
    met[MET_BIT_9] += (c->cc & 0x0200u) != 0;
    met[MET_PRIORITY] += (c->psw & EMU_PSW_PRIORITY) != 0;
    met[MET_NO_TB] += (c->psw & EMU_PSW_TB) == 0;
    met[MET_HELD_ARMED] += c->held != EMU_NONE_HELD && c->armed;
    met[MET_OTHER_HOLDS] += other->held != EMU_NONE_HELD;
    met[MET_TP_WRAPS] += c->tp.address + 4 * (c->fields.tbc - 1u) > MASK20;
    under[s->channel - 1][s->lines & 3u]++;
    tbc[c->fields.tbc]++;
    if (r.n <= FEW) few[r.n]++;
    else if (r.n < MANY) between++;
    else many[r.n - MANY]++;
    count_ranges(s, &r);
}

/* Counts ranges that alone bar a sweep: one not lent, or two that share bytes. */
static void count_bad_ranges(const struct sweep *s, const struct ranges *r, unsigned bars)
{
    for (unsigned i = 0; i < 2; i++) {
        uint32_t length = (uint32_t)s->length[r->pointer[i].tag];
        bool whole = length == space_limits[r->pointer[i].tag], past = r->at[i] + r->n == length + 1;
        if (bars != 1u << (i == 0 ? EMU_BAR_SOURCE_NOT_LENT : EMU_BAR_DESTINATION_NOT_LENT)) continue;
        alone[i == 0 ? ALONE_SOURCE_PAST : ALONE_DESTINATION_PAST] += past && !whole;
        alone[i == 0 ? ALONE_SOURCE_WRAPS : ALONE_DESTINATION_WRAPS] += whole;
    }
    if (bars != 1u << EMU_BAR_SHARED) return;
    bool in_io = r->pointer[0].tag, high = (r->pointer[0].address ^ r->pointer[1].address) > 0xFFFF;
    alone[ALONE_SHARED_BEHIND] += r->n > 1 && r->at[1] == r->at[0] + r->n - 1;
    alone[ALONE_SHARED_BEFORE] += r->n > 1 && r->at[0] == r->at[1] + r->n - 1;
    alone[ALONE_SHARED_ALL] += r->at[0] == r->at[1];
    alone[ALONE_SHARED_HIGH] += in_io && high;
}

/* Counts a sweep that 15 refused, by what alone barred it. */
static void count_barred(const struct sweep *s, const struct emu_state *state)
{
    const struct emu_memory memory = {given.memory[0], s->length[0], given.memory[1], s->length[1]};
    const struct emu_channel *c = &state->channel[s->channel - 1];
    struct ranges r = ranges_of(c);
    unsigned bars = emu_bars(state, &memory, s->channel, s->lines), not_lent = 3u << EMU_BAR_SOURCE_NOT_LENT;
    by_count += c->bc == 0 && (bars & ~(not_lent | 1u << EMU_BAR_SHARED)) == 0;
    if (bars == 1u << EMU_BAR_EXT) ext[s->lines & 15u]++;
    if (bars == 1u << EMU_BAR_STANDS) alone[c->mode == EMU_IDLE ? ALONE_IDLE : ALONE_SUSPENDED]++;
    if (bars == 1u << EMU_BAR_SYN) syn[c->fields.syn]++;
    if (bars == 1u << EMU_BAR_TX) tx[c->fields.tx]++;
    if (bars == 1u << EMU_BAR_TMC) tmc[c->fields.tmc]++;
    count_bad_ranges(s, &r, bars);
}

/* Counts a sweep by its number, and where two things were wrong with it, by that of the other too. */
static void count(const struct sweep *s, uint64_t answer)
{
    struct emu_state state;
    unsigned number = IOP89_SWEEP_NUMBER(answer);
    enum state_fault fault = state_from_bytes(given.state, s->state_len, &state);
    numbers[number]++;
    faults[fault]++;
    if (s->flaw[0] != NO_FLAW && number == number_of_flaw(s->flaw[1])) order[number][number_of_flaw(s->flaw[0])]++;
    by_channel += number == IOP89_BAD_ARGUMENT && s->lines <= 15;
    by_lines += number == IOP89_BAD_ARGUMENT && (s->channel == 1 || s->channel == 2);
    by_system += number == IOP89_BAD_BUFFER && s->length[1] <= space_limits[1];
    by_io += number == IOP89_BAD_BUFFER && s->length[0] <= space_limits[0];
    if (number == IOP89_DONE) count_done(s, &state);
    if (number == IOP89_NOT_SWEEPABLE) count_barred(s, &state);
}

/* ---- One sweep ---- */

/* Shows where a machine is not as the archive's sweep left its own: bytes of the state, and whether some of memory. */
static void show_machine(const char *name, const struct machine *m, const struct sweep *s)
{
    for (size_t i = 0; i < STATE_ROOM; i++)
        if (m->state[i] != swept.state[i])
            printf("  state byte %zu: %s %02X, archive's sweep %02X\n", i, name, m->state[i], swept.state[i]);
    for (unsigned i = 0; i < 2; i++)
        if (memcmp(m->memory[i], swept.memory[i], s->length[i]) != 0)
            printf("  %s memory: %s and the archive's sweep differ\n", i == 0 ? "system" : "I/O", name);
}

/* Shows a number with steps and count. */
static void show_answer(const char *name, uint32_t number, uint32_t steps, uint32_t count)
{
    printf("  %s: number %" PRIu32 ", %" PRIu32 " steps, count %" PRIu32 "\n", name, number, steps, count);
}

/* Shows what one sweep was given and answered, and what the emulator made of it. */
static void show(const struct sweep *s, uint64_t emulator, uint64_t archive)
{
    printf("  channel %" PRIu32 ", lines %" PRIu32 ", %" PRIu32 " bytes, %zu and %zu lent, %zu of a state\n",
           s->channel, s->lines, s->n, s->length[0], s->length[1], s->state_len);
    show_answer("emulator", IOP89_SWEEP_NUMBER(emulator), IOP89_SWEEP_STEPS(emulator), IOP89_SWEEP_COUNT(emulator));
    show_answer("archive", IOP89_SWEEP_NUMBER(archive), IOP89_SWEEP_STEPS(archive), IOP89_SWEEP_COUNT(archive));
    show_machine("emulator", &emulated, s);
    if (!same_machine(&swept, &swept, s)) puts("  the archive stored beside a buffer");
}

/* Whether the plain steps came to the sweep's end in its number of steps and with its count. */
static bool agree_plainly(const struct sweep *s, uint64_t answer, bool shown)
{
    lend_given(&stepped, s);
    struct plainly p = by_steps(s);
    if (!shown) plain++;
    if (!shown && s->n >= MANY) plain_many[s->n - MANY]++;
    if (shown) show_answer("plain steps", p.number, p.steps, p.count);
    if (shown) show_machine("plain steps", &stepped, s);
    return p.number == IOP89_DONE && p.steps == IOP89_SWEEP_STEPS(answer) && p.count == IOP89_SWEEP_COUNT(answer) &&
           same_machine(&stepped, &swept, s);
}

/* Whether a refused sweep has neither steps nor count and left everything as it was given. */
static bool changed_nothing(const struct sweep *s, uint64_t answer, bool shown)
{
    if (shown) show_machine("as given", &given, s);
    return IOP89_SWEEP_STEPS(answer) == 0 && IOP89_SWEEP_COUNT(answer) == 0 && same_machine(&given, &swept, s);
}

/* Makes one sweep in all ways; answers whether they agree, and whether a refused one changed nothing. */
static bool agree(uint64_t seed, uint64_t number, bool shown)
{
    struct sweep s = make_sweep(given, seed, number);
    lend_given(&emulated, &s);
    lend_given(&swept, &s);
    emu_coverage = shown ? NULL : &coverage;
    uint64_t emulator = by_emulator(&s), archive = by_archive(&s);
    emu_coverage = NULL;
    if (shown) show(&s, emulator, archive);
    else count(&s, emulator);
    bool same = emulator == archive && same_machine(&emulated, &swept, &s);
    if (IOP89_SWEEP_NUMBER(archive) != IOP89_DONE) same = changed_nothing(&s, archive, shown) && same;
    else if (s.plain) same = agree_plainly(&s, archive, shown) && same;
    return same;
}

/* ---- Every CC ---- */

/* Sweeps a transfer of seven bytes with each of the 65,536 values in CC; how many differ. Of these 48 are done: TBC 01, 10
 * and 11, with bits 10, 9, 8 and 2 free. */
static unsigned every_cc(void)
{
    struct random d = seeded(4000037, 0);
    struct sweep s = {.given = given, .length = {64, 64}, .state_len = STATE_BYTES, .channel = 1, .n = 7};
    struct range source = {false, 8}, destination = {true, 8};
    unsigned differences = 0, done = 0;
    s.source = source;
    s.destination = destination;
    make_state(&d, &s);
    for (uint32_t cc = 0; cc < 65536; cc++) {
        iop89_set_cc(given.state, s.channel, cc);
        lend_given(&emulated, &s);
        lend_given(&swept, &s);
        uint64_t emulator = by_emulator(&s), archive = by_archive(&s);
        done += IOP89_SWEEP_NUMBER(archive) == IOP89_DONE;
        if (emulator == archive && same_machine(&emulated, &swept, &s)) continue;
        if (differences++ < SHOWN) printf("DIFFERENCE at CC %04" PRIX32 "\n", cc);
    }
    print_count("CC values of which a sweep is done", done);
    if (done != 48) puts("this should be 48");
    return differences + (done != 48);
}

/* ---- What is printed ---- */

/* The numbers that a sweep can answer. */
#define SWEEP_NUMBERS (1u << 0 | 63u << 10 | 1u << 17)

/* Prints the sweeps by number, refusals by what is wrong, by which of two comes first, and 17 by its cause. */
static void print_refused(void)
{
    static const unsigned first[] = {17, 12, 11, 10, 13, 14, 15};
    char name[120];
    print_answers("sweeps, by number:", numbers, SWEEP_NUMBERS);
    print_count("12 for the channel alone", by_channel);
    print_count("12 for the lines alone", by_lines);
    print_count("11 for system memory alone", by_system);
    print_count("11 for I/O memory alone", by_io);
    print_count("15 for BC 0 and the ranges of 65,536 bytes", by_count);
    puts("where two numbers could be given:");
    for (unsigned i = 0; i < 7; i++) {
        for (unsigned j = i + 1; j < 7; j++) {
            snprintf(name, sizeof name, "%u before %u", first[i], first[j]);
            print_count(name, order[first[i]][first[j]]);
        }
    }
    print_faults("17, by its cause:", faults);
}

/* Prints what alone barred sweeps, in each of its ways. */
static void print_alone(void)
{
    print_barred(&coverage);
    print_table("of these:", alone_names, alone, ALONES);
    print_numbered("under line number %u", ext + 4, 4, 15);
    print_numbered("SYN %u", syn + 1, 1, 3);
    print_numbered("TX %u", tx + 1, 1, 3);
    print_numbered("TMC %u", tmc + 1, 1, 3);
    print_numbered("TMC %u", tmc + 5, 5, 7);
}

/* Prints where the ranges of done sweeps ended. */
static void print_ends(void)
{
    char name[80];
    for (unsigned i = 0; i < 8; i++) {
        snprintf(name, sizeof name, "%s up to the %s %s", i / 4 == 0 ? "source" : "destination",
                 i % 2 != 0 ? "top of" : "end of what is lent in", i / 2 % 2 == 0 ? "system space" : "I/O space");
        print_count(name, ends[i / 4][i / 2 % 2][i % 2]);
    }
}

/* Prints everything that was met. */
static void print_met(void)
{
    print_refused();
    print_alone();
    print_sides("done sweeps, by sides:", coverage.swept);
    print_swept(&coverage);
    print_table("done sweeps, by what they were given:", met_names, met, METS);
    print_ends();
    print_numbered("TBC %u", tbc + 1, 1, 3);
    print_numbered("channel 1 under line number %u", under[0], 0, 3);
    print_numbered("channel 2 under line number %u", under[1], 0, 3);
    print_numbered("bytes: %u", few + 1, 1, FEW);
    print_count("bytes: more, and fewer than 65533", between);
    print_numbered("bytes: %u", many, MANY, MOST);
    print_count("made in plain steps too", plain);
    print_numbered("made in plain steps too, bytes: %u", plain_many, MANY, MOST);
}

int main(int count, char **words)
{
    struct options o = read_options(&comparison, count, words);
    struct random d = seeded(o.seed, 0);
    given = new_machine();
    emulated = new_machine();
    swept = new_machine();
    stepped = new_machine();
    scatter(&d, given.memory[SYS], CASE_SYSTEM_ROOM);
    scatter(&d, given.memory[IO], CASE_IO_ROOM);
    unsigned long long at_cc = every_cc(), differences = compare_cases(&comparison, o, agree);
    print_options(&comparison, o);
    print_met();
    return conclude(&comparison, o, differences + at_cc);
}
