/* Compares calls on two processors of one board: the service archive's beside the emulator's, beside the single call on the
 * named one alone, and beside the same call with noise in the place of the other's state and I/O memory. Answers, reports,
 * states and every lent byte must be the same, and what is the other's must stay. */
#include "iop89_service.h"
#include "coverage.h"
#include "options.h"
#include "processors.h"
#include "schedules.h"
#include "states.h"

#include <inttypes.h>
#include <stdlib.h>
#include <string.h>

static const struct comparison comparison = {"compare_pair", "row", "rows of calls", 100000};

/* The most calls of a row, and up to which length memories and noise are compared after each call. */
enum { MOST_CALLS = 40, SMALL = 16384, SMALL_NOISE = 2048 };

/* The ways in which a call is made, each on a board of its own: by the archive's pair; by the pair with noise in the
 * other's place; by the single call; and by the emulator. */
enum way { PAIRED, BESIDE, SINGLE, EMULATED, WAYS };

static const char *const way_names[WAYS] = {"archive", "archive, beside noise", "single call", "emulator"};

/* What a call is lent: two states, one system memory, two I/O memories, each with its length. */
struct board {
    uint8_t *state[2], *sys, *io[2];
    size_t state_len[2], sys_len, io_len[2];
};

/* What a way answered, and its report where the call was a schedule. */
struct outcome {
    uint64_t answer;
    report_words report;
};

static struct board boards[WAYS];
static struct outcome outcomes[WAYS];
static struct schedule schedule;

/* Both states as they were given. */
static uint8_t given[2][STATE_ROOM];

/* Noise for either place: states, and I/O memory with what it is to stay. */
enum { NOISE_ROOM = CASE_IO_ROOM + 64 };
static uint8_t *noise_state[2], noise_given[2][STATE_ROOM], *noise_io[2], noise_kept[NOISE_ROOM];

/* ---- Boards ---- */

/* Room for a board. */
static struct board new_board(void)
{
    struct board b = {.sys = fenced(CASE_SYSTEM_ROOM)};
    for (unsigned i = 0; i < 2; i++) {
        b.state[i] = fenced(STATE_ROOM);
        b.io[i] = fenced(CASE_IO_ROOM);
    }
    return b;
}

/* Lends every board what the first one has, with fences right behind it. */
static void lend_all(const struct processors *p)
{
    for (enum way way = PAIRED; way < WAYS; way++) {
        struct board *b = &boards[way];
        b->sys_len = p->of[0].sys_len;
        lend(b->sys, boards[PAIRED].sys, b->sys_len);
        for (unsigned i = 0; i < 2; i++) {
            b->io_len[i] = p->of[i].io_len;
            lend(b->io[i], boards[PAIRED].io[i], b->io_len[i]);
        }
    }
}

/* Puts a byte into the system memory of every board, if it is lent. */
static void put_each(const struct run_case *c, uint32_t address, uint8_t byte)
{
    for (enum way way = PAIRED; way < WAYS && address < c->sys_len; way++) boards[way].sys[address] = byte;
}

/* Gives every board the states of the first, and keeps them. */
static void share_states(const struct named_call *call)
{
    for (unsigned i = 0; i < 2; i++) {
        for (enum way way = PAIRED; way < WAYS; way++) {
            memcpy(boards[way].state[i], boards[PAIRED].state[i], STATE_ROOM);
            boards[way].state_len[i] = call->state_len[i];
        }
        memcpy(given[i], boards[PAIRED].state[i], STATE_ROOM);
    }
}

/* ---- The ways ---- */

/* The pair's call on a board. */
static uint64_t call_pair(const struct named_call *k, const struct board *b, uint64_t *report)
{
    switch (k->kind) {
    case NAMED_ATTENTION:
        return iop89_pair_attention(k->processor, b->state[0], b->state_len[0], b->state[1], b->state_len[1], b->sys,
                                    b->sys_len, b->io[0], b->io_len[0], b->io[1], b->io_len[1], k->channel);
    case NAMED_STEP:
        return iop89_pair_step(k->processor, b->state[0], b->state_len[0], b->state[1], b->state_len[1], b->sys,
                               b->sys_len, b->io[0], b->io_len[0], b->io[1], b->io_len[1], k->lines);
    case NAMED_POWER_UP:
        return iop89_pair_power_up(k->processor, b->state[0], b->state_len[0], b->state[1], b->state_len[1], b->sys,
                                   b->sys_len, b->io[0], b->io_len[0], b->io[1], b->io_len[1]);
    case NAMED_RESET:
        return iop89_pair_reset(k->processor, b->state[0], b->state_len[0], b->state[1], b->state_len[1]);
    case NAMED_SWEEP:
        return iop89_pair_sweep(k->processor, b->state[0], b->state_len[0], b->state[1], b->state_len[1], b->sys,
                                b->sys_len, b->io[0], b->io_len[0], b->io[1], b->io_len[1], k->channel, k->lines);
    default:
        return iop89_pair_schedule(k->processor, b->state[0], b->state_len[0], b->state[1], b->state_len[1], b->sys,
                                   b->sys_len, b->io[0], b->io_len[0], b->io[1], b->io_len[1], rows_of(&schedule),
                                   schedule.count, report + WORD_FENCE, schedule.report_len);
    }
}

/* The single call on one processor of a board. */
static uint64_t call_single(const struct named_call *k, const struct board *b, uint64_t *report)
{
    unsigned i = k->processor - 1;
    uint8_t *state = b->state[i], *sys = b->sys, *io = b->io[i];
    size_t state_len = b->state_len[i], sys_len = b->sys_len, io_len = b->io_len[i];
    switch (k->kind) {
    case NAMED_ATTENTION: return iop89_attention(state, state_len, sys, sys_len, io, io_len, k->channel);
    case NAMED_STEP: return iop89_step(state, state_len, sys, sys_len, io, io_len, k->lines);
    case NAMED_POWER_UP: return iop89_power_up(state, state_len, sys, sys_len, io, io_len);
    case NAMED_RESET: return iop89_reset(state, state_len);
    case NAMED_SWEEP: return iop89_sweep(state, state_len, sys, sys_len, io, io_len, k->channel, k->lines);
    default:
        return iop89_schedule(state, state_len, rows_of(&schedule), schedule.count, sys, sys_len, io, io_len,
                              report + WORD_FENCE, schedule.report_len);
    }
}

/* A step of the emulator as the archive's answer. */
static uint64_t step_answer(struct emu_stepped stepped)
{
    uint32_t kind = stepped.kind == 'I' ? 1 : stepped.kind == 'T' ? 2 : stepped.kind == 'X' ? 3 : 0;
    return stepped.number | stepped.channel << 8 | kind << 10 | stepped.count << 12;
}

/* A sweep of the emulator as the archive's answer. */
static uint64_t sweep_answer(struct emu_swept swept)
{
    return swept.number | (uint64_t)swept.steps << 8 | (uint64_t)swept.count << 32;
}

/* The emulator's call on its two processors, whose named one, if there is one, is a state. */
static uint64_t emulate(const struct named_call *k, struct emu_processors *two, struct emu_report *r)
{
    static struct emu_row rows[MOST_ROWS];
    struct emu_answer answer = {0, 0};
    switch (k->kind) {
    case NAMED_ATTENTION: answer = emu_attention_of(two, k->processor, k->channel); break;
    case NAMED_STEP: return step_answer(emu_step_of(two, k->processor, k->lines));
    case NAMED_POWER_UP: answer = emu_power_up_of(two, k->processor); break;
    case NAMED_RESET: answer = emu_reset_of(two, k->processor); break;
    case NAMED_SWEEP: return sweep_answer(emu_sweep_of(two, k->processor, k->channel, k->lines));
    default: rows_for_emulator(&schedule, 0, schedule.count, rows);
        return emu_schedule_of(two, k->processor, rows, schedule.count, r);
    }
    return answer.number | answer.count << 12;
}

/* Whether a call looks at the length of the named state alone. */
static bool asks_length(const struct named_call *k)
{
    return k->kind == NAMED_RESET || k->kind == NAMED_POWER_UP;
}

/* Why the bytes of a place are no state for a call. */
static enum state_fault fault_at(const struct named_call *k, const struct board *b, unsigned i, struct emu_state *state)
{
    enum state_fault fault = state_from_bytes(b->state[i], b->state_len[i], state);
    return asks_length(k) && fault != FAULT_LENGTH ? FAULT_NONE : fault;
}

/* The same by the emulator: 17 for the named one's bytes alone, and each place's bytes written back where they were a
 * state. */
static uint64_t call_emulator(const struct named_call *k, const struct board *b, uint64_t *report)
{
    struct emu_processors two = {.sys = b->sys, .sys_len = b->sys_len, .io = {b->io[0], b->io[1]},
                                 .io_len = {b->io_len[0], b->io_len[1]}};
    struct emu_report r;
    bool is_state[2];
    uint64_t answer = IOP89_NO_STATE;
    memset(&r, 0, sizeof r);
    for (unsigned i = 0; i < 2; i++)
        is_state[i] = state_from_bytes(b->state[i], b->state_len[i], &two.state[i]) == FAULT_NONE;
    unsigned named = k->processor == 2;
    if (!is_processor(k->processor) || fault_at(k, b, named, &two.state[named]) == FAULT_NONE) {
        answer = emulate(k, &two, &r);
        if (asks_length(k) && is_processor(k->processor) && (answer & 255) == EMU_DONE) is_state[named] = true;
        for (unsigned i = 0; i < 2; i++)
            if (is_state[i]) state_to_bytes(&two.state[i], b->state[i]);
    }
    if (k->kind == NAMED_SCHEDULE) put_report(&r, report, schedule.report_len);
    return answer;
}

/* ---- Noise ---- */

/* How long noise is as I/O memory: few bytes, none, all, or one byte over the limit. */
static size_t noise_length(struct random *d)
{
    unsigned kind = below(d, 1000);
    if (kind < 900) return below(d, SMALL_NOISE);
    return kind < 930 ? 0 : kind < 965 ? CASE_IO_ROOM - 1 : CASE_IO_ROOM;
}

/* Makes the state of a place noise: any bytes, or any state, whole or broken; at times of another length. */
static size_t some_noise(struct random *d, const struct run_case *c, uint8_t *state)
{
    for (size_t i = 0; i < STATE_ROOM; i++) state[i] = (uint8_t)roll(d);
    if (chance(d, 700)) any_state(d, c, state);
    if (chance(d, 200)) break_state(d, state);
    return chance(d, 100) ? below(d, STATE_ROOM + 1) : STATE_BYTES;
}

/* The board with noise in each place that the call does not name. */
static struct board beside_noise(struct random *d, const struct processors *p, const struct named_call *k)
{
    struct board b = boards[BESIDE];
    for (unsigned i = 0; i < 2; i++) {
        if (k->processor == i + 1) continue;
        b.state_len[i] = some_noise(d, &p->of[i], noise_state[i]);
        memcpy(noise_given[i], noise_state[i], STATE_ROOM);
        b.state[i] = noise_state[i];
        b.io[i] = noise_io[i] + below(d, NOISE_ROOM - CASE_IO_ROOM);
        b.io_len[i] = noise_length(d);
    }
    return b;
}

/* Whether the noise of a place stayed as it was. */
static bool noise_stays(const struct board *b, unsigned i)
{
    const uint8_t *kept = noise_kept + (b->io[i] - noise_io[i]);
    bool io_stays = b->io_len[i] > SMALL_NOISE || memcmp(b->io[i], kept, b->io_len[i]) == 0;
    return io_stays && lent_same(noise_state[i], noise_given[i], STATE_ROOM);
}

/* Whether all noise of both I/O memories did. */
static bool all_noise_stays(void)
{
    for (unsigned i = 0; i < 2; i++)
        if (!lent_same(noise_io[i], noise_kept, NOISE_ROOM)) return false;
    return true;
}

/* Lays all noise as it is to stay. */
static void lay_noise(void)
{
    for (unsigned i = 0; i < 2; i++) memcpy(noise_io[i], noise_kept, NOISE_ROOM);
}

/* ---- What was met ---- */

/* How the other one is broken: by what would refuse it, were it named. */
enum broken { BROKEN_17, BROKEN_10, BROKEN_13, BROKEN_14, BROKEN_11, BROKENS };

static const char *const broken_names[BROKENS] = {
    "the other's bytes are no state (17)", "a pointer, PP or CP of the other is over 1,048,575 (10)",
    "the other is not powered up (13)", "the other's fields and CC disagree (14)",
    "the other's I/O memory is too long (11)"};

/* Processors that are none: 0, 3, and others. */
enum { NONE_0, NONE_3, NONE_LARGER, NONES };

/* What rows and calls meet. */
enum met {
    MET_SAME_CP, MET_OVERLAP, MET_APART, MET_IN_BLOCK, MET_SAME_LENGTH, MET_FIRST_LONGER, MET_SECOND_LONGER, MET_NO_IO_1,
    MET_NO_IO_2, MET_OWN_IO_1, MET_OWN_IO_2, MET_SAME_AGAIN, MET_IN_TURN, MET_BOTH_UP_SAME, MET_BOTH_UP_APART,
    MET_SWEPT_BESIDE, MET_SWEPT_SAME_RANGE, MET_RESET_BESIDE_RUNNING, MET_NOISE_STATE, MET_NOISE_NONE, MET_NOISE_LENGTH,
    MET_NOISE_NO_IO, MET_NOISE_LONG, MET_NOISE_DONE, MET_NOISE_REFUSED, METS
};

static const char *const met_names[METS] = {
    "done, both CPs the same", "done, control blocks that overlap", "done, control blocks apart",
    "done, and a byte of the other's control block changed", "done, I/O memories of one length", "done, that of 1 longer",
    "done, that of 2 longer", "done, that of 1 empty", "done, that of 2 empty", "done, and I/O memory of 1 changed by 1",
    "done, and I/O memory of 2 changed by 2", "the processor of the call before", "the other one",
    "both powered up by their calls, one CP", "both powered up by their calls, two CPs",
    "a sweep while a channel of the other transfers", "a sweep into the range of the other's transfer",
    "a reset while a channel of the other runs", "noise: a state", "noise: no state", "noise: a state of another length",
    "noise: no I/O memory", "noise: I/O memory over the limit", "beside noise, done", "beside noise, refused"};

static const char *const kind_names[NAMED_KINDS] = {"attention", "step", "power-up", "reset", "sweep", "schedule"};

static unsigned long numbers[2][NAMED_KINDS][IOP89_NO_STATE + 1], nones[NAMED_KINDS][NONES], before_17[NAMED_KINDS];
static unsigned long beside[2][NAMED_KINDS][BROKENS], faults[STATE_FAULTS], unsound[2][5], unsound_cp, apart[2][EMU_FIELDS];
static unsigned long met[METS];
static bool counting;

/* The pointers that 10 looks at in each channel. */
static const char *const pointer_names[5] = {"GA", "GB", "GC", "TP", "PP"};

/* The number of an answer; a sweep's stands in the same bits. */
static unsigned number_of(uint64_t answer)
{
    return (unsigned)(answer & 0xFFu);
}

/* How a state is broken, as a set of bits; counted by its pointers and fields where that is asked. */
static unsigned ways_broken(const struct emu_state *s, bool counted)
{
    unsigned set = s->powered ? 0 : 1u << BROKEN_13;
    if (s->cp > MASK20) {
        set |= 1u << BROKEN_10;
        unsound_cp += counted;
    }
    for (unsigned i = 0; i < 2; i++) {
        const struct emu_channel *c = &s->channel[i];
        const uint32_t values[5] = {c->ga.address, c->gb.address, c->gc.address, c->tp.address, c->pp};
        unsigned bits = (unsigned)(emu_fields_value(&c->fields) ^ c->cc) & ~0x0200u;
        for (unsigned k = 0; k < 5; k++) {
            if (values[k] > MASK20) set |= 1u << BROKEN_10;
            unsound[i][k] += counted && values[k] > MASK20;
        }
        if (bits != 0) set |= 1u << BROKEN_14;
        for (unsigned k = 0; k < EMU_FIELDS; k++) apart[i][k] += counted && (bits & emu_field_bits(k)) != 0;
    }
    return set;
}

/* Counts a done call by how the other one is broken. */
static void count_beside(const struct named_call *k, const struct processors *p)
{
    unsigned named = k->processor - 1, other = 1 - named;
    struct emu_state state;
    enum state_fault fault = state_from_bytes(given[other], k->state_len[other], &state);
    unsigned set = fault == FAULT_NONE ? ways_broken(&state, true) : 1u << BROKEN_17;
    faults[fault]++;
    if (p->of[other].io_len > IOP89_IO_LIMIT) set |= 1u << BROKEN_11;
    for (unsigned i = 0; i < BROKENS; i++) beside[named][k->kind][i] += (set >> i & 1u) != 0;
}

/* Counts a done call by where both control blocks are, and how long both I/O memories. */
static void count_places(const struct processors *p)
{
    uint32_t one = iop89_cp(given[0]), two = iop89_cp(given[1]);
    uint32_t distance = (two - one) & MASK20, back = (one - two) & MASK20;
    bool overlap = distance < 16 || back < 16;
    size_t length_1 = p->of[0].io_len, length_2 = p->of[1].io_len;
    met[one == two ? MET_SAME_CP : overlap ? MET_OVERLAP : MET_APART]++;
    met[length_1 == length_2 ? MET_SAME_LENGTH : length_1 > length_2 ? MET_FIRST_LONGER : MET_SECOND_LONGER]++;
    met[MET_NO_IO_1] += length_1 == 0;
    met[MET_NO_IO_2] += length_2 == 0;
}

/* Whether a channel of a state's bytes runs, and with a transfer under way if that is asked. */
static bool runs(const uint8_t *state, unsigned channel, bool with_transfer)
{
    bool running = iop89_get(state, channel, IOP89_MODE) == IOP89_RUNNING;
    return running && (!with_transfer || (iop89_get(state, channel, IOP89_PSW) & EMU_PSW_XF) != 0);
}

/* Where the destination of a channel's transfer begins, in system space; MASK20 + 1 for I/O space. */
static uint32_t destination_of(const uint8_t *state, unsigned channel)
{
    bool into_ga = iop89_get(state, channel, IOP89_SOURCE_IS_GB) != 0;
    if (iop89_get(state, channel, into_ga ? IOP89_GA_TAG : IOP89_GB_TAG) != 0) return MASK20 + 1;
    return iop89_get(state, channel, into_ga ? IOP89_GA : IOP89_GB);
}

/* Counts a done sweep by the transfers of the other processor that are under way. */
static void count_sweep(const struct named_call *k)
{
    const uint8_t *other = given[2 - k->processor], *own = given[k->processor - 1];
    bool transfers = false, shares = false;
    uint32_t to = destination_of(own, k->channel), n = iop89_get(own, k->channel, IOP89_BC);
    for (unsigned channel = 1; channel <= 2; channel++) {
        if (!runs(other, channel, true)) continue;
        uint32_t at = destination_of(other, channel);
        transfers = true;
        shares = shares || (to <= MASK20 && at <= MASK20 && at - to < n);
    }
    met[MET_SWEPT_BESIDE] += transfers;
    met[MET_SWEPT_SAME_RANGE] += shares;
}

/* Counts a call to a processor that is none. */
static void count_none(const struct named_call *k)
{
    struct emu_state state;
    bool none = true;
    for (unsigned i = 0; i < 2; i++) none = none && state_from_bytes(given[i], k->state_len[i], &state) != FAULT_NONE;
    nones[k->kind][k->processor == 0 ? NONE_0 : k->processor == 3 ? NONE_3 : NONE_LARGER]++;
    before_17[k->kind] += none;
}

/* Counts the noise of the other's place. */
static void count_noise(const struct named_call *k, const struct board *b, unsigned number)
{
    struct emu_state state;
    unsigned other = 2 - k->processor;
    enum state_fault fault = state_from_bytes(noise_given[other], b->state_len[other], &state);
    met[fault == FAULT_NONE ? MET_NOISE_STATE : fault == FAULT_LENGTH ? MET_NOISE_LENGTH : MET_NOISE_NONE]++;
    met[MET_NOISE_NO_IO] += b->io_len[other] == 0;
    met[MET_NOISE_LONG] += b->io_len[other] > IOP89_IO_LIMIT;
    met[number == IOP89_DONE ? MET_NOISE_DONE : MET_NOISE_REFUSED]++;
}

/* Counts a call that came to this number. */
static void count_call(const struct named_call *k, const struct processors *p, const struct board *noise, unsigned number)
{
    static uint32_t before;
    if (!is_processor(k->processor)) {
        count_none(k);
        return;
    }
    numbers[k->processor - 1][k->kind][number]++;
    met[before == k->processor ? MET_SAME_AGAIN : MET_IN_TURN]++;
    before = k->processor;
    count_noise(k, noise, number);
    if (number != IOP89_DONE) return;
    count_beside(k, p);
    count_places(p);
    if (k->kind == NAMED_SWEEP) count_sweep(k);
    const uint8_t *other = given[2 - k->processor];
    met[MET_RESET_BESIDE_RUNNING] += k->kind == NAMED_RESET && (runs(other, 1, false) || runs(other, 2, false));
}

/* ---- One call ---- */

/* Whether one board's bytes are another's, with their fences: one state, or all the memories. */
static bool states_agree(enum way a, enum way b, unsigned i)
{
    return lent_same(boards[a].state[i], boards[b].state[i], STATE_ROOM);
}

static bool same_memory(enum way a, enum way b)
{
    const struct board *x = &boards[a], *y = &boards[b];
    bool same = lent_same(x->sys, y->sys, x->sys_len);
    for (unsigned i = 0; i < 2; i++)
        same = same && lent_same(x->io[i], y->io[i], x->io_len[i]);
    return same;
}

/* Whether every board has the same memories. */
static bool memories_agree(void)
{
    return same_memory(PAIRED, EMULATED) && same_memory(PAIRED, SINGLE) && same_memory(BESIDE, PAIRED);
}

/* Makes a call in all ways. */
static void make_all(const struct named_call *k, const struct board *noise)
{
    for (enum way way = PAIRED; way < WAYS; way++) clear_report(&schedule, outcomes[way].report);
    outcomes[PAIRED].answer = call_pair(k, &boards[PAIRED], outcomes[PAIRED].report);
    outcomes[BESIDE].answer = call_pair(k, noise, outcomes[BESIDE].report);
    outcomes[EMULATED].answer = call_emulator(k, &boards[EMULATED], outcomes[EMULATED].report);
    outcomes[SINGLE] = outcomes[EMULATED];
    if (!is_processor(k->processor)) return; /* no single call is named */
    clear_report(&schedule, outcomes[SINGLE].report);
    outcomes[SINGLE].answer = call_single(k, &boards[SINGLE], outcomes[SINGLE].report);
}

/* Whether all ways answered and reported the same; 12 where no processor is named. */
static bool same_answers(const struct named_call *k)
{
    for (enum way way = BESIDE; way < WAYS; way++) {
        if (outcomes[way].answer != outcomes[PAIRED].answer) return false;
        if (memcmp(outcomes[way].report, outcomes[PAIRED].report, sizeof(report_words)) != 0) return false;
    }
    return is_processor(k->processor) || outcomes[PAIRED].answer == IOP89_BAD_ARGUMENT;
}

/* Whether the states are as they must be: the named one's the same in all ways, and every other one, noise too, as it was
 * given. */
static bool same_states(const struct named_call *k, const struct board *noise)
{
    for (unsigned i = 0; i < 2; i++) {
        bool named = k->processor == i + 1;
        if (!states_agree(PAIRED, EMULATED, i) || !states_agree(SINGLE, PAIRED, i)) return false;
        if (named && !states_agree(BESIDE, PAIRED, i)) return false;
        if (!named && memcmp(boards[PAIRED].state[i], given[i], STATE_ROOM) != 0) return false;
        if (!named && !noise_stays(noise, i)) return false;
    }
    return true;
}

/* Shows a call, and where its ways are not one. */
static void show(const struct named_call *k, const struct board *noise, unsigned index)
{
    printf("  call %u, %s of processor %" PRIu32 ", channel %" PRIu32 ", lines %" PRIu32 ", states of %zu and %zu bytes\n",
           index, kind_names[k->kind], k->processor, k->channel, k->lines, k->state_len[0], k->state_len[1]);
    for (enum way way = PAIRED; way < WAYS; way++) printf("  %s: %" PRIX64 "\n", way_names[way], outcomes[way].answer);
    for (unsigned i = 0; i < 2; i++) {
        for (size_t at = 0; at < STATE_ROOM; at++) {
            uint8_t byte = boards[PAIRED].state[i][at];
            if (byte != boards[EMULATED].state[i][at] || byte != boards[SINGLE].state[i][at])
                printf("  state %u, byte %zu: archive %02X, emulator %02X, single call %02X, given %02X\n", i + 1, at, byte,
                       boards[EMULATED].state[i][at], boards[SINGLE].state[i][at], given[i][at]);
        }
        if (k->processor != i + 1 && !noise_stays(noise, i)) printf("  the noise in place %u was changed\n", i + 1);
    }
    if (!memories_agree()) puts("  the memories differ, or a byte beside them was stored");
}

/* The sixteen bytes of the control block of a place's state. */
static void block_bytes(unsigned i, uint8_t bytes[16])
{
    for (uint32_t k = 0; k < 16; k++) {
        uint32_t at = (iop89_cp(given[i]) + k) & MASK20;
        bytes[k] = at < boards[PAIRED].sys_len ? boards[PAIRED].sys[at] : 0;
    }
}

/* Makes one call in all ways; answers whether they agree. Large memories are compared behind a row's last call. */
static bool agree_on(struct random *d, const struct processors *p, const struct named_call *k, unsigned index,
                     bool shown)
{
    static uint8_t io[SMALL];
    uint8_t block[2][16];
    struct board noise = beside_noise(d, p, k);
    unsigned other = k->processor == 1 ? 1 : 0;
    size_t own_len = p->of[1 - other].io_len;
    bool small = p->of[0].sys_len + p->of[0].io_len + p->of[1].io_len <= SMALL;
    if (small) memcpy(io, boards[PAIRED].io[1 - other], own_len);
    block_bytes(other, block[0]);
    make_all(k, &noise);
    bool same = same_answers(k) && same_states(k, &noise) && (!small || memories_agree());
    bool done = number_of(outcomes[PAIRED].answer) == IOP89_DONE;
    if (counting) count_call(k, p, &noise, number_of(outcomes[PAIRED].answer));
    block_bytes(other, block[1]);
    if (counting && done) met[MET_IN_BLOCK] += memcmp(block[0], block[1], 16) != 0;
    if (counting && done && small)
        met[other == 1 ? MET_OWN_IO_1 : MET_OWN_IO_2] += memcmp(io, boards[PAIRED].io[1 - other], own_len) != 0;
    if (!same && shown) show(k, &noise, index);
    return same;
}

/* ---- One row ---- */

/* Writes a command into the block of a processor's channel, and a board's bytes before a power-up. */
static void put_before(struct random *d, const struct processors *p, const struct named_call *k, unsigned index)
{
    unsigned i = k->processor == 2;
    uint32_t block = (iop89_cp(boards[PAIRED].state[i]) + (k->channel == 2 ? 8 : 0)) & MASK20;
    if (k->kind == NAMED_ATTENTION && index > 1 && chance(d, 700)) put_each(&p->of[i], block, some_ccw(d));
    if (k->kind == NAMED_POWER_UP && chance(d, 800)) put_board(d, &p->of[i], put_each);
}

/* Makes both states: mostly the fresh ones of their cases. */
static void begin(struct random *d, const struct processors *p)
{
    for (unsigned i = 0; i < 2; i++) {
        memset(boards[PAIRED].state[i], 0, STATE_ROOM);
        if (chance(d, 800)) iop89_fresh(boards[PAIRED].state[i], STATE_BYTES, p->of[i].cp);
        else any_state(d, &p->of[i], boards[PAIRED].state[i]);
    }
}

/* Makes one call on states that may be broken, the named one's and the other's, and makes whole again what the call left. */
static bool agree_broken(struct random *d, const struct processors *p, const struct named_call *k, unsigned index,
                         bool shown)
{
    uint8_t whole[2][STATE_BYTES];
    bool broken[2];
    for (unsigned i = 0; i < 2; i++) {
        uint8_t *state = boards[PAIRED].state[i];
        memcpy(whole[i], state, STATE_BYTES);
        broken[i] = chance(d, !is_processor(k->processor) ? 400 : k->processor == i + 1 ? 60 : 150);
        if (broken[i]) break_state(d, state);
    }
    share_states(k);
    bool same = agree_on(d, p, k, index, shown);
    for (unsigned i = 0; i < 2; i++)
        if (broken[i] && memcmp(given[i], boards[PAIRED].state[i], STATE_ROOM) == 0)
            memcpy(boards[PAIRED].state[i], whole[i], STATE_BYTES);
    return same;
}

/* Makes the calls of a row, one behind the other; answers whether all agree. */
static bool agree(uint64_t seed, uint64_t number, bool shown)
{
    struct random d = seeded(seed + 8000009, number);
    struct processors p = {.of = {{.sys = boards[PAIRED].sys, .io = boards[PAIRED].io[0]},
                                  {.sys = boards[PAIRED].sys, .io = boards[PAIRED].io[1]}}};
    bool up[2] = {false, false};
    make_processors(&p, seed, number);
    lend_all(&p);
    begin(&d, &p);
    counting = !shown;
    for (unsigned i = 0, calls = 4 + below(&d, MOST_CALLS - 4); i < calls; i++) {
        for (unsigned k = 0; i > 1 && k < 2; k++) change_state(&d, &p.of[k], boards[PAIRED].state[k]);
        struct named_call call = next_call(&d, &p, i);
        put_before(&d, &p, &call, i);
        if (call.kind == NAMED_SCHEDULE) make_schedule(&d, &p.of[call.processor == 2], false, &schedule);
        if (!agree_broken(&d, &p, &call, i, shown)) return false;
        if (!is_processor(call.processor) || number_of(outcomes[PAIRED].answer) != IOP89_DONE) continue;
        if (call.kind == NAMED_RESET) up[call.processor - 1] = false;
        if (call.kind != NAMED_POWER_UP) continue;
        up[call.processor - 1] = true;
        bool one_cp = iop89_cp(boards[PAIRED].state[0]) == iop89_cp(boards[PAIRED].state[1]);
        if (counting && up[0] && up[1]) met[one_cp ? MET_BOTH_UP_SAME : MET_BOTH_UP_APART]++;
    }
    bool same = memories_agree() && all_noise_stays();
    if (!same && shown) puts("  behind the last call: the memories differ, or noise or a byte beside them was stored");
    return same;
}

/* ---- What is printed ---- */

/* The numbers that each call can answer once a processor is named. */
static const unsigned answers[NAMED_KINDS] = {
    [NAMED_ATTENTION] = 1u << 0 | 1u << 2 | 15u << 6 | 31u << 10 | 1u << 17,
    [NAMED_STEP] = 63u | 31u << 10 | 1u << 17,
    [NAMED_POWER_UP] = 1u << 0 | 1u << 2 | 1u << 11 | 1u << 17,
    [NAMED_RESET] = 1u << 0 | 1u << 17,
    [NAMED_SWEEP] = 1u << 0 | 63u << 10 | 1u << 17,
    [NAMED_SCHEDULE] = 1u << 0 | 3u << 16,
};

/* Prints the calls of one kind: by number on either processor, done beside one that is broken, and to no processor. */
static void print_kind(enum named_kind kind)
{
    static const char *const none_names[NONES] = {"processor 0", "processor 3", "a larger processor"};
    char name[120];
    for (unsigned i = 0; i < 2; i++) {
        snprintf(name, sizeof name, "%s of processor %u, by number:", kind_names[kind], i + 1);
        print_answers(name, numbers[i][kind], answers[kind]);
        for (unsigned k = 0; k < BROKENS; k++) {
            snprintf(name, sizeof name, "done, and %s", broken_names[k]);
            print_count(name, beside[i][kind][k]);
        }
    }
    printf("%s refused by 12 for the processor:\n", kind_names[kind]);
    for (unsigned i = 0; i < NONES; i++) print_count(none_names[i], nones[kind][i]);
    print_count("with no state in either place", before_17[kind]);
}

/* Prints how the other one was broken beside done calls: every cause of 17, every pointer, every field. */
static void print_broken(void)
{
    char name[60];
    print_faults("done, and the other's bytes are no state, by the cause:", faults);
    puts("done, and of the other is over 1,048,575:");
    print_count("CP", unsound_cp);
    for (unsigned i = 0; i < 10; i++) {
        snprintf(name, sizeof name, "%s of channel %u", pointer_names[i % 5], 1 + i / 5);
        print_count(name, unsound[i / 5][i % 5]);
    }
    puts("done, and of the other disagrees with CC:");
    for (unsigned i = 0; i < 2 * EMU_FIELDS; i++) {
        snprintf(name, sizeof name, "%s of channel %u", emu_field_name(i % EMU_FIELDS), 1 + i / EMU_FIELDS);
        print_count(name, apart[i / EMU_FIELDS][i % EMU_FIELDS]);
    }
}

/* Prints everything that was met. */
static void print_met(void)
{
    for (enum named_kind kind = NAMED_ATTENTION; kind < NAMED_KINDS; kind++) print_kind(kind);
    print_broken();
    print_table("calls and rows:", met_names, met, METS);
}

/* Room for every board and for noise, which is made here once. */
static void make_room(uint64_t seed)
{
    struct random d = seeded(seed + 9000011, 0);
    for (enum way way = PAIRED; way < WAYS; way++) boards[way] = new_board();
    for (size_t i = 0; i < NOISE_ROOM; i++) noise_kept[i] = (uint8_t)roll(&d);
    for (unsigned i = 0; i < 2; i++) {
        noise_state[i] = fenced(STATE_ROOM);
        noise_io[i] = fenced(NOISE_ROOM);
    }
    lay_noise();
}

/* Compares a row; noise that a wrong call spoiled is laid anew. */
static bool agree_beside(uint64_t seed, uint64_t number, bool shown)
{
    bool same = agree(seed, number, shown);
    if (!same) lay_noise();
    return same;
}

int main(int count, char **words)
{
    struct options o = read_options(&comparison, count, words);
    make_room(o.seed);
    unsigned long long differences = compare_cases(&comparison, o, agree_beside);
    print_options(&comparison, o);
    print_met();
    return conclude(&comparison, o, differences);
}
