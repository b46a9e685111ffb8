/* Compares schedules: the service archive's, whole and cut in two, beside the emulator's, and beside the same rows by
 * single calls of the archive. Numbers, reports, states and every lent byte must be the same. */
#include "lent.h"
#include "coverage.h"
#include "options.h"
#include "schedules.h"
#include "states.h"

#include <inttypes.h>
#include <stddef.h>
#include <stdlib.h>
#include <string.h>

static const struct comparison comparison = {"compare_schedule", "schedule", "schedules", 200000};

/* How many schedules one machine gets in a row, and up to which length memories are compared behind each schedule. */
enum { EACH = 5, SMALL = 16384 };

/* The ways in which a schedule is made, each on a machine of its own: by the archive whole, cut and call by call, and by
 * the emulator whole and cut. */
enum way { WHOLE, CUT, SINGLE, EMULATED, EMULATED_CUT, WAYS };

static const char *const way_names[WAYS] = {"archive", "archive, cut", "single calls", "emulator", "emulator, cut"};

/* What one way answered: its numbers and its reports, two where the schedule was cut. */
struct outcome {
    uint32_t number[2];
    report_words report[2];
};

static struct machine machines[WAYS];
static struct outcome outcomes[WAYS];
static struct emu_coverage coverage;

/* ---- Buffers ---- */

/* Gives every machine the state of the first. */
static void share_state(void)
{
    for (enum way way = CUT; way < WAYS; way++) memcpy(machines[way].state, machines[WHOLE].state, STATE_ROOM);
}

/* Puts a byte into the system memory of every machine, if it is lent. */
static void put_each(const struct run_case *c, uint32_t address, uint8_t byte)
{
    for (enum way way = WHOLE; way < WAYS && address < c->sys_len; way++) machines[way].memory[SYS][address] = byte;
}

/* Whether a way's state is that of another. */
static bool states_agree(enum way a, enum way b)
{
    return same_state(&machines[a], &machines[b]);
}

/* Whether a way's memories are those of another. */
static bool memories_agree(const struct run_case *c, enum way a, enum way b)
{
    return same_memories(&machines[a], &machines[b], LENT_BY(c));
}

/* ---- What was met ---- */

/* What schedules meet: lengths, cuts, rows of unknown kind, values of rows. */
enum met {
    MET_NO_ROWS, MET_ONE_ROW, MET_MOST_ROWS, MET_CUT_FIRST, MET_CUT_INSIDE, MET_CUT_LAST, MET_CUT_HELD,
    MET_UNKNOWN_FIRST, MET_UNKNOWN_MIDDLE, MET_UNKNOWN_LAST, MET_UNKNOWN_ALONE, MET_UNKNOWN_SEVERAL, MET_PART_RAN,
    MET_REST_RAN, MET_NO_STATE, MET_NO_STATE_UNKNOWN, MET_LINES_15, MET_LINES_16, MET_LINES_MORE, MET_CHANNEL_0,
    MET_CHANNEL_3, MET_CHANNEL_MORE, METS
};

static const char *const met_names[METS] = {
    "no rows", "one row", "200 rows", "cut before the first row", "cut between two rows", "cut behind the last row",
    "cut where a byte is held", "16 for the first row alone",
    "16 for a row in the middle alone", "16 for the last row alone", "16 for the only row", "16 for several rows",
    "16 for a row of the second part alone, and the first ran", "16 for rows of the first part alone, and the second ran",
    "17", "17 before 16", "a step under line number 15", "a step under line number 16",
    "a step under a larger line number", "an attention to channel 0", "an attention to channel 3",
    "an attention to a larger channel"};

/* What became of a step row that found a channel waiting; refused ones are counted by number. */
enum fate { FATE_OTHER_INSTRUCTION, FATE_OTHER_TRANSFER, FATE_OTHER_END, FATE_OWN_END, FATE_BOTH, FATE_BOTH_END, FATES };

static const char *const fate_names[FATES] = {
    "an instruction of the other channel", "a transfer step of the other channel", "an external end of the other channel",
    "its own external end", "both channels wait", "both channels wait, and one is ended by EXT"};

/* Step rows that lack one thing for a channel to be found waiting, and those where CC's bits and its field SYN differ. */
enum near {
    NEAR_DRQ, NEAR_SYN_00, NEAR_SYN_11, NEAR_NO_XF, NEAR_IDLE, NEAR_SUSPENDED, NEAR_LINES, NEAR_BY_FIELD, NEAR_BY_CC,
    NEAR_HELD, NEARS
};

static const char *const near_names[NEARS] = {
    "not waiting: DRQ is up", "not waiting: SYN 00", "not waiting: SYN 11", "not waiting: no XF", "not waiting: idle",
    "not waiting: suspended", "not waiting: the line number is over 15", "waiting by its field SYN, and not by CC",
    "not waiting by its field SYN, and waiting by CC", "waiting, and a byte held"};

static unsigned long met[METS], fates[2][FATES], nears[2][NEARS], counts[IOP89_REPORT_LENGTH], words[MOST_WORDS + 1];
static unsigned long refused[2][IOP89_NO_STATE + 1], waited[2][IOP89_NO_STATE + 1], stored[2][3], faults[STATE_FAULTS];
static bool counting;

/* Whether a channel of the state's bytes holds a byte. */
static bool bytes_hold(const uint8_t *state)
{
    return iop89_get(state, 1, IOP89_HELD) != 0 || iop89_get(state, 2, IOP89_HELD) != 0;
}

/* Counts a schedule by its rows of unknown kind. */
static void count_unknown(const struct schedule *s)
{
    const struct iop89_row *rows = rows_of(s);
    size_t unknown = 0, at = 0, in_first = 0;
    for (size_t i = 0; i < s->count; i++) {
        if (row_known(rows[i])) continue;
        unknown++;
        at = i;
        in_first += i < s->cut;
    }
    met[MET_UNKNOWN_SEVERAL] += unknown > 1;
    met[MET_PART_RAN] += unknown > 0 && in_first == 0 && s->cut > 0;
    met[MET_REST_RAN] += unknown > 0 && in_first == unknown && s->cut < s->count;
    if (unknown != 1) return;
    if (s->count == 1) met[MET_UNKNOWN_ALONE]++;
    else if (at == 0) met[MET_UNKNOWN_FIRST]++;
    else met[at == s->count - 1 ? MET_UNKNOWN_LAST : MET_UNKNOWN_MIDDLE]++;
}

/* The number that a schedule of the first machine's state is to answer: 17, 16 or 0. */
static uint32_t number_due(const struct schedule *s)
{
    struct emu_state state;
    if (state_from_bytes(machines[WHOLE].state, s->state_len, &state) != FAULT_NONE) return IOP89_NO_STATE;
    for (size_t i = 0; i < s->count; i++)
        if (!row_known(rows_of(s)[i])) return IOP89_UNKNOWN_ROW;
    return IOP89_DONE;
}

/* Counts a schedule that is to answer this number by what it is given. */
static void count_given(const struct schedule *s, uint32_t number)
{
    struct emu_state state;
    bool unknown = false;
    for (size_t i = 0; i < s->count; i++) unknown = unknown || !row_known(rows_of(s)[i]);
    met[MET_NO_ROWS] += s->count == 0;
    met[MET_ONE_ROW] += s->count == 1;
    met[MET_MOST_ROWS] += s->count == MOST_ROWS;
    met[s->cut == 0 ? MET_CUT_FIRST : s->cut == s->count ? MET_CUT_LAST : MET_CUT_INSIDE]++;
    met[MET_NO_STATE] += number == IOP89_NO_STATE;
    met[MET_NO_STATE_UNKNOWN] += number == IOP89_NO_STATE && unknown;
    if (number == IOP89_UNKNOWN_ROW) count_unknown(s);
    faults[state_from_bytes(machines[WHOLE].state, s->state_len, &state)]++;
    words[s->report_len]++;
}

/* Counts a row by its value. */
static void count_value(struct iop89_row row)
{
    if (row.kind == IOP89_ROW_STEP) {
        met[MET_LINES_15] += row.value == 15;
        met[MET_LINES_16] += row.value == 16;
        met[MET_LINES_MORE] += row.value > 16;
    } else {
        met[MET_CHANNEL_0] += row.value == 0;
        met[MET_CHANNEL_3] += row.value == 3;
        met[MET_CHANNEL_MORE] += row.value > 3;
    }
}

/* ---- Single calls, and the host's own counts ---- */

/* Whether these bits of SYN ask for requests. */
static bool asks(uint32_t syn)
{
    return syn == 1 || syn == 2;
}

/* Whether a channel of a state's bytes runs with XF. */
static bool in_transfer(const uint8_t *state, unsigned channel)
{
    bool runs = iop89_get(state, channel, IOP89_MODE) == IOP89_RUNNING;
    return runs && (iop89_get(state, channel, IOP89_PSW) & EMU_PSW_XF) != 0;
}

/* Whether a channel's DRQ is up. */
static bool asked(unsigned channel, uint32_t lines)
{
    return (lines & (channel == 1 ? IOP89_DRQ1 : IOP89_DRQ2)) != 0;
}

/* Whether a step under these lines finds a channel waiting, by the bytes of the state before it. */
static bool waits(const uint8_t *state, unsigned channel, uint32_t lines)
{
    return lines <= IOP89_LINES_LIMIT && in_transfer(state, channel) && asks(iop89_get(state, channel, IOP89_SYN)) &&
           !asked(channel, lines);
}

/* Counts a channel that a step row finds waiting, or all but one thing short of it. */
static void count_near(const uint8_t *state, unsigned channel, uint32_t lines)
{
    unsigned long *near = nears[channel - 1];
    uint32_t syn = iop89_get(state, channel, IOP89_SYN), by_cc = iop89_get(state, channel, IOP89_CC) >> 11 & 3u;
    uint32_t mode = iop89_get(state, channel, IOP89_MODE);
    bool runs = mode == IOP89_RUNNING, xf = (iop89_get(state, channel, IOP89_PSW) & EMU_PSW_XF) != 0;
    bool up = asked(channel, lines);
    if (lines > IOP89_LINES_LIMIT) {
        near[NEAR_LINES] += runs && xf && asks(syn) && !up;
        return;
    }
    near[NEAR_DRQ] += runs && xf && asks(syn) && up;
    near[NEAR_SYN_00] += runs && xf && syn == 0 && !up;
    near[NEAR_SYN_11] += runs && xf && syn == 3 && !up;
    near[NEAR_NO_XF] += runs && !xf && asks(syn) && !up;
    near[NEAR_IDLE] += mode == IOP89_IDLE && xf && asks(syn) && !up;
    near[NEAR_SUSPENDED] += mode == IOP89_SUSPENDED && xf && asks(syn) && !up;
    near[NEAR_BY_FIELD] += runs && xf && asks(syn) && !asks(by_cc) && !up;
    near[NEAR_BY_CC] += runs && xf && !asks(syn) && asks(by_cc) && !up;
    near[NEAR_HELD] += runs && xf && asks(syn) && !up && iop89_get(state, channel, IOP89_HELD) != 0;
}

/* Counts what became of a step row that found channels waiting. */
static void count_fate(const bool waiting[2], uint32_t answer)
{
    unsigned number = IOP89_ANSWER_NUMBER(answer), kind = IOP89_ANSWER_KIND(answer);
    for (unsigned channel = 1; channel <= 2; channel++) {
        unsigned long *fate = fates[channel - 1];
        bool other = IOP89_ANSWER_CHANNEL(answer) == 3 - channel;
        if (!waiting[channel - 1]) continue;
        if (number != IOP89_DONE) waited[channel - 1][number]++;
        fate[FATE_OTHER_INSTRUCTION] += other && kind == IOP89_INSTRUCTION;
        fate[FATE_OTHER_TRANSFER] += other && kind == IOP89_TRANSFER;
        fate[FATE_OTHER_END] += other && kind == IOP89_EXTERNAL_END;
        fate[FATE_OWN_END] += !other && kind == IOP89_EXTERNAL_END;
        fate[FATE_BOTH] += waiting[2 - channel];
        fate[FATE_BOTH_END] += waiting[2 - channel] && kind == IOP89_EXTERNAL_END;
    }
}

/* Whether a channel's destination is 16 bits wide and at an even address. */
static bool into_words(const uint8_t *state, unsigned channel)
{
    bool into_ga = iop89_get(state, channel, IOP89_SOURCE_IS_GB) != 0;
    bool even = iop89_get(state, channel, into_ga ? IOP89_GA : IOP89_GB) % 2 == 0;
    return even && (iop89_get(state, channel, IOP89_PSW) & EMU_PSW_D) != 0;
}

/* How many bytes a done transfer step stored, from how many it touched: of one, none where it is held since, else that
 * one; of two, one; of three, both of a word behind the byte that was fetched, else one; of four, two. */
static unsigned bytes_stored(const uint8_t *before, const uint8_t *state, uint32_t answer)
{
    unsigned channel = IOP89_ANSWER_CHANNEL(answer), touched = IOP89_ANSWER_COUNT(answer);
    if (touched == 1) return iop89_get(state, channel, IOP89_HELD) != 0 ? 0 : 1;
    if (touched == 3) return into_words(before, channel) ? 2 : 1;
    return touched / 2;
}

/* Counts a row over all. */
static void add_row(uint64_t *report, uint32_t answer)
{
    report[IOP89_ANSWER_NUMBER(answer) == IOP89_DONE ? IOP89_ROWS_ACCEPTED : IOP89_ROWS_REFUSED]++;
}

/* Makes an attention row as a single call, and counts it. */
static void attend_singly(const struct run_case *c, const struct schedule *s, uint32_t channel, uint64_t *report)
{
    const struct machine *m = &machines[SINGLE];
    uint32_t answer = iop89_attention(m->state, s->state_len, m->memory[SYS], c->sys_len, m->memory[IO], c->io_len,
                                      channel);
    bool done = IOP89_ANSWER_NUMBER(answer) == IOP89_DONE;
    add_row(report, answer);
    if (counting) refused[0][IOP89_ANSWER_NUMBER(answer)]++;
    if (channel != 1 && channel != 2) return;
    report[IOP89_REPORT_AT(channel, done ? IOP89_ATTENTIONS_ACCEPTED_1 : IOP89_ATTENTIONS_REFUSED_1)]++;
}

/* Counts a done step. */
static void add_step(uint64_t *report, const uint8_t *before, const uint8_t *state, uint32_t answer)
{
    static const enum iop89_report places[] = {[IOP89_INSTRUCTION] = IOP89_INSTRUCTIONS_1,
                                               [IOP89_TRANSFER] = IOP89_TRANSFER_STEPS_1,
                                               [IOP89_EXTERNAL_END] = IOP89_EXTERNAL_ENDS_1};
    unsigned channel = IOP89_ANSWER_CHANNEL(answer), kind = IOP89_ANSWER_KIND(answer);
    report[IOP89_REPORT_AT(channel, places[kind])]++;
    if (kind != IOP89_TRANSFER) return;
    unsigned bytes = bytes_stored(before, state, answer);
    report[IOP89_REPORT_AT(channel, IOP89_BYTES_STORED_1)] += bytes;
    if (counting) stored[channel - 1][bytes]++;
}

/* Makes a step row as a single call, and counts it. */
static void step_singly(const struct run_case *c, const struct schedule *s, uint32_t lines, uint64_t *report)
{
    const struct machine *m = &machines[SINGLE];
    uint8_t before[STATE_BYTES];
    bool waiting[2] = {waits(m->state, 1, lines), waits(m->state, 2, lines)};
    memcpy(before, m->state, sizeof before);
    uint32_t answer = iop89_step(m->state, s->state_len, m->memory[SYS], c->sys_len, m->memory[IO], c->io_len, lines);
    add_row(report, answer);
    for (unsigned channel = 1; channel <= 2; channel++) {
        report[IOP89_REPORT_AT(channel, IOP89_WAITING_ROWS_1)] += waiting[channel - 1];
        if (counting) count_near(before, channel, lines);
    }
    if (counting) refused[1][IOP89_ANSWER_NUMBER(answer)]++;
    if (counting) count_fate(waiting, answer);
    if (IOP89_ANSWER_NUMBER(answer) == IOP89_DONE) add_step(report, before, m->state, answer);
}

/* ---- The ways ---- */

/* Some rows as one schedule of the archive. */
static uint32_t by_archive(const struct run_case *c, const struct schedule *s, enum way way, size_t from, size_t to,
                           uint64_t *report, size_t report_len)
{
    const struct machine *m = &machines[way];
    clear_report(s, report);
    return iop89_schedule(m->state, s->state_len, rows_of(s) + from, to - from, m->memory[SYS], c->sys_len,
                          m->memory[IO], c->io_len, report + WORD_FENCE, report_len);
}

/* Some rows as one schedule of the emulator. */
static uint32_t by_emulator(const struct run_case *c, const struct schedule *s, enum way way, size_t from, size_t to,
                            uint64_t *report, size_t report_len)
{
    static struct emu_row rows[MOST_ROWS];
    const struct machine *m = &machines[way];
    struct emu_memory memory = {m->memory[SYS], c->sys_len, m->memory[IO], c->io_len};
    struct emu_state state;
    struct emu_report r;
    uint32_t number = IOP89_NO_STATE;
    bool good = state_from_bytes(m->state, s->state_len, &state) == FAULT_NONE;
    memset(&r, good ? 0xA5 : 0, sizeof r);
    rows_for_emulator(s, from, to, rows);
    if (good) {
        number = emu_schedule(&state, &memory, rows, to - from, &r);
        state_to_bytes(&state, m->state);
    }
    clear_report(s, report);
    put_report(&r, report, report_len);
    return number;
}

/* The rows of a schedule of known kinds by single calls. */
static void by_calls(const struct run_case *c, const struct schedule *s)
{
    struct outcome *o = &outcomes[SINGLE];
    uint64_t *report = o->report[0] + WORD_FENCE;
    clear_report(s, o->report[0]);
    memset(report, 0, IOP89_REPORT_LENGTH * sizeof report[0]);
    for (size_t i = 0; i < s->count; i++) {
        struct iop89_row row = rows_of(s)[i];
        if (counting) count_value(row);
        if (row.kind == IOP89_ROW_ATTENTION) attend_singly(c, s, row.value, report);
        else step_singly(c, s, row.value, report);
    }
}

/* Makes a schedule in all ways but the single calls. */
static void make_all(const struct run_case *c, const struct schedule *s)
{
    struct outcome *o = outcomes;
    o[WHOLE].number[0] = by_archive(c, s, WHOLE, 0, s->count, o[WHOLE].report[0], s->report_len);
    o[CUT].number[0] = by_archive(c, s, CUT, 0, s->cut, o[CUT].report[0], IOP89_REPORT_LENGTH);
    bool inside = s->cut > 0 && s->cut < s->count && o[CUT].number[0] == IOP89_DONE;
    if (counting) met[MET_CUT_HELD] += inside && bytes_hold(machines[CUT].state);
    o[CUT].number[1] = by_archive(c, s, CUT, s->cut, s->count, o[CUT].report[1], IOP89_REPORT_LENGTH);
    emu_coverage = counting ? &coverage : NULL;
    o[EMULATED].number[0] = by_emulator(c, s, EMULATED, 0, s->count, o[EMULATED].report[0], s->report_len);
    emu_coverage = NULL;
    o += EMULATED_CUT;
    o->number[0] = by_emulator(c, s, EMULATED_CUT, 0, s->cut, o->report[0], IOP89_REPORT_LENGTH);
    o->number[1] = by_emulator(c, s, EMULATED_CUT, s->cut, s->count, o->report[1], IOP89_REPORT_LENGTH);
}

/* ---- One schedule ---- */

/* Whether two reports agree, also around the words that have room. */
static bool same_report(const uint64_t *a, const uint64_t *b)
{
    return memcmp(a, b, sizeof(report_words)) == 0;
}

/* Whether the counts of the two parts, each with all its words, add up to others, as far as these have room. */
static bool parts_add(const struct outcome *parts, const uint64_t *sum, size_t report_len)
{
    for (size_t i = WORD_FENCE; i < WORD_FENCE + IOP89_REPORT_LENGTH && i < WORD_FENCE + report_len; i++)
        if (parts->report[0][i] + parts->report[1][i] != sum[i]) return false;
    return true;
}

/* Whether the counts of a report with all its words stand to each other as they must for so many rows. */
static bool adds_up(const uint64_t *words, uint64_t rows)
{
    const uint64_t *r = words + WORD_FENCE;
    uint64_t done = 0;
    for (unsigned channel = 1; channel <= 2; channel++) {
        uint64_t transfers = r[IOP89_REPORT_AT(channel, IOP89_TRANSFER_STEPS_1)];
        done += r[IOP89_REPORT_AT(channel, IOP89_ATTENTIONS_ACCEPTED_1)] + transfers +
                r[IOP89_REPORT_AT(channel, IOP89_INSTRUCTIONS_1)] + r[IOP89_REPORT_AT(channel, IOP89_EXTERNAL_ENDS_1)];
        if (r[IOP89_REPORT_AT(channel, IOP89_BYTES_STORED_1)] > 2 * transfers) return false;
    }
    return r[IOP89_ROWS_ACCEPTED] + r[IOP89_ROWS_REFUSED] == rows && r[IOP89_ROWS_ACCEPTED] == done;
}

/* Whether the archive's schedule, whole and cut, is the emulator's. */
static bool agree_with_emulator(const struct outcome *o)
{
    bool same = o[WHOLE].number[0] == o[EMULATED].number[0] && same_report(o[WHOLE].report[0], o[EMULATED].report[0]);
    for (unsigned i = 0; i < 2; i++)
        same = same && o[CUT].number[i] == o[EMULATED_CUT].number[i] &&
               same_report(o[CUT].report[i], o[EMULATED_CUT].report[i]);
    return same && states_agree(WHOLE, EMULATED) && states_agree(CUT, EMULATED_CUT);
}

/* Whether a done schedule is that of the single calls and of its two parts. */
static bool agree_with_calls(const struct schedule *s, const struct outcome *o)
{
    return parts_add(&o[CUT], o[WHOLE].report[0], s->report_len) &&
           parts_add(&o[CUT], o[SINGLE].report[0], IOP89_REPORT_LENGTH) && adds_up(o[CUT].report[0], s->cut) &&
           adds_up(o[CUT].report[1], s->count - s->cut) && states_agree(WHOLE, SINGLE) && states_agree(WHOLE, CUT);
}

/* Shows the words of a report that are not those of another. */
static void show_report(const char *name, const uint64_t *words, const char *other_name, const uint64_t *other)
{
    for (size_t i = 0; i < WORD_FENCE + MOST_WORDS + WORD_FENCE; i++)
        if (words[i] != other[i])
            printf("  word %td of the report: %s %" PRIu64 ", %s %" PRIu64 "\n", (ptrdiff_t)i - WORD_FENCE, name,
                   words[i], other_name, other[i]);
}

/* Shows where a way's machine is not the other's. */
static void show_machine(const struct run_case *c, enum way a, enum way b)
{
    for (size_t i = 0; i < STATE_ROOM; i++)
        if (machines[a].state[i] != machines[b].state[i])
            printf("  state byte %zu: %s %02X, %s %02X\n", i, way_names[a], machines[a].state[i], way_names[b],
                   machines[b].state[i]);
    if (!memories_agree(c, a, b))
        printf("  memory: %s and %s differ, or a byte beside it was stored\n", way_names[a], way_names[b]);
}

/* Shows a schedule and what its ways answered. */
static void show(const struct run_case *c, const struct schedule *s)
{
    const struct outcome *o = outcomes;
    printf("  %zu rows, cut at %zu, %zu bytes of a state, %zu words of a report\n", s->count, s->cut, s->state_len,
           s->report_len);
    for (size_t i = 0; i < s->count; i++)
        printf("  row %zu: kind %" PRIu32 ", value %" PRIu32 "\n", i, rows_of(s)[i].kind, rows_of(s)[i].value);
    printf("  numbers: archive %" PRIu32 ", cut %" PRIu32 " and %" PRIu32 "; emulator %" PRIu32 ", cut %" PRIu32
           " and %" PRIu32 "\n", o[WHOLE].number[0], o[CUT].number[0], o[CUT].number[1], o[EMULATED].number[0],
           o[EMULATED_CUT].number[0], o[EMULATED_CUT].number[1]);
    show_report("archive", o[WHOLE].report[0], "emulator", o[EMULATED].report[0]);
    show_report("archive's first part", o[CUT].report[0], "emulator's", o[EMULATED_CUT].report[0]);
    show_report("archive's second part", o[CUT].report[1], "emulator's", o[EMULATED_CUT].report[1]);
    show_machine(c, WHOLE, EMULATED);
    show_machine(c, CUT, EMULATED_CUT);
    if (o[WHOLE].number[0] != IOP89_DONE) return;
    if (s->report_len >= IOP89_REPORT_LENGTH)
        for (size_t i = WORD_FENCE; i < WORD_FENCE + IOP89_REPORT_LENGTH; i++)
            if (o[WHOLE].report[0][i] != o[SINGLE].report[0][i])
                printf("  word %zu of the report: archive %" PRIu64 ", single calls %" PRIu64 "\n", i - WORD_FENCE,
                       o[WHOLE].report[0][i], o[SINGLE].report[0][i]);
    show_machine(c, WHOLE, SINGLE);
    show_machine(c, WHOLE, CUT);
}

/* Counts the counts of a schedule that are not 0. */
static void count_counts(const struct outcome *parts)
{
    for (unsigned i = 0; i < IOP89_REPORT_LENGTH; i++)
        counts[i] += parts->report[0][WORD_FENCE + i] + parts->report[1][WORD_FENCE + i] > 0;
}

/* Whether memories agree: those of the archive with the emulator's, and of a done schedule in all its ways. */
static bool all_memories_agree(const struct run_case *c, bool done)
{
    bool same = memories_agree(c, WHOLE, EMULATED) && memories_agree(c, CUT, EMULATED_CUT);
    return same && (!done || (memories_agree(c, SINGLE, WHOLE) && memories_agree(c, CUT, WHOLE)));
}

/* Makes one schedule in all ways; answers whether they agree. Large memories are compared behind a machine's last one. */
static bool agree_on(const struct run_case *c, const struct schedule *s, bool last)
{
    static struct schedule given;
    uint32_t number = number_due(s);
    bool done = number == IOP89_DONE;
    given = *s;
    if (counting) count_given(s, number);
    make_all(c, s);
    if (done) by_calls(c, s);
    if (counting) count_counts(&outcomes[CUT]);
    bool same = outcomes[WHOLE].number[0] == number && agree_with_emulator(outcomes);
    same = same && (!done || agree_with_calls(s, outcomes)) && memcmp(given.array, s->array, sizeof given.array) == 0;
    return same && ((!last && c->sys_len + c->io_len > SMALL) || all_memories_agree(c, done));
}

/* ---- One machine ---- */

/* Where the block of a channel of the first way's machine is. */
static uint32_t block_of(uint32_t channel)
{
    return (iop89_cp(machines[WHOLE].state) + (channel == 2 ? 8 : 0)) & MASK20;
}

/* Changes a machine before a schedule, its state in the first way's bytes: now and then any other, some registers set,
 * channels put into transfers of pairs, and commands in their blocks. */
static void change(struct random *d, const struct run_case *c)
{
    uint8_t *state = machines[WHOLE].state;
    if (chance(d, 120)) any_state(d, c, state);
    if (chance(d, 200)) poke_state(d, c, state);
    for (unsigned channel = 1; channel <= 2; channel++) {
        if (chance(d, 300)) pair_up(d, c, state);
        if (chance(d, 300)) put_each(c, block_of(channel), some_ccw(d));
    }
}

/* Makes a machine's state a fresh one with the command of its image, mostly, or any other; a channel in it may be in a
 * transfer of pairs. */
static void begin(struct random *d, const struct run_case *c, uint8_t ccw)
{
    uint8_t *state = machines[WHOLE].state;
    if (chance(d, 700)) {
        iop89_fresh(state, STATE_BYTES, c->cp);
        put_each(c, block_of(c->channel), ccw);
    } else {
        any_state(d, c, state);
    }
    if (chance(d, 350)) pair_up(d, c, state);
}

/* Makes one schedule on a state that may be damaged or have fields that disagree, and which then is made whole again. */
static bool agree_spoiled(struct random *d, const struct run_case *c, const struct schedule *s, bool last)
{
    uint8_t whole[STATE_BYTES], given[STATE_BYTES], *state = machines[WHOLE].state;
    bool spoiled = chance(d, 30), parted = chance(d, 60);
    memcpy(whole, state, STATE_BYTES);
    if (parted) part_fields(d, state);
    if (spoiled) damage_state(d, state);
    memcpy(given, state, STATE_BYTES);
    share_state();
    bool same = agree_on(c, s, last);
    if ((spoiled || parted) && memcmp(given, state, STATE_BYTES) == 0) memcpy(state, whole, STATE_BYTES);
    if (outcomes[WHOLE].number[0] == IOP89_UNKNOWN_ROW && same && !last) {
        lend_memories(&machines[CUT], &machines[WHOLE], LENT_BY(c)); /* a part of known kinds has run there */
        lend_memories(&machines[EMULATED_CUT], &machines[EMULATED], LENT_BY(c));
    }
    return same;
}

/* Makes the schedules of a machine, from this number on, one behind the other; answers whether all agree. */
static bool agree(uint64_t seed, uint64_t first, unsigned schedules, bool shown)
{
    static struct schedule s;
    struct random d = seeded(seed + 5000011, first / EACH);
    struct run_case c = {machines[WHOLE].memory[SYS], machines[WHOLE].memory[IO], 0, 0, 0, 0, 0, 0};
    make_case(&c, seed, first / EACH);
    for (enum way way = WHOLE; way < WAYS; way++) lend_memories(&machines[way], &machines[WHOLE], LENT_BY(&c));
    memset(machines[WHOLE].state, 0, STATE_ROOM);
    iop89_fresh(machines[WHOLE].state, STATE_BYTES, c.cp);
    uint8_t ccw = block_of(c.channel) < c.sys_len ? c.sys[block_of(c.channel)] : 0;
    counting = !shown;
    for (unsigned i = 0; i < schedules; i++) {
        bool anew = i == 0 || chance(&d, 300);
        if (anew) begin(&d, &c, ccw);
        else change(&d, &c);
        make_schedule(&d, &c, anew, &s);
        if (agree_spoiled(&d, &c, &s, shown || i + 1 == schedules)) continue;
        if (shown) printf("  in schedule %" PRIu64 "\n", first + i);
        if (shown) show(&c, &s);
        return false;
    }
    return true;
}

/* ---- The layout of rows, read off the archive ---- */

/* A call on a fresh state, with sixteen bytes of zeros for memory: command 000 in both blocks, so that every attention to
 * a channel is accepted and every step refused. */
static uint32_t call_fresh(const void *rows, size_t count, uint64_t *report)
{
    uint8_t state[STATE_BYTES], sys[16] = {0}, io[1] = {0};
    iop89_fresh(state, sizeof state, 0);
    return iop89_schedule(state, sizeof state, rows, count, sys, sizeof sys, io, 0, report, IOP89_REPORT_LENGTH);
}

/* Changes each word of three rows, attentions to channel 1, and of what lies behind them: where the kinds are a change is
 * answered by 16, where the values are one attention is refused, elsewhere nothing is. How many words are not where C has
 * them. */
static unsigned find_words(void)
{
    enum { ROWS = 3, WORDS = 8 };
    unsigned wrong = 0, kinds = 0, values = 0;
    for (size_t k = 0; k < WORDS; k++) {
        struct iop89_row rows[ROWS + 1];
        uint64_t report[IOP89_REPORT_LENGTH];
        uint32_t value = 7777;
        for (size_t i = 0; i <= ROWS; i++) rows[i].kind = rows[i].value = 1;
        memcpy((unsigned char *)rows + sizeof value * k, &value, sizeof value);
        uint32_t number = call_fresh(rows, ROWS, report);
        size_t in_row = sizeof value * k % sizeof rows[0];
        bool lent = sizeof value * k < ROWS * sizeof rows[0];
        bool kind = lent && in_row == offsetof(struct iop89_row, kind);
        bool other = lent && in_row == offsetof(struct iop89_row, value);
        wrong += (number == IOP89_UNKNOWN_ROW) != kind || (report[IOP89_ROWS_REFUSED] == 1) != other;
        wrong += !kind && report[IOP89_ROWS_ACCEPTED] + report[IOP89_ROWS_REFUSED] != ROWS;
        kinds += number == IOP89_UNKNOWN_ROW;
        values += report[IOP89_ROWS_REFUSED] == 1;
    }
    print_count("words of three rows that are kinds", kinds);
    print_count("words of three rows that are values", values);
    return wrong + (sizeof(struct iop89_row) != 8) + (kinds != ROWS) + (values != ROWS);
}

/* Every slice of five rows, of which the outer two are of unknown kind and in the others kind and value differ: an
 * attention to channel 2, a step under line number 1, an attention to channel 1. How many answer otherwise. */
static unsigned every_slice(void)
{
    static const struct iop89_row rows[5] = {{9, 9}, {1, 2}, {2, 1}, {1, 1}, {9, 9}};
    unsigned wrong = 0, slices = 0;
    for (size_t from = 0; from <= 5; from++) {
        for (size_t to = from; to <= 5; to++) {
            uint64_t report[IOP89_REPORT_LENGTH], due[IOP89_REPORT_LENGTH] = {0};
            bool unknown = to > from && (from == 0 || to == 5);
            for (size_t i = from; i < to && !unknown; i++) {
                due[i == 2 ? IOP89_ROWS_REFUSED : IOP89_ROWS_ACCEPTED]++;
                if (i != 2) due[IOP89_REPORT_AT(rows[i].value, IOP89_ATTENTIONS_ACCEPTED_1)]++;
            }
            uint32_t number = call_fresh(rows + from, to - from, report);
            wrong += number != (unknown ? IOP89_UNKNOWN_ROW : IOP89_DONE) || memcmp(report, due, sizeof due) != 0;
            slices++;
        }
    }
    print_count("slices of five rows", slices);
    return wrong;
}

/* Both, and what they find is said where it is wrong. */
static unsigned read_layout(void)
{
    unsigned words_wrong = find_words(), slices_wrong = every_slice();
    if (words_wrong > 0) puts("DIFFERENCE in where a row has its kind and its value");
    if (slices_wrong > 0) printf("DIFFERENCE in %u slices\n", slices_wrong);
    return words_wrong + slices_wrong;
}

/* ---- What is printed ---- */

/* The numbers that an attention and a step can answer, and those of a step that finds a channel waiting. */
#define ATTENTION_NUMBERS (1u << 0 | 1u << 2 | 15u << 6 | 31u << 10)
#define STEP_NUMBERS (63u | 31u << 10)
#define WAITING_NUMBERS (STEP_NUMBERS & ~(1u << 0 | 1u << 12))

/* Prints the sixteen counts by how many schedules had more than 0 of them. */
static void print_counts(void)
{
    static const char *const names[7] = {"attentions accepted", "attentions refused", "instructions", "transfer steps",
                                         "bytes stored",        "external ends",      "waiting rows"};
    char name[40];
    puts("schedules with");
    print_count("rows accepted", counts[IOP89_ROWS_ACCEPTED]);
    print_count("rows refused", counts[IOP89_ROWS_REFUSED]);
    for (unsigned i = 0; i < 14; i++) {
        snprintf(name, sizeof name, "%s, channel %u", names[i % 7], 1 + i / 7);
        print_count(name, counts[2 + i]);
    }
}

/* Prints what transfer steps stored: how many bytes, halves by which they were, and those that a match cut short. */
static void print_stored(void)
{
    static const char *const halves[EMU_HALVES] = {"whole steps", "first fetches", "second fetches", "first stores",
                                                   "second stores"};
    unsigned long vanished = 0, cut[2] = {0, 0};
    char name[60];
    for (unsigned i = 0; i < 6; i++) {
        snprintf(name, sizeof name, "transfer steps of channel %u that stored %u", 1 + i / 3, i % 3);
        print_count(name, stored[i / 3][i % 3]);
    }
    for (unsigned i = 0; i < EMU_HALVES; i++) {
        unsigned long all = 0;
        for (unsigned ends = 0; ends < EMU_END_SETS; ends++) all += coverage.half_end[i][ends];
        print_count(halves[i], all);
    }
    for (unsigned i = 0; i < EMU_SLOT_SETS; i++) vanished += coverage.slot[EMU_DESTINATION][i];
    for (unsigned i = 0; i < EMU_LEFTOVERS; i++)
        for (unsigned half = 0; half < 2; half++)
            cut[half] += coverage.leftover[half][0][i] + coverage.leftover[half][1][i];
    print_count("translated steps", coverage.translated);
    print_count("steps whose stores vanished, all or one", vanished);
    print_count("whole steps that stored one byte, and BC fell by 2", cut[0]);
    print_count("halves that stored one byte, and BC fell by 2", cut[1]);
}

/* Prints everything that was met. */
static void print_met(void)
{
    print_counts();
    print_answers("attention rows, by number:", refused[0], ATTENTION_NUMBERS);
    print_answers("step rows, by number:", refused[1], STEP_NUMBERS);
    print_table("schedules and rows:", met_names, met, METS);
    puts("reports, by their words:");
    print_numbered("%u", words, 0, MOST_WORDS);
    print_stored();
    for (unsigned i = 0; i < 2; i++) {
        printf("step rows that found channel %u waiting, by what became of them:\n", i + 1);
        print_table("done or not:", fate_names, fates[i], FATES);
        print_answers("refused, by number:", waited[i], WAITING_NUMBERS);
        print_table("step rows, by channel's state before them:", near_names, nears[i], NEARS);
    }
    print_faults("17, by its cause:", faults);
}

/* A machine gets EACH schedules; the first is counted from the first of its own. */
int main(int count, char **words)
{
    struct options o = read_options(&comparison, count, words);
    o.first = o.first / EACH * EACH;
    for (enum way way = WHOLE; way < WAYS; way++) machines[way] = new_machine();
    unsigned long long differences = 0, in_layout = read_layout();
    for (uint64_t i = o.first, end = o.first + o.cases; i < end; i += EACH) {
        unsigned made = end - i < EACH ? (unsigned)(end - i) : EACH;
        if (agree(o.seed, i, made, false)) continue;
        if (differences++ >= SHOWN) continue;
        printf("DIFFERENCE (again: compare_schedule %" PRIu64 " %u %" PRIu64 ")\n", o.seed, made, i);
        agree(o.seed, i, made, true);
    }
    print_options(&comparison, o);
    print_met();
    return conclude(&comparison, o, differences + in_layout);
}
