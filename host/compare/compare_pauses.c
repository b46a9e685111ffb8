/* Compares block transfers in the middle of which their channel is suspended and resumed: each by the service archive
 * and by the emulator, with its pauses and without. Archive and emulator must agree after every call; and with its pauses
 * a transfer must come to the end that it has without, in as many of its steps. */
#include "iop89_service.h"
#include "coverage.h"
#include "options.h"
#include "pauses.h"
#include "twin.h"

#include <inttypes.h>
#include <stdlib.h>
#include <string.h>

static const struct comparison comparison = {"compare_pauses", "row", "rows", 20000};

/* More calls than a run has, the most bytes that a host writes, and the steps in a row after which the other channel is
 * halted. */
enum { MOST_CALLS = 400000, MOST_WRITTEN = 64, MOST_WAITED = 40 };

/* Steps in which a program has set up its transfer, if it has them for itself. */
enum { SET_UP_STEPS = 400 };

/* A byte of memory. */
struct spot {
    bool in_io;
    uint32_t at;
};

/* One run of a row: its machine, the host's writes, the transfer steps of the row's channel, the steps of the other one
 * since the last of them, and whether the row's channel is suspended. */
struct run {
    const char *name;
    struct twin twin;
    const struct row *row;
    struct random *d;
    struct spot written[MOST_WRITTEN];
    unsigned writes, waited;
    uint32_t steps;
    bool suspended;
};

static struct machine given;
static struct run plain = {.name = "without pauses"}, paused = {.name = "with pauses"};

/* The block of the row's channel after each number of its transfer steps without a pause. */
static uint8_t track[MOST + 1][IOP89_BLOCK_LENGTH];

/* Begins a run with what a machine has. */
static void begin(struct run *r, const struct row *row, struct random *d, const struct machine *from)
{
    r->row = row;
    r->d = d;
    r->writes = r->waited = 0;
    r->steps = 0;
    r->suspended = false;
    r->twin.at_every_call = row->n < MOST;
    twin_begin(&r->twin, from, row->length);
}

/* Whether nothing was amiss so far, and notes that something is. */
static bool is_well(const struct run *r) { return r->twin.amiss == NULL; }
static void amiss(struct run *r, const char *what) { twin_amiss(&r->twin, what); }

/* The block of the row's channel, and a register of it. */
static uint8_t *block_of(const struct run *r)
{
    return r->twin.archive.state + IOP89_AT_CHANNEL(r->row->channel);
}

static uint32_t own(const struct run *r, enum iop89_register which)
{
    return iop89_get(r->twin.archive.state, r->row->channel, which);
}

/* Whether the other channel is in a mode. */
static bool other_is(const struct run *r, enum iop89_mode mode)
{
    return iop89_get(r->twin.archive.state, 3 - r->row->channel, IOP89_MODE) == mode;
}

/* Whether the transfer goes on. */
static bool transfers(const struct run *r)
{
    return (own(r, IOP89_PSW) & EMU_PSW_XF) != 0;
}

/* A byte of the archive's memory. */
static uint8_t *byte_at(const struct run *r, struct spot spot)
{
    return &r->twin.archive.memory[spot.in_io][spot.at];
}

/* ---- What was met ---- */

/* What is met: by rows, by pauses, by the calls while the channel is suspended and while it runs, and by sweeps. */
enum met {
    MET_PROGRAM, MET_IO_PROGRAM, MET_STATE, MET_CHANNEL_1, MET_CHANNEL_2, MET_EVEN_PB, MET_ODD_PB, MET_PB_FFFFD,
    MET_PB_FFFFE, MET_PB_FFFFF, MET_CONTROL_OVER, MET_SOURCE_OVER, MET_DESTINATION_OVER, MET_SOURCE_NEXT,
    MET_DESTINATION_NEXT,
    MET_BEFORE_FIRST, MET_ODD_BYTE, MET_BEFORE_LAST, MET_BEFORE_ONLY, MET_ELSEWHERE, MET_DIRECTLY, MET_NOTHING_BETWEEN,
    MET_TAG, MET_HELD, MET_ARMED, MET_BITS_00, MET_BITS_01, MET_BITS_10, MET_BITS_11,
    MET_NO_STEP, MET_INSTRUCTION, MET_TRANSFER, MET_EXTERNAL, MET_WRITES, MET_BUSY_WRITTEN, MET_REFUSED_6, MET_REFUSED_9,
    MET_NOTHING, MET_IO_STARTED, MET_STARTED, MET_RESUMED, MET_SUSPENDED, MET_HALTED,
    MET_OTHER_BETWEEN, MET_PB_WRITTEN, MET_RUNNING_6, MET_RUNNING_7, MET_RUNNING_8,
    MET_SWEPT, MET_SWEPT_ALL, MET_SWEPT_LAST, METS
};

static const char *const met_names[METS] = {
    "set up by a program in system space", "set up by a program in I/O space", "set up as a state", "channel 1 paused",
    "channel 2 paused", "PB even", "PB odd", "PB over the top from FFFFDh", "PB over the top from FFFFEh",
    "PB over the top from FFFFFh", "control blocks over the top", "source over the top", "destination over the top",
    "PB's four bytes right beside the source", "PB's four bytes right beside the destination",
    "before the first transfer step", "at an odd byte between words", "before the last transfer step",
    "before the only one", "elsewhere", "directly behind another pause", "no call between suspend and resume",
    "TP in I/O space", "a byte held", "the armed mark set", "bit 7 of PSW 0, bit 5 0", "bit 7 of PSW 0, bit 5 1",
    "bit 7 of PSW 1, bit 5 0", "bit 7 of PSW 1, bit 5 1",
    "a step that no channel can do", "an instruction of the other channel", "a transfer step of the other channel",
    "an external end of the other channel", "the host writes a byte", "the host writes BUSY",
    "an attention to this channel refused by 6", "an attention to this channel refused by 9",
    "the other channel takes 000", "the other channel is started in I/O space", "the other channel is started",
    "the other channel is resumed", "the other channel is suspended", "the other channel is halted",
    "a step of the other channel", "the host writes one of PB's four bytes", "an attention to this channel refused by 6",
    "an attention to this channel refused by 7", "an attention to this channel refused by 8",
    "behind a resume", "with every step left", "with one step left"};

static const char *const breach_names[BREACHES] = {
    "", "TB 0 at the start: TB is 1 at the end", "ICF 10 at the resumes: IC is 1 at the end",
    "another priority at the last resume: it stays", "PB's third byte overwritten while suspended: TP is elsewhere",
    "BUSY the first of PB's four bytes: TP is elsewhere", "PB in the destination: its bytes are not the source's"};

static unsigned long met[METS], breached[BREACHES], in_a_row[MOST_PAUSES + 1], sides[4][4][4], few[FEW + 1], more, large;
static unsigned long lines_met[16];
static bool counting;

/* Counts something, in rows in which it is counted. */
static void count(enum met what, bool is_so)
{
    met[what] += counting && is_so;
}

/* Whether one place ends where another begins. */
static bool is_beside(const struct place *a, const struct place *b)
{
    return a->in_io == b->in_io && (address_in(a, a->length) == b->at || address_in(b, b->length) == a->at);
}

/* Counts a row by where things lie. */
static void count_places(const struct row *r)
{
    const struct place *source = &r->place[SOURCE], *destination = &r->place[DESTINATION], *pb = &r->place[OWN_PB];
    count(pb->at % 2 == 0 ? MET_EVEN_PB : MET_ODD_PB, true);
    count(MET_PB_FFFFD, pb->at == 0xFFFFD);
    count(MET_PB_FFFFE, pb->at == 0xFFFFE);
    count(MET_PB_FFFFF, pb->at == 0xFFFFF);
    count(MET_CONTROL_OVER, goes_over(&r->place[CONTROL]));
    count(MET_SOURCE_OVER, goes_over(source));
    count(MET_DESTINATION_OVER, goes_over(destination));
    count(MET_SOURCE_NEXT, is_beside(pb, source));
    count(MET_DESTINATION_NEXT, is_beside(pb, destination));
}

/* Counts a row by how it is made, its sides, bytes and pauses. */
static void count_row(const struct row *r)
{
    const struct place *source = &r->place[SOURCE], *destination = &r->place[DESTINATION];
    unsigned odd = source->at % 2 + 2 * (destination->at % 2), spaces = source->in_io + 2u * destination->in_io;
    unsigned wide = ((r->widths & EMU_PSW_S) != 0 ? 1 : 0) + ((r->widths & EMU_PSW_D) != 0 ? 2 : 0);
    if (!counting) return;
    count(!r->by_program ? MET_STATE : r->place[OWN_PROGRAM].in_io ? MET_IO_PROGRAM : MET_PROGRAM, true);
    count(r->channel == 1 ? MET_CHANNEL_1 : MET_CHANNEL_2, true);
    count_places(r);
    sides[wide][odd][spaces]++;
    in_a_row[r->pauses]++;
    if (r->n <= FEW) few[r->n]++;
    else if (r->n < MOST) more++;
    else large++;
}

/* Counts a pause by where it comes, and by what the channel has then. */
static void count_pause(const struct run *r, unsigned index)
{
    static const enum met bits[4] = {MET_BITS_00, MET_BITS_01, MET_BITS_10, MET_BITS_11};
    const struct row *row = r->row;
    uint32_t moved = moved_after(row, r->steps), psw = own(r, IOP89_PSW);
    bool odd = row->widths != 0 && moved % 2 != 0 && row->n - moved > 1;
    bool first = r->steps == 0, last = r->steps + 1 == steps_needed(row);
    count(MET_BEFORE_FIRST, first);
    count(MET_ODD_BYTE, odd);
    count(MET_BEFORE_LAST, last);
    count(MET_BEFORE_ONLY, first && last);
    count(MET_ELSEWHERE, !first && !last && !odd);
    count(MET_DIRECTLY, index > 0 && row->pause[index - 1] == row->pause[index]);
    count(MET_TAG, own(r, IOP89_TP_TAG) != 0);
    count(MET_HELD, own(r, IOP89_HELD) != 0);
    count(MET_ARMED, own(r, IOP89_ARMED) != 0);
    count(bits[(psw >> 6 & 2u) | (psw >> 5 & 1u)], true);
}

/* Counts a step that was none of the row's channel. */
static void count_step(const struct run *r, uint32_t answer, uint32_t lines)
{
    static const enum met kinds[4] = {MET_NO_STEP, MET_INSTRUCTION, MET_TRANSFER, MET_EXTERNAL};
    count(r->suspended ? kinds[IOP89_ANSWER_KIND(answer)] : MET_OTHER_BETWEEN, true);
    if (counting && r->suspended) lines_met[lines]++;
}

/* Counts an attention to the row's channel that was refused. */
static void count_refused(const struct run *r, unsigned number)
{
    count(r->suspended ? MET_REFUSED_6 : MET_RUNNING_6, number == IOP89_BAD_COMMAND);
    count(MET_RUNNING_7, number == IOP89_NOT_SUSPENDED);
    count(MET_RUNNING_8, number == IOP89_ALREADY_RUNNING);
    count(MET_REFUSED_9, number == IOP89_NOT_RUNNING);
}

/* ---- What others do ---- */

/* Writes a channel's CCW. */
static void put_ccw(struct run *r, uint32_t channel, uint32_t ccw)
{
    twin_put(&r->twin, false, ccw_of(r->row, channel), ccw);
}

/* A byte anywhere, right before a place or behind it, or one of PB's first four. */
static struct spot some_spot(const struct run *r)
{
    const struct place *p = &r->row->place[below(r->d, ITEMS)], *pb = &r->row->place[OWN_PB];
    struct spot any = {chance(r->d, 500), 0}, saved = {false, address_in(pb, below(r->d, SAVED_BYTES))};
    struct spot beside = {p->in_io, address_in(p, chance(r->d, 500) ? p->length : space_limits[p->in_io] - 1)};
    any.at = below(r->d, r->row->length[any.in_io]);
    return chance(r->d, 500) ? beside : chance(r->d, 300) ? saved : any;
}

/* Whether the host may write a byte: it is in neither range, in nothing that the other channel lives by, and not one of
 * PB's first four where the channel is suspended. */
static bool is_free(const struct run *r, struct spot spot)
{
    static const enum item kept[] = {SOURCE, DESTINATION, CONTROL, OTHER_PB, OTHER_PROGRAM};
    bool saved = lies_in(&r->row->place[OWN_PB], spot.in_io, spot.at);
    for (unsigned i = 0; i < 5; i++)
        if (lies_in(&r->row->place[kept[i]], spot.in_io, spot.at)) return false;
    return spot.at < r->row->length[spot.in_io] && !(saved && r->suspended);
}

/* The host writes some byte that it may, or BUSY. */
static void write_elsewhere(struct run *r)
{
    struct spot spot = some_spot(r), busy = {false, busy_of(r->row, r->row->channel)};
    if (chance(r->d, 100) && r->row->breach == NO_BREACH) {
        twin_put(&r->twin, false, busy.at, below(r->d, 256));
        count(MET_BUSY_WRITTEN, r->suspended);
    } else if (r->writes < MOST_WRITTEN && is_free(r, spot)) {
        twin_put(&r->twin, spot.in_io, spot.at, below(r->d, 256));
        r->written[r->writes++] = spot;
        count(MET_WRITES, r->suspended);
        count(MET_PB_WRITTEN, lies_in(&r->row->place[OWN_PB], spot.in_io, spot.at));
    }
}

/* Gives the other channel an attention with a command, which must leave this one alone; where it is a start PB has the
 * program's address again. */
static void command_other(struct run *r, uint32_t command)
{
    static const enum met kinds[8] = {MET_NOTHING, MET_IO_STARTED, METS,          MET_STARTED,
                                      METS,        MET_RESUMED,    MET_SUSPENDED, MET_HALTED};
    uint8_t before[IOP89_BLOCK_LENGTH], words[SAVED_BYTES];
    uint32_t channel = 3 - r->row->channel;
    as_start(r->d, &r->row->place[OTHER_PROGRAM], words);
    for (uint32_t i = 0; i < SAVED_BYTES && (command == START_IO || command == START_SYSTEM); i++)
        twin_put(&r->twin, false, address_in(&r->row->place[OTHER_PB], i), words[i]);
    memcpy(before, block_of(r), sizeof before);
    put_ccw(r, channel, command | below(r->d, 32) << 3);
    bool done = IOP89_ANSWER_NUMBER(twin_attend(&r->twin, channel)) == IOP89_DONE;
    if (memcmp(before, block_of(r), sizeof before) != 0) amiss(r, "an attention to the other channel changed this one");
    count(kinds[command], done && r->suspended);
}

/* Gives the other channel some attention: a start where it does not run, in its program's space, or another command. */
static void attend_other(struct run *r)
{
    static const uint32_t likely[] = {0, RESUME, RESUME, SUSPEND, SUSPEND, HALT};
    uint32_t start = r->row->place[OTHER_PROGRAM].in_io ? START_IO : START_SYSTEM;
    command_other(r, !other_is(r, IOP89_RUNNING) && chance(r->d, 500) ? start : ONE_OF(r->d, likely));
}

/* Gives the row's channel an attention that must be refused and change nothing. */
static void attend_in_vain(struct run *r)
{
    static const uint32_t running[] = {START_IO, 2, START_SYSTEM, 4, RESUME}, suspended[] = {2, 4, SUSPEND, SUSPEND};
    uint32_t command = r->suspended ? ONE_OF(r->d, suspended) : ONE_OF(r->d, running);
    uint8_t before[STATE_BYTES];
    memcpy(before, r->twin.archive.state, STATE_BYTES);
    put_ccw(r, r->row->channel, command | below(r->d, 32) << 3);
    unsigned number = IOP89_ANSWER_NUMBER(twin_attend(&r->twin, r->row->channel));
    if (number == IOP89_DONE) amiss(r, "an attention was accepted that should be refused");
    if (memcmp(before, r->twin.archive.state, STATE_BYTES) != 0) amiss(r, "a refused attention changed the state");
    count_refused(r, number);
}

/* Something that is no step and no pause. */
static void disturb(struct run *r)
{
    unsigned kind = below(r->d, 4);
    if (kind == 0) attend_other(r);
    else if (kind == 1) attend_in_vain(r);
    else write_elsewhere(r);
}

/* ---- The row's channel ---- */

/* A step under any lines: a transfer step of the channel where it runs, or one of the other channel, which leaves this one
 * alone and is halted where it takes too many. */
static void step_some(struct run *r)
{
    uint8_t before[IOP89_BLOCK_LENGTH];
    uint32_t lines = below(r->d, 16);
    memcpy(before, block_of(r), sizeof before);
    uint32_t answer = twin_step(&r->twin, lines), number = IOP89_ANSWER_NUMBER(answer);
    bool mine = IOP89_ANSWER_CHANNEL(answer) == r->row->channel;
    if (number != IOP89_DONE && !(number == IOP89_NO_CHANNEL && r->suspended)) amiss(r, "a step was refused");
    if (mine && r->suspended) amiss(r, "a suspended channel did a step");
    if (mine && IOP89_ANSWER_KIND(answer) != IOP89_TRANSFER) amiss(r, "a step of the channel is no transfer step");
    if (!mine && memcmp(before, block_of(r), sizeof before) != 0) amiss(r, "a step of another channel changed this one");
    if (!mine) count_step(r, answer, lines);
    r->steps += mine;
    r->waited = mine ? 0 : r->waited + 1;
    if (r->waited > MOST_WAITED && !r->suspended) command_other(r, HALT);
}

/* Whether just the bytes that should have moved are in the destination, and the source is as it was. */
static bool moved_right(const struct run *r)
{
    const struct place *source = &r->row->place[SOURCE], *destination = &r->row->place[DESTINATION];
    uint32_t moved = moved_after(r->row, r->steps);
    for (uint32_t i = 0; i < r->row->n; i++) {
        struct spot from = {source->in_io, address_in(source, i)}, to = {destination->in_io, address_in(destination, i)};
        uint8_t byte = given.memory[from.in_io][from.at];
        if (*byte_at(r, from) != byte) return false;
        if (*byte_at(r, to) != (i < moved ? byte : given.memory[to.in_io][to.at])) return false;
    }
    return true;
}

/* Gives the channel a suspend or a resume, quietly: ICF 00, and bits 5 and 7 as PSW has them; but for these bits. */
static void command_own(struct run *r, uint32_t command, uint32_t changed)
{
    put_ccw(r, r->row->channel, (command | (own(r, IOP89_PSW) & 0xA0u)) ^ changed);
    if (IOP89_ANSWER_NUMBER(twin_attend(&r->twin, r->row->channel)) != IOP89_DONE) amiss(r, "a pause was refused");
    twin_compare(&r->twin);
    r->suspended = command == SUSPEND;
}

/* What breaks a premise while the channel is suspended, the last time or not; answers the bits of CCW that the resume is
 * to have changed. */
static uint32_t break_premise(struct run *r, bool last)
{
    struct spot third = {false, address_in(&r->row->place[OWN_PB], 2)};
    if (r->row->breach == BREACH_ICF) return 2u << 3;
    if (r->row->breach == BREACH_PRIORITY && last) return EMU_PSW_PRIORITY;
    if (r->row->breach == BREACH_PB_BYTE && last)
        twin_put(&r->twin, false, third.at, *byte_at(r, third) ^ (1 + below(r->d, 31)) << 3);
    return 0;
}

/* Suspends the channel, has others do what they may, and resumes it, which makes it what it is without pauses after as
 * many of its steps. */
static void pause(struct run *r, unsigned index)
{
    bool whole = r->row->breach == NO_BREACH, quick = chance(r->d, 200);
    count_pause(r, index);
    count(MET_NOTHING_BETWEEN, quick);
    command_own(r, SUSPEND, 0);
    if (own(r, IOP89_MODE) != IOP89_SUSPENDED || transfers(r)) amiss(r, "a suspended channel is not suspended");
    for (unsigned i = quick ? 0 : 1 + below(r->d, 6); i > 0; i--) {
        if (chance(r->d, 600)) step_some(r);
        else disturb(r);
    }
    if (whole && !moved_right(r)) amiss(r, "a suspended transfer has moved other bytes than it should");
    command_own(r, RESUME, break_premise(r, index + 1 == r->row->pauses));
    if (whole && memcmp(block_of(r), track[r->steps], IOP89_BLOCK_LENGTH) != 0)
        amiss(r, "a resumed channel is not what it is without pauses");
}

/* Sweeps what is left, the other channel halted or suspended. */
static void sweep_rest(struct run *r)
{
    uint32_t needed = steps_needed(r->row), left = needed - r->steps;
    if (other_is(r, IOP89_RUNNING)) command_other(r, chance(r->d, 500) ? HALT : SUSPEND);
    uint64_t answer = twin_sweep(&r->twin, r->row->channel, below(r->d, 4));
    if (IOP89_SWEEP_NUMBER(answer) != IOP89_DONE) amiss(r, "a sweep behind a resume was refused");
    if (IOP89_SWEEP_STEPS(answer) != left) amiss(r, "a sweep does not stand for the steps that are left");
    r->steps += IOP89_SWEEP_STEPS(answer);
    count(MET_SWEPT, true);
    count(MET_SWEPT_ALL, left == needed);
    count(MET_SWEPT_LAST, left == 1);
}

/* Goes on to the end of the transfer, with the row's pauses or without; without them it keeps track of the channel. */
static void go(struct run *r, bool pauses)
{
    const struct row *row = r->row;
    uint32_t needed = steps_needed(row);
    unsigned next = 0;
    while (is_well(r) && transfers(r)) {
        if (!pauses) memcpy(track[r->steps], block_of(r), IOP89_BLOCK_LENGTH);
        if (pauses && next < row->pauses && r->steps == row->pause[next]) pause(r, next++);
        else if (pauses && row->sweeps && next == row->pauses && r->steps == row->pause[next - 1]) sweep_rest(r);
        else if (chance(r->d, row->n < MOST ? 60 : 1)) disturb(r);
        else step_some(r);
        if (r->steps > needed || r->twin.calls > MOST_CALLS) amiss(r, "the transfer takes too many steps or calls");
    }
    twin_compare(&r->twin);
}

/* ---- One row ---- */

/* Starts a channel, whose block has the command. */
static void start(struct run *r, uint32_t channel)
{
    if (IOP89_ANSWER_NUMBER(twin_attend(&r->twin, channel)) != IOP89_DONE) amiss(r, "a start was refused");
}

/* From a fresh machine, starts the other channel at times, then the row's, up to where its program has set up the
 * transfer; gives the other one an attention behind that at times. */
static void set_up(struct run *r)
{
    const struct row *row = r->row;
    bool begun = false, both = chance(r->d, 600);
    twin_fresh(&r->twin, row->place[CONTROL].at);
    if (both) start(r, 3 - row->channel);
    for (unsigned i = below(r->d, 20); both && i > 0; i--) twin_step(&r->twin, below(r->d, 16));
    start(r, row->channel);
    for (unsigned i = 0; is_well(r) && !begun && i < 2 * SET_UP_STEPS; i++) {
        if (i == SET_UP_STEPS) command_other(r, HALT);
        twin_step(&r->twin, below(r->d, 16));
        begun = transfers(r) && own(r, IOP89_TP) == row->begins;
    }
    if (!begun) amiss(r, "the transfer did not begin");
    if (chance(r->d, 300)) attend_other(r);
}

/* Gives the run with pauses a byte of the run without. */
static void even_out(struct spot spot)
{
    *byte_at(&paused, spot) = *byte_at(&plain, spot);
}

/* Whether both runs left the same bytes, but for those that others could write and that suspend and resume store. */
static bool same_elsewhere(const struct row *row)
{
    static const enum item theirs[] = {OWN_PB, OTHER_PB, ROOM, IO_ROOM};
    for (unsigned i = 0; i < 4; i++)
        for (uint32_t j = 0; j < row->place[theirs[i]].length; j++)
            even_out((struct spot){row->place[theirs[i]].in_io, address_in(&row->place[theirs[i]], j)});
    for (uint32_t channel = 1; channel <= 2; channel++) {
        even_out((struct spot){false, ccw_of(row, channel)});
        even_out((struct spot){false, busy_of(row, channel)});
    }
    for (unsigned i = 0; i < plain.writes; i++) even_out(plain.written[i]);
    for (unsigned i = 0; i < paused.writes; i++) even_out(paused.written[i]);
    for (unsigned i = 0; i < 2; i++)
        if (memcmp(paused.twin.archive.memory[i], plain.twin.archive.memory[i], row->length[i]) != 0) return false;
    return true;
}

/* Holds a run to the end of its transfer: in as many steps as the documents give, and with its bytes moved. */
static void check_end(struct run *r, bool moved)
{
    if (transfers(r) || own(r, IOP89_BC) != 0) amiss(r, "the transfer did not end");
    if (r->steps != steps_needed(r->row)) amiss(r, "the transfer took another number of steps than the documents give");
    if (moved && !moved_right(r)) amiss(r, "the transfer has moved other bytes than it should");
}

/* Holds the run with pauses to the one without: the channel, and every byte that is neither others' nor of a pause. */
static void check_same(const struct row *row)
{
    if (memcmp(block_of(&plain), block_of(&paused), IOP89_BLOCK_LENGTH) != 0)
        amiss(&paused, "the registers at the end are not those without pauses");
    if (!same_elsewhere(row)) amiss(&paused, "a byte is not what it is without pauses");
}

/* Holds the run with pauses of a row that breaks a premise to what that should change, and to nothing else. */
static void check_breach(const struct row *row)
{
    static const uint8_t bits[BREACHES] = {[BREACH_TB] = EMU_PSW_TB, [BREACH_ICF] = EMU_PSW_IC,
                                           [BREACH_PRIORITY] = EMU_PSW_PRIORITY};
    uint8_t *a = block_of(&plain), *b = block_of(&paused);
    bool tp = memcmp(a + IOP89_TP, b + IOP89_TP, IOP89_PP - IOP89_TP) != 0;
    if (tp != (row->breach == BREACH_PB_BYTE || row->breach == BREACH_BUSY)) amiss(&paused, "TP is elsewhere, or is not");
    if ((a[IOP89_PSW] ^ b[IOP89_PSW]) != bits[row->breach]) amiss(&paused, "PSW does not differ as it should");
    if (moved_right(&paused) == (row->breach == BREACH_PB_INSIDE)) amiss(&paused, "the bytes differ, or do not");
    memcpy(b + IOP89_TP, a + IOP89_TP, IOP89_PP - IOP89_TP);
    b[IOP89_PSW] = a[IOP89_PSW];
    check_same(row);
}

/* Says what is amiss in a run. */
static void show(const struct run *r)
{
    if (is_well(r)) return;
    printf("  %s, after %u calls and %" PRIu32 " transfer steps: %s\n", r->name, r->twin.calls, r->steps, r->twin.amiss);
}

/* Makes both runs of a row, as far as nothing is amiss, and holds them to each other. */
static void run_both(const struct row *row)
{
    bool whole = row->breach == NO_BREACH;
    go(&plain, false);
    check_end(&plain, true);
    if (!is_well(&plain)) return;
    go(&paused, true);
    check_end(&paused, whole);
    if (!is_well(&paused)) return;
    if (whole) check_same(row);
    else check_breach(row);
}

/* Makes one row from its beginning; answers whether nothing is amiss, and says what is where it is shown. */
static bool agree(uint64_t seed, uint64_t number, bool shown)
{
    struct row row = make_row(given, seed, number);
    struct random d = seeded(seed + 5000077, number);
    counting = !shown && row.breach == NO_BREACH;
    count_row(&row);
    begin(&paused, &row, &d, &given);
    if (row.by_program) set_up(&paused);
    begin(&plain, &row, &d, &paused.twin.archive);
    if (is_well(&paused)) run_both(&row);
    bool well = is_well(&plain) && is_well(&paused);
    if (shown) show(&plain);
    if (shown) show(&paused);
    else breached[row.breach] += well;
    return well;
}

/* ---- What is printed ---- */

/* Prints what was met from one to before another. */
static void print_group(const char *heading, enum met from, enum met to)
{
    print_table(heading, met_names + from, met + from, to - from);
}

/* Prints everything that was met. */
static void print_met(void)
{
    print_sides("rows, by sides:", sides);
    print_numbered("bytes: %u", few + 1, 1, FEW);
    print_count("bytes: more, and fewer than 65536", more);
    print_count("bytes: 65536", large);
    print_group("rows:", MET_PROGRAM, MET_BEFORE_FIRST);
    print_numbered("pauses in a row: %u", in_a_row + 1, 1, MOST_PAUSES);
    print_group("pauses:", MET_BEFORE_FIRST, MET_NO_STEP);
    print_group("while suspended:", MET_NO_STEP, MET_OTHER_BETWEEN);
    print_numbered("a step call under line number %u", lines_met, 0, 15);
    print_group("while it runs:", MET_OTHER_BETWEEN, MET_SWEPT);
    print_group("sweeps:", MET_SWEPT, METS);
    print_table("rows that break one premise, and differ so:", breach_names + 1, breached + 1, BREACHES - 1);
}

/* Room for all machines, and random bytes in the memories that rows are made in. */
static void make_room(uint64_t seed)
{
    struct random d = seeded(seed, 0);
    given = new_machine();
    scatter(&d, given.memory[0], CASE_SYSTEM_ROOM);
    scatter(&d, given.memory[1], CASE_IO_ROOM);
    plain.twin = new_twin();
    paused.twin = new_twin();
}

int main(int count, char **words)
{
    struct options o = read_options(&comparison, count, words);
    make_room(o.seed);
    unsigned long long differences = compare_cases(&comparison, o, agree);
    print_options(&comparison, o);
    print_met();
    return conclude(&comparison, o, differences);
}
