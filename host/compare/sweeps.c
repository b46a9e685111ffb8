/* Makes random sweeps: ranges and how much of each space is lent, a state, and what is wrong with it. */
#include "sweeps.h"

#include "iop89_service.h"
#include "states.h"

#include <string.h>

/* Of so many sweeps one is of about 65,536 bytes, and of so many of these one is made in plain steps too. */
enum { LARGE_EVERY = 500, PLAIN_EVERY = 10 };

/* ---- Ranges ---- */

const uint32_t space_limits[2] = {EMU_SYSTEM_LIMIT, EMU_IO_LIMIT};

/* Whether a range is to go across the top of its space. */
static bool wraps(enum flaw flaw)
{
    return flaw == FLAW_SOURCE_WRAPS || flaw == FLAW_DESTINATION_WRAPS;
}

/* The range that is to do so or to end past what is lent, if one is. */
static struct range *flawed_range(struct sweep *s, enum flaw flaw)
{
    if (flaw == FLAW_SOURCE_PAST || flaw == FLAW_SOURCE_WRAPS) return &s->source;
    return flaw == FLAW_DESTINATION_PAST || flaw == FLAW_DESTINATION_WRAPS ? &s->destination : NULL;
}

/* How many bytes are moved: few, some hundred, or for a large sweep about all that can be; one byte cannot wrap. */
static uint32_t some_count(struct random *d, enum flaw flaw, bool large)
{
    if (large) return MANY + below(d, 4);
    if (chance(d, 20)) return FEW + 1 + below(d, 300);
    return wraps(flaw) ? 2 + below(d, FEW - 1) : 1 + below(d, FEW);
}

/* The spaces of both sides: any, but one for ranges that share a byte, mostly I/O for one that wraps, since all of system
 * memory is long, and never I/O for two long ranges. */
static void choose_spaces(struct random *d, struct sweep *s, enum flaw flaw)
{
    s->source.in_io = chance(d, 500);
    s->destination.in_io = chance(d, 500);
    if (flaw == FLAW_SHARED) s->destination.in_io = s->source.in_io;
    if (wraps(flaw)) flawed_range(s, flaw)->in_io = chance(d, 900);
    if (s->n < MANY || !s->source.in_io || !s->destination.in_io) return;
    if (chance(d, 500)) s->source.in_io = false;
    else s->destination.in_io = false;
}

/* Where a range alone in its space begins: near 0, and so that all of it fits into I/O space. */
static uint32_t some_start(struct random *d, const struct sweep *s, bool in_io)
{
    return below(d, in_io && s->n >= MANY ? MOST - s->n + 1 : 24);
}

/* How far behind the lower range's start the higher one's is: next to it, behind a gap, or so that they share bytes. */
static uint32_t some_distance(struct random *d, const struct sweep *s, enum flaw flaw)
{
    if (flaw == FLAW_SHARED) return chance(d, 500) ? s->n - 1 : below(d, s->n);
    return chance(d, 400) ? s->n : s->n + below(d, 20);
}

/* Puts both ranges near the start of their spaces; of two in one space the flawed one is the higher. */
static void choose_starts(struct random *d, struct sweep *s, enum flaw flaw)
{
    struct range *higher = flawed_range(s, flaw);
    if (higher == NULL) higher = chance(d, 500) ? &s->source : &s->destination;
    struct range *lower = higher == &s->source ? &s->destination : &s->source;
    lower->at = some_start(d, s, lower->in_io);
    higher->at = some_start(d, s, higher->in_io);
    if (higher->in_io == lower->in_io) higher->at = lower->at + some_distance(d, s, flaw);
    else if (chance(d, 150) && s->n <= FEW) higher->at = lower->at;
}

/* Moves the ranges of a space that is lent whole up, mostly to its top, and one of them across it where one is given. */
static void go_up(struct random *d, struct sweep *s, bool in_io, uint32_t end, struct range *across)
{
    uint32_t up = space_limits[in_io] - end;
    if (across == NULL && chance(d, 300)) up = below(d, up + 1);
    if (s->source.in_io == in_io) s->source.at += up;
    if (s->destination.in_io == in_io) s->destination.at += up;
    if (across != NULL) across->at += chance(d, 500) ? 1 : 1 + below(d, s->n - 1);
}

/* Lends a space: up to the end of its ranges, a few bytes more, one less for a range that ends past it, or whole. */
static void lend_space(struct random *d, struct sweep *s, bool in_io, enum flaw flaw)
{
    uint32_t source_end = s->source.in_io == in_io ? s->source.at + s->n : 0;
    uint32_t destination_end = s->destination.in_io == in_io ? s->destination.at + s->n : 0;
    uint32_t end = source_end > destination_end ? source_end : destination_end;
    struct range *flawed = flawed_range(s, flaw);
    bool here = flawed != NULL && flawed->in_io == in_io, across = here && wraps(flaw), past = here && !wraps(flaw);
    s->length[in_io] = past ? end - 1 : chance(d, 350) ? end : end + below(d, 20);
    if (across || (!past && chance(d, in_io ? 60 : 6))) {
        s->length[in_io] = space_limits[in_io];
        go_up(d, s, in_io, end, across ? flawed : NULL);
    }
    if (s->length[in_io] > space_limits[in_io]) s->length[in_io] = space_limits[in_io];
}

/* The ranges of a transfer, and how much is lent. */
static void choose_ranges(struct random *d, struct sweep *s, enum flaw flaw, bool large)
{
    s->n = some_count(d, flaw, large);
    choose_spaces(d, s, flaw);
    choose_starts(d, s, flaw);
    lend_space(d, s, false, flaw);
    lend_space(d, s, true, flaw);
}

/* ---- States ---- */

/* A channel with anything in it that is sound; it is not running. */
static void any_channel(struct random *d, const struct sweep *s, unsigned channel)
{
    static const enum iop89_register pointers[] = {IOP89_GA, IOP89_GB, IOP89_GC, IOP89_TP, IOP89_PP};
    static const enum iop89_register tags[] = {IOP89_GA_TAG, IOP89_GB_TAG, IOP89_GC_TAG, IOP89_TP_TAG, IOP89_ARMED};
    static const enum iop89_register words[] = {IOP89_BC, IOP89_IX, IOP89_MC};
    for (unsigned i = 0; i < 5; i++) {
        iop89_set(s->given.state, channel, pointers[i], chance(d, 100) ? MASK20 - below(d, 4) : below(d, MASK20 + 1));
        iop89_set(s->given.state, channel, tags[i], below(d, 2));
    }
    for (unsigned i = 0; i < 3; i++) iop89_set(s->given.state, channel, words[i], below(d, 65536));
    iop89_set_cc(s->given.state, channel, below(d, 65536));
    iop89_set(s->given.state, channel, IOP89_PSW, below(d, 256));
    iop89_set(s->given.state, channel, IOP89_MODE, chance(d, 500) ? IOP89_IDLE : IOP89_SUSPENDED);
    iop89_set(s->given.state, channel, IOP89_HELD, chance(d, 500) ? IOP89_HELD_BYTE(below(d, 256)) : 0);
}

/* Points a register of the channel at a range; in I/O space the high bits are free. */
static void point(struct random *d, const struct sweep *s, bool gb, struct range range)
{
    uint32_t high = range.in_io && chance(d, 600) ? below(d, 16) << 16 : 0;
    iop89_set(s->given.state, s->channel, gb ? IOP89_GB : IOP89_GA, range.at | high);
    iop89_set(s->given.state, s->channel, gb ? IOP89_GB_TAG : IOP89_GA_TAG, range.in_io);
}

void make_state(struct random *d, const struct sweep *s)
{
    uint32_t source_is_gb = below(d, 2), free_bits = below(d, 65536) & 0x0304u, tbc = 1 + below(d, 3);
    memset(s->given.state, 0, STATE_ROOM);
    s->given.state[IOP89_AT_VERSION] = IOP89_STATE_VERSION;
    s->given.state[IOP89_AT_POWERED] = 1;
    iop89_set_cp(s->given.state, below(d, MASK20 + 1));
    iop89_set_last(s->given.state, 1 + below(d, 2));
    for (unsigned i = 1; i < 4; i++) s->given.state[IOP89_AT_POWERED + i] = (uint8_t)below(d, 2);
    any_channel(d, s, 1);
    any_channel(d, s, 2);
    point(d, s, source_is_gb != 0, s->source);
    point(d, s, source_is_gb == 0, s->destination);
    iop89_set(s->given.state, s->channel, IOP89_BC, s->n);
    iop89_set_cc(s->given.state, s->channel, 0xC000u | source_is_gb << 10 | free_bits | tbc << 3);
    iop89_set(s->given.state, s->channel, IOP89_PSW, below(d, 256) | EMU_PSW_XF);
    iop89_set(s->given.state, s->channel, IOP89_MODE, IOP89_RUNNING);
}

/* Changes CC of the channel and its fields: takes bits away, then puts others there. */
static void change_cc(const struct sweep *s, uint32_t away, uint32_t there)
{
    iop89_set_cc(s->given.state, s->channel, (iop89_get(s->given.state, s->channel, IOP89_CC) & ~away) | there);
}

/* Makes the channel's transfer fail one of the conditions on lines, channels and fields. */
static void bar(struct random *d, struct sweep *s, enum flaw flaw)
{
    uint32_t psw = iop89_get(s->given.state, s->channel, IOP89_PSW);
    switch (flaw) {
    case FLAW_EXT: s->lines |= (1 + below(d, 3)) << 2; break;
    case FLAW_OTHER_RUNS: iop89_set(s->given.state, 3 - s->channel, IOP89_MODE, IOP89_RUNNING); break;
    case FLAW_STANDS: iop89_set(s->given.state, s->channel, IOP89_MODE, 2 * below(d, 2)); break;
    case FLAW_NO_XF: iop89_set(s->given.state, s->channel, IOP89_PSW, psw & ~(uint32_t)EMU_PSW_XF); break;
    case FLAW_DESTINATION_STAYS: change_cc(s, 0x8000, 0); break;
    case FLAW_SOURCE_STAYS: change_cc(s, 0x4000, 0); break;
    case FLAW_TRANSLATES: change_cc(s, 0, 0x2000); break;
    case FLAW_SYN: change_cc(s, 0, (1 + below(d, 3)) << 11); break;
    case FLAW_TS: change_cc(s, 0, 0x0080); break;
    case FLAW_TX: change_cc(s, 0, (1 + below(d, 3)) << 5); break;
    case FLAW_TBC_OFF: change_cc(s, 0x0018, 0); break;
    case FLAW_TMC: change_cc(s, 0, 1 + below(d, 3)); break;
    case FLAW_COUNT_0: iop89_set(s->given.state, s->channel, IOP89_BC, 0); break;
    default: break;
    }
}

/* Spoils a byte of the state that only some values may have, mostly by as little as can be, or the length. */
static void damage(struct random *d, struct sweep *s)
{
    static const size_t lengths[] = {0, 1, STATE_BYTES - 1, STATE_BYTES + 1, STATE_ROOM};
    enum state_fault fault = (enum state_fault)(FAULT_LENGTH + below(d, STATE_FAULTS - FAULT_LENGTH));
    if (fault == FAULT_LENGTH) {
        s->state_len = ONE_OF(d, lengths);
        return;
    }
    uint32_t from = fault == FAULT_VERSION && chance(d, 300) ? 0 : state_fault_from(fault);
    s->given.state[state_fault_at(fault)] = (uint8_t)(from == 0 || chance(d, 600) ? from : from + below(d, 256 - from));
    if (state_fault_of_byte(fault)) s->given.state[state_fault_at(fault) + 1] = 0;
}

/* Makes a sweep one that is refused before its conditions are looked at. */
static void spoil(struct random *d, struct sweep *s, enum flaw flaw)
{
    static const uint32_t channels[] = {0, 3, 4, 255, 257, 65537, 65538, 0x80000001, 0xFFFFFFFF};
    static const uint32_t lines[] = {16, 17, 20, 31, 255, 256, 65536, 0x80000000, 0xFFFFFFFF};
    unsigned channel = 1 + below(d, 2), bit = below(d, 15);
    uint32_t cc = iop89_get(s->given.state, channel, IOP89_CC);
    switch (flaw) {
    case FLAW_APART: iop89_set(s->given.state, channel, IOP89_CC, cc ^ 1u << (bit < 9 ? bit : bit + 1)); break;
    case FLAW_NOT_POWERED: s->given.state[IOP89_AT_POWERED] = 0; break;
    case FLAW_POINTER: unsound_state(d, s->given.state); break;
    case FLAW_IO_LENGTH: s->length[1] = CASE_IO_ROOM; break;
    case FLAW_SYSTEM_LENGTH: s->length[0] = CASE_SYSTEM_ROOM; break;
    case FLAW_LINES: s->lines = ONE_OF(d, lines); break;
    case FLAW_CHANNEL: s->channel = ONE_OF(d, channels); break;
    case FLAW_NO_STATE: damage(d, s); break;
    default: break;
    }
}

/* ---- Sweeps ---- */

void scatter(struct random *d, uint8_t *bytes, size_t length)
{
    for (size_t i = 0; i < length; i++) bytes[i] = (uint8_t)roll(d);
}

unsigned number_of_flaw(enum flaw flaw)
{
    if (flaw < FLAW_APART) return IOP89_NOT_SWEEPABLE;
    if (flaw == FLAW_APART) return IOP89_FIELDS_DISAGREE;
    if (flaw == FLAW_NOT_POWERED) return IOP89_NOT_POWERED_UP;
    if (flaw == FLAW_POINTER) return IOP89_BAD_POINTER;
    if (flaw == FLAW_NO_STATE) return IOP89_NO_STATE;
    return flaw < FLAW_LINES ? IOP89_BAD_BUFFER : IOP89_BAD_ARGUMENT;
}

/* A flaw from this one on; system memory that is too long, of which much must be copied, is rare. */
static enum flaw some_flaw(struct random *d, enum flaw from)
{
    enum flaw flaw = (enum flaw)(from + below(d, FLAWS - from));
    return flaw == FLAW_SYSTEM_LENGTH && chance(d, 900) ? FLAW_IO_LENGTH : flaw;
}

/* No flaw, one or two; a large sweep mostly has none. */
static void choose_flaws(struct random *d, struct sweep *s, bool large)
{
    unsigned kind = below(d, 1000);
    if (kind < (large ? 700 : 450)) return;
    s->flaw[1] = some_flaw(d, (enum flaw)(NO_FLAW + 1));
    if (kind < 880) return;
    enum flaw a = some_flaw(d, RANGE_FLAWS), b = some_flaw(d, RANGE_FLAWS);
    s->flaw[0] = a < b ? a : b;
    s->flaw[1] = a < b ? b : a;
}

/* Gives a range new bytes, as far as it is lent. */
static void renew(struct random *d, const struct sweep *s, struct range range)
{
    size_t length = s->length[range.in_io], end = range.at + s->n;
    if (range.at < length) scatter(d, s->given.memory[range.in_io] + range.at, (end < length ? end : length) - range.at);
}

struct sweep make_sweep(struct machine given, uint64_t seed, uint64_t number)
{
    struct random d = seeded(seed + 3000017, number);
    struct sweep s = {.given = given, .state_len = STATE_BYTES, .channel = 1 + below(&d, 2), .lines = below(&d, 4)};
    bool large = number % LARGE_EVERY == 0, to_step = large && number / LARGE_EVERY % PLAIN_EVERY == 0;
    s.plain = !large || to_step;
    if (!to_step) choose_flaws(&d, &s, large);
    choose_ranges(&d, &s, s.flaw[1], large);
    renew(&d, &s, s.source);
    renew(&d, &s, s.destination);
    make_state(&d, &s);
    for (unsigned i = 0; i < 2; i++) {
        if (s.flaw[i] < FLAW_APART) bar(&d, &s, s.flaw[i]);
        else spoil(&d, &s, s.flaw[i]);
    }
    return s;
}
