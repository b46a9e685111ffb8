/* Makes random calls on two processors: their memories and blocks, which of them is called and how, and states that are
 * broken in every way that a call knows. */
#include "processors.h"

#include "iop89_service.h"
#include "states.h"

bool is_processor(uint32_t processor)
{
    return processor == 1 || processor == 2;
}

/* ---- What both are given ---- */

/* How long an I/O memory is beside another: as long, any small length, none, all, or one byte over the limit. */
static size_t some_io_length(struct random *d, size_t beside)
{
    unsigned kind = below(d, 1000);
    if (kind < 150) return beside;
    if (kind < 900) return below(d, 2048);
    if (kind < 940) return 0;
    return kind < 970 ? CASE_IO_ROOM - 1 : CASE_IO_ROOM;
}

/* Where the second control block is: the first one, over it, behind it, or anywhere. */
static uint32_t some_cp(struct random *d, const struct run_case *first)
{
    unsigned kind = below(d, 1000);
    if (kind < 200) return first->cp;
    if (kind < 400) return (first->cp + below(d, 31) - 15) & MASK20;
    return kind < 700 ? (first->cp + 16 + below(d, 64)) & MASK20 : choose_cp(d, first->sys_len);
}

void make_processors(struct processors *p, uint64_t seed, uint64_t number)
{
    struct random d = seeded(seed + 7000003, number);
    struct run_case *first = &p->of[0], *second = &p->of[1];
    uint8_t *io = second->io;
    make_case(first, seed, number);
    if (chance(&d, 30)) first->io_len = CASE_IO_ROOM;
    *second = *first;
    second->io = io;
    second->io_len = some_io_length(&d, first->io_len);
    fill(&d, second->io, second->io_len);
    second->cp = some_cp(&d, first);
    second->channel = 1 + below(&d, 2);
    second->lines = below(&d, 16);
    if (chance(&d, 850)) put_program(&d, second);
}

/* ---- Calls ---- */

/* What kind of call comes: mostly a step; a power-up more often where there can be a board. */
static enum named_kind some_kind(struct random *d, const struct processors *p, unsigned index)
{
    unsigned kind = below(d, 1000);
    if (index < 2 && chance(d, 800)) return NAMED_ATTENTION;
    if (chance(d, p->of[0].sys_len >= BOARD_LENGTH ? 250 : 15)) return NAMED_POWER_UP;
    if (kind < 20) return NAMED_RESET;
    if (kind < 170) return NAMED_ATTENTION;
    if (kind < 270) return NAMED_SWEEP;
    return kind < 330 ? NAMED_SCHEDULE : NAMED_STEP;
}

struct named_call next_call(struct random *d, const struct processors *p, unsigned index)
{
    static const uint32_t none[] = {0, 3, 4, 255, 256, 257, 258, 65537, 65538, 0x80000001, 0xFFFFFFFF};
    static const uint32_t odd[] = {0, 3, 4, 16, 17, 255, 257, 65537, 0x80000001, 0xFFFFFFFF};
    static const size_t lengths[] = {0, 1, STATE_BYTES - 1, STATE_BYTES + 1, STATE_ROOM};
    unsigned named = index < 2 ? index : below(d, 2);
    const struct run_case *c = &p->of[named];
    struct named_call call = {some_kind(d, p, index), 1 + named, 1 + below(d, 2), below(d, 16), {STATE_BYTES, STATE_BYTES}};
    if (index < 2) call.channel = c->channel;
    if (call.kind == NAMED_SWEEP && chance(d, 850)) call.lines &= 3u;
    else if (chance(d, 500)) call.lines = c->lines & 15u;
    if (chance(d, 15)) call.channel = ONE_OF(d, odd);
    if (chance(d, 15)) call.lines = ONE_OF(d, odd);
    if (chance(d, 30)) call.processor = chance(d, 400) ? 3 * below(d, 2) : ONE_OF(d, none);
    for (unsigned i = 0; i < 2; i++)
        if (chance(d, 10)) call.state_len[i] = ONE_OF(d, lengths);
    return call;
}

/* ---- States ---- */

void change_state(struct random *d, const struct run_case *c, uint8_t *state)
{
    if (chance(d, 8)) any_state(d, c, state);
    if (chance(d, 60)) poke_state(d, c, state);
    if (chance(d, 40)) pair_up(d, c, state);
    if (chance(d, 60)) block_up(d, c, state);
}

void break_state(struct random *d, uint8_t *state)
{
    for (unsigned i = chance(d, 800) ? 1 : 2; i > 0; i--) {
        unsigned way = below(d, 4);
        if (way == 0) damage_state(d, state);
        if (way == 1) unsound_state(d, state);
        if (way == 2) state[IOP89_AT_POWERED] = 0;
        if (way == 3) part_fields(d, state);
    }
}
