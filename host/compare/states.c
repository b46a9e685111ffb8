/* Makes random states in bytes: registers with any value or one that fits a case, transfers of pairs and of blocks, bytes
 * and addresses out of range, and fields that disagree with CC. */
#include "states.h"

#include "iop89_service.h"
#include "emulator/state_bytes.h"

/* A register's value: any, or one that fits a program. */
static uint32_t some_value(struct random *d, const struct run_case *c, enum iop89_register which)
{
    switch (which) {
    case IOP89_GA: case IOP89_GB: case IOP89_GC: case IOP89_TP: case IOP89_PP:
        if (chance(d, 10)) return chance(d, 500) ? 1048576 + below(d, 4) : (uint32_t)roll(d);
        return chance(d, 800) ? below(d, c->sys_len + 4) & MASK20 : below(d, 1048576);
    case IOP89_CC: return transfer_cc(d);
    case IOP89_BC: return transfer_count(d);
    case IOP89_MC: return transfer_mc(d);
    case IOP89_MODE: return chance(d, 700) ? 1 : below(d, 3);
    case IOP89_HELD: return chance(d, 700) ? IOP89_HELD_BYTE(below(d, 256)) : 0;
    case IOP89_PSW: return below(d, 256);
    case IOP89_IX: return below(d, 65536);
    default: return below(d, 2);
    }
}

/* Sets a register of a channel; CC mostly with its fields. */
static void set_register(struct random *d, uint8_t *state, unsigned channel, enum iop89_register which, uint32_t value)
{
    if (which == IOP89_CC && chance(d, 970)) iop89_set_cc(state, channel, value);
    else iop89_set(state, channel, which, value);
}

void poke_state(struct random *d, const struct run_case *c, uint8_t *state)
{
    static const enum iop89_register all[] = {IOP89_GA, IOP89_GA_TAG, IOP89_GB, IOP89_GB_TAG, IOP89_GC,  IOP89_GC_TAG,
                                              IOP89_TP, IOP89_TP_TAG, IOP89_PP, IOP89_BC,     IOP89_IX,  IOP89_CC,
                                              IOP89_MC, IOP89_PSW,    IOP89_MODE, IOP89_ARMED, IOP89_HELD};
    for (unsigned i = 1 + below(d, 4); i > 0; i--) {
        enum iop89_register which = ONE_OF(d, all);
        set_register(d, state, 1 + below(d, 2), which, some_value(d, c, which));
    }
    if (chance(d, 60)) iop89_set_cp(state, choose_cp(d, c->sys_len));
    if (chance(d, 60)) iop89_set_last(state, 1 + below(d, 2));
    if (chance(d, 60)) state[IOP89_AT_POWERED + below(d, 4)] = (uint8_t)below(d, 2);
}

void pair_up(struct random *d, const struct run_case *c, uint8_t *state)
{
    static struct program p;
    unsigned channel = 1 + below(d, 2);
    new_program(&p, d, c->sys_len, c->io_len);
    struct pairs s = some_pairs(&p);
    for (unsigned i = 0; i < 2; i++) {
        iop89_set(state, channel, i == 0 ? IOP89_GA : IOP89_GB, s.address[i]);
        iop89_set(state, channel, i == 0 ? IOP89_GA_TAG : IOP89_GB_TAG, s.in_io[i]);
    }
    iop89_set_cc(state, channel, s.cc);
    iop89_set(state, channel, IOP89_BC, s.bc);
    iop89_set(state, channel, IOP89_MC, s.mc);
    iop89_set(state, channel, IOP89_PSW, (below(d, 256) & ~3u) | EMU_PSW_XF | EMU_PSW_TB | s.widths);
    iop89_set(state, channel, IOP89_MODE, IOP89_RUNNING);
    if (chance(d, 500)) iop89_set(state, channel, IOP89_HELD, some_value(d, c, IOP89_HELD));
}

void block_up(struct random *d, const struct run_case *c, uint8_t *state)
{
    unsigned channel = 1 + below(d, 2);
    uint32_t n = 1 + below(d, 40), source_is_gb = below(d, 2), free_bits = below(d, 65536) & 0x0304u;
    for (unsigned i = 0; i < 2; i++) {
        bool in_io = chance(d, 500);
        size_t length = in_io ? c->io_len : c->sys_len;
        iop89_set(state, channel, i == 0 ? IOP89_GA : IOP89_GB, length > n ? below(d, length - n + 1) & MASK20 : 0);
        iop89_set(state, channel, i == 0 ? IOP89_GA_TAG : IOP89_GB_TAG, in_io);
    }
    iop89_set(state, channel, IOP89_BC, n);
    iop89_set_cc(state, channel, 0xC000u | source_is_gb << 10 | free_bits | (1 + below(d, 3)) << 3);
    iop89_set(state, channel, IOP89_PSW, below(d, 256) | EMU_PSW_XF);
    iop89_set(state, channel, IOP89_MODE, IOP89_RUNNING);
    if (chance(d, 900)) iop89_set(state, 3 - channel, IOP89_MODE, chance(d, 500) ? IOP89_IDLE : IOP89_SUSPENDED);
}

void any_state(struct random *d, const struct run_case *c, uint8_t *state)
{
    static const enum iop89_register pointers[] = {IOP89_GA, IOP89_GB, IOP89_GC, IOP89_TP, IOP89_PP};
    fill(d, state, STATE_BYTES);
    for (unsigned i = 0; i < 10; i++)
        if (chance(d, 990)) iop89_set(state, 1 + i / 5, pointers[i % 5], some_value(d, c, pointers[i % 5]));
    if (chance(d, 950)) iop89_set_cp(state, choose_cp(d, c->sys_len));
    state[0] = IOP89_STATE_VERSION;
    for (enum state_fault fault = FAULT_LAST; fault < STATE_FAULTS; fault++)
        state[state_fault_at(fault)] = (uint8_t)below(d, state_fault_from(fault));
    for (unsigned channel = 1; channel <= 2; channel++)
        set_register(d, state, channel, IOP89_CC, iop89_get(state, channel, IOP89_CC));
    for (unsigned channel = 1; channel <= 2; channel++)
        iop89_set(state, channel, IOP89_HELD, some_value(d, c, IOP89_HELD));
    if (chance(d, 900)) state[IOP89_AT_POWERED] = 1;
}

void unsound_state(struct random *d, uint8_t *state)
{
    static const enum iop89_register pointers[] = {IOP89_GA, IOP89_GB, IOP89_GC, IOP89_TP, IOP89_PP};
    uint32_t value = chance(d, 800) ? 1048576 + below(d, 4) : (uint32_t)roll(d) | 1048576u;
    if (chance(d, 90)) iop89_set_cp(state, value);
    else iop89_set(state, 1 + below(d, 2), ONE_OF(d, pointers), value);
}

void damage_state(struct random *d, uint8_t *state)
{
    if (chance(d, 100)) {
        fill(d, state, STATE_BYTES);
        if (chance(d, 800)) state[0] = IOP89_STATE_VERSION;
        return;
    }
    enum state_fault fault = (enum state_fault)(FAULT_VERSION + below(d, STATE_FAULTS - FAULT_VERSION));
    size_t at = state_fault_at(fault);
    uint32_t from = fault == FAULT_VERSION && chance(d, 300) ? 0 : state_fault_from(fault);
    uint32_t value = from == 0 || chance(d, 600) ? from : from + below(d, 256 - from);
    state[at] = (uint8_t)value;
    if (state_fault_of_byte(fault)) state[at + 1] = 0;
}

/* Changes a field of CC to another value that it can have, or a bit of CC, in a channel. */
static void part_once(struct random *d, uint8_t *state)
{
    unsigned channel = 1 + below(d, 2), field = below(d, EMU_FIELDS);
    enum state_fault fault = (enum state_fault)((channel == 1 ? FAULT_FIELDS_1 : FAULT_FIELDS_2) + field);
    size_t at = state_fault_at(fault);
    uint32_t cc = iop89_get(state, channel, IOP89_CC), values = state_fault_from(fault);
    if (chance(d, 400)) iop89_set(state, channel, IOP89_CC, cc ^ 1u << below(d, 16));
    else state[at] = (uint8_t)((state[at] + 1 + below(d, values - 1)) % values);
}

void part_fields(struct random *d, uint8_t *state)
{
    static const enum iop89_register pointers[] = {IOP89_GA, IOP89_GB, IOP89_GC, IOP89_TP, IOP89_PP};
    for (unsigned i = chance(d, 800) ? 1 : 2; i > 0; i--) part_once(d, state);
    for (unsigned channel = 1; channel <= 2; channel++)
        if (chance(d, 300)) iop89_set(state, channel, IOP89_MODE, below(d, 3));
    if (chance(d, 100)) state[IOP89_AT_POWERED] = 0;
    if (chance(d, 100)) iop89_set(state, 1 + below(d, 2), ONE_OF(d, pointers), 1048576 + below(d, 4));
}

uint8_t some_ccw(struct random *d)
{
    static const uint8_t likely[] = {0, 3, 5, 6, 6, 7};
    uint8_t command = chance(d, 700) ? ONE_OF(d, likely) : (uint8_t)below(d, 8);
    return (uint8_t)(command | below(d, 32) << 3);
}
