/* Block transfers that can be swept, for the benchmarks of a sweep. */
#ifndef SWEEP_CASE_H
#define SWEEP_CASE_H

#include "iop89_service.h"

#include <stdbool.h>

/* A transfer by its name: from an address of system space to one of the same space, or across to one of I/O space. */
struct sweep_case {
    const char *name;
    uint32_t source, target, bytes;
    bool across;
};

/* Channel 1's PSW with TB, XF and both sides 16 bits wide, and its CC: both sides move on, the count alone ends. */
enum { SWEEP_CASE_PSW = 0x47, SWEEP_CASE_CC = 0xC008 };

/* Makes the state in which channel 1 has the whole transfer before it. */
static inline void sweep_case_state(const struct sweep_case *c, uint8_t *state)
{
    iop89_fresh(state, IOP89_STATE_LENGTH, 0);
    iop89_set(state, 1, IOP89_MODE, IOP89_RUNNING);
    iop89_set(state, 1, IOP89_PSW, SWEEP_CASE_PSW);
    iop89_set_cc(state, 1, SWEEP_CASE_CC);
    iop89_set(state, 1, IOP89_GA, c->source);
    iop89_set(state, 1, IOP89_GB, c->target);
    iop89_set(state, 1, IOP89_GB_TAG, c->across);
    iop89_set(state, 1, IOP89_BC, c->bytes);
}

#endif
