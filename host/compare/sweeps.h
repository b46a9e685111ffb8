/* Random sweeps, each made from a seed and a number alone: block transfers that can be swept, that something bars, or that
 * are refused earlier. */
#ifndef SWEEPS_H
#define SWEEPS_H

#include "lent.h"

/* The counts of which each is met: few, up to this, and many, from one to the other. */
enum { FEW = 40, MANY = 65533, MOST = 65536 };

/* How many addresses system and I/O space have, and how many bytes of them can be lent. */
extern const uint32_t space_limits[2];

/* What is wrong with a sweep: its ranges, its other conditions, then what is refused before them. */
enum flaw {
    NO_FLAW,
    FLAW_SOURCE_PAST, FLAW_DESTINATION_PAST, FLAW_SOURCE_WRAPS, FLAW_DESTINATION_WRAPS, FLAW_SHARED, RANGE_FLAWS,
    FLAW_EXT = RANGE_FLAWS, FLAW_OTHER_RUNS, FLAW_STANDS, FLAW_NO_XF, FLAW_DESTINATION_STAYS, FLAW_SOURCE_STAYS,
    FLAW_TRANSLATES, FLAW_SYN, FLAW_TS, FLAW_TX, FLAW_TBC_OFF, FLAW_TMC, FLAW_COUNT_0,
    FLAW_APART, FLAW_NOT_POWERED, FLAW_POINTER, FLAW_IO_LENGTH, FLAW_SYSTEM_LENGTH, FLAW_LINES, FLAW_CHANNEL,
    FLAW_NO_STATE, FLAWS
};

/* The number that answers a flaw. */
unsigned number_of_flaw(enum flaw flaw);

/* A side of a transfer: its space, and where its range begins there. */
struct range {
    bool in_io;
    uint32_t at;
};

/* What one sweep is given, how many bytes it is to move from where to where, what is wrong with it (the second flaw is the
 * one to be answered), and whether it is made in plain steps too, of which a large one has many. */
struct sweep {
    struct machine given;
    size_t state_len, length[2]; /* of the state, of system and I/O memory */
    uint32_t channel, lines, n;
    struct range source, destination;
    enum flaw flaw[2];
    bool plain;
};

/* Fills bytes with random ones. */
void scatter(struct random *d, uint8_t *bytes, size_t length);

/* Makes the sweep of this seed and number on a machine whose memories hold random bytes: its state, and new bytes in both
 * ranges. */
struct sweep make_sweep(struct machine given, uint64_t seed, uint64_t number);

/* Makes the state of a sweep in which its channel has a transfer of its ranges that can be swept. */
void make_state(struct random *d, const struct sweep *s);

#endif
