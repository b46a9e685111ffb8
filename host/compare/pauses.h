/* Random block transfers that are to be paused, each made from a seed and a number alone: where everything lies, both
 * channels' programs or a state, and between which transfer steps the pauses come. */
#ifndef PAUSES_H
#define PAUSES_H

#include "sweeps.h"

/* The most pauses of a transfer, the bytes of PB that a suspend stores, and the commands. */
enum { MOST_PAUSES = 5, SAVED_BYTES = 4, START_IO = 1, START_SYSTEM = 3, RESUME = 5, SUSPEND = 6, HALT = 7 };

/* What lies in memory: both channels' control blocks, PB's first four bytes, programs, the ranges, and rooms in which
 * programs may store. OWN is the channel's that is paused, OTHER the other one's. */
enum item { CONTROL, OWN_PB, OTHER_PB, OWN_PROGRAM, OTHER_PROGRAM, SOURCE, DESTINATION, ROOM, IO_ROOM, ITEMS };

/* Where something lies; past the top of its space it goes on at 0. */
struct place {
    bool in_io;
    uint32_t at, length;
};

/* The premise that a row breaks, if one: TB 0 at the start; ICF 10, or another priority, at the last resume; PB's third
 * byte overwritten while suspended; BUSY the first of PB's four bytes; these in the destination. */
enum breach { NO_BREACH, BREACH_TB, BREACH_ICF, BREACH_PRIORITY, BREACH_PB_BYTE, BREACH_BUSY, BREACH_PB_INSIDE, BREACHES };

/* One row: what is lent, the channel and how many bytes it moves from where to where with which widths (PSW bits 1 and 0),
 * whether a program sets that up and the TP at which it is, after how many transfer steps each pause comes, and whether
 * the last of them is followed by a sweep. */
struct row {
    struct machine given;
    size_t length[2]; /* of system and I/O memory */
    struct place place[ITEMS];
    uint32_t channel, n, widths;
    bool by_program, sweeps;
    uint32_t begins;
    unsigned pauses;
    uint32_t pause[MOST_PAUSES];
    enum breach breach;
};

/* Makes the row of this seed and number on a machine whose memories hold random bytes: its state, if no program makes it,
 * and new bytes wherever something lies. */
struct row make_row(struct machine given, uint64_t seed, uint64_t number);

/* Where a byte of a place is, and whether one of its space lies there. */
uint32_t address_in(const struct place *p, uint32_t index);
bool lies_in(const struct place *p, bool in_io, uint32_t at);

/* Whether a place goes past the top of its space. */
bool goes_over(const struct place *p);

/* Where a channel's CCW and BUSY are. */
uint32_t ccw_of(const struct row *r, uint32_t channel);
uint32_t busy_of(const struct row *r, uint32_t channel);

/* PB's words by which a start finds a program; in I/O space the second counts for nothing. */
void as_start(struct random *d, const struct place *program, uint8_t words[SAVED_BYTES]);

/* By the documents: how many transfer steps a row's channel needs, and how many bytes have moved after so many. */
uint32_t steps_needed(const struct row *r);
uint32_t moved_after(const struct row *r, uint32_t steps);

#endif
