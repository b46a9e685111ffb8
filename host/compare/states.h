/* Random states in bytes for the cases that single calls and schedules are compared on. */
#ifndef STATES_H
#define STATES_H

#include "cases.h"

/* Fills the bytes of a state with anything, then makes them one, mostly with pointers of 20 bits and CC's own fields. */
void any_state(struct random *d, const struct run_case *c, uint8_t *state);

/* Sets some registers. */
void poke_state(struct random *d, const struct run_case *c, uint8_t *state);

/* Puts a channel into a transfer of pairs by its registers, mostly with nothing held yet. */
void pair_up(struct random *d, const struct run_case *c, uint8_t *state);

/* Puts a channel into a block transfer of few bytes, mostly one that can be swept: both ranges lent where there is room,
 * and the other channel mostly not running. */
void block_up(struct random *d, const struct run_case *c, uint8_t *state);

/* Gives a register, or CP, more than 20 bits. */
void unsound_state(struct random *d, uint8_t *state);

/* Spoils a byte that only some values may have, mostly by as little as can be. At times all the bytes become anything. */
void damage_state(struct random *d, uint8_t *state);

/* Makes CC and its fields disagree, mostly in one channel and one field; at times with channels in other modes, or with
 * what is refused before it. */
void part_fields(struct random *d, uint8_t *state);

/* A CCW with any upper bits and a command that is mostly none of the two that are refused. */
uint8_t some_ccw(struct random *d);

#endif
