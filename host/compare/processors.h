/* Random calls on two processors of one board, each row of them made from a seed and a number alone. */
#ifndef PROCESSORS_H
#define PROCESSORS_H

#include "lent.h"

/* What both processors are given: a case each, with one system memory. */
struct processors {
    struct run_case of[2];
};

/* The calls that name a processor. */
enum named_kind { NAMED_ATTENTION, NAMED_STEP, NAMED_POWER_UP, NAMED_RESET, NAMED_SWEEP, NAMED_SCHEDULE, NAMED_KINDS };

/* One call: its kind, the processor that it names, what the single call takes, and how long both states' bytes are. */
struct named_call {
    enum named_kind kind;
    uint32_t processor, channel, lines;
    size_t state_len[2];
};

/* Whether a number is that of a processor. */
bool is_processor(uint32_t processor);

/* Fills in both cases of this seed and number: a program and a control block for each, at times one block for both or
 * blocks that overlap, and I/O memories of any two lengths. */
void make_processors(struct processors *p, uint64_t seed, uint64_t number);

/* The next call of a row; the first two mostly start a channel of each processor. */
struct named_call next_call(struct random *d, const struct processors *p, unsigned index);

/* Changes a processor's state between calls: some registers, a transfer of pairs or of a block, at times anything. */
void change_state(struct random *d, const struct run_case *c, uint8_t *state);

/* Makes a state one that 17, 10, 13 or 14 refuses, at times two of them. */
void break_state(struct random *d, uint8_t *state);

#endif
