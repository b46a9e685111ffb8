/* One machine twice, by the service archive and by the emulator: every call is made on both, and both must answer and
 * leave the same. */
#ifndef TWIN_H
#define TWIN_H

#include "sweeps.h"

/* Both machines, how much is lent, whether memories are compared after every call or only when that is asked for, how many
 * calls were made, and what was first not as it should be, or NULL. The emulator's state is kept beside its bytes. */
struct twin {
    struct machine archive, emulator;
    struct emu_state state;
    size_t length[2]; /* of system and I/O memory */
    bool at_every_call;
    unsigned calls;
    const char *amiss;
};

/* Room for both machines. */
struct twin new_twin(void);

/* Begins with what another machine has, so much of its memories being lent. */
void twin_begin(struct twin *t, const struct machine *from, const size_t length[2]);

/* Notes what is not as it should be, where nothing was before. */
void twin_amiss(struct twin *t, const char *what);

/* Compares both memories, and what lies around the archive's buffers. */
void twin_compare(struct twin *t);

/* Writes a byte as the host does. */
void twin_put(struct twin *t, bool in_io, uint32_t at, uint32_t byte);

/* The calls; each answers as the archive does. */
uint32_t twin_fresh(struct twin *t, uint32_t cp);
uint32_t twin_attend(struct twin *t, uint32_t channel);
uint32_t twin_step(struct twin *t, uint32_t lines);
uint64_t twin_sweep(struct twin *t, uint32_t channel, uint32_t lines);

#endif
