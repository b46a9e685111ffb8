/* What is lent to a call: buffers between fences, bytes that nobody may touch, and machines that are made of them. */
#ifndef LENT_H
#define LENT_H

#include "cases.h"
#include "emulator/state_bytes.h"

/* Room for so many bytes between two fences; ends the program where there is none. */
uint8_t *fenced(size_t length);

/* Puts the fence right behind so many bytes of a buffer, of which less is lent than it has room for. */
void fence_behind(uint8_t *bytes, size_t length);

/* Whether the fences before a buffer and right behind so many of its bytes are whole. */
bool fences_stand(const uint8_t *bytes, size_t length);

/* Copies so many bytes into a buffer, or leaves its own, with the fence right behind them. */
void lend(uint8_t *to, const uint8_t *from, size_t length);

/* Whether a buffer holds so many bytes of another one, and has its fences. */
bool lent_same(const uint8_t *bytes, const uint8_t *other, size_t length);

/* Room for a state's bytes, also of a wrong length. */
enum { STATE_ROOM = 2 * STATE_BYTES };

/* The memories of a machine. */
enum { SYS, IO };

/* One side of a comparison: the bytes of its state, and its system and I/O memory. */
struct machine {
    uint8_t *state, *memory[2];
};

/* How much a case lends of both memories. */
#define LENT_BY(c) ((const size_t[2]){(c)->sys_len, (c)->io_len})

/* Room for a machine. */
struct machine new_machine(void);

/* Gives a machine the memories of another, or leaves its own, with the fences right behind what is lent. */
void lend_memories(const struct machine *to, const struct machine *from, const size_t length[2]);

/* Gives a machine the state of another too, with what stands behind it. */
void lend_machine(const struct machine *to, const struct machine *from, const size_t length[2]);

/* Whether a machine's state is that of another, also behind its end, and has its fences. */
bool same_state(const struct machine *m, const struct machine *other);

/* Whether a machine's memories are those of another, and have their fences. */
bool same_memories(const struct machine *m, const struct machine *other, const size_t length[2]);

#endif
