/* Makes and looks at lent bytes, the fences around them, and machines of them. */
#include "lent.h"

#include <stdio.h>
#include <stdlib.h>
#include <string.h>

enum { FENCE = 64, FENCE_BYTE = 0xA5 };

uint8_t *fenced(size_t length)
{
    uint8_t *bytes = malloc(length + 2 * FENCE);
    if (bytes == NULL) {
        fputs("out of memory\n", stderr);
        exit(2);
    }
    memset(bytes, FENCE_BYTE, length + 2 * FENCE);
    return bytes + FENCE;
}

void fence_behind(uint8_t *bytes, size_t length)
{
    memset(bytes + length, FENCE_BYTE, FENCE);
}

bool fences_stand(const uint8_t *bytes, size_t length)
{
    for (size_t i = 0; i < FENCE; i++)
        if ((bytes - FENCE)[i] != FENCE_BYTE || bytes[length + i] != FENCE_BYTE) return false;
    return true;
}

void lend(uint8_t *to, const uint8_t *from, size_t length)
{
    if (to != from) memcpy(to, from, length);
    fence_behind(to, length);
}

bool lent_same(const uint8_t *bytes, const uint8_t *other, size_t length)
{
    return memcmp(bytes, other, length) == 0 && fences_stand(bytes, length);
}

struct machine new_machine(void)
{
    struct machine m = {fenced(STATE_ROOM), {fenced(CASE_SYSTEM_ROOM), fenced(CASE_IO_ROOM)}};
    return m;
}

void lend_memories(const struct machine *to, const struct machine *from, const size_t length[2])
{
    for (unsigned i = 0; i < 2; i++) lend(to->memory[i], from->memory[i], length[i]);
}

void lend_machine(const struct machine *to, const struct machine *from, const size_t length[2])
{
    memcpy(to->state, from->state, STATE_ROOM);
    lend_memories(to, from, length);
}

bool same_state(const struct machine *m, const struct machine *other)
{
    return lent_same(m->state, other->state, STATE_ROOM);
}

bool same_memories(const struct machine *m, const struct machine *other, const size_t length[2])
{
    return lent_same(m->memory[SYS], other->memory[SYS], length[SYS]) &&
           lent_same(m->memory[IO], other->memory[IO], length[IO]);
}
