/* Makes every call on the archive's machine and on the emulator's, and compares what both answer and leave. */
#include "twin.h"

#include "iop89_service.h"

#include <string.h>

struct twin new_twin(void)
{
    struct twin t = {.archive = new_machine(), .emulator = new_machine()};
    return t;
}

void twin_begin(struct twin *t, const struct machine *from, const size_t length[2])
{
    lend_machine(&t->archive, from, length);
    lend_machine(&t->emulator, from, length);
    memset(&t->state, 0, sizeof t->state);
    state_from_bytes(t->emulator.state, STATE_BYTES, &t->state);
    t->length[0] = length[0];
    t->length[1] = length[1];
    t->calls = 0;
    t->amiss = NULL;
}

void twin_amiss(struct twin *t, const char *what)
{
    if (t->amiss == NULL) t->amiss = what;
}

void twin_compare(struct twin *t)
{
    bool stand = fences_stand(t->archive.state, STATE_ROOM);
    for (unsigned i = 0; i < 2; i++) {
        if (memcmp(t->archive.memory[i], t->emulator.memory[i], t->length[i]) != 0)
            twin_amiss(t, "the memories are not the emulator's");
        stand = stand && fences_stand(t->archive.memory[i], t->length[i]);
    }
    if (!stand) twin_amiss(t, "the archive stored beside a buffer");
}

void twin_put(struct twin *t, bool in_io, uint32_t at, uint32_t byte)
{
    t->archive.memory[in_io][at] = t->emulator.memory[in_io][at] = (uint8_t)byte;
}

/* The memories as the emulator takes them. */
static struct emu_memory lent(const struct twin *t)
{
    struct emu_memory memory = {t->emulator.memory[0], t->length[0], t->emulator.memory[1], t->length[1]};
    return memory;
}

/* Compares what a call answered and left. */
static void compare_call(struct twin *t, uint64_t archive, uint64_t emulator)
{
    t->calls++;
    state_to_bytes(&t->state, t->emulator.state);
    if (archive != emulator) twin_amiss(t, "the answer is not the emulator's");
    if (!same_state(&t->archive, &t->emulator)) twin_amiss(t, "the state is not the emulator's");
    if (t->at_every_call) twin_compare(t);
}

uint32_t twin_fresh(struct twin *t, uint32_t cp)
{
    uint32_t archive = iop89_fresh(t->archive.state, STATE_BYTES, cp);
    compare_call(t, archive, emu_fresh(cp, &t->state));
    return archive;
}

uint32_t twin_attend(struct twin *t, uint32_t channel)
{
    struct emu_memory memory = lent(t);
    struct emu_answer emulator = emu_attention(&t->state, &memory, channel);
    uint32_t archive = iop89_attention(t->archive.state, STATE_BYTES, t->archive.memory[0], t->length[0],
                                       t->archive.memory[1], t->length[1], channel);
    compare_call(t, archive, emulator.number | emulator.count << 12);
    return archive;
}

uint32_t twin_step(struct twin *t, uint32_t lines)
{
    struct emu_memory memory = lent(t);
    struct emu_stepped emulator = emu_step(&t->state, &memory, lines);
    uint32_t kind = emulator.kind == 'I' ? 1 : emulator.kind == 'T' ? 2 : emulator.kind == 'X' ? 3 : 0;
    uint32_t archive = iop89_step(t->archive.state, STATE_BYTES, t->archive.memory[0], t->length[0],
                                  t->archive.memory[1], t->length[1], lines);
    compare_call(t, archive, emulator.number | emulator.channel << 8 | kind << 10 | emulator.count << 12);
    return archive;
}

uint64_t twin_sweep(struct twin *t, uint32_t channel, uint32_t lines)
{
    struct emu_memory memory = lent(t);
    struct emu_swept emulator = emu_sweep(&t->state, &memory, channel, lines);
    uint64_t archive = iop89_sweep(t->archive.state, STATE_BYTES, t->archive.memory[0], t->length[0],
                                   t->archive.memory[1], t->length[1], channel, lines);
    compare_call(t, archive, (uint64_t)emulator.count << 32 | (uint64_t)emulator.steps << 8 | emulator.number);
    return archive;
}
