/* Makes random block transfers that are to be paused: places, bytes, programs, states and pauses. */
#include "pauses.h"

#include "iop89_service.h"

#include <string.h>

/* Of so many rows one moves 65,536 bytes, one has all of system memory lent, and one breaks a premise. */
enum { LARGE_EVERY = 2500, WHOLE_EVERY = 100, BREACH_EVERY = 10 };

/* Room for a program, and the bytes of both control blocks. */
enum { PROGRAM_BYTES = 192, CONTROL_BYTES = 16 };

/* ---- Places ---- */

uint32_t address_in(const struct place *p, uint32_t index)
{
    return (p->at + index) % space_limits[p->in_io];
}

bool lies_in(const struct place *p, bool in_io, uint32_t at)
{
    return in_io == p->in_io && (at + space_limits[in_io] - p->at) % space_limits[in_io] < p->length;
}

bool goes_over(const struct place *p)
{
    return p->at + p->length > space_limits[p->in_io];
}

uint32_t ccw_of(const struct row *r, uint32_t channel)
{
    return address_in(&r->place[CONTROL], 8 * (channel - 1));
}

uint32_t busy_of(const struct row *r, uint32_t channel)
{
    return address_in(&r->place[CONTROL], 8 * (channel - 1) + 1);
}

/* How many bytes are moved: few, some hundred, or all that can be; room for PB where it is to lie among them. */
static uint32_t some_count(struct random *d, enum breach breach, bool large)
{
    if (large) return MOST;
    if (chance(d, 20)) return FEW + 1 + below(d, 300);
    return breach == BREACH_PB_INSIDE ? SAVED_BYTES + 2 + below(d, FEW) : 1 + below(d, FEW);
}

/* The space and length of everything; a range of all of I/O space leaves no room there. */
static void choose_spaces(struct random *d, struct row *r)
{
    static const enum item either[] = {OWN_PROGRAM, OTHER_PROGRAM, SOURCE, DESTINATION};
    const uint32_t lengths[ITEMS] = {CONTROL_BYTES, SAVED_BYTES, SAVED_BYTES, PROGRAM_BYTES, PROGRAM_BYTES,
                                     r->n,          r->n,        ROOM_BYTES,  ROOM_BYTES};
    for (unsigned i = 0; i < ITEMS; i++) r->place[i] = (struct place){i == IO_ROOM, 0, lengths[i]};
    for (unsigned i = 0; i < 4; i++) r->place[either[i]].in_io = chance(d, 500);
    if (r->breach == BREACH_PB_INSIDE) r->place[DESTINATION].in_io = false;
    if (r->n < MOST || (!r->place[SOURCE].in_io && !r->place[DESTINATION].in_io)) return;
    for (unsigned i = 0; i < ITEMS; i++) r->place[i].in_io = false;
    r->place[chance(d, 500) ? SOURCE : DESTINATION].in_io = true;
}

/* Puts everything behind each other in its space, in any order and often without a gap; lends a few bytes more or none. */
static void pack(struct random *d, struct row *r)
{
    unsigned order[ITEMS];
    uint32_t end[2] = {below(d, 24), below(d, 24)};
    for (unsigned i = 0; i < ITEMS; i++) {
        unsigned j = below(d, i + 1);
        order[i] = order[j];
        order[j] = i;
    }
    for (unsigned i = 0; i < ITEMS; i++) {
        struct place *p = &r->place[order[i]];
        p->at = end[p->in_io] + (chance(d, 500) ? 0 : below(d, 6));
        end[p->in_io] = p->at + p->length;
    }
    for (unsigned i = 0; i < 2; i++) {
        r->length[i] = end[i] + (chance(d, 350) ? 0 : below(d, 20));
        if (r->length[i] > space_limits[i]) r->length[i] = space_limits[i];
    }
}

/* Lends all of a space, and moves everything up so that the first byte past the top is this one of an item's. */
static void go_up(struct row *r, const struct place *over, uint32_t index)
{
    bool in_io = over->in_io;
    uint32_t up = space_limits[in_io] - address_in(over, index);
    r->length[in_io] = space_limits[in_io];
    for (unsigned i = 0; i < ITEMS; i++)
        if (r->place[i].in_io == in_io) r->place[i].at = address_in(&r->place[i], up);
}

/* Goes up in system space, mostly so that PB is over the top, or now and then in I/O space. */
static void choose_tops(struct random *d, struct row *r, bool whole)
{
    const struct place *p = &r->place[below(d, ITEMS)];
    if (whole && chance(d, 700)) go_up(r, &r->place[OWN_PB], 1 + below(d, SAVED_BYTES - 1));
    else if (p->in_io ? chance(d, 100) : whole) go_up(r, p, below(d, p->length));
}

/* Where everything lies, and how much is lent; where a premise is broken PB is on BUSY or in the destination. */
static void choose_places(struct random *d, struct row *r, bool large, bool whole)
{
    r->n = some_count(d, r->breach, large);
    choose_spaces(d, r);
    pack(d, r);
    choose_tops(d, r, whole);
    if (r->breach == BREACH_BUSY) r->place[OWN_PB].at = busy_of(r, r->channel);
    if (r->breach == BREACH_PB_INSIDE)
        r->place[OWN_PB].at = address_in(&r->place[DESTINATION], below(d, r->n - SAVED_BYTES - 1));
}

/* ---- Steps by the documents ---- */

/* How many of the first transfer steps move a byte alone, where some side is 16 bits wide: none, where one is even. */
static uint32_t lone_bytes(const struct row *r)
{
    bool source = (r->widths & EMU_PSW_S) != 0 && r->place[SOURCE].at % 2 == 0;
    bool destination = (r->widths & EMU_PSW_D) != 0 && r->place[DESTINATION].at % 2 == 0;
    return source || destination ? 0 : 1;
}

uint32_t steps_needed(const struct row *r)
{
    uint32_t lone = lone_bytes(r);
    return r->widths == 0 ? r->n : lone + (r->n - lone + 1) / 2;
}

uint32_t moved_after(const struct row *r, uint32_t steps)
{
    uint32_t lone = lone_bytes(r), moved = r->widths == 0 || steps == 0 ? steps : lone + 2 * (steps - lone);
    return moved < r->n ? moved : r->n;
}

/* ---- Bytes ---- */

/* Puts bytes where something lies. */
static void put_all(const struct row *r, const struct place *p, const uint8_t *bytes, uint32_t length)
{
    for (uint32_t i = 0; i < length; i++) r->given.memory[p->in_io][address_in(p, i)] = bytes[i];
}

/* Gives a range new bytes. */
static void renew(struct random *d, const struct row *r, const struct place *p)
{
    for (uint32_t i = 0; i < p->length; i++) r->given.memory[p->in_io][address_in(p, i)] = (uint8_t)roll(d);
}

void as_start(struct random *d, const struct place *program, uint8_t words[SAVED_BYTES])
{
    as_doubleword(d, program->at, words);
    if (!program->in_io) return;
    words[0] = (uint8_t)program->at;
    words[1] = (uint8_t)(program->at >> 8);
}

/* Puts a channel's control block, with the command that starts its program and any upper bits, and PB's words. */
static void put_start(struct random *d, const struct row *r, uint32_t channel, const struct place *pb,
                      const struct place *program)
{
    uint8_t bytes[6] = {(uint8_t)((program->in_io ? START_IO : START_SYSTEM) | below(d, 32) << 3), (uint8_t)roll(d)};
    uint8_t words[SAVED_BYTES];
    struct place control = {false, ccw_of(r, channel), sizeof bytes};
    as_doubleword(d, pb->at, bytes + 2);
    as_start(d, program, words);
    put_all(r, pb, words, sizeof words);
    put_all(r, &control, bytes, sizeof bytes);
}

/* Writes both programs: the other channel's goes round in the rooms, the channel's own sets the transfer up. */
static void put_programs(struct random *d, struct row *r)
{
    static struct program p;
    const struct place *source = &r->place[SOURCE], *destination = &r->place[DESTINATION];
    const struct room rooms[2] = {{r->place[ROOM].in_io, r->place[ROOM].at},
                                  {r->place[IO_ROOM].in_io, r->place[IO_ROOM].at}};
    uint32_t gb = below(d, 2);
    struct block_transfer b = {.bc = r->n, .widths = r->widths};
    b.cc = 0xC000u | gb << 10 | (below(d, 65536) & 0x0304u) | (1 + below(d, 3)) << 3;
    b.address[gb] = source->at, b.in_io[gb] = source->in_io;
    b.address[1 - gb] = destination->at, b.in_io[1 - gb] = destination->in_io;
    new_program(&p, d, r->length[0], r->length[1]);
    write_confined(&p, rooms);
    put_all(r, &r->place[OTHER_PROGRAM], p.byte, p.length);
    new_program(&p, d, r->length[0], r->length[1]);
    r->begins = (r->place[OWN_PROGRAM].at + write_block(&p, rooms, &b)) & MASK20;
    put_all(r, &r->place[OWN_PROGRAM], p.byte, p.length);
}

/* ---- States ---- */

/* Stands the other channel at its program, in any mode; where it is suspended PB has what a resume reads. */
static void stand_other(struct random *d, const struct row *r)
{
    const struct place *program = &r->place[OTHER_PROGRAM];
    uint8_t *state = r->given.state, psw = (uint8_t)(below(d, 256) & ~(uint32_t)EMU_PSW_XF);
    uint8_t saved[SAVED_BYTES] = {(uint8_t)program->at, (uint8_t)(program->at >> 8), 0, psw};
    unsigned channel = 3 - r->channel, mode = below(d, 3);
    saved[2] = (uint8_t)((program->at >> 12 & 0xF0u) | (program->in_io ? 8u : 0));
    if (mode == IOP89_SUSPENDED) put_all(r, &r->place[OTHER_PB], saved, SAVED_BYTES);
    iop89_set(state, channel, IOP89_MODE, mode);
    iop89_set(state, channel, IOP89_TP, program->at);
    iop89_set(state, channel, IOP89_TP_TAG, program->in_io);
    iop89_set(state, channel, IOP89_PP, r->place[OTHER_PB].at);
    iop89_set(state, channel, IOP89_PSW, psw);
    iop89_set(state, channel, IOP89_ARMED, 0);
}

/* Makes the state in which the channel has the whole transfer before it, with anything else in it that is sound. */
static void stand(struct random *d, const struct row *r)
{
    const struct place *source = &r->place[SOURCE], *destination = &r->place[DESTINATION];
    struct sweep s = {.given = r->given, .channel = r->channel, .n = r->n, .source = {source->in_io, source->at}};
    uint32_t psw = (below(d, 256) & ~3u) | r->widths | EMU_PSW_XF | EMU_PSW_TB;
    s.destination = (struct range){destination->in_io, destination->at};
    make_state(d, &s);
    if (r->breach == BREACH_TB) psw &= ~(uint32_t)EMU_PSW_TB;
    if (r->breach == BREACH_ICF) psw &= ~(uint32_t)EMU_PSW_IC;
    if (r->breach == BREACH_BUSY) iop89_set(r->given.state, r->channel, IOP89_TP, below(d, MASK20 + 1) | 1u);
    iop89_set_cp(r->given.state, r->place[CONTROL].at);
    iop89_set(r->given.state, r->channel, IOP89_PP, r->place[OWN_PB].at);
    iop89_set(r->given.state, r->channel, IOP89_PSW, psw);
    stand_other(d, r);
}

/* ---- Rows ---- */

/* After how many transfer steps the pauses come: often before the first, before the last, or where one is already. */
static void choose_pauses(struct random *d, struct row *r)
{
    uint32_t needed = steps_needed(r);
    r->pauses = 1 + below(d, MOST_PAUSES);
    for (unsigned i = 0; i < r->pauses; i++) {
        unsigned kind = below(d, 8), j = i;
        uint32_t at = kind < 2 ? 0 : kind < 4 ? needed - 1 : below(d, needed);
        if (i > 0 && kind == 4) at = r->pause[below(d, i)];
        for (; j > 0 && r->pause[j - 1] > at; j--) r->pause[j] = r->pause[j - 1];
        r->pause[j] = at;
    }
    if (r->breach == BREACH_PB_INSIDE) r->pause[r->pauses - 1] = needed - 1;
}

struct row make_row(struct machine given, uint64_t seed, uint64_t number)
{
    struct random d = seeded(seed + 5000011, number);
    struct row r = {.given = given, .channel = 1 + below(&d, 2), .widths = below(&d, 4)};
    bool large = number % LARGE_EVERY == 1, whole = number % WHOLE_EVERY == 2;
    if (number % BREACH_EVERY == 0) r.breach = (enum breach)(1 + number / BREACH_EVERY % (BREACHES - 1));
    r.by_program = r.breach == NO_BREACH && chance(&d, 600);
    choose_places(&d, &r, large, whole);
    renew(&d, &r, &r.place[SOURCE]);
    renew(&d, &r, &r.place[DESTINATION]);
    put_programs(&d, &r);
    put_start(&d, &r, 3 - r.channel, &r.place[OTHER_PB], &r.place[OTHER_PROGRAM]);
    if (r.by_program) put_start(&d, &r, r.channel, &r.place[OWN_PB], &r.place[OWN_PROGRAM]);
    else stand(&d, &r);
    choose_pauses(&d, &r);
    r.sweeps = r.breach == NO_BREACH && chance(&d, 200);
    if (goes_over(&r.place[SOURCE]) || goes_over(&r.place[DESTINATION])) r.sweeps = false;
    return r;
}
