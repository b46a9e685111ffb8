/* Holds calls over the card bus, with all of I/O space on a card and other bytes than the card's in the host's memory, to the
 * same calls on memory that has the card's bytes: number, state, both memories, and each access of the card in its order. */
#include "coverage.h"
#include "examples/card_bus.h"
#include "lent.h"
#include "options.h"
#include "states.h"

#include <inttypes.h>
#include <stdlib.h>
#include <string.h>

static const struct comparison comparison = {"compare_bus", "row", "rows of twelve steps", 25000};

/* How many steps a row has. */
enum { ROW_STEPS = 12 };

/* A card that has all of I/O space, and what was asked of it since it was last looked at. */
struct card_log {
    uint8_t *bytes;
    unsigned count;
    uint32_t place[2 * IOP89_PLACES];
    uint8_t byte[2 * IOP89_PLACES];
};

/* The machine whose memory has the card's bytes, the one over the bus, and its card. */
static struct machine plain, bused;
static struct card_log card;

/* ---- The card ---- */

/* Notes an access. */
static void note(struct card_log *log, uint32_t place, uint8_t byte)
{
    if (log->count == 2 * IOP89_PLACES) return;
    log->place[log->count] = place;
    log->byte[log->count++] = byte;
}

static uint8_t read_card(void *own, uint32_t address)
{
    struct card_log *log = own;
    note(log, address | 1u << 20, log->bytes[address]);
    return log->bytes[address];
}

static void store_card(void *own, uint32_t address, uint8_t byte)
{
    struct card_log *log = own;
    note(log, address | 3u << 20, byte);
    log->bytes[address] = byte;
}

/* ---- What was met ---- */

enum thing { STALE_CODE, STALE_TABLE, STALE_TEST, PORT_TWICE, STORED_TWICE, IN_SLOT, REFUSED, LIST_CHANGED, THINGS };
static const char *const thing_names[THINGS] = {
    "code that the card has, other bytes in memory", "a table on the card, other bytes in memory",
    "TSL on the card, another byte in memory", "a port read twice in one step", "a port stored to twice in one step",
    "empty slots", "refused behind bytes of the card", "another list than memory alone told"};
static unsigned long things[THINGS], numbers[IOP89_NO_STATE + 1];

/* Whether a told place is the card's. */
static bool on_card(const struct run_case *c, uint32_t place)
{
    return IOP89_PLACE_IO(place) != 0 && IOP89_PLACE_ADDRESS(place) < c->io_len;
}

/* Counts what a step is like that tells these places, and told others where it had the host's memory alone. */
static void count_step(const struct run_case *c, const uint32_t *places, iop89_answer told, bool changed)
{
    unsigned count = IOP89_ANSWER_COUNT(told), kind = IOP89_ANSWER_KIND(told), on = 0;
    numbers[IOP89_ANSWER_NUMBER(told)]++;
    for (unsigned i = 0; i < count; i++) {
        on += on_card(c, places[i]);
        things[IN_SLOT] += IOP89_PLACE_IO(places[i]) != 0 && !on_card(c, places[i]);
        for (unsigned k = i + 1; k < count; k++) {
            if (places[i] != places[k] || !on_card(c, places[i]) || kind != IOP89_TRANSFER) continue;
            things[IOP89_PLACE_STORE(places[i]) ? STORED_TWICE : PORT_TWICE]++;
        }
    }
    things[LIST_CHANGED] += changed;
    things[STALE_CODE] += changed && kind == IOP89_INSTRUCTION && on_card(c, places[0]);
    things[STALE_TABLE] += changed && kind == IOP89_TRANSFER && count == 3 && on_card(c, places[1]);
    things[STALE_TEST] += changed && kind == IOP89_INSTRUCTION && !on_card(c, places[0]);
    things[REFUSED] += IOP89_ANSWER_NUMBER(told) != IOP89_DONE && on > 0;
}

/* ---- One call ---- */

/* Whether the card was asked for what was told and for nothing else, in its order: a place that an instruction reads twice is
 * asked for once, and of a call that is refused nothing is stored. */
static bool asked_as_told(const struct run_case *c, const uint32_t *places, iop89_answer told)
{
    unsigned at = 0, count = IOP89_ANSWER_COUNT(told);
    for (unsigned i = 0; i < count; i++) {
        bool again = false, stores = IOP89_PLACE_STORE(places[i]) != 0;
        for (unsigned k = 0; k < i; k++) again = again || places[k] == places[i];
        if (!on_card(c, places[i]) || (again && !stores && IOP89_ANSWER_KIND(told) != IOP89_TRANSFER)) continue;
        if (stores && IOP89_ANSWER_NUMBER(told) != IOP89_DONE) continue;
        if (at == card.count || card.place[at++] != (places[i] & 0x3FFFFFu)) return false;
    }
    return at == card.count;
}

/* Of a step that moves two bytes, what it reads, by the memory that has the card's bytes. */
static void read_ahead(const struct run_case *c, const uint32_t *places, uint8_t moved[2])
{
    for (unsigned i = 0; i < 2; i++) {
        uint32_t at = IOP89_PLACE_ADDRESS(places[i]);
        bool in_io = IOP89_PLACE_IO(places[i]) != 0, lent = at < (in_io ? c->io_len : c->sys_len);
        moved[i] = lent ? (in_io ? plain.memory[IO] : plain.memory[SYS])[at] : 0xFF;
    }
}

/* Whether the card was handed the bytes that such a step moved, in their order, also where both went to one port. */
static bool handed_as_moved(const struct run_case *c, const uint32_t *places, iop89_answer told, const uint8_t moved[2])
{
    if (IOP89_ANSWER_KIND(told) != IOP89_TRANSFER || IOP89_ANSWER_COUNT(told) != 4) return true;
    unsigned at = card.count;
    for (unsigned i = 4; i-- > 2;)
        if (on_card(c, places[i]) && card.byte[--at] != moved[i - 2]) return false;
    return true;
}

/* What a step of a machine is told to touch. */
static iop89_answer ask(const struct machine *m, const struct run_case *c, uint32_t lines, uint32_t *places)
{
    return iop89_touches_step(m->state, STATE_BYTES, m->memory[SYS], c->sys_len, m->memory[IO], c->io_len, lines, places,
                              IOP89_PLACES);
}

/* Makes one step both ways; answers whether they agree. */
static bool agree_on(const struct run_case *c, uint32_t lines)
{
    const struct card everything = {0, IOP89_IO_LIMIT, true, read_card, store_card, &card};
    struct card_bus bus = {.sys = bused.memory[SYS], .io = bused.memory[IO], .sys_len = c->sys_len, .io_len = c->io_len,
                           .card = &everything, .cards = 1};
    uint32_t places[IOP89_PLACES] = {0}, stale[IOP89_PLACES] = {0};
    uint8_t moved[2];
    iop89_answer told = ask(&plain, c, lines, places), first = ask(&bused, c, lines, stale);
    count_step(c, places, told, told != first || memcmp(places, stale, sizeof places) != 0);
    read_ahead(c, places, moved);
    card.count = 0;
    iop89_answer by_bus = bus_step(&bus, bused.state, lines);
    iop89_answer by_plain =
        iop89_step(plain.state, STATE_BYTES, plain.memory[SYS], c->sys_len, plain.memory[IO], c->io_len, lines);
    return by_bus == by_plain && memcmp(bused.state, plain.state, STATE_BYTES) == 0 && asked_as_told(c, places, told) &&
           handed_as_moved(c, places, told, moved);
}

/* ---- One case ---- */

/* Gives the host's I/O memory other bytes than the card's. */
static void make_stale(struct random *d, const struct run_case *c, bool all)
{
    for (size_t i = 0; all && i < c->io_len; i++) bused.memory[IO][i] = (uint8_t)roll(d);
    for (unsigned i = 0; !all && c->io_len > 0 && i < 8; i++) bused.memory[IO][below(d, c->io_len)] = (uint8_t)roll(d);
    for (unsigned channel = 1; channel <= 2; channel++) {
        uint32_t tp = iop89_get(plain.state, channel, IOP89_TP) & 0xFFFFu;
        for (uint32_t i = tp; i < tp + 6 && i < c->io_len; i++) bused.memory[IO][i] = (uint8_t)roll(d);
    }
}

/* Changes the state of both. */
static void change_state(struct random *d, const struct run_case *c)
{
    uint8_t *s = plain.state;
    static const enum iop89_register tags[] = {IOP89_GA_TAG, IOP89_GB_TAG, IOP89_GC_TAG, IOP89_TP_TAG};
    if (chance(d, 150)) poke_state(d, c, s);
    if (chance(d, 150)) pair_up(d, c, s);
    if (chance(d, 40)) any_state(d, c, s);
    if (chance(d, 300)) iop89_set(s, 1 + below(d, 2), ONE_OF(d, tags), 1);
    memcpy(bused.state, s, STATE_BYTES);
}

/* Steps of a case in a row, and what they leave. */
static bool agree(uint64_t seed, uint64_t number, bool shown)
{
    struct random d = seeded(seed + 5000011, number);
    struct run_case c = {plain.memory[SYS], plain.memory[IO], 0, 0, 0, 0, 0, 0};
    make_case(&c, seed, number);
    if (c.sys_len > IOP89_SYSTEM_LIMIT || c.io_len > IOP89_IO_LIMIT) return true;
    if (chance(&d, 800)) (void)iop89_fresh(plain.state, STATE_BYTES, c.cp);
    else any_state(&d, &c, plain.state);
    (void)iop89_attention(plain.state, STATE_BYTES, plain.memory[SYS], c.sys_len, plain.memory[IO], c.io_len, c.channel);
    memcpy(bused.state, plain.state, STATE_BYTES);
    memcpy(bused.memory[SYS], plain.memory[SYS], c.sys_len);
    memcpy(card.bytes, plain.memory[IO], c.io_len);
    for (unsigned i = 0; i < ROW_STEPS; i++) {
        make_stale(&d, &c, i == 0);
        if (i > 0) change_state(&d, &c);
        bool same = agree_on(&c, chance(&d, 500) ? 3u : below(&d, 16));
        if (!same && shown) printf("  step %u\n", i + 1);
        if (!same) return false;
    }
    return memcmp(bused.memory[SYS], plain.memory[SYS], c.sys_len) == 0 && memcmp(card.bytes, plain.memory[IO], c.io_len) == 0;
}

int main(int count, char **words)
{
    struct options o = read_options(&comparison, count, words);
    plain = new_machine();
    bused = new_machine();
    card.bytes = fenced(CASE_IO_ROOM);
    unsigned long long differences = compare_cases(&comparison, o, agree);
    print_options(&comparison, o);
    print_numbered("number %u", numbers, 0, IOP89_BAD_TRANSFER);
    print_table("on the card:", thing_names, things, THINGS);
    return conclude(&comparison, o, differences);
}
