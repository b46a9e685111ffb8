/* Compares what the archive tells of a call before it is made with what the emulator notes while it works: number, channel,
 * kind, count, and each place in its order, on random states, whole and damaged; then makes the call, which must answer as
 * was told. */
#include "coverage.h"
#include "iop89_service.h"
#include "lent.h"
#include "options.h"
#include "states.h"

#include <inttypes.h>
#include <stdlib.h>
#include <string.h>

static const struct comparison comparison = {"compare_touches", "row", "rows of twelve calls", 100000};

/* How many calls a row has, room for places, and what stands where none was told. */
enum { ROW_CALLS = 12, PLACE_ROOM = 16 };
#define UNTOLD 0xDEADBEEFu

enum call_kind { CALL_ATTENTION, CALL_POWER, CALL_STEP, CALL_SWEEP, CALLS };
static const char *const call_names[CALLS] = {"attention", "power-up", "step", "sweep"};

/* What one call is given, and for how many places there is room. */
struct call {
    enum call_kind kind;
    uint32_t channel, lines;
    size_t state_len, room;
};

/* What is told: the answer as it is packed, and the words with the places. */
struct told {
    uint32_t answer, place[PLACE_ROOM];
};

/* The machine that both look at, and a copy of its memories. */
static struct machine machine, copy;
static uint8_t *sys, *io, *state;
static struct emu_coverage coverage;

/* ---- What was met ---- */

/* Calls by number; places marked as beyond by what they are for; done instructions by how many places were told. */
static unsigned long numbers[CALLS][IOP89_NO_STATE + 1], beyond[CALLS][EMU_ACCESSES], counts[CALLS][IOP89_PLACES + 1];

/* Things that are met by the way. */
enum thing {
    BEYOND_SECOND_OFFSET, BEYOND_THEN_MORE, REFUSED_IN_SECOND_PAIR, READ_TWICE, READ_AND_STORED, NO_ROOM_FOR_ALL, NO_ROOM,
    IN_IO, IN_EMPTY_SLOT, HIGH_BITS_DROPPED, AROUND_THE_TOP, THINGS
};
static const char *const thing_names[THINGS] = {
    "the offset byte of a second pair is beyond", "places are told behind the one that is beyond",
    "a second pair is refused by 3 with its bytes told", "a place is read twice in one transfer step",
    "a place is read and stored", "there is room for some places alone", "there is room for none", "places in I/O space",
    "places in empty slots", "GA of more than 16 bits in I/O space", "places on both sides of an address 0"};
static unsigned long things[THINGS];

/* Whether two touches are of one place. */
static bool same_place(const struct emu_touch *a, const struct emu_touch *b)
{
    return a->at.address == b->at.address && a->at.tag == b->at.tag;
}

/* Counts what one touch is, seen with those behind it. */
static void count_touch(const struct emu_touches *t, unsigned i)
{
    const struct emu_touch *one = &t->touch[i];
    things[IN_IO] += one->at.tag;
    things[IN_EMPTY_SLOT] += one->at.tag && !one->lent;
    for (unsigned k = i + 1; k < t->count; k++) {
        const struct emu_touch *other = &t->touch[k];
        bool same = same_place(one, other), sources = one->access == EMU_SOURCE && other->access == EMU_SOURCE;
        things[READ_TWICE] += same && sources;
        things[READ_AND_STORED] += same && !one->stored && other->stored;
        things[AROUND_THE_TOP] += k == i + 1 && !one->at.tag && one->at.address == MASK20 && other->at.address == 0;
    }
}

/* Counts the place at which a call that is refused by 2 stops. */
static void count_beyond(const struct emu_touches *t, enum call_kind kind, unsigned i)
{
    enum emu_access last = t->touch[t->count - 1].access;
    beyond[kind][t->touch[i].access]++;
    things[BEYOND_THEN_MORE] += i + 1 < t->count;
    things[BEYOND_SECOND_OFFSET] += t->touch[i].access == EMU_LATER_CODE && last != EMU_LATER_CODE;
}

/* Counts what was asked. */
static void count_asked(const struct call *call, const struct emu_touches *t, unsigned number)
{
    numbers[call->kind][number]++;
    if (number == EMU_DONE) counts[call->kind][t->count]++;
    things[NO_ROOM] += call->room == 0 && t->count > 0;
    things[NO_ROOM_FOR_ALL] += call->room > 0 && call->room < t->count;
    things[REFUSED_IN_SECOND_PAIR] += number == EMU_NO_INSTRUCTION && t->count > 2;
    for (unsigned i = 0; i < t->count; i++) count_touch(t, i);
}

/* ---- The two sides ---- */

/* The emulator's touches as the documents pack them, and its answer. */
static struct told pack(const struct call *call, const struct emu_touches *t, struct emu_stepped a)
{
    struct told told;
    uint32_t kind = a.kind == 'I' ? 1 : a.kind == 'T' ? 2 : a.kind == 'X' ? 3 : 0;
    bool marked = a.number != EMU_BEYOND_LENT_MEMORY;
    told.answer = a.number | a.channel << 8 | kind << 10 | t->count << 12;
    for (unsigned i = 0; i < PLACE_ROOM; i++) told.place[i] = UNTOLD;
    for (unsigned i = 0; i < t->count; i++) {
        const struct emu_touch *one = &t->touch[i];
        bool is_beyond = !marked && !one->at.tag && !one->lent;
        if (is_beyond) count_beyond(t, call->kind, i);
        marked = marked || is_beyond;
        if (i >= call->room) continue;
        uint32_t marks = (uint32_t)one->at.tag | (uint32_t)one->stored << 1 | (uint32_t)is_beyond << 2;
        told.place[i] = one->at.address | marks << 20;
    }
    return told;
}

/* The emulator's number, channel and kind for a call that it is only asked for, or makes where no list is lent. */
static struct emu_stepped emulate(const struct run_case *c, const struct call *call, struct emu_state *s)
{
    struct emu_memory memory = {sys, c->sys_len, io, c->io_len};
    struct emu_stepped plain = {0, 0, 0, 0};
    if (call->kind == CALL_STEP) return emu_step(s, &memory, call->lines);
    if (call->kind == CALL_POWER) plain.number = emu_power_up(s, &memory).number;
    else if (call->kind == CALL_ATTENTION) plain.number = emu_attention(s, &memory, call->channel).number;
    else plain.number = emu_sweep(s, &memory, call->channel, call->lines).number;
    return plain;
}

/* What the emulator would do. */
static struct told by_emulator(const struct run_case *c, const struct call *call)
{
    struct emu_touches touched = {.count = 0};
    struct emu_stepped answer = {IOP89_NO_STATE, 0, 0, 0};
    struct emu_state s;
    enum state_fault fault = call->state_len == STATE_BYTES ? FAULT_NONE : FAULT_LENGTH;
    emu_reset(&s);
    if (call->kind != CALL_POWER) fault = state_from_bytes(state, call->state_len, &s);
    if (fault == FAULT_NONE) {
        emu_touches = &touched;
        emu_coverage = &coverage;
        answer = emulate(c, call, &s);
        emu_touches = NULL;
        emu_coverage = NULL;
    }
    count_asked(call, &touched, answer.number);
    return pack(call, &touched, answer);
}

/* What the archive tells. */
static struct told by_archive(const struct run_case *c, const struct call *call)
{
    struct told t;
    for (unsigned i = 0; i < PLACE_ROOM; i++) t.place[i] = UNTOLD;
    const uint8_t *s = state, *y = sys, *o = io;
    size_t n = call->state_len;
    switch (call->kind) {
    case CALL_ATTENTION:
        t.answer = iop89_touches_attention(s, n, y, c->sys_len, o, c->io_len, call->channel, t.place, call->room);
        break;
    case CALL_POWER: t.answer = iop89_touches_power_up(s, n, y, c->sys_len, o, c->io_len, t.place, call->room); break;
    case CALL_STEP:
        t.answer = iop89_touches_step(s, n, y, c->sys_len, o, c->io_len, call->lines, t.place, call->room);
        break;
    default:
        t.answer = iop89_touches_sweep(s, n, y, c->sys_len, o, c->io_len, call->channel, call->lines, t.place, call->room);
        break;
    }
    return t;
}

/* Makes the call by the archive; whether it answers what was told. */
static bool made_as_told(const struct run_case *c, const struct call *call, uint32_t told)
{
    uint32_t answer = 0, number = IOP89_ANSWER_NUMBER(told);
    size_t n = call->state_len;
    if (call->kind == CALL_SWEEP)
        return IOP89_SWEEP_NUMBER(iop89_sweep(state, n, sys, c->sys_len, io, c->io_len, call->channel, call->lines)) == number;
    if (call->kind == CALL_POWER) answer = iop89_power_up(state, n, sys, c->sys_len, io, c->io_len);
    if (call->kind == CALL_ATTENTION) answer = iop89_attention(state, n, sys, c->sys_len, io, c->io_len, call->channel);
    if (call->kind == CALL_STEP) answer = iop89_step(state, n, sys, c->sys_len, io, c->io_len, call->lines);
    return number == IOP89_DONE ? answer == told : answer == number;
}

/* ---- What comes next ---- */

/* Puts a byte into memory, if it is lent. */
static void put_byte_in(const struct run_case *c, uint32_t address, uint8_t byte)
{
    if (address < c->sys_len) sys[address] = byte;
}

/* Puts a channel's pointers right before the lent end of system memory, or to high addresses of I/O space. */
static void to_the_edge(struct random *d, const struct run_case *c)
{
    static const enum iop89_register pointers[] = {IOP89_GA, IOP89_GB, IOP89_GC, IOP89_TP, IOP89_PP};
    unsigned channel = 1 + below(d, 2);
    enum iop89_register which = ONE_OF(d, pointers);
    uint32_t at = (uint32_t)((c->sys_len + below(d, 4) + MASK20 + 1 - below(d, 8)) & MASK20);
    if (chance(d, 300)) at = MASK20 - below(d, 4);
    iop89_set(state, channel, which, at);
    if (which < IOP89_PP) state[IOP89_AT_CHANNEL(channel) + (size_t)which + 4] = chance(d, 200);
    bool high = iop89_get(state, channel, IOP89_GA) > 0xFFFF;
    things[HIGH_BITS_DROPPED] += high && iop89_get(state, channel, IOP89_GA_TAG) != 0;
}

/* A channel before MOV M,M whose second pair ends where lent memory does, so that its offset byte is beyond. */
static void cut_second_offset(struct random *d, const struct run_case *c)
{
    unsigned channel = 1 + below(d, 2), w = below(d, 2);
    if (c->sys_len < 8 || c->sys_len > MASK20) return;
    uint32_t at = (uint32_t)c->sys_len - 4;
    put_byte_in(c, at, (uint8_t)w);
    put_byte_in(c, at + 1, (uint8_t)(0x90 | below(d, 4)));
    put_byte_in(c, at + 2, (uint8_t)(2 | w));
    put_byte_in(c, at + 3, (uint8_t)(0xCC | below(d, 4)));
    iop89_set(state, channel, IOP89_TP, at);
    iop89_set(state, channel, IOP89_TP_TAG, 0);
    iop89_set(state, channel, IOP89_MODE, IOP89_RUNNING);
    iop89_set(state, channel, IOP89_PSW, EMU_PSW_PRIORITY | EMU_PSW_TB);
}

/* The board's control block at the last lent byte, so that BUSY is beyond. */
static void cut_board(const struct run_case *c)
{
    if (c->sys_len < BOARD_LENGTH || c->sys_len > MASK20) return;
    uint32_t block = (iop89_bytes(sys, 0xFFFFAu, 2) * 16 + iop89_bytes(sys, 0xFFFF8u, 2)) & MASK20;
    uint32_t cp = (uint32_t)c->sys_len - 1;
    if (block + 6 < 0xFFFF6u) iop89_set_bytes(sys, block + 2, 4, (cp & 15u) | (cp >> 4) << 16);
}

/* A state that the calls of a case go on from, changed before some of them. */
static void change_state(struct random *d, const struct run_case *c)
{
    if (chance(d, 100)) poke_state(d, c, state);
    if (chance(d, 80)) pair_up(d, c, state);
    if (chance(d, 60)) block_up(d, c, state);
    if (chance(d, 150)) to_the_edge(d, c);
    if (chance(d, 15)) cut_second_offset(d, c);
    if (chance(d, 20)) any_state(d, c, state);
    if (chance(d, 10)) unsound_state(d, state);
    if (chance(d, 15)) part_fields(d, state);
    if (chance(d, 15)) damage_state(d, state);
}

/* The next call: a fresh machine gets its attention first. */
static struct call next_call(struct random *d, const struct run_case *c, unsigned index)
{
    static const uint32_t odd[] = {0, 3, 16, 255, 0x80000001, 0xFFFFFFFF};
    static const size_t lengths[] = {0, STATE_BYTES - 1, STATE_BYTES + 1, STATE_ROOM};
    struct call call = {CALL_STEP, 1 + below(d, 2), chance(d, 500) ? c->lines & 15u : below(d, 16), STATE_BYTES, IOP89_PLACES};
    if (index == 0) call.kind = CALL_ATTENTION, call.channel = c->channel;
    else if (chance(d, 120)) call.kind = CALL_ATTENTION;
    else if (chance(d, c->sys_len >= BOARD_LENGTH ? 200 : 15)) call.kind = CALL_POWER;
    else if (chance(d, 60)) call.kind = CALL_SWEEP;
    uint32_t block = (iop89_cp(state) + (call.channel == 2 ? 8 : 0)) & MASK20;
    if (call.kind == CALL_ATTENTION && index > 0 && chance(d, 700)) put_byte_in(c, block, some_ccw(d));
    if (call.kind == CALL_POWER && chance(d, 900)) put_board(d, c, put_byte_in);
    if (call.kind == CALL_POWER && chance(d, 200)) cut_board(c);
    if (chance(d, 15)) call.channel = ONE_OF(d, odd);
    if (chance(d, 15)) call.lines = ONE_OF(d, odd);
    if (chance(d, 15)) call.state_len = ONE_OF(d, lengths);
    if (chance(d, 100)) call.room = below(d, PLACE_ROOM);
    return call;
}

/* ---- One case ---- */

/* Prints a side of a difference. */
static void print_told(const char *who, const struct told *t)
{
    printf("  %s %05" PRIX32 ":", who, t->answer);
    for (unsigned i = 0; i < PLACE_ROOM && t->place[i] != UNTOLD; i++) printf(" %06" PRIX32, t->place[i]);
    putchar('\n');
}

/* Asks both, and makes the call; answers whether they agree, and that asking changed nothing. */
static bool agree_on(const struct run_case *c, const struct call *call, unsigned index, bool shown)
{
    uint8_t given[STATE_ROOM];
    memcpy(given, state, STATE_ROOM);
    struct told emulator = by_emulator(c, call), archive = by_archive(c, call);
    bool same = memcmp(&emulator, &archive, sizeof emulator) == 0, stays = memcmp(given, state, STATE_ROOM) == 0;
    bool made = made_as_told(c, call, archive.answer);
    if (same && stays && made) return true;
    if (!shown) return false;
    printf("  call %u, %s, channel %" PRIu32 ", lines %" PRIu32 ", %zu bytes of state, %zu and %zu of memory, room %zu%s%s\n",
           index, call_names[call->kind], call->channel, call->lines, call->state_len, c->sys_len, c->io_len, call->room,
           stays ? "" : ", the state was changed", made ? "" : ", the call answers otherwise");
    print_told("emulator", &emulator);
    print_told("archive ", &archive);
    return false;
}

/* Makes a case's calls in a row. */
static bool agree(uint64_t seed, uint64_t number, bool shown)
{
    struct random d = seeded(seed + 3000017, number);
    struct run_case c = {sys, io, 0, 0, 0, 0, 0, 0};
    make_case(&c, seed, number);
    lend_memories(&machine, &machine, LENT_BY(&c));
    memset(state, 0, STATE_ROOM);
    if (chance(&d, 700)) iop89_fresh(state, STATE_BYTES, c.cp);
    else any_state(&d, &c, state);
    for (unsigned i = 0; i < ROW_CALLS; i++) {
        if (i > 0) change_state(&d, &c);
        struct call call = next_call(&d, &c, i);
        if (!agree_on(&c, &call, i, shown)) return false;
    }
    bool stand = fences_stand(sys, c.sys_len) && fences_stand(io, c.io_len) && fences_stand(state, STATE_ROOM);
    if (!stand && shown) puts("  a byte beside memory or state was stored");
    return stand;
}

/* ---- That asking changes no memory ---- */

/* Asks all four calls of a case once, and holds both memories to copies of them; how many cases changed one. */
static unsigned long long unchanged(uint64_t seed)
{
    unsigned long long changed = 0;
    for (uint64_t number = 0; number < 300; number++) {
        struct random d = seeded(seed + 4000037, number);
        struct run_case c = {sys, io, 0, 0, 0, 0, 0, 0};
        make_case(&c, seed + 7, number);
        any_state(&d, &c, state);
        block_up(&d, &c, state);
        lend_memories(&machine, &machine, LENT_BY(&c));
        lend_machine(&copy, &machine, LENT_BY(&c));
        for (unsigned kind = 0; kind < CALLS; kind++) {
            struct call call = {(enum call_kind)kind, 1 + below(&d, 2), below(&d, 16), STATE_BYTES, IOP89_PLACES};
            (void)by_archive(&c, &call);
        }
        changed += !same_memories(&machine, &copy, LENT_BY(&c)) || !same_state(&machine, &copy);
    }
    return changed;
}

/* ---- What was met, printed ---- */

/* The numbers that each call can answer. */
static const unsigned number_sets[CALLS] = {
    [CALL_ATTENTION] = 1u << 0 | 1u << 2 | 15u << 6 | 31u << 10 | 1u << 17,
    [CALL_POWER] = 1u << 0 | 1u << 2 | 1u << 11 | 1u << 17,
    [CALL_STEP] = 63u | 31u << 10 | 1u << 17,
    [CALL_SWEEP] = 1u << 0 | 63u << 10 | 1u << 17,
};

/* What a place that is beyond can be for, in each call. */
static const unsigned beyond_sets[CALLS] = {
    [CALL_ATTENTION] = 1u << EMU_READ | 1u << EMU_READ_POINTER | 1u << EMU_STORE | 1u << EMU_STORE_POINTER,
    [CALL_POWER] = 1u << EMU_READ | 1u << EMU_READ_POINTER | 1u << EMU_STORE,
    [CALL_STEP] = (1u << EMU_ACCESSES) - 1,
    [CALL_SWEEP] = 0,
};

/* How many places a done call can tell. */
static const unsigned count_sets[CALLS] = {
    [CALL_ATTENTION] = 1u << 1 | 1u << 2 | 1u << 6 | 1u << 8 | 1u << 10,
    [CALL_POWER] = 1u << 11,
    [CALL_STEP] = 0x7FFu,
    [CALL_SWEEP] = 1u << 2,
};

/* What a byte is read or stored for, in words. */
static const char *const access_names[EMU_ACCESSES] = {
    [EMU_FIRST_PAIR] = "the first pair",
    [EMU_LATER_CODE] = "later code",
    [EMU_READ] = "a byte or word that is read",
    [EMU_TEST] = "the byte that TSL reads",
    [EMU_READ_POINTER] = "a pointer that is read",
    [EMU_STORE] = "a byte or word that is stored",
    [EMU_STORE_POINTER] = "a pointer that is stored",
    [EMU_SOURCE] = "the source",
    [EMU_TABLE] = "the entry of a table",
    [EMU_DESTINATION] = "the destination",
};

/* Prints what was met of one call. */
static void print_call(enum call_kind kind)
{
    char name[120];
    printf("%s, by number:\n", call_names[kind]);
    for (unsigned i = 0; i <= IOP89_NO_STATE; i++) {
        snprintf(name, sizeof name, "%u %s", i, iop89_service_words(i));
        if ((number_sets[kind] >> i & 1u) != 0) print_count(name, numbers[kind][i]);
    }
    for (unsigned i = 0; i <= IOP89_PLACES; i++) {
        snprintf(name, sizeof name, "done, with %u place%s told", i, i == 1 ? "" : "s");
        if ((count_sets[kind] >> i & 1u) != 0) print_count(name, counts[kind][i]);
    }
    for (unsigned i = 0; i < EMU_ACCESSES; i++) {
        snprintf(name, sizeof name, "beyond is %s", access_names[i]);
        if ((beyond_sets[kind] >> i & 1u) != 0) print_count(name, beyond[kind][i]);
    }
}

/* Prints the shapes of done steps: the rows of instructions, and whole transfer steps and halves. */
static void print_steps(void)
{
    static const char *const shapes[EMU_SHAPES] = {"byte to byte", "two bytes to word", "word to two bytes", "word to word",
                                                   "two bytes, the first matched"};
    static const char *const halves[EMU_HALVES] = {"", "first fetch", "second fetch", "first store", "second store"};
    puts("steps, by shape:");
    for (unsigned i = 0; i < EMU_ROWS; i++) print_count(emu_row_name(i), coverage.row[i]);
    for (unsigned i = 0; i < EMU_SHAPES; i++) print_count(shapes[i], coverage.shape[i]);
    for (unsigned i = 1; i < EMU_HALVES; i++) {
        unsigned long met = 0;
        for (unsigned k = 0; k < EMU_END_SETS; k++) met += coverage.half_end[i][k];
        print_count(halves[i], met);
    }
    print_count("translated", coverage.translated);
    print_count("external ends", coverage.external[0] + coverage.external[1] + coverage.external[2]);
}

/* Prints everything that was met. */
static void print_met(void)
{
    for (unsigned kind = 0; kind < CALLS; kind++) print_call((enum call_kind)kind);
    print_steps();
    puts("by the way:");
    for (unsigned i = 0; i < THINGS; i++) print_count(thing_names[i], things[i]);
}

int main(int count, char **words)
{
    struct options o = read_options(&comparison, count, words);
    machine = new_machine();
    copy = new_machine();
    sys = machine.memory[SYS], io = machine.memory[IO], state = machine.state;
    unsigned long long differences = unchanged(o.seed);
    if (differences > 0) printf("DIFFERENCE: asking changed the machine in %llu cases\n", differences);
    differences += compare_cases(&comparison, o, agree);
    print_options(&comparison, o);
    print_met();
    return conclude(&comparison, o, differences);
}
