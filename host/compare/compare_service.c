/* Compares the service archive with the emulator: rows of calls on states in bytes, sound and unsound, with fields that
 * agree with CC or not, with held bytes and without, whole and damaged, with other lines at each step, and runs that a
 * board's power-up begins. */
#include "iop89_service.h"
#include "lent.h"
#include "coverage.h"
#include "options.h"
#include "states.h"

#include <inttypes.h>
#include <stdlib.h>
#include <string.h>

static const struct comparison comparison = {"compare_service", "case", "cases", 300000};

/* The most calls of one case. */
enum { MOST_CALLS = 60 };

enum call_kind { CALL_FRESH, CALL_RESET, CALL_POWER, CALL_ATTENTION, CALL_STEP, CALL_BOARD, CALLS };

/* What one call is given; lines and limit are a run's. */
struct call {
    enum call_kind kind;
    uint32_t argument;
    size_t state_len;
    uint32_t lines, limit;
};

static struct machine emulated, proved;
static struct emu_coverage coverage;
static unsigned long numbers[CALLS][IOP89_NO_STATE + 1], faults[STATE_FAULTS], bytes[BYTES_KINDS][BYTES_COUNTS];
/* Power-ups of bytes that are no state: refused, done. */
static unsigned long powered_none[2];
static unsigned long anew[ANEWS];
static const char *const call_names[CALLS] = {"fresh", "reset", "power-up", "attention", "step", "board"};

/* ---- Buffers ---- */

/* Puts a byte into both sides' memory, if it is lent. */
static void put_both(const struct run_case *c, uint32_t address, uint8_t byte)
{
    if (address < c->sys_len) emulated.memory[SYS][address] = proved.memory[SYS][address] = byte;
}

/* ---- The two sides of a call ---- */

/* Whether a call looks at none of the state's bytes. */
static bool makes_anew(enum call_kind kind)
{
    return kind == CALL_FRESH || kind == CALL_RESET || kind == CALL_BOARD;
}

/* Whether a call looks at the state's length alone. */
static bool asks_length(enum call_kind kind)
{
    return makes_anew(kind) || kind == CALL_POWER;
}

/* Whether the bytes of the archive's state hold a byte in some channel. */
static bool bytes_hold(void)
{
    return iop89_get(proved.state, 1, IOP89_HELD) != 0 || iop89_get(proved.state, 2, IOP89_HELD) != 0;
}

/* Counts a done call that made a state anew, by whether a byte was held before it. */
static void count_anew(enum call_kind kind, uint32_t answer, bool held)
{
    if (!held || IOP89_ANSWER_NUMBER(answer) != IOP89_DONE) return;
    if (kind == CALL_FRESH) anew[ANEW_FRESH]++;
    if (kind == CALL_RESET) anew[ANEW_RESET]++;
    if (kind == CALL_POWER) anew[ANEW_POWER_UP]++;
}

/* Counts a power-up of bytes that are no state, by whether it was done. */
static void count_powered(uint32_t number)
{
    struct emu_state state;
    if (state_from_bytes(emulated.state, STATE_BYTES, &state) != FAULT_NONE) powered_none[number == EMU_DONE]++;
}

/* The emulator's answer; counts what it met. */
static uint32_t by_emulator(const struct run_case *c, struct call call)
{
    struct emu_memory memory = {emulated.memory[SYS], c->sys_len, emulated.memory[IO], c->io_len};
    struct emu_state state;
    struct emu_stepped stepped = {0, 0, 0, 0};
    struct emu_answer answer = {0, 0};
    memset(&state, 0, sizeof state);
    if (call.kind == CALL_BOARD) return emu_board(&memory, call.argument, call.lines, call.limit);
    enum state_fault fault = call.state_len != STATE_BYTES ? FAULT_LENGTH : FAULT_NONE;
    if (!asks_length(call.kind)) fault = state_from_bytes(emulated.state, call.state_len, &state);
    faults[fault]++;
    if (fault != FAULT_NONE) return IOP89_NO_STATE;
    if (call.kind == CALL_FRESH) answer.number = emu_fresh(call.argument, &state);
    else if (call.kind == CALL_RESET) emu_reset(&state);
    else if (call.kind == CALL_POWER) {
        answer = emu_power_up(&state, &memory);
        count_powered(answer.number);
        if (answer.number != EMU_DONE) return answer.number;
    } else if (call.kind == CALL_ATTENTION) answer = emu_attention(&state, &memory, call.argument);
    else stepped = emu_step(&state, &memory, call.argument);
    state_to_bytes(&state, emulated.state);
    uint32_t kind = stepped.kind == 'I' ? 1 : stepped.kind == 'T' ? 2 : stepped.kind == 'X' ? 3 : 0;
    if (call.kind != CALL_STEP) return answer.number | answer.count << 12;
    return stepped.number | stepped.channel << 8 | kind << 10 | stepped.count << 12;
}

/* Counts an answer of the archive by the bytes that the call read and stored; fresh, reset and a run have no such count. */
static void count_bytes(enum call_kind kind, uint32_t answer)
{
    if (makes_anew(kind)) return;
    enum coverage_bytes of = kind == CALL_POWER ? BYTES_OF_POWER_UP : BYTES_OF_ATTENTION;
    if (kind == CALL_STEP) of = bytes_of_step("-ITX"[IOP89_ANSWER_KIND(answer)]);
    if (IOP89_ANSWER_NUMBER(answer) != IOP89_DONE) of = BYTES_OF_REFUSED;
    bytes[of][IOP89_ANSWER_COUNT(answer)]++;
}

/* The archive's answer. */
static uint32_t by_archive(const struct run_case *c, struct call call)
{
    if (call.kind == CALL_FRESH) return iop89_fresh(proved.state, call.state_len, call.argument);
    if (call.kind == CALL_RESET) return iop89_reset(proved.state, call.state_len);
    if (call.kind == CALL_POWER)
        return iop89_power_up(proved.state, call.state_len, proved.memory[SYS], c->sys_len, proved.memory[IO],
                              c->io_len);
    if (call.kind == CALL_BOARD)
        return iop89_board(proved.memory[SYS], c->sys_len, proved.memory[IO], c->io_len, call.argument, call.lines,
                           call.limit);
    uint32_t (*made)(uint8_t *, size_t, uint8_t *, size_t, uint8_t *, size_t, uint32_t) =
        call.kind == CALL_ATTENTION ? iop89_attention : iop89_step;
    return made(proved.state, call.state_len, proved.memory[SYS], c->sys_len, proved.memory[IO], c->io_len,
                call.argument);
}

/* ---- What comes next ---- */

/* Gives the emulator's side the bytes of the archive's state. */
static void share_state(void)
{
    memcpy(emulated.state, proved.state, STATE_BYTES);
}

/* Writes a command into a channel's block, in both memories. */
static void put_command(struct random *d, const struct run_case *c, uint32_t channel)
{
    uint32_t block = (iop89_cp(proved.state) + (channel == 2 ? 8 : 0)) & MASK20;
    put_both(c, block, some_ccw(d));
}

/* A call that starts as the board starts, more often where there can be a board; fresh stands for none. */
static enum call_kind board_call(struct random *d, const struct run_case *c, unsigned index)
{
    bool whole = c->sys_len >= BOARD_LENGTH;
    if (index == 0 && chance(d, whole ? 300 : 15)) return CALL_BOARD;
    if (chance(d, index < 3 && whole ? 300 : 6)) return CALL_POWER;
    return chance(d, 6) ? CALL_RESET : CALL_FRESH;
}

/* The next call; fresh is first more often than not. */
static struct call next_call(struct random *d, const struct run_case *c, unsigned index)
{
    static const uint32_t odd[] = {0, 3, 4, 16, 17, 255, 257, 65537, 0x80000001, 0xFFFFFFFF};
    static const size_t lengths[] = {0, 1, STATE_BYTES - 1, STATE_BYTES + 1, STATE_ROOM};
    struct call call = {CALL_STEP, chance(d, 500) ? c->lines & 15u : below(d, 16), STATE_BYTES, c->lines, c->limit};
    enum call_kind board = board_call(d, c, index);
    if (board != CALL_FRESH) {
        call.kind = board;
        call.argument = c->channel;
        if (board != CALL_RESET && chance(d, 900)) put_board(d, c, put_both);
    } else if (index == 0 && chance(d, 800)) {
        call.kind = CALL_FRESH;
        call.argument = c->cp;
    } else if (index <= 1 || chance(d, 150)) {
        call.kind = CALL_ATTENTION;
        call.argument = index <= 1 ? c->channel : 1 + below(d, 2);
        if (index > 1 && chance(d, 700)) put_command(d, c, call.argument);
    } else if (chance(d, 5)) {
        call.kind = CALL_FRESH;
        call.argument = choose_cp(d, c->sys_len);
    }
    if (chance(d, 15)) call.argument = ONE_OF(d, odd);
    if (chance(d, 15)) call.state_len = ONE_OF(d, lengths);
    return call;
}

/* ---- One case ---- */

/* Makes one call on both sides; answers whether they agree, and says how where they do not. */
static bool agree_on(const struct run_case *c, struct call call, unsigned index, bool shown)
{
    bool held = bytes_hold();
    emu_coverage = &coverage;
    uint32_t emulator = by_emulator(c, call);
    emu_coverage = NULL;
    uint32_t archive = by_archive(c, call);
    count_anew(call.kind, archive, held);
    numbers[call.kind][call.kind == CALL_BOARD ? IOP89_NUMBER(emulator) : IOP89_ANSWER_NUMBER(emulator)]++;
    count_bytes(call.kind, archive);
    bool same = emulator == archive && same_state(&proved, &emulated);
    if (same || !shown) return same;
    printf("  call %u, %s %" PRIu32 " on %zu bytes: emulator %05" PRIX32 ", archive %05" PRIX32 "\n", index,
           call_names[call.kind], call.argument, call.state_len, emulator, archive);
    for (size_t i = 0; i < STATE_ROOM; i++)
        if (emulated.state[i] != proved.state[i])
            printf("  state byte %zu: emulator %02X, archive %02X\n", i, emulated.state[i], proved.state[i]);
    return false;
}

/* Makes a case's calls in a row; a state that was damaged or whose fields disagree is made whole again behind the call
 * that it refused. */
static bool agree(uint64_t seed, uint64_t number, bool shown)
{
    struct random d = seeded(seed + 1000003, number);
    struct run_case c = {emulated.memory[SYS], emulated.memory[IO], 0, 0, 0, 0, 0, 0};
    uint8_t whole[STATE_BYTES], given[STATE_BYTES];
    make_case(&c, seed, number);
    lend_memories(&proved, &emulated, LENT_BY(&c));
    memset(proved.state, 0, STATE_ROOM);
    memset(emulated.state, 0, STATE_ROOM);
    any_state(&d, &c, proved.state);
    share_state();
    for (unsigned i = 0, calls = 4 + below(&d, MOST_CALLS - 4); i < calls; i++) {
        bool spoiled = chance(&d, 40), parted = chance(&d, 40);
        if (i > 1 && chance(&d, 80)) poke_state(&d, &c, proved.state);
        if (i > 1 && chance(&d, 50)) pair_up(&d, &c, proved.state);
        if (chance(&d, 4)) any_state(&d, &c, proved.state);
        struct call call = next_call(&d, &c, i);
        if (makes_anew(call.kind)) spoiled = parted = false;
        memcpy(whole, proved.state, STATE_BYTES);
        if (parted) part_fields(&d, proved.state);
        if (spoiled) damage_state(&d, proved.state);
        share_state();
        memcpy(given, proved.state, STATE_BYTES);
        if (!agree_on(&c, call, i, shown)) return false;
        if ((!spoiled && !parted) || memcmp(given, proved.state, STATE_BYTES) != 0) continue;
        memcpy(proved.state, whole, STATE_BYTES);
        share_state();
    }
    bool same = same_memories(&proved, &emulated, LENT_BY(&c));
    if (!same && shown) puts("  the memories differ, or a byte beside them was stored");
    return same;
}

/* ---- Every first pair ---- */

/* Where the pair stands, and the base of each operand: in lent memory with any offset byte and IX. */
enum { PAIR_AT = 0x100, PAIR_SYSTEM = 4096, PAIR_IO = 2048 };

/* A running channel 1 at the pair, in both sides' bytes. */
static void stand_at_pair(void)
{
    iop89_fresh(proved.state, STATE_BYTES, 0);
    iop89_set(proved.state, 1, IOP89_MODE, 1);
    iop89_set(proved.state, 1, IOP89_TP, PAIR_AT);
    iop89_set(proved.state, 1, IOP89_PP, 0x200);
    iop89_set(proved.state, 1, IOP89_GA, 0x400);
    iop89_set(proved.state, 1, IOP89_GB, 0x500);
    iop89_set(proved.state, 1, IOP89_GB_TAG, 1);
    iop89_set(proved.state, 1, IOP89_GC, 0x600);
    iop89_set(proved.state, 1, IOP89_IX, 0x20);
    iop89_set(proved.state, 1, IOP89_MC, 0x0F05);
    share_state();
}

/* A pair, an offset byte where its AA asks for one, a second pair that fits it, and zeros, in both memories. */
static void put_pair(const struct run_case *c, uint32_t pair)
{
    uint32_t at = PAIR_AT + ((pair >> 1 & 3u) == 1 ? 3u : 2u);
    for (uint32_t i = 0; i < 8; i++) put_both(c, PAIR_AT + i, 0);
    put_both(c, PAIR_AT, (uint8_t)pair);
    put_both(c, PAIR_AT + 1, (uint8_t)(pair >> 8));
    put_both(c, at, (uint8_t)(pair & 1u));
    put_both(c, at + 1, 0xCC);
}

/* One step at each of the 65,536 first pairs, answers, states and memories compared; how many differ. */
static unsigned every_pair(uint64_t seed)
{
    static const char *const names[3] = {"first pairs that are instructions", "first pairs refused by 3",
                                         "first pairs refused by 4"};
    static const enum emu_number answers[3] = {EMU_DONE, EMU_NO_INSTRUCTION, EMU_CC_USED};
    struct random d = seeded(seed + 2000003, 0);
    struct run_case c = {emulated.memory[SYS], emulated.memory[IO], PAIR_SYSTEM, PAIR_IO, 0, 1, 0, 0};
    struct call call = {CALL_STEP, 0, STATE_BYTES, 0, 0};
    unsigned differences = 0;
    unsigned long met = 0, before[3];
    for (unsigned i = 0; i < 3; i++) before[i] = numbers[CALL_STEP][answers[i]];
    fill(&d, emulated.memory[SYS], c.sys_len);
    fill(&d, emulated.memory[IO], c.io_len);
    lend_memories(&proved, &emulated, LENT_BY(&c));
    for (uint32_t pair = 0; pair < 65536; pair++) {
        stand_at_pair();
        put_pair(&c, pair);
        bool shown = differences < SHOWN;
        if (agree_on(&c, call, pair, shown) && same_memories(&proved, &emulated, LENT_BY(&c))) continue;
        if (shown) printf("DIFFERENCE at the first pair %02X %02X\n", pair & 255u, pair >> 8);
        differences++;
    }
    for (unsigned i = 0; i < 3; i++) {
        print_count(names[i], numbers[CALL_STEP][answers[i]] - before[i]);
        met += numbers[CALL_STEP][answers[i]] - before[i];
    }
    if (met != 65536) printf("%lu first pairs were refused by another number\n", 65536 - met);
    return differences + (met != 65536);
}

/* ---- Every CC ---- */

/* MOVI to CC of a value at the pair's place, with NOP behind it, and command 000 for channel 1, in both memories. */
static void put_movi(const struct run_case *c, uint32_t value)
{
    put_both(c, 0, 0);
    put_pair(c, 0x30D1);
    put_both(c, PAIR_AT + 2, (uint8_t)value);
    put_both(c, PAIR_AT + 3, (uint8_t)(value >> 8));
}

/* An attention or a step with one bit of CC of a channel not what its fields say; the state is put back behind it. */
static bool agree_apart(const struct run_case *c, uint32_t value, unsigned bit, bool shown)
{
    uint8_t whole[STATE_BYTES];
    struct call call = {(value >> 1 & 1u) != 0 ? CALL_STEP : CALL_ATTENTION, 1, STATE_BYTES, 0, 0};
    memcpy(whole, proved.state, STATE_BYTES);
    iop89_set(proved.state, 1 + ((bit ^ value) & 1u), IOP89_CC, value ^ 1u << bit);
    share_state();
    bool same = agree_on(c, call, bit, shown);
    memcpy(proved.state, whole, STATE_BYTES);
    memcpy(emulated.state, whole, STATE_BYTES);
    return same;
}

/* How many attentions and steps were refused by 14. */
static unsigned long answered_14(void)
{
    return numbers[CALL_ATTENTION][IOP89_FIELDS_DISAGREE] + numbers[CALL_STEP][IOP89_FIELDS_DISAGREE];
}

/* Moves each of the 65,536 values to CC of channel 1, has iop89_set_cc write it to channel 2, and then calls with each
 * bit of one of them changed, which bit 9 alone may be; how many values differ. */
static unsigned every_cc(void)
{
    struct run_case c = {emulated.memory[SYS], emulated.memory[IO], PAIR_SYSTEM, PAIR_IO, 0, 1, 0, 0};
    struct call step = {CALL_STEP, 0, STATE_BYTES, 0, 0};
    unsigned differences = 0;
    unsigned long before = answered_14();
    for (uint32_t value = 0; value < 65536; value++) {
        bool shown = differences < SHOWN, same;
        stand_at_pair();
        put_movi(&c, value);
        same = agree_on(&c, step, value, shown);
        iop89_set_cc(proved.state, 2, value);
        share_state();
        for (unsigned bit = 0; bit < 16; bit++) same = agree_apart(&c, value, bit, shown) && same;
        if (same && same_memories(&proved, &emulated, LENT_BY(&c))) continue;
        if (shown) printf("DIFFERENCE at CC %04" PRIX32 "\n", value);
        differences++;
    }
    unsigned long refused = answered_14() - before;
    print_count("CC values with one bit changed, refused by 14", refused);
    if (refused != 15 * 65536) puts("this should be all bits but one");
    return differences + (refused != 15 * 65536);
}

/* ---- Every held number ---- */

/* A channel in a transfer of pairs in system memory, of stores or of fetches, that holds this number, in both sides' bytes. */
static void stand_in_pair(unsigned channel, bool stores, uint32_t held)
{
    iop89_fresh(proved.state, STATE_BYTES, 0);
    iop89_set(proved.state, channel, IOP89_MODE, IOP89_RUNNING);
    iop89_set(proved.state, channel, IOP89_PSW, EMU_PSW_TB | EMU_PSW_XF | (stores ? EMU_PSW_S : EMU_PSW_D));
    iop89_set_cc(proved.state, channel, stores ? 0xD000 : 0xC800);
    iop89_set(proved.state, channel, IOP89_GA, 0x400);
    iop89_set(proved.state, channel, IOP89_GB, 0x500);
    iop89_set(proved.state, channel, IOP89_HELD, held);
    share_state();
}

/* One step under a request with each of the 65,536 numbers held, by either channel and in either kind of pair: a first half
 * for 0, a second for 100h to 1FFh, and 17 for all others; how many differ. */
static unsigned every_held(void)
{
    struct run_case c = {emulated.memory[SYS], emulated.memory[IO], PAIR_SYSTEM, PAIR_IO, 0, 1, 0, 0};
    unsigned differences = 0;
    unsigned long before = numbers[CALL_STEP][IOP89_NO_STATE];
    for (uint32_t i = 0; i < 4 * 65536; i++) {
        struct call call = {CALL_STEP, 1 + i % 2, STATE_BYTES, 0, 0};
        bool shown = differences < SHOWN;
        stand_in_pair(1 + i % 2, i / 2 % 2 != 0, i / 4);
        if (agree_on(&c, call, i, shown) && same_memories(&proved, &emulated, LENT_BY(&c))) continue;
        if (shown) printf("DIFFERENCE at the held number %04" PRIX32 "\n", i / 4);
        differences++;
    }
    unsigned long refused = numbers[CALL_STEP][IOP89_NO_STATE] - before;
    print_count("held numbers refused by 17", refused);
    if (refused != 4 * (65536 - 257)) puts("this should be all but 0 and 100h to 1FFh");
    return differences + (refused != 4 * (65536 - 257));
}

/* ---- What was met ---- */

/* Prints how often a call answered each number that it can. */
static void print_call_numbers(enum call_kind kind, unsigned set)
{
    char heading[40];
    snprintf(heading, sizeof heading, "%s, by number:", call_names[kind]);
    print_answers(heading, numbers[kind], set);
}

/* The numbers that each call can answer, and the commands that a channel takes. */
#define FRESH_NUMBERS (1u << 0 | 1u << 10 | 1u << 17)
#define RESET_NUMBERS (1u << 0 | 1u << 17)
#define POWER_NUMBERS (1u << 0 | 1u << 2 | 1u << 11 | 1u << 17)
#define ATTENTION_NUMBERS (1u << 0 | 1u << 2 | 15u << 6 | 31u << 10 | 1u << 17)
#define STEP_NUMBERS (63u | 31u << 10 | 1u << 17)
#define BOARD_NUMBERS (255u | 1u << 9 | 3u << 11)
#define COMMANDS (0xFFu & ~(1u << 2 | 1u << 4))

/* Prints everything that was met. */
static void print_met(void)
{
    print_call_numbers(CALL_FRESH, FRESH_NUMBERS);
    print_call_numbers(CALL_RESET, RESET_NUMBERS);
    print_call_numbers(CALL_POWER, POWER_NUMBERS);
    print_call_numbers(CALL_ATTENTION, ATTENTION_NUMBERS);
    print_call_numbers(CALL_STEP, STEP_NUMBERS);
    print_call_numbers(CALL_BOARD, BOARD_NUMBERS);
    puts("accepted power-ups, by SYSBUS bit 0, SOC bit 0 and SOC bit 1:");
    for (unsigned i = 0; i < 8; i++) {
        char name[24];
        snprintf(name, sizeof name, "%u %u %u", i & 1u, i >> 1 & 1u, i >> 2);
        print_count(name, coverage.powered[i]);
    }
    print_count("power-ups of bytes that are no state, done", powered_none[1]);
    print_count("power-ups of bytes that are no state, refused", powered_none[0]);
    print_faults("17, by its cause:", faults);
    print_touched(bytes);
    print_fields(&coverage);
    print_coverage(&coverage, COMMANDS);
    print_pairs(&coverage, PAIRS_OF_ANY_KIND);
    print_held(&coverage);
    print_anew(anew);
}

/* ---- Memory that is nowhere ---- */

/* A length over the limit is 11 before any byte is looked at: these bytes are nowhere, so a call that read one would end
 * the program. How many calls answer otherwise. */
static unsigned long long too_long(void)
{
    uint8_t *nowhere = (uint8_t *)(uintptr_t)4096;
    size_t over = 0x100001;
    unsigned long long otherwise = 0;
    iop89_fresh(proved.state, STATE_BYTES, 0x12345);
    otherwise += iop89_attention(proved.state, STATE_BYTES, nowhere, over, proved.memory[IO], 0, 1) != IOP89_BAD_BUFFER;
    otherwise += iop89_step(proved.state, STATE_BYTES, nowhere, over, proved.memory[IO], 0, 0) != IOP89_BAD_BUFFER;
    otherwise += iop89_power_up(proved.state, STATE_BYTES, nowhere, over, proved.memory[IO], 0) != IOP89_BAD_BUFFER;
    otherwise += IOP89_NUMBER(iop89_board(nowhere, over, proved.memory[IO], 0, 1, 0, 1)) != IOP89_BAD_BUFFER;
    return otherwise;
}

int main(int count, char **words)
{
    struct options o = read_options(&comparison, count, words);
    emulated = new_machine();
    proved = new_machine();
    unsigned long long differences = too_long() + every_pair(o.seed) + every_cc() + every_held();
    memset(&coverage, 0, sizeof coverage); /* what was met is asked of the rows of calls */
    memset(bytes, 0, sizeof bytes);
    memset(anew, 0, sizeof anew);
    differences += compare_cases(&comparison, o, agree);
    print_options(&comparison, o);
    print_met();
    return conclude(&comparison, o, differences);
}
