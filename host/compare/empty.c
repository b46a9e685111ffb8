/* Gives every call of the service archive NULL for each of its buffers that has no bytes, singly and together, and
   holds the answers to the header. borders.c does the same for iop89_run. The text is C99 and C++ at once, so
   that the header is compiled as both. */
#include "iop89_service.h"

#include <inttypes.h>
#include <stdio.h>
#include <string.h>

/* A buffer of no bytes. */
#ifdef __cplusplus
#define NONE nullptr, 0
#else
#define NONE NULL, 0
#endif

static uint8_t sys[256], io[256], state[IOP89_STATE_LENGTH], other[IOP89_STATE_LENGTH];

/* What a sweep of the four bytes below answers: four steps, eight bytes read and stored. */
static const uint64_t swept = UINT64_C(8) << 32 | 4u << 8;

/* How many answers were not as the header has them, and how many there were. */
static unsigned wrong, tried;

/* Holds an answer to what it should be. */
static void expect(const char *what, uint64_t answer, uint64_t wanted)
{
    tried++;
    if (answer == wanted) return;
    printf("%s: %" PRIX64 ", not %" PRIX64 "\n", what, answer, wanted);
    wrong++;
}

/* Makes two fresh states and a memory with channel 1's blocks: a start in system or I/O space, a program of NOPs. */
static void prepare(uint8_t command)
{
    memset(sys, 0, sizeof sys);
    memset(io, 0, sizeof io);
    sys[0x00] = command;
    sys[0x02] = 0x10;
    sys[0x10] = 0x20;
    (void)iop89_fresh(state, sizeof state, 0);
    (void)iop89_fresh(other, sizeof other, 0);
}

/* The same with channel 1 in a block transfer of four bytes from 80h to 90h of system space. */
static void prepare_transfer(void)
{
    prepare(3);
    iop89_set(state, 1, IOP89_GA, 0x80);
    iop89_set(state, 1, IOP89_GB, 0x90);
    iop89_set(state, 1, IOP89_BC, 4);
    iop89_set_cc(state, 1, 0xC008);
    iop89_set(state, 1, IOP89_PSW, 0x44);
    iop89_set(state, 1, IOP89_MODE, IOP89_RUNNING);
}

/* No bytes are no state, whatever else is lent. */
static void test_states(void)
{
    prepare(3);
    expect("fresh", iop89_fresh(NONE, 0), IOP89_NO_STATE);
    expect("reset", iop89_reset(NONE), IOP89_NO_STATE);
    expect("power-up", iop89_power_up(NONE, sys, sizeof sys, io, sizeof io), IOP89_NO_STATE);
    expect("power-up of nothing", iop89_power_up(NONE, NONE, NONE), IOP89_NO_STATE);
    expect("attention", iop89_attention(NONE, sys, sizeof sys, io, sizeof io, 1), IOP89_NO_STATE);
    expect("attention in nothing", iop89_attention(NONE, NONE, NONE, 1), IOP89_NO_STATE);
    expect("step", iop89_step(NONE, sys, sizeof sys, io, sizeof io, 0), IOP89_NO_STATE);
    expect("step in nothing", iop89_step(NONE, NONE, NONE, 0), IOP89_NO_STATE);
    expect("sweep", iop89_sweep(NONE, sys, sizeof sys, io, sizeof io, 1, 0), IOP89_NO_STATE);
    expect("sweep in nothing", iop89_sweep(NONE, NONE, NONE, 1, 0), IOP89_NO_STATE);
}

/* Memories of no bytes, of single calls. */
static void test_memories(void)
{
    prepare(3);
    expect("power-up, no memory", iop89_power_up(state, sizeof state, NONE, NONE), IOP89_BEYOND_MEMORY);
    expect("attention, no memory", iop89_attention(state, sizeof state, NONE, NONE, 1), IOP89_BEYOND_MEMORY);
    expect("step, no memory", iop89_step(state, sizeof state, NONE, NONE, 0), IOP89_NO_CHANNEL);
    expect("sweep, no memory", iop89_sweep(state, sizeof state, NONE, NONE, 1, 0), IOP89_NOT_SWEEPABLE);
    expect("attention, no I/O", iop89_attention(state, sizeof state, sys, sizeof sys, NONE, 1), 0xA000);
    expect("NOP, no I/O", iop89_step(state, sizeof state, sys, sizeof sys, NONE, 0), 0x2500);
    expect("NOP, no memory", iop89_step(state, sizeof state, NONE, NONE, 0), IOP89_BEYOND_MEMORY);
    prepare(1);
    expect("start in I/O space", iop89_attention(state, sizeof state, sys, sizeof sys, NONE, 1), 0x8000);
    expect("its step, no I/O", iop89_step(state, sizeof state, sys, sizeof sys, NONE, 0), IOP89_NO_INSTRUCTION);
    prepare_transfer();
    expect("sweep, no system", iop89_sweep(state, sizeof state, NONE, io, sizeof io, 1, 0), IOP89_NOT_SWEEPABLE);
    expect("sweep, no I/O", iop89_sweep(state, sizeof state, sys, sizeof sys, NONE, 1, 0), swept);
    expect("board, no memory", iop89_board(NONE, NONE, 1, 0, 10), IOP89_BEYOND_MEMORY * 65536u);
    expect("board, no I/O", iop89_board(sys, sizeof sys, NONE, 1, 0, 10), IOP89_BEYOND_MEMORY * 65536u);
    expect("board, channel 3", iop89_board(NONE, NONE, 3, 0, 10), IOP89_BAD_ARGUMENT * 65536u);
}

/* Schedules of no rows, without a report, without memory. */
static void test_schedules(void)
{
    static const struct iop89_row rows[] = {{IOP89_ROW_ATTENTION, 1}, {IOP89_ROW_STEP, 0}};
    uint64_t report[IOP89_REPORT_LENGTH] = {9};
    prepare(3);
    expect("schedule of nothing", iop89_schedule(NONE, NONE, NONE, NONE, NONE), IOP89_NO_STATE);
    expect("no rows", iop89_schedule(state, sizeof state, NONE, NONE, NONE, report, 16), IOP89_DONE);
    expect("rows accepted of none", report[IOP89_ROWS_ACCEPTED], 0);
    expect("no memory", iop89_schedule(state, sizeof state, rows, 2, NONE, NONE, report, 16), IOP89_DONE);
    expect("rows refused", report[IOP89_ROWS_REFUSED], 2);
    expect("no report", iop89_schedule(state, sizeof state, rows, 2, sys, sizeof sys, NONE, NONE), IOP89_DONE);
    expect("what it did", iop89_get(state, 1, IOP89_TP), 0x22);
}

/* Calls on two processors: nothing of the other one, nothing of the one named, nothing at all. */
static void test_pairs(void)
{
    static const struct iop89_row rows[] = {{IOP89_ROW_STEP, 0}};
    size_t length = sizeof state, room = sizeof sys;
    prepare(3);
    expect("pair reset, the named one", iop89_pair_reset(1, NONE, other, length), IOP89_NO_STATE);
    expect("pair reset, the other", iop89_pair_reset(2, NONE, other, length), IOP89_DONE);
    expect("pair reset, both", iop89_pair_reset(2, NONE, NONE), IOP89_NO_STATE);
    expect("pair reset, processor 3", iop89_pair_reset(3, NONE, NONE), IOP89_BAD_ARGUMENT);
    expect("pair power-up", iop89_pair_power_up(1, state, length, NONE, NONE, NONE, NONE), IOP89_BEYOND_MEMORY);
    expect("pair attention, the named one", iop89_pair_attention(2, state, length, NONE, sys, room, io, room, NONE, 1),
           IOP89_NO_STATE);
    expect("pair attention, the other", iop89_pair_attention(1, state, length, NONE, sys, room, NONE, NONE, 1), 0xA000);
    expect("pair step, the other", iop89_pair_step(1, state, length, NONE, sys, room, NONE, NONE, 0), 0x2500);
    expect("pair step, no memory", iop89_pair_step(1, state, length, NONE, NONE, NONE, NONE, 0), IOP89_BEYOND_MEMORY);
    expect("pair schedule, no report",
           iop89_pair_schedule(1, state, length, NONE, sys, room, NONE, NONE, rows, 1, NONE), IOP89_DONE);
    expect("what it did", iop89_get(state, 1, IOP89_TP), 0x24);
    expect("pair schedule, no rows",
           iop89_pair_schedule(1, state, length, NONE, NONE, NONE, NONE, NONE, NONE), IOP89_DONE);
    prepare_transfer();
    expect("pair sweep, no memory", iop89_pair_sweep(1, state, length, NONE, NONE, NONE, NONE, 1, 0),
           IOP89_NOT_SWEEPABLE);
    expect("pair sweep, the other", iop89_pair_sweep(1, state, length, NONE, sys, room, NONE, NONE, 1, 0), swept);
    expect("pair sweep, nothing", iop89_pair_sweep(2, NONE, NONE, NONE, NONE, NONE, 1, 0), IOP89_NO_STATE);
}

/* What calls touch: of no state, in no memory, into no places. */
static void test_touches(void)
{
    uint32_t at[IOP89_PLACES];
    size_t length = sizeof state;
    prepare(3);
    expect("attention, told of nothing", iop89_touches_attention(NONE, NONE, NONE, 1, NONE), IOP89_NO_STATE);
    expect("power-up, told of nothing", iop89_touches_power_up(NONE, NONE, NONE, NONE), IOP89_NO_STATE);
    expect("step, told of nothing", iop89_touches_step(NONE, NONE, NONE, 0, NONE), IOP89_NO_STATE);
    expect("sweep, told of nothing", iop89_touches_sweep(NONE, NONE, NONE, 1, 0, NONE), IOP89_NO_STATE);
    expect("attention, told of no memory", iop89_touches_attention(state, length, NONE, NONE, 1, at, IOP89_PLACES), 0x1002);
    expect("power-up, told of no memory", iop89_touches_power_up(state, length, NONE, NONE, at, IOP89_PLACES), 0xB002);
    expect("step, told of no memory", iop89_touches_step(state, length, NONE, NONE, 0, at, IOP89_PLACES), IOP89_NO_CHANNEL);
    expect("sweep, told of no memory", iop89_touches_sweep(state, length, NONE, NONE, 1, 0, at, IOP89_PLACES),
           IOP89_NOT_SWEEPABLE);
    expect("attention, no places", iop89_touches_attention(state, length, sys, sizeof sys, NONE, 1, NONE), 0xA000);
    expect("attention, told to be done", iop89_attention(state, length, sys, sizeof sys, NONE, 1), 0xA000);
    expect("step, no places", iop89_touches_step(state, length, sys, sizeof sys, NONE, 0, NONE), 0x2500);
}

/* Texts: no text, no memory, no code, no room for lines. */
static void test_texts(void)
{
    static const uint8_t end[] = ":00000001FF\n", data[] = ":01000000AA55\n:00000001FF\n", code[] = {0x20, 0x48}, line[] = "HLT\n";
    uint8_t text[32];
    expect("load, nothing", IOP89_LOAD_NUMBER(iop89_load(NONE, NONE)), IOP89_NO_END);
    expect("load, no text", IOP89_LOAD_NUMBER(iop89_load(NONE, sys, sizeof sys)), IOP89_NO_END);
    expect("load, no memory", IOP89_LOAD_NUMBER(iop89_load(data, sizeof data - 1, NONE)), IOP89_BEYOND_MEMORY);
    expect("load of no data", IOP89_LOAD_NUMBER(iop89_load(end, sizeof end - 1, NONE)), IOP89_DONE);
    expect("list, nothing", iop89_list(NONE, 0, NONE), 0);
    expect("list, no code", iop89_list(NONE, 0, text, sizeof text), 0);
    expect("list, no room", iop89_list(code, sizeof code, 0, NONE), 0);
    expect("list", iop89_list(code, sizeof code, 0, text, sizeof text), UINT64_C(2) << 32 | 4);
    expect("assemble, nothing", iop89_assemble(NONE, 0, NONE), 0);
    expect("assemble, no text", iop89_assemble(NONE, 0, text, sizeof text), 0);
    expect("assemble, no room", iop89_assemble(line, sizeof line - 1, 0, NONE), UINT64_C(1) << 32 | IOP89_NO_ROOM);
    expect("assemble, no byte", iop89_assemble(line, 0, 0, NONE), 0);
    expect("assemble", iop89_assemble(line, sizeof line - 1, 0, text, sizeof text), UINT64_C(2) << 32);
}

int main(void)
{
    test_states();
    test_memories();
    test_schedules();
    test_pairs();
    test_touches();
    test_texts();
    expect("the service archive's version", iop89_service_version(), IOP89_VERSION);
    printf("iop89_service: %u answers, %u not as the header has them\n", tried, wrong);
    return wrong == 0 ? 0 : 1;
}
