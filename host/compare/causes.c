/* Holds what the header says of a refused call, iop89_cause and iop89_wrong_argument, to the number that the archive answers
   and to what another reader of states finds: for each byte of a state every value, for each address one over its limit, for
   each bit of CC, for each argument its borders; and iop89_beyond to 2, for each length of memory. */
#include "iop89_service.h"
#include "emulator/state_bytes.h"

#include <stdio.h>
#include <string.h>

static uint8_t sys[64], io[16];

/* How many causes were not as they should be, and how many there were. */
static unsigned wrong, tried;

/* Holds one thing to being so. */
static void expect(const char *what, size_t at, unsigned value, bool is)
{
    tried++;
    if (is) return;
    printf("%s: byte %zu, %u\n", what, at, value);
    wrong++;
}

/* The number that a step of a state is answered. */
static unsigned number_of(const uint8_t *state)
{
    uint8_t copy[IOP89_STATE_LENGTH];
    memcpy(copy, state, sizeof copy);
    return IOP89_ANSWER_NUMBER(iop89_step(copy, sizeof copy, sys, sizeof sys, io, sizeof io, 0));
}

/* One byte of a state changed to one value. */
static void test_byte(size_t at, unsigned value)
{
    uint8_t state[IOP89_STATE_LENGTH];
    struct emu_state unused;
    (void)iop89_fresh(state, sizeof state, 0);
    state[at] = (uint8_t)value;
    unsigned number = number_of(state);
    struct iop89_cause cause = iop89_cause(IOP89_NO_STATE, state, sizeof state);
    enum state_fault fault = state_from_bytes(state, sizeof state, &unused);
    expect("17 and a cause", at, value, (number == IOP89_NO_STATE) == (cause.value != cause.most));
    expect("17 and a fault", at, value, (number == IOP89_NO_STATE) == (fault != FAULT_NONE));
    if (number != IOP89_NO_STATE) return;
    expect("the byte", at, value, cause.at == at && cause.value == value);
    expect("its place", at, value, state_fault_at(fault) == at);
    expect("its channel", at, value, cause.channel == (at < 10 ? 0u : at < 57 ? 1u : 2u));
    if (fault != FAULT_VERSION) expect("the most", at, value, cause.most + 1u == state_fault_from(fault));
}

/* An address with more than 20 bits, at its place. */
static void test_pointer(size_t at)
{
    uint8_t state[IOP89_STATE_LENGTH];
    (void)iop89_fresh(state, sizeof state, 0);
    iop89_set_bytes(state, at, 4, 0x100000);
    struct iop89_cause cause = iop89_cause(IOP89_BAD_POINTER, state, sizeof state);
    expect("10", at, 0, number_of(state) == IOP89_BAD_POINTER);
    expect("the address", at, 0, cause.at == at && cause.value == 0x100000 && cause.most == 0xFFFFF);
}

/* A bit of CC changed beside its field. */
static void test_bit(unsigned channel, unsigned bit)
{
    uint8_t state[IOP89_STATE_LENGTH];
    (void)iop89_fresh(state, sizeof state, 0);
    iop89_set(state, channel, IOP89_CC, 1u << bit);
    struct iop89_cause cause = iop89_cause(IOP89_FIELDS_DISAGREE, state, sizeof state);
    expect("14", channel, bit, (number_of(state) == IOP89_FIELDS_DISAGREE) == (bit != 9));
    if (bit != 9) expect("its bit", channel, bit, cause.channel == channel && cause.fields == 1u << bit);
    iop89_set_cc(state, channel, 0xFFFF);
    expect("set with its fields", channel, bit, number_of(state) != IOP89_FIELDS_DISAGREE);
}

/* A channel that is none, in every register; and lengths that are none. */
static void test_rest(void)
{
    uint8_t state[IOP89_STATE_LENGTH], before[IOP89_STATE_LENGTH];
    memset(state, 0xA5, sizeof state);
    memcpy(before, state, sizeof state);
    const unsigned none[] = {0, 3, 0xFFFFFFFFu};
    for (size_t i = 0; i < sizeof none / sizeof none[0]; i++) {
        expect("read of no channel", 0, none[i], iop89_get(state, none[i], IOP89_TP) == 0);
        iop89_set(state, none[i], IOP89_TP, 1);
        iop89_set_cc(state, none[i], 1);
    }
    expect("set of no channel", 0, 0, memcmp(state, before, sizeof state) == 0);
    struct iop89_cause cause = iop89_cause(IOP89_NO_STATE, state, 103);
    expect("a length", 103, 0, cause.at == IOP89_STATE_LENGTH && cause.value == 103 && cause.most == IOP89_STATE_LENGTH);
}

/* With every length of system memory: what is told to be beyond, beside 2. It lies behind what is lent, and lent up to it,
 * another byte refuses the call, or none does. */
static void test_beyond(const uint8_t *state, bool step)
{
    const size_t n = IOP89_STATE_LENGTH;
    uint32_t before = IOP89_NO_PLACE, at[IOP89_PLACES];
    for (size_t lent = 0; lent <= sizeof sys; lent++) {
        iop89_answer told = step ? iop89_touches_step(state, n, sys, lent, io, sizeof io, 0, at, IOP89_PLACES)
                                 : iop89_touches_attention(state, n, sys, lent, io, sizeof io, 1, at, IOP89_PLACES);
        uint32_t place = iop89_beyond(at, IOP89_ANSWER_COUNT(told));
        bool refused = IOP89_ANSWER_NUMBER(told) == IOP89_BEYOND_MEMORY;
        expect("2 and a place", lent, place, refused == (place != IOP89_NO_PLACE));
        if (refused) expect("the place", lent, place, IOP89_PLACE_ADDRESS(place) >= lent && IOP89_PLACE_IO(place) == 0);
        if (before != IOP89_NO_PLACE && IOP89_PLACE_ADDRESS(before) < lent) expect("lent now", lent, place, place != before);
        before = place;
    }
}

/* The example of docs/MACHINE.md §17: MOV [GA].0Ah,[GB].08h of a word, in twelve lent bytes and in eleven. */
static void test_example(void)
{
    static const uint8_t code[12] = {0x03, 0x91, 0x08, 0x03, 0xCC, 0x0A};
    static const uint32_t wanted[10] = {0, 1, 2, 3, 4, 5, 8, 9, 1u << 21 | 10, 1u << 21 | 11};
    uint8_t state[IOP89_STATE_LENGTH];
    uint32_t at[IOP89_PLACES];
    (void)iop89_fresh(state, sizeof state, 0);
    iop89_set(state, 1, IOP89_MODE, IOP89_RUNNING);
    iop89_answer done = iop89_touches_step(state, sizeof state, code, 12, io, sizeof io, 0, at, IOP89_PLACES);
    expect("the example", 12, IOP89_ANSWER_COUNT(done), IOP89_ANSWER_COUNT(done) == 10 && IOP89_ANSWER_NUMBER(done) == 0);
    expect("its channel and kind", 12, 0, IOP89_ANSWER_CHANNEL(done) == 1 && IOP89_ANSWER_KIND(done) == IOP89_INSTRUCTION);
    expect("its places", 12, 0, memcmp(at, wanted, sizeof wanted) == 0);
    iop89_answer cut = iop89_touches_step(state, sizeof state, code, 11, io, sizeof io, 0, at, IOP89_PLACES);
    expect("the example cut", 11, IOP89_ANSWER_COUNT(cut), IOP89_ANSWER_COUNT(cut) == 10 && IOP89_ANSWER_NUMBER(cut) == 2);
    expect("its places", 11, 0, memcmp(at, wanted, 9 * sizeof at[0]) == 0 && at[9] == (wanted[9] | 1u << 22));
    expect("what is beyond", 11, at[9], iop89_beyond(at, 10) == at[9]);
}

/* That of an attention that starts a channel, and of the channel's first step. */
static void test_beyond_both(void)
{
    uint8_t state[IOP89_STATE_LENGTH];
    const uint8_t block[] = {3, 0, 16, 0, 0, 0}, program[] = {0x0A, 0x4F, 0x10, 0x55};
    memcpy(sys, block, sizeof block);
    memset(sys + 16, 0, 4);
    sys[16] = 32;
    memcpy(sys + 32, program, sizeof program);
    (void)iop89_fresh(state, sizeof state, 0);
    test_beyond(state, false);
    (void)iop89_attention(state, sizeof state, sys, sizeof sys, io, sizeof io, 1);
    test_beyond(state, true);
}

/* Arguments about their borders: which of them is said to be wrong, beside whether the call that has it answers 12. A step of
 * two processors has the first and the third, an attention of two the first two, a board's run the last three. */
static void test_arguments(uint32_t processor, uint32_t channel, uint32_t lines, uint32_t limit)
{
    uint8_t one[IOP89_STATE_LENGTH], two[IOP89_STATE_LENGTH];
    const size_t n = IOP89_STATE_LENGTH, length = sizeof sys;
    (void)iop89_fresh(one, n, 0);
    (void)iop89_fresh(two, n, 0);
    unsigned step = IOP89_ANSWER_NUMBER(iop89_pair_step(processor, one, n, two, n, sys, length, io, sizeof io, io, 0, lines));
    unsigned attention =
        IOP89_ANSWER_NUMBER(iop89_pair_attention(processor, one, n, two, n, sys, length, io, sizeof io, io, 0, channel));
    unsigned run = IOP89_NUMBER(iop89_board(sys, length, io, sizeof io, channel, lines, limit));
    expect("12 of a step", processor, lines, (step == 12) == (iop89_wrong_argument(processor, 1, lines, 0) != 0));
    expect("12 of attention", processor, channel, (attention == 12) == (iop89_wrong_argument(processor, channel, 0, 0) != 0));
    expect("12 of a run", channel, lines, (run == 12) == (iop89_wrong_argument(1, channel, lines, limit) != 0));
    bool first = processor != 1 && processor != 2, second = channel != 1 && channel != 2;
    enum iop89_argument rest = lines > 15 ? IOP89_LINES : limit > 65535 ? IOP89_LIMIT : IOP89_NO_ARGUMENT;
    enum iop89_argument wanted = first ? IOP89_PROCESSOR : second ? IOP89_CHANNEL : rest;
    expect("which of four", channel, lines, iop89_wrong_argument(processor, channel, lines, limit) == wanted);
}

/* Each border of each argument with each of the others. */
static void test_borders(void)
{
    const uint32_t numbers[] = {0, 1, 2, 3, 0xFFFFFFFFu}, lines[] = {0, 15, 16, 0xFFFFFFFFu}, limits[] = {0, 65535, 65536};
    for (size_t i = 0; i < 5 * 5 * 4 * 3; i++)
        test_arguments(numbers[i % 5], numbers[i / 5 % 5], lines[i / 25 % 4], limits[i / 100]);
}

int main(void)
{
    for (size_t at = 0; at < IOP89_STATE_LENGTH; at++)
        for (unsigned value = 0; value < 256; value++) test_byte(at, value);
    test_pointer(IOP89_AT_CP);
    for (unsigned channel = 1; channel <= 2; channel++) {
        for (unsigned i = 0; i < 5; i++) test_pointer(IOP89_AT_CHANNEL(channel) + 5 * (size_t)i);
        for (unsigned bit = 0; bit < 16; bit++) test_bit(channel, bit);
    }
    test_rest();
    test_borders();
    test_beyond_both();
    test_example();
    printf("causes: %u told, %u not as they should be\n", tried, wrong);
    return wrong != 0;
}
