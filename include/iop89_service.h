/* The calls by which a host program drives the proved stand-in for the 8089 I/O processor one attention and one step at
 * a time. A machine's state lives in the caller's own bytes: to save a machine, copy them. */
#ifndef IOP89_SERVICE_H
#define IOP89_SERVICE_H

#include "iop89.h"

#ifdef __cplusplus
extern "C" {
#endif

/* The version of the archive libiop89_service.a; it is IOP89_VERSION where header and archive belong together. */
uint32_t iop89_service_version(void);

/* How many bytes a state has, and the version that its first byte holds: a layout with more fields has a higher one. */
#define IOP89_STATE_LENGTH 104u
#define IOP89_STATE_VERSION 4u

/* The number for an attention, a step or a sweep before power-up. A state from a CP counts as powered up. */
#define IOP89_NOT_POWERED_UP 13u

/* The number for an attention, a step or a sweep of a state in which CC of a channel, whatever its mode, and the fields
 * beside it disagree, directly after 13. MOV and MOVI to CC renew the fields; who sets CC in a state's bytes has
 * iop89_set_cc. */
#define IOP89_FIELDS_DISAGREE 14u

/* The number for a sweep whose conditions are not met: see iop89_sweep. */
#define IOP89_NOT_SWEEPABLE 15u

/* The number for a schedule with a row of unknown kind: see iop89_schedule. */
#define IOP89_UNKNOWN_ROW 16u

/* The number for bytes that are no state: of another length or version, or with a mode, flag, field or held byte out of
 * range. */
#define IOP89_NO_STATE 17u

/* The parts of an answer: the number; of a done step the channel (1 or 2) and what it did, else both 0; and of a done
 * power-up, attention or step how many bytes of both memories it read and stored, each access of each byte counted once,
 * else 0. A power-up counts 11, an attention 1 to 10, an instruction 2 to 10, a transfer step 1 to 4, an external end 0. */
IOP89_ANSWER_TYPE(iop89_answer, uint32_t)
#define IOP89_ANSWER_NUMBER(answer) iop89_answer_part(answer, 0, 0xFFu)
#define IOP89_ANSWER_CHANNEL(answer) iop89_answer_part(answer, 8, 3u)
#define IOP89_ANSWER_KIND(answer) iop89_answer_part(answer, 10, 3u)
#define IOP89_ANSWER_COUNT(answer) iop89_answer_part(answer, 12, 15u)

static inline uint32_t iop89_answer_part(iop89_answer answer, unsigned from, uint32_t mask)
{
    return IOP89_BITS(answer) >> from & mask;
}

/* What a done step was. */
enum iop89_kind { IOP89_NONE = 0, IOP89_INSTRUCTION = 1, IOP89_TRANSFER = 2, IOP89_EXTERNAL_END = 3 };

/* Makes the state of a machine whose control block is at cp. Answers 17 for another length than IOP89_STATE_LENGTH, and 10,
 * with the state for 0, where cp has more than 20 bits. Looks at the length alone, and at none of the bytes that stood
 * there. */
iop89_answer iop89_fresh(uint8_t *state, size_t state_len, uint32_t cp);

/* Makes the state after reset, in which only power-up is allowed: every attention, step and sweep is 13. Answers 0, or 17
 * for another length. Looks at the length alone, as iop89_fresh does. */
iop89_answer iop89_reset(uint8_t *state, size_t state_len);

/* Powers the machine up: SYSBUS is read at FFFF6h of system memory, the configuration block's pointer at FFFF8h, SOC and
 * CP in that block, and BUSY of channel 1 is cleared. Answers 11, or 2 where one of these eleven bytes is not lent;
 * otherwise the state is the fresh one of the CP found, with SYSBUS bit 0 and SOC bits 0 and 1. Looks at the length
 * alone, as iop89_fresh does; refused, it leaves the bytes as they were. */
iop89_answer iop89_power_up(uint8_t *state, size_t state_len, uint8_t *sys, size_t sys_len, uint8_t *io, size_t io_len);

/* Gives a channel one attention. */
iop89_answer iop89_attention(uint8_t *state, size_t state_len, uint8_t *sys, size_t sys_len, uint8_t *io, size_t io_len,
                             uint32_t channel);

/* Does one step under these lines: an instruction, a transfer step or an external end of one channel. Of two bytes that
 * a transfer under requests takes singly on the side that asks for them, each has a step and a request of its own, and
 * between them the channel holds a byte: IOP89_HELD. */
iop89_answer iop89_step(uint8_t *state, size_t state_len, uint8_t *sys, size_t sys_len, uint8_t *io, size_t io_len,
                        uint32_t lines);

/* The low half of a 64-bit number, by the cast that each language likes. */
#ifdef __cplusplus
#define IOP89_LOW_32(number) static_cast<uint32_t>(number)
#else
#define IOP89_LOW_32(number) ((uint32_t)(number))
#endif

/* The parts of a sweep's answer. */
IOP89_ANSWER_TYPE(iop89_sweep_answer, uint64_t)
#define IOP89_SWEEP_NUMBER(answer) iop89_sweep_number(answer)
#define IOP89_SWEEP_STEPS(answer) iop89_sweep_steps(answer)
#define IOP89_SWEEP_COUNT(answer) iop89_sweep_count(answer)

static inline uint32_t iop89_sweep_number(iop89_sweep_answer answer)
{
    return IOP89_LOW_32(IOP89_BITS(answer)) & 0xFFu;
}

static inline uint32_t iop89_sweep_steps(iop89_sweep_answer answer)
{
    return IOP89_LOW_32(IOP89_BITS(answer)) >> 8;
}

static inline uint32_t iop89_sweep_count(iop89_sweep_answer answer)
{
    return IOP89_LOW_32(IOP89_BITS(answer) >> 32);
}

/*
 * Moves in one call every byte that a block transfer of the channel has left, and leaves what the plain steps under
 * these lines would have left: state, both memories, steps and count. Answers 15, and changes nothing, unless
 *   no EXT line is up, neither channel's (DRQ lines are free), and the other channel is idle or suspended;
 *   the channel runs with XF set, both sides move on, SYN 00, no translation, TBC on, TMC's low two bits 00, TX 00, TS 0;
 *   both ranges, of BC bytes or of 65,536 where BC is 0, are lent without wrapping, and share no byte.
 * Its parts by the macros above: the number; of a done sweep the steps that it stands for, 1 to 65,536, and how many
 * bytes it read and stored, two for each byte moved; else both 0.
 */
iop89_sweep_answer iop89_sweep(uint8_t *state, size_t state_len, uint8_t *sys, size_t sys_len, uint8_t *io, size_t io_len,
                               uint32_t channel, uint32_t lines);

/* A row of a schedule: its kind, and the channel that an attention goes to or the line number of a step. */
struct iop89_row {
    uint32_t kind, value;
};

/* The kinds of rows; 0 and all from 3 on are unknown. */
enum iop89_row_kind { IOP89_ROW_ATTENTION = 1, IOP89_ROW_STEP = 2 };

/* How many counts a report has, and the place of each: rows over all, then what belongs to channel 1 and to channel 2. */
#define IOP89_REPORT_LENGTH 16u
enum iop89_report {
    IOP89_ROWS_ACCEPTED = 0,
    IOP89_ROWS_REFUSED = 1,
    IOP89_ATTENTIONS_ACCEPTED_1 = 2,
    IOP89_ATTENTIONS_REFUSED_1 = 3,
    IOP89_INSTRUCTIONS_1 = 4,
    IOP89_TRANSFER_STEPS_1 = 5,
    IOP89_BYTES_STORED_1 = 6,
    IOP89_EXTERNAL_ENDS_1 = 7,
    IOP89_WAITING_ROWS_1 = 8,
    IOP89_ATTENTIONS_ACCEPTED_2 = 9,
    IOP89_ATTENTIONS_REFUSED_2 = 10,
    IOP89_INSTRUCTIONS_2 = 11,
    IOP89_TRANSFER_STEPS_2 = 12,
    IOP89_BYTES_STORED_2 = 13,
    IOP89_EXTERNAL_ENDS_2 = 14,
    IOP89_WAITING_ROWS_2 = 15
};

/* The place of a count, named as channel 1's, for a channel, 1 or 2. */
#define IOP89_REPORT_AT(channel, count) ((count) + 7u * ((channel) - 1u))

/*
 * Runs the rows in order, each as iop89_attention or iop89_step would, and counts what they did. A refused row changes
 * nothing, is counted, and the next one follows. Answers 0; 17 first, for bytes that are no state; or 16 where a row is
 * of unknown kind, which is found before the first row is run. No other number is answered, and nothing else is tested
 * before the first row.
 *   state, state_len     the state that the first row is given; the last one leaves its own there
 *   rows, row_count      the rows, any number of them; they are only read
 *   report, report_len   gets the counts, whatever stood there: of a report shorter than 16 those that have room are
 *                        written, of a longer one the rest stays. With 16 and 17 they are zeros, and state and memories
 *                        stay.
 * The counts: instructions, transfer steps and external ends are done ones, halves are transfer steps each. Stored are the
 * bytes that transfer steps stored, those into empty slots too. A waiting row is a step with a line number up to 15 that
 * found the channel running with XF, SYN 01 or 10 by its field, and its DRQ down, whatever became of the row; one row can
 * be so for both channels. A refused step belongs to no channel, nor does an attention to one that is neither 1 nor 2:
 * these count over all only. Accepted and refused rows add up to row_count.
 * A schedule of known kinds that is cut in two, the second call with what the first left, leaves the same, and the two
 * reports add up to that of the whole.
 * Rows and report are aligned as C aligns them and overlap no other buffer.
 */
iop89_answer iop89_schedule(uint8_t *state, size_t state_len, const struct iop89_row *rows, size_t row_count, uint8_t *sys,
                            size_t sys_len, uint8_t *io, size_t io_len, uint64_t *report, size_t report_len);

/* The run of iop89.h with reset and power-up in the place of a CP: 12, 11, power-up's 2, then one attention and steps.
 * The answer is iop89_run's. With 12, 11 and power-up's 2 no byte has changed; where the attention is refused, BUSY of
 * channel 1 is cleared, as power-up left it. */
iop89_run_answer iop89_board(uint8_t *sys, size_t sys_len, uint8_t *io, size_t io_len, uint32_t channel, uint32_t lines,
                             uint32_t limit);

/* ---- What a call touches, told before it is made ---- */

/* The most places that a call has, and the parts of one: where the byte lies, whether in I/O space, whether it is stored, and
 * whether it is the one at which a call that is refused by 2 stops. */
#define IOP89_PLACES 11u
#define IOP89_PLACE_ADDRESS(place) ((place) & 0xFFFFFu)
#define IOP89_PLACE_IO(place) ((place) >> 20 & 1u)
#define IOP89_PLACE_STORE(place) ((place) >> 21 & 1u)
#define IOP89_PLACE_BEYOND(place) ((place) >> 22 & 1u)

iop89_answer iop89_touches_attention(const uint8_t *state, size_t state_len, const uint8_t *sys, size_t sys_len,
                                     const uint8_t *io, size_t io_len, uint32_t channel, uint32_t *places, size_t room);

iop89_answer iop89_touches_power_up(const uint8_t *state, size_t state_len, const uint8_t *sys, size_t sys_len,
                                    const uint8_t *io, size_t io_len, uint32_t *places, size_t room);

iop89_answer iop89_touches_step(const uint8_t *state, size_t state_len, const uint8_t *sys, size_t sys_len,
                                const uint8_t *io, size_t io_len, uint32_t lines, uint32_t *places, size_t room);

iop89_answer iop89_touches_sweep(const uint8_t *state, size_t state_len, const uint8_t *sys, size_t sys_len,
                                 const uint8_t *io, size_t io_len, uint32_t channel, uint32_t lines, uint32_t *places,
                                 size_t room);

/* The place told that is beyond, where a call is refused by 2; IOP89_NO_PLACE where none is. */
#define IOP89_NO_PLACE 0xFFFFFFFFu
static inline uint32_t iop89_beyond(const uint32_t *places, size_t count)
{
    for (size_t i = 0; i < count; i++)
        if (IOP89_PLACE_BEYOND(places[i]) != 0) return places[i];
    return IOP89_NO_PLACE;
}

/* ---- Two processors on one board: one system memory, and each its own state, I/O memory and control block ---- */

/*
 * Each call below is the single call of its name on the processor that it names, 1 or 2: that one's state, system memory
 * and its own I/O memory. The other's state and I/O memory are neither changed nor looked at: they may be bytes that are
 * no state, a state that is unsound, disagrees or is not powered up, and I/O memory over its limit.
 *   processor                 1 or 2. Any other is 12 before every other number, 17 too, since it names no state; a
 *                             schedule's report then gets zeros, as with 16 and 17
 *   state_1, state_2          the two states
 *   sys                       the system memory of both
 *   io_1, io_2                the I/O memory of each; they may be of different lengths
 * What follows, the answer and every other number are the single call's. Nothing is refused for equal CPs or for control
 * blocks that overlap. Both power up from the same FFFF6h: a host that wants two control blocks changes the pointer
 * between the two power-ups.
 */
iop89_answer iop89_pair_attention(uint32_t processor, uint8_t *state_1, size_t state_1_len, uint8_t *state_2,
                                  size_t state_2_len, uint8_t *sys, size_t sys_len, uint8_t *io_1, size_t io_1_len,
                                  uint8_t *io_2, size_t io_2_len, uint32_t channel);

iop89_answer iop89_pair_step(uint32_t processor, uint8_t *state_1, size_t state_1_len, uint8_t *state_2, size_t state_2_len,
                             uint8_t *sys, size_t sys_len, uint8_t *io_1, size_t io_1_len, uint8_t *io_2, size_t io_2_len,
                             uint32_t lines);

iop89_answer iop89_pair_power_up(uint32_t processor, uint8_t *state_1, size_t state_1_len, uint8_t *state_2,
                                 size_t state_2_len, uint8_t *sys, size_t sys_len, uint8_t *io_1, size_t io_1_len,
                                 uint8_t *io_2, size_t io_2_len);

iop89_answer iop89_pair_reset(uint32_t processor, uint8_t *state_1, size_t state_1_len, uint8_t *state_2,
                              size_t state_2_len);

iop89_sweep_answer iop89_pair_sweep(uint32_t processor, uint8_t *state_1, size_t state_1_len, uint8_t *state_2,
                                    size_t state_2_len, uint8_t *sys, size_t sys_len, uint8_t *io_1, size_t io_1_len,
                                    uint8_t *io_2, size_t io_2_len, uint32_t channel, uint32_t lines);

iop89_answer iop89_pair_schedule(uint32_t processor, uint8_t *state_1, size_t state_1_len, uint8_t *state_2,
                                 size_t state_2_len, uint8_t *sys, size_t sys_len, uint8_t *io_1, size_t io_1_len,
                                 uint8_t *io_2, size_t io_2_len, const struct iop89_row *rows, size_t row_count,
                                 uint64_t *report, size_t report_len);

/* Of the calls on a state: 17 comes before every other number, but for 12 of a processor that is neither 1 nor 2, and a
 * refused call changes no byte, but for iop89_fresh with 10 and a schedule's report.
 * Of every call in this header: its buffers, all five of a pair's too, must not overlap each other. Where a length is 0
 * the pointer may be NULL, as iop89.h says of iop89_run. */

/* ---- Where the bytes of a state are; numbers stand little end first ---- */

/* What both channels share: CP in four bytes, and which channel stepped last, 0 for channel 1 and 1 for channel 2. */
#define IOP89_AT_VERSION 0u
#define IOP89_AT_CP 1u
#define IOP89_AT_LAST 5u

/* What the board set up, a byte each, 0 or 1: powered up; SYSBUS bit 0 and SOC bit 0, the physical widths of the system
 * bus and of the I/O bus, 1 for 16 bits; and SOC bit 1. */
#define IOP89_AT_POWERED 6u
#define IOP89_AT_SYSBUS 7u
#define IOP89_AT_SOC 8u
#define IOP89_AT_SOC_1 9u

/* Where the block of a channel, 1 or 2, starts, and its length. */
#define IOP89_BLOCK_LENGTH 47u
#define IOP89_AT_CHANNEL(channel) (10u + IOP89_BLOCK_LENGTH * ((channel) - 1u))

/* The registers of a channel, by their offsets in its block. */
enum iop89_register {
    IOP89_GA = 0,       /* pointers: an address of four bytes, and a tag of one, 0 for system and 1 for I/O space */
    IOP89_GA_TAG = 4,
    IOP89_GB = 5,
    IOP89_GB_TAG = 9,
    IOP89_GC = 10,
    IOP89_GC_TAG = 14,
    IOP89_TP = 15,
    IOP89_TP_TAG = 19,
    IOP89_PP = 20,      /* four bytes */
    IOP89_BC = 24,      /* two bytes each */
    IOP89_IX = 26,
    IOP89_CC = 28,
    IOP89_MC = 30,
    IOP89_PSW = 32,     /* one byte each */
    IOP89_MODE = 33,
    IOP89_ARMED = 34,
    IOP89_DESTINATION_MOVES = 35, /* the fields of CC, one byte each: bit 15 */
    IOP89_SOURCE_MOVES = 36,      /* 14 */
    IOP89_TRANSLATE = 37,         /* 13 */
    IOP89_SYN = 38,               /* 12 and 11 */
    IOP89_SOURCE_IS_GB = 39,      /* 10; bit 9 is in no field */
    IOP89_CHAINED = 40,           /* 8 */
    IOP89_TS = 41,                /* 7 */
    IOP89_TX = 42,                /* 6 and 5 */
    IOP89_TBC = 43,               /* 4 and 3 */
    IOP89_TMC = 44,               /* 2 to 0 */
    IOP89_HELD = 45     /* two bytes: 0 where no byte is held, IOP89_HELD_BYTE of it where one is, and nothing else */
};

/* What IOP89_HELD is while a byte is held: 100h and the byte. */
#define IOP89_HELD_BYTE(byte) (0x100u | ((byte) & 0xFFu))

/* What a channel is doing. */
enum iop89_mode { IOP89_IDLE = 0, IOP89_RUNNING = 1, IOP89_SUSPENDED = 2 };

/* How many bytes a register has. */
static inline size_t iop89_width(enum iop89_register which)
{
    switch (which) {
    case IOP89_GA: case IOP89_GB: case IOP89_GC: case IOP89_TP: case IOP89_PP: return 4;
    case IOP89_BC: case IOP89_IX: case IOP89_CC: case IOP89_MC: case IOP89_HELD: return 2;
    default: return 1;
    }
}

/* The number of some bytes of a state. */
static inline uint32_t iop89_bytes(const uint8_t *state, size_t at, size_t width)
{
    uint32_t value = 0;
    while (width-- > 0) value = value << 8 | state[at + width];
    return value;
}

/* Some bytes of a state made those of a number; what does not fit is lost. */
static inline void iop89_set_bytes(uint8_t *state, size_t at, size_t width, uint32_t value)
{
    for (size_t i = 0; i < width; i++, value >>= 8) state[at + i] = value & 0xFFu;
}

/* A register of a channel, 1 or 2, read and set; of any other channel 0 is read and nothing is set. A tag, mode, mark,
 * field or held byte out of range makes the next call answer 17, unless that call is iop89_fresh or iop89_reset, which
 * look at none of them.
 * iop89_set with IOP89_CC writes CC alone, and the fields stay: see iop89_set_cc. */
static inline uint32_t iop89_get(const uint8_t *state, unsigned channel, enum iop89_register which)
{
    if (channel != 1u && channel != 2u) return 0;
    return iop89_bytes(state, IOP89_AT_CHANNEL(channel) + IOP89_LOW_32(which), iop89_width(which));
}

static inline void iop89_set(uint8_t *state, unsigned channel, enum iop89_register which, uint32_t value)
{
    if (channel != 1u && channel != 2u) return;
    iop89_set_bytes(state, IOP89_AT_CHANNEL(channel) + IOP89_LOW_32(which), iop89_width(which), value);
}

/* CC of a channel set with its fields, as MOVI to CC does it. */
static inline void iop89_set_cc(uint8_t *state, unsigned channel, uint32_t value)
{
    iop89_set(state, channel, IOP89_CC, value);
    iop89_set(state, channel, IOP89_DESTINATION_MOVES, value >> 15 & 1u);
    iop89_set(state, channel, IOP89_SOURCE_MOVES, value >> 14 & 1u);
    iop89_set(state, channel, IOP89_TRANSLATE, value >> 13 & 1u);
    iop89_set(state, channel, IOP89_SYN, value >> 11 & 3u);
    iop89_set(state, channel, IOP89_SOURCE_IS_GB, value >> 10 & 1u);
    iop89_set(state, channel, IOP89_CHAINED, value >> 8 & 1u);
    iop89_set(state, channel, IOP89_TS, value >> 7 & 1u);
    iop89_set(state, channel, IOP89_TX, value >> 5 & 3u);
    iop89_set(state, channel, IOP89_TBC, value >> 3 & 3u);
    iop89_set(state, channel, IOP89_TMC, value & 7u);
}

/* The control block's address. */
static inline uint32_t iop89_cp(const uint8_t *state)
{
    return iop89_bytes(state, IOP89_AT_CP, 4);
}

static inline void iop89_set_cp(uint8_t *state, uint32_t cp)
{
    iop89_set_bytes(state, IOP89_AT_CP, 4, cp);
}

/* The number of the channel that stepped last. */
static inline unsigned iop89_last(const uint8_t *state)
{
    return state[IOP89_AT_LAST] + 1u;
}

static inline void iop89_set_last(uint8_t *state, unsigned channel)
{
    state[IOP89_AT_LAST] = (channel - 1u) & 0xFFu;
}

/* A number of these calls in words; those that a run meets in another way have their own here. */
static inline const char *iop89_service_words(unsigned number)
{
    switch (number) {
    case IOP89_DONE: return "done";
    case IOP89_NO_CHANNEL: return "no channel can run";
    case IOP89_NOT_SUSPENDED: return "resume, and the channel is not suspended";
    case IOP89_ALREADY_RUNNING: return "start, and the channel runs";
    case IOP89_NOT_RUNNING: return "suspend, and the channel does not run";
    case IOP89_BAD_POINTER: return "a pointer, PP or CP of the state is over 1,048,575";
    case IOP89_BAD_ARGUMENT: return "the processor or the channel is neither 1 nor 2, or the line number over 15";
    default: return iop89_words(number);
    }
}

/* ---- Why a call was refused, in parts ---- */

/* What refused a call on a state: of 17 the byte of the state, its value, and the most that it may be; of 10 the same of
 * an address of four bytes; of 14 the bits of CC whose fields differ. The channel is 0 where it is about neither, and all
 * is 0 for any other number and for bytes that are a state. A length that is none has `at` IOP89_STATE_LENGTH. Which argument
 * refused a call by 12 iop89_wrong_argument says; the address that refused one by 2 the tool iop89 names. */
struct iop89_cause {
    unsigned channel;
    size_t at;
    uint32_t value, most, fields;
};

/* The most that a byte of a block may be, for 17; the version, and what is held, are tested apart. */
static inline uint32_t iop89_most_in_block(size_t offset)
{
    if (offset == IOP89_GA_TAG || offset == IOP89_GB_TAG || offset == IOP89_GC_TAG || offset == IOP89_TP_TAG) return 1;
    if (offset == IOP89_MODE) return 2;
    if (offset == IOP89_SYN || offset == IOP89_TX || offset == IOP89_TBC) return 3;
    if (offset == IOP89_TMC) return 7;
    if (offset >= IOP89_ARMED && offset <= IOP89_TS) return 1;
    return offset == IOP89_HELD + 1u ? 1 : 255;
}

/* The most that a byte of a state may be, seen with those behind it. */
static inline uint32_t iop89_most_at(const uint8_t *state, size_t at)
{
    size_t offset = at < IOP89_AT_CHANNEL(1u) ? 0 : (at - IOP89_AT_CHANNEL(1u)) % IOP89_BLOCK_LENGTH;
    if (at == IOP89_AT_VERSION) return IOP89_STATE_VERSION;
    if (at < IOP89_AT_CHANNEL(1u)) return at >= IOP89_AT_LAST ? 1 : 255;
    if (offset == IOP89_HELD && state[at + 1] == 0) return 0;
    return iop89_most_in_block(offset);
}

/* Which channel a byte of a state belongs to, or 0. */
static inline unsigned iop89_channel_at(size_t at)
{
    return at < IOP89_AT_CHANNEL(1u) ? 0 : at < IOP89_AT_CHANNEL(2u) ? 1 : 2;
}

/* The first byte that makes some bytes no state. */
static inline struct iop89_cause iop89_no_state(const uint8_t *state, size_t state_len)
{
    struct iop89_cause cause = {0, IOP89_STATE_LENGTH, IOP89_LOW_32(state_len), IOP89_STATE_LENGTH, 0};
    if (state_len != IOP89_STATE_LENGTH) return cause;
    for (size_t at = 0; at < IOP89_STATE_LENGTH; at++) {
        uint32_t most = iop89_most_at(state, at);
        if (state[at] <= most && (at != IOP89_AT_VERSION || state[at] == most)) continue;
        struct iop89_cause found = {iop89_channel_at(at), at, state[at], most, 0};
        return found;
    }
    struct iop89_cause none = {0, 0, 0, 0, 0};
    return none;
}

/* The first address of a state that has more than 20 bits: CP, then GA, GB, GC, TP and PP of each channel. */
static inline struct iop89_cause iop89_bad_pointer(const uint8_t *state)
{
    for (size_t i = 0; i < 11; i++) {
        size_t at = i == 0 ? IOP89_AT_CP : IOP89_AT_CHANNEL(1u) + (i - 1) / 5 * IOP89_BLOCK_LENGTH + (i - 1) % 5 * 5;
        uint32_t value = iop89_bytes(state, at, 4);
        if (value <= IOP89_CP_LIMIT) continue;
        struct iop89_cause found = {iop89_channel_at(at), at, value, IOP89_CP_LIMIT, 0};
        return found;
    }
    struct iop89_cause none = {0, 0, 0, 0, 0};
    return none;
}

/* The bits of CC whose fields, kept beside it, are others. */
static inline uint32_t iop89_fields_apart(const uint8_t *state, unsigned channel)
{
    uint32_t fields = iop89_get(state, channel, IOP89_DESTINATION_MOVES) << 15;
    fields |= iop89_get(state, channel, IOP89_SOURCE_MOVES) << 14;
    fields |= iop89_get(state, channel, IOP89_TRANSLATE) << 13;
    fields |= iop89_get(state, channel, IOP89_SYN) << 11;
    fields |= iop89_get(state, channel, IOP89_SOURCE_IS_GB) << 10;
    fields |= iop89_get(state, channel, IOP89_CHAINED) << 8;
    fields |= iop89_get(state, channel, IOP89_TS) << 7;
    fields |= iop89_get(state, channel, IOP89_TX) << 5;
    fields |= iop89_get(state, channel, IOP89_TBC) << 3;
    fields |= iop89_get(state, channel, IOP89_TMC);
    return (fields ^ iop89_get(state, channel, IOP89_CC)) & 0xFDFFu;
}

/* Why an attention, a step or a sweep of this state was refused by 10, 14 or 17. */
static inline struct iop89_cause iop89_cause(unsigned number, const uint8_t *state, size_t state_len)
{
    struct iop89_cause cause = {0, 0, 0, 0, 0};
    if (number == IOP89_NO_STATE) return iop89_no_state(state, state_len);
    if (number == IOP89_BAD_POINTER) return iop89_bad_pointer(state);
    if (number != IOP89_FIELDS_DISAGREE) return cause;
    cause.channel = iop89_fields_apart(state, 1) != 0 ? 1 : 2;
    cause.at = IOP89_AT_CHANNEL(cause.channel) + IOP89_CC;
    cause.value = iop89_get(state, cause.channel, IOP89_CC);
    cause.fields = iop89_fields_apart(state, cause.channel);
    return cause;
}

/* ---- PROM files: Intel hexadecimal object files with segmented addresses ---- */

/* The numbers of iop89_load besides 0, 2 and 11. */
enum iop89_load_refusal {
    IOP89_NO_RECORD = 20, /* a line is no record */
    IOP89_BAD_CHECK = 21, /* its bytes do not sum to 0 mod 256 */
    IOP89_BAD_TYPE = 22,  /* its type is none of 00 to 03, or its length does not fit its type */
    IOP89_NO_END = 23     /* there is no end record */
};

/* The parts of its answer. */
IOP89_ANSWER_TYPE(iop89_load_answer, uint64_t)
#define IOP89_LOAD_NUMBER(answer) iop89_load_number(answer)
#define IOP89_LOAD_START(answer) iop89_load_start(answer)
#define IOP89_LOAD_LINE(answer) iop89_load_line(answer)

static inline unsigned iop89_load_number(iop89_load_answer answer)
{
    return IOP89_BITS(answer) & 0xFFu;
}

static inline uint32_t iop89_load_start(iop89_load_answer answer)
{
    return IOP89_BITS(answer) >> 8 & 0xFFFFFu;
}

static inline uint32_t iop89_load_line(iop89_load_answer answer)
{
    return IOP89_LOW_32(IOP89_BITS(answer) >> 32);
}

/*
 * Reads a text into system memory from address 0 on, whole or not at all. Its parts by the macros above: the number;
 * the line, that of the first bad record, for 23 how many lines there are, for 2 that of the first record with a byte
 * beyond memory, else 0; and the last start address that the file gives, 0 where there is none or it is refused.
 * The two buffers must not overlap; where a length is 0 the pointer may be NULL.
 */
iop89_load_answer iop89_load(const uint8_t *text, size_t text_len, uint8_t *sys, size_t sys_len);


/* A number of iop89_load in words. */
static inline const char *iop89_load_words(unsigned number)
{
    switch (number) {
    case IOP89_DONE: return "loaded";
    case IOP89_NO_RECORD: return "no record";
    case IOP89_BAD_CHECK: return "the check byte is wrong";
    case IOP89_BAD_TYPE: return "a type that is none, or a length that does not fit its type";
    case IOP89_NO_END: return "no end record";
    default: return iop89_words(number);
    }
}

/* ---- Listings: channel programs in the maker's notation ---- */

/* The parts of its answer. */
IOP89_ANSWER_TYPE(iop89_list_answer, uint64_t)
#define IOP89_LIST_CHARACTERS(answer) iop89_list_characters(answer)
#define IOP89_LIST_STOP(answer) iop89_list_stop(answer)

static inline uint32_t iop89_list_characters(iop89_list_answer answer)
{
    return IOP89_LOW_32(IOP89_BITS(answer));
}

static inline uint32_t iop89_list_stop(iop89_list_answer answer)
{
    return IOP89_LOW_32(IOP89_BITS(answer) >> 32);
}

/*
 * Lists the instructions of some bytes, one a line, into a text buffer; docs/MACHINE.md has the notation. Jump targets
 * count from `first`, the address of the first byte, mod 65,536. A line is written whole or not at all: before the first
 * that has no room it stops, and the rest of the buffer stays. Its parts by the macros above: how many characters were
 * written, and at which byte it stopped; that is code_len, or 1,048,576 where more were lent, if every line had room.
 * Nothing is refused. The two buffers must not overlap; where a length is 0 the pointer may be NULL.
 */
iop89_list_answer iop89_list(const uint8_t *code, size_t code_len, uint32_t first, uint8_t *text, size_t text_len);

/* ---- Assembling: the lines of a listing, with labels, data and comments, back to bytes ---- */

/* The numbers of iop89_assemble besides 0; a line has the lowest that applies. */
enum iop89_asm_refusal {
    IOP89_UNKNOWN_WORD = 30, /* where a word must stand is none */
    IOP89_BAD_OPERANDS = 31, /* the operands have no form of the word */
    IOP89_TOO_DEEP = 32,     /* they have, with more than 8 parentheses open at once */
    IOP89_BAD_LABEL = 33,    /* a label unknown, twice, a word or a register, over 12 characters, or the 65th */
    IOP89_OUT_OF_REACH = 34, /* a target too far, or a number that its place cannot hold */
    IOP89_NO_ROOM = 35       /* a byte of the line lies beyond the room */
};

/* The parts of its answer. */
IOP89_ANSWER_TYPE(iop89_asm_answer, uint64_t)
#define IOP89_ASM_NUMBER(answer) iop89_asm_number(answer)
#define IOP89_ASM_LINE(answer) iop89_asm_line(answer)
#define IOP89_ASM_STORED(answer) iop89_asm_stored(answer)

static inline unsigned iop89_asm_number(iop89_asm_answer answer)
{
    return IOP89_BITS(answer) & 0xFFu;
}

static inline uint32_t iop89_asm_line(iop89_asm_answer answer)
{
    return iop89_asm_number(answer) == IOP89_DONE ? 0u : IOP89_LOW_32(IOP89_BITS(answer) >> 32);
}

static inline uint32_t iop89_asm_stored(iop89_asm_answer answer)
{
    return iop89_asm_number(answer) == IOP89_DONE ? IOP89_LOW_32(IOP89_BITS(answer) >> 32) : 0u;
}

/*
 * Assembles a text into bytes, whole or not at all; docs/MACHINE.md has its notation. Its parts by the macros above: the
 * number, 0 or that of the first line that has one; that line, counted from 1, or 0 where it is done; and how many bytes
 * were stored, or 0 where it is refused.
 *   text, text_len   the text: any bytes, any number of them; they are only read
 *   first            the address of the first byte, from which labels and targets count, mod 65,536
 *   code, code_len   gets the bytes, of which code_len have room. Where the text is refused nothing is stored; else what
 *                    is behind the last byte stored stays
 * A listing by iop89_list, whole and with the same first address, gives back the bytes that were listed. A line or a count
 * over 4,294,967,295 is reported as that. The two buffers must not overlap; where a length is 0 the pointer may be NULL.
 */
iop89_asm_answer iop89_assemble(const uint8_t *text, size_t text_len, uint32_t first, uint8_t *code, size_t code_len);

/* A number of iop89_assemble in words. */
static inline const char *iop89_asm_words(unsigned number)
{
    switch (number) {
    case IOP89_DONE: return "assembled";
    case IOP89_UNKNOWN_WORD: return "unknown word";
    case IOP89_BAD_OPERANDS: return "operands that the word does not take";
    case IOP89_TOO_DEEP: return "more than 8 parentheses open at once";
    case IOP89_BAD_LABEL: return "a label unknown, twice, reserved, too long or too many";
    case IOP89_OUT_OF_REACH: return "a target out of reach, or a number that its place cannot hold";
    case IOP89_NO_ROOM: return "no room";
    default: return iop89_words(number);
    }
}

#ifdef __cplusplus
}
#endif

#endif
