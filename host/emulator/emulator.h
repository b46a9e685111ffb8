/* The public face of a plain-C emulator of the 8089 I/O processor, written from the documents alone. */
#ifndef EMULATOR_H
#define EMULATOR_H

#include <stdbool.h>
#include <stddef.h>
#include <stdint.h>
#include <stdio.h>

/* Lent system memory may hold this many bytes; addresses in it have 20 bits. */
#define EMU_SYSTEM_LIMIT 1048576u
/* Lent I/O memory may hold this many bytes; addresses in it have 16 bits. */
#define EMU_IO_LIMIT 65536u
/* The rows of the data sheet's instruction summary, without the second pair of MOV M,M. */
#define EMU_ROWS 46
/* What emu_row_of answers for a pair that is no row. */
#define EMU_NO_ROW EMU_ROWS

/* The numbers handed back; 0 alone means that something was done. */
enum emu_number {
    EMU_DONE = 0,
    EMU_NO_CHANNEL_CAN_RUN = 1,
    EMU_BEYOND_LENT_MEMORY = 2,
    EMU_NO_INSTRUCTION = 3,
    EMU_CC_USED = 4,
    EMU_BAD_TRANSFER = 5,
    EMU_BAD_COMMAND = 6,
    EMU_NOT_SUSPENDED = 7,
    EMU_ALREADY_RUNNING = 8,
    EMU_NOT_RUNNING = 9,
    EMU_BAD_POINTER = 10,
    EMU_BAD_BUFFER = 11,
    EMU_BAD_ARGUMENT = 12,
    EMU_NOT_POWERED_UP = 13,
    EMU_FIELDS_DISAGREE = 14,
    EMU_NOT_SWEEPABLE = 15,
    EMU_UNKNOWN_ROW = 16,
    EMU_NUMBERS = 17
};

/* Bits of the PSW. */
enum emu_psw {
    EMU_PSW_D = 0x01,
    EMU_PSW_S = 0x02,
    EMU_PSW_TB = 0x04,
    EMU_PSW_IC = 0x08,
    EMU_PSW_IS = 0x10,
    EMU_PSW_LOAD_LIMIT = 0x20,
    EMU_PSW_XF = 0x40,
    EMU_PSW_PRIORITY = 0x80
};

/* Where a channel stands between attentions. */
enum emu_mode { EMU_IDLE = 0, EMU_RUNNING = 1, EMU_SUSPENDED = 2 };

/* A 20-bit address with its tag: 0 system, 1 I/O. */
struct emu_pointer {
    uint32_t address;
    bool tag;
};

/* The fields of CC in the paper's order, each with its bits as a number; bit 9 is in none of them. */
struct emu_fields {
    bool destination_moves, source_moves, translate;
    uint8_t syn;
    bool source_is_gb, chained, ts;
    uint8_t tx, tbc, tmc;
};

/* How many fields there are. */
#define EMU_FIELDS 10

/* What a channel holds between the halves of a pair, as a number: no byte, or this and the byte. */
#define EMU_NONE_HELD 0u
#define EMU_HELD 0x100u

/* One channel's registers and marks; PP has no tag since it is always system, beside CC are kept its fields, and held is
 * what stands above. */
struct emu_channel {
    struct emu_pointer ga, gb, gc, tp;
    uint32_t pp;
    uint16_t bc, ix, cc, mc;
    struct emu_fields fields;
    uint8_t psw;
    enum emu_mode mode;
    bool armed;
    uint16_t held;
};

/* Both channels, the control block's address and the channel that stepped last (1 or 2); whether the processor was
 * powered up, the physical widths of both buses (SYSBUS bit 0 and SOC bit 0, true for 16 bits), and SOC bit 1. */
struct emu_state {
    struct emu_channel channel[2];
    uint32_t cp;
    unsigned last;
    bool powered, system_wide, io_wide, soc_1;
};

/* The two lent buffers; both start at address 0 of their space. */
struct emu_memory {
    uint8_t *sys;
    size_t sys_len;
    uint8_t *io;
    size_t io_len;
};

/* What an attention or a power-up answered: its number, and how many bytes it read and stored, each access of each byte
 * counted once (0 if refused). */
struct emu_answer {
    unsigned number;
    unsigned count;
};

/* What a step did: its number, for a done step the channel and I, T or X (both 0 if refused), and the same count. */
struct emu_stepped {
    unsigned number;
    unsigned channel;
    char kind;
    unsigned count;
};

/* What a sweep did: its number, the steps that it stands for, and how many bytes it read and stored (both 0 if refused). */
struct emu_swept {
    unsigned number;
    uint32_t steps, count;
};

/* A row of a schedule: its kind, and the channel of an attention or the line number of a step. */
struct emu_row {
    uint32_t kind, value;
};

/* The kinds of rows that are known. */
enum emu_row_kind { EMU_ROW_ATTENTION = 1, EMU_ROW_STEP = 2 };

/* What a schedule counts of one channel. */
struct emu_tally {
    uint64_t attentions_accepted, attentions_refused, instructions, transfer_steps, bytes_stored, external_ends,
        waiting_rows;
};

/* What a schedule counts: rows over all, and of each channel. */
struct emu_report {
    uint64_t accepted, refused;
    struct emu_tally channel[2];
};

/* Two processors on one board: the state and the I/O memory of each, and the system memory that they share. */
struct emu_processors {
    struct emu_state state[2];
    uint8_t *sys;
    size_t sys_len;
    uint8_t *io[2];
    size_t io_len[2];
};

/* What bars a sweep: the lines, the two channels, the fields of CC in the paper's order, the two ranges. */
enum emu_bar {
    EMU_BAR_EXT,
    EMU_BAR_OTHER_RUNS,
    EMU_BAR_STANDS,
    EMU_BAR_NO_XF,
    EMU_BAR_DESTINATION_STAYS,
    EMU_BAR_SOURCE_STAYS,
    EMU_BAR_TRANSLATES,
    EMU_BAR_SYN,
    EMU_BAR_TS,
    EMU_BAR_TX,
    EMU_BAR_TBC_OFF,
    EMU_BAR_TMC,
    EMU_BAR_SOURCE_NOT_LENT,
    EMU_BAR_DESTINATION_NOT_LENT,
    EMU_BAR_SHARED,
    EMU_BARS
};

/* Which half of a pair a transfer step was, if one: of two fetches (SYN 01) or of two stores (SYN 10), each with a
 * request of its own. */
enum emu_half {
    EMU_WHOLE,
    EMU_FIRST_FETCH,
    EMU_SECOND_FETCH,
    EMU_FIRST_STORE,
    EMU_SECOND_STORE,
    EMU_HALVES
};

/* Why a step was whole: SYN is 00, no side is a word side, the synchronised one is, or TBC is on and BC 1. */
enum emu_whole {
    EMU_WHOLE_UNSYNCHRONISED,
    EMU_WHOLE_NO_WORD,
    EMU_WHOLE_SYNCHRONISED_WORD,
    EMU_WHOLE_LAST_BYTE,
    EMU_WHOLES
};

/* The bytes of a pair, of which each half reads and stores its own. */
enum emu_pair_byte { EMU_FIRST_READ, EMU_SECOND_READ, EMU_FIRST_STORED, EMU_SECOND_STORED, EMU_PAIR_BYTES };

/* The synchronised side of a pair, as a sum: it moves on, it is 16 bits wide and odd, it is in I/O space. */
enum emu_synchronised { EMU_SIDE_MOVES = 1, EMU_SIDE_ODD = 2, EMU_SIDE_IO = 4, EMU_SIDES = 8 };

/* What a channel does while the other one holds a byte. */
enum emu_beside { EMU_BESIDE_ATTENTION, EMU_BESIDE_INSTRUCTION, EMU_BESIDE_TRANSFER, EMU_BESIDE_EXTERNAL, EMU_BESIDES };

/* Ways in which the bytes of one whole transfer step moved; the last is two bytes of which one was stored. */
enum emu_shape {
    EMU_SHAPE_B_B,
    EMU_SHAPE_BB_W,
    EMU_SHAPE_W_BB,
    EMU_SHAPE_W_W,
    EMU_SHAPE_W_B_CUT,
    EMU_SHAPES
};

/* BC before a step in which the first of two single stores met TMC: with TBC on and 2 left the count ends too, and one
 * of the two offsets is the larger or they are the same. */
enum emu_leftover {
    EMU_LEFTOVER_TBC_2_COUNT,
    EMU_LEFTOVER_TBC_2_MATCH,
    EMU_LEFTOVER_TBC_2_SAME,
    EMU_LEFTOVER_TBC_0,
    EMU_LEFTOVER_TBC_MORE,
    EMU_LEFTOVER_OFF_0,
    EMU_LEFTOVER_OFF_1,
    EMU_LEFTOVER_OFF_2,
    EMU_LEFTOVER_OFF_MORE,
    EMU_LEFTOVERS
};

/* Reasons for which a transfer step ended its transfer; they can meet, so they add up. */
enum emu_end { EMU_END_TMC = 1, EMU_END_TBC = 2, EMU_END_TS = 4, EMU_END_SETS = 8 };

/* What a byte is read or stored for: the first pair and later bytes of code; an operand's byte or word, TSL's byte, a pointer
 * of three or four bytes; and of a transfer step its source, the entry of its table and its destination. */
enum emu_access {
    EMU_FIRST_PAIR,
    EMU_LATER_CODE,
    EMU_READ,
    EMU_TEST,
    EMU_READ_POINTER,
    EMU_STORE,
    EMU_STORE_POINTER,
    EMU_SOURCE,
    EMU_TABLE,
    EMU_DESTINATION,
    EMU_ACCESSES
};

/* How many of the bytes of one such access lie in empty slots: its only one, all of several, or some of them. */
enum emu_slots { EMU_ALONE, EMU_ALL, EMU_SOME, EMU_SLOT_SETS };

/* One byte that a call reads or stores: where, what for, whether it is lent, and which byte. */
struct emu_touch {
    struct emu_pointer at;
    enum emu_access access;
    bool lent, stored;
    uint8_t byte;
};

/* The bytes that a call touches, in its order: what it reads, then what it stores. Of a refused call those up to and with the
 * stage at which it is refused (docs/MACHINE.md §17.3); of a sweep the first of its source and of its destination. No call
 * touches as many as have room here. */
enum { EMU_TOUCHES = 24 };

struct emu_touches {
    unsigned count;
    struct emu_touch touch[EMU_TOUCHES];
};

/* Counters that a comparison program may lend, to see what its calls reached. */
struct emu_coverage {
    unsigned long attention[8];             /* accepted, by command */
    unsigned long attention_refused[EMU_NUMBERS];
    unsigned long row[EMU_ROWS];            /* carried out, by row */
    unsigned long taken[EMU_ROWS];          /* of these, jumps that were taken */
    unsigned long shape[EMU_SHAPES];        /* done transfer steps that are no half, by shape */
    unsigned long leftover[2][2][EMU_LEFTOVERS]; /* first of two single stores met: whole, half; TMC's bit 2; BC before */
    unsigned long translated;               /* done transfer steps with translation */
    unsigned long end[EMU_END_SETS];        /* done transfer steps, by the set of ends (0: goes on) */
    unsigned long end_offset[3];            /* ended ones, by offset 0, 4, 8 */
    unsigned long external[3];              /* external ends, by offset 0, 4, 8 */
    unsigned long step_refused[EMU_NUMBERS];
    unsigned long slot[EMU_ACCESSES][EMU_SLOT_SETS]; /* steps that met empty slots, by what for and how many */
    unsigned long powered[8];               /* accepted power-ups, by SYSBUS bit 0, SOC bit 0 and SOC bit 1 */
    unsigned long power_refused[EMU_NUMBERS];
    unsigned long cc_written[2];            /* done instructions that wrote CC: MOV, MOVI */
    unsigned long apart[2][EMU_FIELDS];     /* refused by 14, where one field of one channel alone disagreed */
    unsigned long apart_mode[2][3];         /* refused by 14, by a channel whose fields disagreed and its mode */
    unsigned long apart_number[EMU_NUMBERS]; /* attentions and steps with fields that disagreed, by number */
    unsigned long bit_9[2];                 /* not refused so far, by a channel in whose CC bit 9 is 1 */
    unsigned long half_end[EMU_HALVES][EMU_END_SETS];    /* done transfer steps, by half and set of ends */
    unsigned long half_side[EMU_HALVES][EMU_SIDES];      /* done halves, by their synchronised side */
    unsigned long half_beyond[EMU_HALVES][EMU_PAIR_BYTES]; /* halves refused by 2, by the byte of their own */
    unsigned long half_spared[EMU_HALVES][EMU_PAIR_BYTES]; /* done ones, by a byte of the other half that is not lent */
    unsigned long half_slot[EMU_HALVES][EMU_PAIR_BYTES]; /* done ones, by a byte of their own in an empty slot */
    unsigned long held_whole[EMU_WHOLES];   /* done whole steps of a channel that held a byte, by why they were whole */
    unsigned long held_instruction;         /* done instructions of such a channel */
    unsigned long held_external;            /* external ends of such a channel */
    unsigned long held_attention[8];        /* accepted attentions to such a channel, by command */
    unsigned long held_beside[EMU_BESIDES]; /* done calls of one channel while the other held a byte */
    unsigned long held_refused[EMU_NUMBERS]; /* attentions and steps that were refused while a byte was held */
    unsigned long bad_transfer[2][2];       /* refused by 5: without and with a held byte, by SYN 11 and by translation */
    unsigned long barred[EMU_BARS];         /* sweeps that were refused by 15 for one thing alone */
    unsigned long swept[4][4][4];           /* done ones, by sides that are wide, odd, in I/O space: 1 source, 2 other */
    unsigned long swept_held;               /* of these, those of a channel that held a byte */
    unsigned long swept_armed;              /* those of an armed channel */
    unsigned long swept_all;                /* those of 65,536 bytes */
};

/* The lent counters, or NULL for none. */
extern struct emu_coverage *emu_coverage;

/* A lent list of what the next call touches, or NULL. While one is lent no call changes state or memory: it is only asked.
 * Only where EMULATOR_NOTES is defined is there such a list. */
extern struct emu_touches *emu_touches;

/* The fields of a CC value. */
struct emu_fields emu_fields_of(uint16_t cc);

/* The CC value that has these fields, with bit 9 at 0. */
uint16_t emu_fields_value(const struct emu_fields *fields);

/* Writes a channel's CC and renews its fields. */
void emu_set_cc(struct emu_channel *channel, uint16_t cc);

/* The name of a field and the bits of CC that it is, by its place in the paper's order. */
const char *emu_field_name(unsigned field);
uint16_t emu_field_bits(unsigned field);

/* Whether a byte of a pair is one that this half reads or stores. */
bool emu_half_has(enum emu_half half, enum emu_pair_byte byte);

/* Whether some channel of a state holds a byte. */
bool emu_holds(const struct emu_state *state);

/* Makes the fresh state for CP; answers 10, with the state for CP 0, where CP has more than 20 bits. */
unsigned emu_fresh(uint32_t cp, struct emu_state *out);

/* Makes the state after reset, in which only power-up is allowed. */
void emu_reset(struct emu_state *out);

/* Powers the processor up from what its board holds in system memory. */
struct emu_answer emu_power_up(struct emu_state *state, struct emu_memory *memory);

/* Gives a channel one attention. */
struct emu_answer emu_attention(struct emu_state *state, struct emu_memory *memory, uint32_t channel);

/* Does one step under the given lines. */
struct emu_stepped emu_step(struct emu_state *state, struct emu_memory *memory, uint32_t lines);

/* Moves every byte that a block transfer of a channel has left, as its steps under the given lines would. */
struct emu_swept emu_sweep(struct emu_state *state, struct emu_memory *memory, uint32_t channel, uint32_t lines);

/* What bars a sweep of channel 1 or 2, as a set of bits, where arguments, buffers and state pass every other test. */
unsigned emu_bars(const struct emu_state *state, const struct emu_memory *memory, uint32_t channel, uint32_t lines);

/* What bars a sweep, in words. */
const char *emu_bar_name(enum emu_bar bar);

/* Runs the rows of a schedule in order, refused ones too, and counts what they did; answers 16, and does nothing, where a
 * row is of unknown kind. */
unsigned emu_schedule(struct emu_state *state, struct emu_memory *memory, const struct emu_row *rows, size_t count,
                      struct emu_report *report);

/* Whether a step under these lines finds a channel, 1 or 2, waiting for its request. */
bool emu_waits(const struct emu_state *state, unsigned channel, uint32_t lines);

/* The same calls on one of two processors, 1 or 2; any other is refused by 12 before all else, and changes nothing but a
 * report, which then counts nothing. */
struct emu_answer emu_attention_of(struct emu_processors *board, uint32_t processor, uint32_t channel);
struct emu_stepped emu_step_of(struct emu_processors *board, uint32_t processor, uint32_t lines);
struct emu_answer emu_power_up_of(struct emu_processors *board, uint32_t processor);
struct emu_answer emu_reset_of(struct emu_processors *board, uint32_t processor);
struct emu_swept emu_sweep_of(struct emu_processors *board, uint32_t processor, uint32_t channel, uint32_t lines);
unsigned emu_schedule_of(struct emu_processors *board, uint32_t processor, const struct emu_row *rows, size_t count,
                         struct emu_report *report);

/* The panel's call: fresh state, one attention, steps; answers number x 65,536 + steps done. */
uint32_t emu_run(struct emu_memory *memory, uint32_t cp, uint32_t channel, uint32_t lines, uint32_t limit);

/* The same call with reset and power-up in the place of a CP. */
uint32_t emu_board(struct emu_memory *memory, uint32_t channel, uint32_t lines, uint32_t limit);

/* The panel's program: prints the trace for these bytes of standard input. */
void emu_panel(const uint8_t *input, size_t length, FILE *out);

/* The name of the row that an instruction's first pair is, or "3" or "4" where it is refused. */
const char *emu_format_name(uint8_t first, uint8_t second);

/* The row that a first pair is, whether or not CC is then refused, or EMU_NO_ROW. */
unsigned emu_row_of(uint8_t first, uint8_t second);

/* How many rows a first pair fits: 0, 1, or 2 for JMP, which is ADDI to TP. */
unsigned emu_rows_fitting(uint8_t first, uint8_t second);

/* The name of a row. */
const char *emu_row_name(unsigned row);

/* Whether two states agree in every field (padding left aside). */
bool emu_same_state(const struct emu_state *a, const struct emu_state *b);

#endif
