/* A plain-C emulator of the 8089 I/O processor: attention, the data sheet's rows as a table, transfers, the panel. */
#include "emulator.h"

#include <string.h>

#define MASK20 0xFFFFFu
#define MASK16 0xFFFFu
#define MASK8 0xFFu

/* What is read where I/O space has no byte. */
#define EMPTY_SLOT 0xFFu

/* RRR of the two registers that rules speak of by name. */
enum { RRR_TP = 4, RRR_CC = 6 };

struct emu_coverage *emu_coverage = NULL;
struct emu_touches *emu_touches = NULL;

/* Only who asks for notes pays for them. */
#ifdef EMULATOR_NOTES
#define ASKED (emu_touches != NULL)
#else
#define ASKED false
#endif

/* ---- Work: a call on trial, whose state and stores count only if nothing refuses it ---- */

/* The most bytes one call stores: suspend's four and BUSY. */
#define MOST_STORES 5

/* One byte that waits to be stored. */
struct store {
    uint8_t *cell;
    uint8_t byte;
};

/* A copy of the given state that may be dropped, so that a refusal is all or nothing. Who asks is told whether an instruction is
 * known, so that only the offset byte of its second pair can have refused it. */
struct work {
    struct emu_state state;
    struct emu_channel *ch;
    const struct emu_memory *memory;
    uint32_t block;
    unsigned number;
    unsigned touched;
    unsigned stores;
    struct store store[MOST_STORES];
    enum emu_half half;
    unsigned shape, ends, end_offset;
    bool translated, jumped, known;
    uint8_t in_io[EMU_ACCESSES], empty[EMU_ACCESSES];
};

/* The first refusal stands, so the order of tests is the order in which they are made. */
static void refuse(struct work *w, unsigned number)
{
    if (w->number == EMU_DONE) w->number = number;
}

/* Starts a call on one channel (1 or 2) with nothing refused and nothing stored. */
static void begin(struct work *w, const struct emu_state *state, const struct emu_memory *memory, uint32_t channel)
{
    memset(w, 0, sizeof *w);
    w->state = *state;
    w->ch = &w->state.channel[channel - 1];
    w->memory = memory;
    w->block = channel == 1 ? state->cp : state->cp + 8;
}

/* The answer of a refused call, which reports no bytes. */
static struct emu_answer refused_by(unsigned number)
{
    struct emu_answer answer = {number, 0};
    return answer;
}

/* Makes an accepted call count; a refused one leaves state and memory as given. */
static struct emu_answer finish(const struct work *w, struct emu_state *state)
{
    struct emu_answer done = {EMU_DONE, w->touched};
    if (w->number != EMU_DONE) return refused_by(w->number);
    if (ASKED) return done;
    for (unsigned i = 0; i < w->stores; i++) *w->store[i].cell = w->store[i].byte;
    *state = w->state;
    return done;
}

/* ---- Addresses, bytes and stored pointers ---- */

/* Addresses count in 20 bits whatever the tag; only the access drops the high four in I/O space. */
static struct emu_pointer plus(struct emu_pointer p, uint32_t n)
{
    p.address = (p.address + n) & MASK20;
    return p;
}

/* A place in system space, where control and parameter blocks lie. */
static struct emu_pointer in_system(uint32_t address)
{
    struct emu_pointer p = {address & MASK20, false};
    return p;
}

/* The lent byte at a place, or NULL where none is lent. */
static inline uint8_t *cell(const struct emu_memory *memory, struct emu_pointer p)
{
    uint32_t at = p.tag ? p.address & MASK16 : p.address & MASK20;
    if (at >= (p.tag ? memory->io_len : memory->sys_len)) return NULL;
    return (p.tag ? memory->io : memory->sys) + at;
}

/* The lent byte at a place that a call accesses, counted whether or not it is there. Where none is lent, I/O space has an
 * empty slot, and system space refuses. */
static inline uint8_t *accessed(struct work *w, struct emu_pointer p, enum emu_access access)
{
    uint8_t *c = cell(w->memory, p);
    w->touched++;
    if (p.tag) {
        w->in_io[access]++;
        w->empty[access] = (uint8_t)(w->empty[access] + (c == NULL));
    } else if (c == NULL) {
        refuse(w, EMU_BEYOND_LENT_MEMORY);
    }
    return c;
}

/* Notes a byte that is read or stored where a list of them is lent. */
static inline void note(struct emu_pointer p, enum emu_access access, bool lent, bool stored, uint32_t byte)
{
    if (!ASKED || emu_touches->count == EMU_TOUCHES) return;
    struct emu_touch touch = {{p.address & (p.tag ? MASK16 : MASK20), p.tag}, access, lent, stored, (uint8_t)byte};
    emu_touches->touch[emu_touches->count++] = touch;
}

/* What a place that is not lent reads as: an empty slot; in system space, where the call is refused, 0 for what is told of it. */
static inline uint32_t unlent(struct emu_pointer p)
{
    return p.tag ? EMPTY_SLOT : 0;
}

/* Reads n bytes, low byte first, each at its own reduced address. */
static inline uint32_t read_bytes(struct work *w, struct emu_pointer p, unsigned n, enum emu_access access)
{
    uint32_t value = 0;
    for (unsigned i = 0; i < n; i++) {
        const uint8_t *c = accessed(w, plus(p, i), access);
        uint32_t byte = c == NULL ? unlent(plus(p, i)) : *c;
        note(plus(p, i), access, c != NULL, false, byte);
        value |= byte << (8 * i);
    }
    return value;
}

/* Notes n bytes to be stored, low byte first; memory itself changes only when the call is accepted, and an empty slot never. */
static inline void write_bytes(struct work *w, struct emu_pointer p, uint32_t value, unsigned n, enum emu_access access)
{
    for (unsigned i = 0; i < n; i++) {
        uint8_t *c = accessed(w, plus(p, i), access);
        note(plus(p, i), access, c != NULL, true, value >> (8 * i));
        if (c == NULL) continue;
        w->store[w->stores].cell = c;
        w->store[w->stores].byte = (uint8_t)(value >> (8 * i));
        w->stores++;
    }
}

/* Byte and word operands are sign-extended to 20 bits. */
static uint32_t sign_extend(uint32_t value, unsigned bytes)
{
    uint32_t sign = bytes == 1 ? 0x80u : 0x8000u;
    uint32_t field = bytes == 1 ? MASK8 : MASK16;
    return (((value & field) ^ sign) - sign) & MASK20;
}

/* A pointer's three-byte stored form. */
static uint32_t to_stored(struct emu_pointer p)
{
    return (p.address & 0xFFFFu) | (p.address & 0xF0000u) << 4 | (p.tag ? 1u << 19 : 0);
}

/* The pointer that three stored bytes mean. */
static struct emu_pointer from_stored(uint32_t bytes)
{
    struct emu_pointer p = {(bytes & 0xFFFFu) | (bytes >> 4 & 0xF0000u), (bytes >> 19 & 1u) != 0};
    return p;
}

/* The address that a doubleword pointer means: offset word first, then segment. */
static uint32_t from_doubleword(uint32_t bytes)
{
    return ((bytes >> 16) * 16 + (bytes & MASK16)) & MASK20;
}

/* ---- The fields of CC ---- */

struct emu_fields emu_fields_of(uint16_t cc)
{
    struct emu_fields f;
    f.destination_moves = (cc >> 15 & 1u) != 0;
    f.source_moves = (cc >> 14 & 1u) != 0;
    f.translate = (cc >> 13 & 1u) != 0;
    f.syn = cc >> 11 & 3u;
    f.source_is_gb = (cc >> 10 & 1u) != 0;
    f.chained = (cc >> 8 & 1u) != 0;
    f.ts = (cc >> 7 & 1u) != 0;
    f.tx = cc >> 5 & 3u;
    f.tbc = cc >> 3 & 3u;
    f.tmc = cc & 7u;
    return f;
}

uint16_t emu_fields_value(const struct emu_fields *f)
{
    return (uint16_t)(f->destination_moves << 15 | f->source_moves << 14 | f->translate << 13 | f->syn << 11 |
                      f->source_is_gb << 10 | f->chained << 8 | f->ts << 7 | f->tx << 5 | f->tbc << 3 | f->tmc);
}

void emu_set_cc(struct emu_channel *ch, uint16_t cc)
{
    ch->cc = cc;
    ch->fields = emu_fields_of(cc);
}

/* The bits of CC in which it differs from its fields; bit 9, which is LOCK and left out, is in no field. */
static inline unsigned bits_apart(const struct emu_channel *ch)
{
    return (unsigned)(emu_fields_value(&ch->fields) ^ ch->cc) & ~0x0200u;
}

/* What counters call the fields, and their bits. */
static const struct {
    const char *name;
    uint16_t bits;
} fields[EMU_FIELDS] = {
    {"destination moves", 0x8000}, {"source moves", 0x4000}, {"translate", 0x2000}, {"SYN", 0x1800},
    {"source is GB", 0x0400},      {"chained", 0x0100},      {"TS", 0x0080},        {"TX", 0x0060},
    {"TBC", 0x0018},               {"TMC", 0x0007},
};

const char *emu_field_name(unsigned field)
{
    return fields[field].name;
}

uint16_t emu_field_bits(unsigned field)
{
    return fields[field].bits;
}

/* The low two bits of TMC say whether and with which offset a match ends the transfer, the third that no match does. */
static unsigned tmc_code(const struct emu_channel *ch) { return ch->fields.tmc & 3u; }
static bool ends_on_no_match(const struct emu_channel *ch) { return (ch->fields.tmc & 4u) != 0; }

/* ---- Registers ---- */

/* The pointer that RRR names, or NULL for a 16-bit register. */
static struct emu_pointer *pointer_register(struct emu_channel *ch, unsigned rrr)
{
    struct emu_pointer *named[8] = {&ch->ga, &ch->gb, &ch->gc, NULL, &ch->tp, NULL, NULL, NULL};
    return named[rrr];
}

/* The 16-bit register that RRR names, or NULL for a pointer. */
static uint16_t *word_register(struct emu_channel *ch, unsigned rrr)
{
    uint16_t *named[8] = {NULL, NULL, NULL, &ch->bc, NULL, &ch->ix, &ch->cc, &ch->mc};
    return named[rrr];
}

/* A register's value as an operand. */
static uint32_t read_register(struct emu_channel *ch, unsigned rrr)
{
    const struct emu_pointer *p = pointer_register(ch, rrr);
    return p != NULL ? p->address : *word_register(ch, rrr);
}

/* Puts a result into a register, which keeps what it has room for; a move also makes a pointer an I/O pointer. */
static void write_register(struct emu_channel *ch, unsigned rrr, uint32_t value, bool moved)
{
    struct emu_pointer *p = pointer_register(ch, rrr);
    if (rrr == RRR_CC) {
        emu_set_cc(ch, (uint16_t)value);
        return;
    }
    if (p == NULL) {
        *word_register(ch, rrr) = (uint16_t)value;
        return;
    }
    p->address = value & MASK20;
    if (moved) p->tag = true;
}

/* The base that MM names; PP is always system. */
static struct emu_pointer base(const struct emu_channel *ch, unsigned mm)
{
    struct emu_pointer named[4] = {ch->ga, ch->gb, ch->gc, in_system(ch->pp)};
    return named[mm];
}

/* Masked compare: bits that MC's high byte leaves out agree by themselves. */
static bool matches(uint16_t mc, uint32_t data)
{
    return ((data ^ mc) & (uint32_t)(mc >> 8) & MASK8) == 0;
}

/* Whether a channel holds a byte, and which. */
static bool holds(const struct emu_channel *ch) { return ch->held != EMU_NONE_HELD; }
static uint32_t held_byte(const struct emu_channel *ch) { return ch->held & MASK8; }

/* Holds a byte until the second half of its pair. */
static void hold(struct emu_channel *ch, uint32_t byte)
{
    ch->held = (uint16_t)(EMU_HELD | (byte & MASK8));
}

/* Holds no byte any more. */
static void drop(struct emu_channel *ch)
{
    ch->held = EMU_NONE_HELD;
}

bool emu_holds(const struct emu_state *state)
{
    return holds(&state->channel[0]) || holds(&state->channel[1]);
}

/* BUSY is the block's second byte. */
static void set_busy(struct work *w, uint8_t value)
{
    write_bytes(w, in_system(w->block + 1), value, 1, EMU_STORE);
}

/* What halt and HLT share. */
static void halt(struct work *w)
{
    w->ch->mode = EMU_IDLE;
    w->ch->psw &= (uint8_t) ~(EMU_PSW_TB | EMU_PSW_XF);
    w->ch->armed = false;
    drop(w->ch);
    set_busy(w, 0x00);
}

/* ---- Refusals that precede every other ---- */

/* Refusal 11 looks at both buffers, whatever the call touches. */
static bool buffers_fit(const struct emu_memory *memory)
{
    return memory->sys_len <= EMU_SYSTEM_LIMIT && memory->io_len <= EMU_IO_LIMIT;
}

/* Whether every 20-bit register of one channel is one. */
static bool channel_sound(const struct emu_channel *ch)
{
    return ch->ga.address <= MASK20 && ch->gb.address <= MASK20 && ch->gc.address <= MASK20 &&
           ch->tp.address <= MASK20 && ch->pp <= MASK20;
}

/* Refusals 12, 11, 10, 13 and 14, in this order; 14 looks at both channels, whatever their modes. */
static unsigned early_number(bool arguments_good, const struct emu_memory *memory, const struct emu_state *state)
{
    if (!arguments_good) return EMU_BAD_ARGUMENT;
    if (!buffers_fit(memory)) return EMU_BAD_BUFFER;
    if (state->cp > MASK20 || !channel_sound(&state->channel[0]) || !channel_sound(&state->channel[1]))
        return EMU_BAD_POINTER;
    if (!state->powered) return EMU_NOT_POWERED_UP;
    bool apart = bits_apart(&state->channel[0]) != 0 || bits_apart(&state->channel[1]) != 0;
    return apart ? EMU_FIELDS_DISAGREE : EMU_DONE;
}

/* Counts a channel whose fields disagree in these bits in a call that is refused for it; alone, if no other does. */
static void count_apart(const struct emu_channel *ch, unsigned index, unsigned apart, bool alone)
{
    emu_coverage->apart_mode[index][ch->mode]++;
    for (unsigned i = 0; alone && i < EMU_FIELDS; i++)
        if ((apart & ~(unsigned)fields[i].bits) == 0) emu_coverage->apart[index][i]++;
}

/* Counts how CC and its fields stood to each other in a call that came to this number. */
static void count_fields(const struct emu_state *state, unsigned number)
{
    unsigned apart[2] = {bits_apart(&state->channel[0]), bits_apart(&state->channel[1])};
    if ((apart[0] | apart[1]) != 0) emu_coverage->apart_number[number]++;
    for (unsigned i = 0; i < 2; i++) {
        if (number == EMU_FIELDS_DISAGREE && apart[i] != 0)
            count_apart(&state->channel[i], i, apart[i], apart[1 - i] == 0);
        if (number == EMU_DONE && (state->channel[i].cc & 0x0200u) != 0) emu_coverage->bit_9[i]++;
    }
}

/* The refusals above, counted. */
static unsigned early_refusal(bool arguments_good, const struct emu_memory *memory, const struct emu_state *state)
{
    unsigned number = early_number(arguments_good, memory, state);
    if (emu_coverage != NULL) count_fields(state, number);
    return number;
}

/* ---- Fresh, reset and power-up ---- */

unsigned emu_fresh(uint32_t cp, struct emu_state *out)
{
    emu_reset(out);
    out->powered = true;
    if (cp > MASK20) return EMU_BAD_POINTER;
    out->cp = cp;
    return EMU_DONE;
}

void emu_reset(struct emu_state *out)
{
    memset(out, 0, sizeof *out);
    out->last = 2;
}

/* Where the board says what it is: SYSBUS, and the pointer to the configuration block. */
enum { SYSBUS_AT = 0xFFFF6, CONFIGURATION_AT = 0xFFFF8 };

/* A power-up in buffers that fit: SYSBUS, SOC and CP are read, then BUSY of channel 1 is cleared. */
static struct emu_answer wake(struct emu_state *state, const struct emu_memory *memory)
{
    struct emu_state after_reset;
    struct work w;
    emu_reset(&after_reset);
    begin(&w, &after_reset, memory, 1);
    uint32_t sysbus = read_bytes(&w, in_system(SYSBUS_AT), 1, EMU_READ);
    uint32_t configuration = from_doubleword(read_bytes(&w, in_system(CONFIGURATION_AT), 4, EMU_READ_POINTER));
    uint32_t soc = read_bytes(&w, in_system(configuration), 1, EMU_READ);
    w.state.cp = from_doubleword(read_bytes(&w, in_system(configuration + 2), 4, EMU_READ_POINTER));
    w.state.powered = true;
    w.state.system_wide = (sysbus & 1u) != 0;
    w.state.io_wide = (soc & 1u) != 0;
    w.state.soc_1 = (soc & 2u) != 0;
    w.block = w.state.cp;
    set_busy(&w, 0x00);
    if (emu_coverage != NULL && w.number == EMU_DONE) emu_coverage->powered[(sysbus & 1u) | (soc & 3u) << 1]++;
    return finish(&w, state);
}

struct emu_answer emu_power_up(struct emu_state *state, struct emu_memory *memory)
{
    struct emu_answer answer = buffers_fit(memory) ? wake(state, memory) : refused_by(EMU_BAD_BUFFER);
    if (emu_coverage != NULL && answer.number != EMU_DONE) emu_coverage->power_refused[answer.number]++;
    return answer;
}

/* ---- Attention ---- */

/* Commands of CCW bits 2-0 that are in use. */
enum command {
    COMMAND_NOTHING = 0,
    COMMAND_START_IO = 1,
    COMMAND_START_SYSTEM = 3,
    COMMAND_RESUME = 5,
    COMMAND_SUSPEND = 6,
    COMMAND_HALT = 7
};

/* Refusals 6, 7, 8 and 9: whether a channel in this mode takes the command. */
static unsigned command_refusal(unsigned command, enum emu_mode mode)
{
    switch (command) {
    case COMMAND_START_IO:
    case COMMAND_START_SYSTEM: return mode == EMU_RUNNING ? EMU_ALREADY_RUNNING : EMU_DONE;
    case COMMAND_SUSPEND: return mode != EMU_RUNNING ? EMU_NOT_RUNNING : EMU_DONE;
    case COMMAND_RESUME: return mode != EMU_SUSPENDED ? EMU_NOT_SUSPENDED : EMU_DONE;
    case COMMAND_NOTHING:
    case COMMAND_HALT: return EMU_DONE;
    default: return EMU_BAD_COMMAND;
    }
}

/* Start: PP from the block, TP from PB, then BUSY. */
static void start(struct work *w, bool in_io)
{
    struct emu_channel *ch = w->ch;
    ch->pp = from_doubleword(read_bytes(w, in_system(w->block + 2), 4, EMU_READ_POINTER));
    if (in_io) ch->tp.address = read_bytes(w, in_system(ch->pp), 2, EMU_READ);
    else ch->tp.address = from_doubleword(read_bytes(w, in_system(ch->pp), 4, EMU_READ_POINTER));
    ch->tp.tag = in_io;
    ch->mode = EMU_RUNNING;
    ch->psw = (uint8_t)((ch->psw & ~EMU_PSW_XF) | EMU_PSW_TB);
    ch->armed = false;
    drop(ch);
    set_busy(w, 0xFF);
}

/* Suspend: TP and the PSW as they were go into PB, and only then do TB and XF clear; a held byte stays. */
static void suspend(struct work *w)
{
    struct emu_channel *ch = w->ch;
    write_bytes(w, in_system(ch->pp), to_stored(ch->tp), 3, EMU_STORE_POINTER);
    write_bytes(w, in_system(ch->pp + 3), ch->psw, 1, EMU_STORE);
    ch->psw &= (uint8_t) ~(EMU_PSW_TB | EMU_PSW_XF);
    ch->mode = EMU_SUSPENDED;
    set_busy(w, 0x00);
}

/* Resume: TP and PSW come back as PB has them; no other register moves. */
static void resume(struct work *w)
{
    struct emu_channel *ch = w->ch;
    uint32_t saved = read_bytes(w, in_system(ch->pp), 4, EMU_READ_POINTER);
    ch->tp = from_stored(saved & 0xFFFFFFu);
    ch->psw = (uint8_t)(saved >> 24 | EMU_PSW_TB);
    ch->mode = EMU_RUNNING;
    set_busy(w, 0xFF);
}

/* Load limit, priority and ICF, which follow any reload of the PSW. */
static void obey_upper_ccw(struct emu_channel *ch, unsigned ccw)
{
    const unsigned copied = EMU_PSW_LOAD_LIMIT | EMU_PSW_PRIORITY;
    unsigned psw = (ch->psw & ~copied) | (ccw & copied);
    switch (ccw >> 3 & 3) {
    case 1: psw &= ~(unsigned)EMU_PSW_IS; break;
    case 2: psw |= EMU_PSW_IC; break;
    case 3: psw &= ~(unsigned)(EMU_PSW_IC | EMU_PSW_IS); break;
    default: break;
    }
    ch->psw = (uint8_t)psw;
}

/* What each command does to its channel before the upper bits of the CCW are obeyed. */
static void obey_command(struct work *w, unsigned command)
{
    switch (command) {
    case COMMAND_START_IO: start(w, true); break;
    case COMMAND_START_SYSTEM: start(w, false); break;
    case COMMAND_RESUME: resume(w); break;
    case COMMAND_SUSPEND: suspend(w); break;
    case COMMAND_HALT: halt(w); break;
    default: break;
    }
}

/* Counts a done call of one channel while the other holds a byte. */
static void count_beside(const struct emu_state *given, uint32_t channel, enum emu_beside did)
{
    if (holds(&given->channel[2 - channel])) emu_coverage->held_beside[did]++;
}

/* Counts an accepted attention. */
static void count_attention(const struct emu_state *given, uint32_t channel, unsigned command)
{
    if (emu_coverage == NULL) return;
    emu_coverage->attention[command]++;
    if (holds(&given->channel[channel - 1])) emu_coverage->held_attention[command]++;
    count_beside(given, channel, EMU_BESIDE_ATTENTION);
}

/* Counts the number of a refused attention or step. */
static void count_refused(unsigned long *counts, const struct emu_state *given, unsigned number)
{
    if (emu_coverage == NULL || number == EMU_DONE) return;
    counts[number]++;
    if (emu_holds(given)) emu_coverage->held_refused[number]++;
}

/* An attention whose arguments, buffers and state passed. */
static struct emu_answer attend(struct emu_state *state, const struct emu_memory *memory, uint32_t channel)
{
    struct work w;
    begin(&w, state, memory, channel);
    unsigned ccw = read_bytes(&w, in_system(w.block), 1, EMU_READ);
    refuse(&w, command_refusal(ccw & 7, w.ch->mode));
    if (w.number != EMU_DONE) return refused_by(w.number);
    obey_command(&w, ccw & 7);
    obey_upper_ccw(w.ch, ccw);
    if (w.number == EMU_DONE) count_attention(state, channel, ccw & 7);
    return finish(&w, state);
}

struct emu_answer emu_attention(struct emu_state *state, struct emu_memory *memory, uint32_t channel)
{
    struct emu_answer answer = refused_by(early_refusal(channel == 1 || channel == 2, memory, state));
    if (answer.number == EMU_DONE) answer = attend(state, memory, channel);
    if (emu_coverage != NULL) count_refused(emu_coverage->attention_refused, state, answer.number);
    return answer;
}

/* ---- Instructions: shapes ---- */

struct instruction;

/* What an operand's first byte bits 7-5 name. */
enum field { FIXED, REGISTER, POINTER, BIT, WIDTHS };

/* What stands behind pair and offset byte; wb and dd are the fields that the data sheet calls so. */
enum follow { NOTHING, WB_LITERAL, DD_DISPLACEMENT, TSL_BYTES, LPDI_BYTES, SECOND_PAIR };

/* How long the memory operand is: none, by W, or fixed; IX grows by it. */
enum length { NO_MEMORY = 0, BYTE = 1, STORED_POINTER = 3, DOUBLEWORD = 4, BY_W = 5 };

/* Whether CC may stand in RRR. */
enum cc_use { CC_FREE, CC_BARRED };

/* Where the operand comes from that is not the destination itself. */
enum source { NO_SOURCE, FROM_R, FROM_M, FROM_I, FROM_BIT };

/* The digits printed for both bytes: a mask of the fixed ones and their values. */
struct digits {
    uint8_t mask1, value1, mask2, value2;
};

/* One row of the data sheet's summary. */
struct row {
    const char *name;
    struct digits digits;
    enum field field;
    enum follow follow;
    enum length length;
    enum cc_use cc;
    void (*act)(struct work *w, const struct instruction *in);
    enum source source;
    uint32_t (*result)(uint32_t old, uint32_t operand);
    bool (*condition)(const struct emu_channel *ch, const struct instruction *in, uint32_t operand);
};

/* A memory operand as the instruction writes it. */
struct place {
    unsigned aa, mm;
    uint32_t offset;
};

/* An instruction that has been read into its shape. */
struct instruction {
    const struct row *row;
    unsigned rrr;
    unsigned bytes;
    struct place place, second;
    uint32_t data;
    uint32_t displacement;
    struct emu_pointer end;
};

/* ---- Instructions: results and conditions ---- */

/* MOV: the operand itself. */
static uint32_t take(uint32_t old, uint32_t operand)
{
    (void)old;
    return operand;
}

/* ADD. */
static uint32_t sum(uint32_t old, uint32_t operand)
{
    return old + operand;
}

/* OR, and SETB with its bit as operand. */
static uint32_t either(uint32_t old, uint32_t operand)
{
    return old | operand;
}

/* AND. */
static uint32_t both(uint32_t old, uint32_t operand)
{
    return old & operand;
}

/* CLR, with its bit as operand. */
static uint32_t without(uint32_t old, uint32_t operand)
{
    return old & ~operand;
}

/* NOT of the destination. */
static uint32_t not_old(uint32_t old, uint32_t operand)
{
    (void)operand;
    return ~old;
}

/* NOT of memory into a register. */
static uint32_t not_operand(uint32_t old, uint32_t operand)
{
    (void)old;
    return ~operand;
}

/* INC. */
static uint32_t one_more(uint32_t old, uint32_t operand)
{
    (void)operand;
    return old + 1;
}

/* DEC. */
static uint32_t one_less(uint32_t old, uint32_t operand)
{
    (void)operand;
    return old - 1;
}

/* JZ; of a register only the low 16 bits are asked. */
static bool is_zero(const struct emu_channel *ch, const struct instruction *in, uint32_t operand)
{
    (void)ch;
    (void)in;
    return (operand & MASK16) == 0;
}

/* JNZ. */
static bool is_not_zero(const struct emu_channel *ch, const struct instruction *in, uint32_t operand)
{
    return !is_zero(ch, in, operand);
}

/* JBT; BBB names the bit. */
static bool bit_true(const struct emu_channel *ch, const struct instruction *in, uint32_t operand)
{
    (void)ch;
    return (operand >> in->rrr & 1u) != 0;
}

/* JNBT. */
static bool bit_not_true(const struct emu_channel *ch, const struct instruction *in, uint32_t operand)
{
    return !bit_true(ch, in, operand);
}

/* JMCE. */
static bool compares_equal(const struct emu_channel *ch, const struct instruction *in, uint32_t operand)
{
    (void)in;
    return matches(ch->mc, operand);
}

/* JMCNE. */
static bool compares_not_equal(const struct emu_channel *ch, const struct instruction *in, uint32_t operand)
{
    return !compares_equal(ch, in, operand);
}

/* ---- Instructions: actions, each with TP already past the instruction ---- */

/* Forms an operand's address; with AA 11 IX grows right behind it. */
static struct emu_pointer locate(struct emu_channel *ch, const struct place *place, unsigned bytes)
{
    struct emu_pointer p = base(ch, place->mm);
    if (place->aa == 1) p = plus(p, place->offset);
    if (place->aa >= 2) p = plus(p, ch->ix);
    if (place->aa == 3) ch->ix = (uint16_t)(ch->ix + bytes);
    return p;
}

/* Reads a memory operand. */
static uint32_t read_operand(struct work *w, struct emu_pointer p, unsigned bytes)
{
    return sign_extend(read_bytes(w, p, bytes, EMU_READ), bytes);
}

/* The operand that is not the destination; held is RRR's value from before IX grew. */
static uint32_t source_value(struct work *w, const struct instruction *in, uint32_t held, struct emu_pointer where)
{
    switch (in->row->source) {
    case FROM_R: return held;
    case FROM_M: return read_operand(w, where, in->bytes);
    case FROM_I: return in->data;
    case FROM_BIT: return 1u << in->rrr;
    default: return 0;
    }
}

/* Instructions whose result goes into RRR; only moves set a pointer's tag. */
static void to_register(struct work *w, const struct instruction *in)
{
    uint32_t old = read_register(w->ch, in->rrr);
    struct emu_pointer where = {0, false};
    if (in->row->length != NO_MEMORY) where = locate(w->ch, &in->place, in->bytes);
    uint32_t operand = source_value(w, in, old, where);
    write_register(w->ch, in->rrr, in->row->result(old, operand), in->row->result == take);
}

/* Instructions whose result goes into memory; a move does not read what it replaces. */
static void to_memory(struct work *w, const struct instruction *in)
{
    uint32_t held = in->row->source == FROM_R ? read_register(w->ch, in->rrr) : 0;
    struct emu_pointer where = locate(w->ch, &in->place, in->bytes);
    uint32_t operand = source_value(w, in, held, where);
    uint32_t old = in->row->result == take ? 0 : read_operand(w, where, in->bytes);
    write_bytes(w, where, in->row->result(old, operand), in->bytes, EMU_STORE);
}

/* MOV M,M: the second address is formed from the IX that the first one left. */
static void memory_to_memory(struct work *w, const struct instruction *in)
{
    struct emu_pointer from = locate(w->ch, &in->place, in->bytes);
    struct emu_pointer to = locate(w->ch, &in->second, in->bytes);
    write_bytes(w, to, read_bytes(w, from, in->bytes, EMU_READ), in->bytes, EMU_STORE);
}

/* A displacement counts from the instruction's end, where TP stands. */
static void jump(struct work *w, const struct instruction *in)
{
    w->ch->tp = plus(w->ch->tp, in->displacement);
    w->jumped = true;
}

/* Jumps on a condition. */
static void jump_if(struct work *w, const struct instruction *in)
{
    uint32_t held = in->row->source == FROM_R ? read_register(w->ch, in->rrr) : 0;
    struct emu_pointer where = {0, false};
    if (in->row->length != NO_MEMORY) where = locate(w->ch, &in->place, in->bytes);
    if (in->row->condition(w->ch, in, source_value(w, in, held, where))) jump(w, in);
}

/* CALL: the way back is saved before the jump. */
static void call(struct work *w, const struct instruction *in)
{
    write_bytes(w, locate(w->ch, &in->place, in->bytes), to_stored(w->ch->tp), 3, EMU_STORE_POINTER);
    jump(w, in);
}

/* TSL: a free lock is taken, a held one makes the program go elsewhere. */
static void test_and_set(struct work *w, const struct instruction *in)
{
    struct emu_pointer where = locate(w->ch, &in->place, in->bytes);
    if (read_bytes(w, where, 1, EMU_TEST) == 0) write_bytes(w, where, in->data, 1, EMU_STORE);
    else jump(w, in);
}

/* LPD and LPDI share that the loaded pointer is a system pointer. */
static void load_system_pointer(struct work *w, const struct instruction *in, uint32_t doubleword)
{
    *pointer_register(w->ch, in->rrr) = in_system(from_doubleword(doubleword));
}

/* LPD P,M. */
static void load_doubleword(struct work *w, const struct instruction *in)
{
    load_system_pointer(w, in, read_bytes(w, locate(w->ch, &in->place, in->bytes), 4, EMU_READ_POINTER));
}

/* LPDI P,I. */
static void load_immediate(struct work *w, const struct instruction *in)
{
    load_system_pointer(w, in, in->data);
}

/* MOVP M,P. */
static void save_pointer(struct work *w, const struct instruction *in)
{
    struct emu_pointer held = *pointer_register(w->ch, in->rrr);
    write_bytes(w, locate(w->ch, &in->place, in->bytes), to_stored(held), 3, EMU_STORE_POINTER);
}

/* MOVP P,M. */
static void restore_pointer(struct work *w, const struct instruction *in)
{
    uint32_t stored = read_bytes(w, locate(w->ch, &in->place, in->bytes), 3, EMU_READ_POINTER);
    *pointer_register(w->ch, in->rrr) = from_stored(stored);
}

/* HLT acts as halt. */
static void do_hlt(struct work *w, const struct instruction *in)
{
    (void)in;
    halt(w);
}

/* SINTR, which does nothing where interrupts are off. */
static void do_sintr(struct work *w, const struct instruction *in)
{
    (void)in;
    if ((w->ch->psw & EMU_PSW_IC) != 0) w->ch->psw |= EMU_PSW_IS;
}

/* NOP. */
static void do_nop(struct work *w, const struct instruction *in)
{
    (void)w;
    (void)in;
}

/* XFER arms; what follows the next instruction is seen to behind every instruction. */
static void do_xfer(struct work *w, const struct instruction *in)
{
    (void)in;
    w->ch->armed = true;
}

/* WID: RRR is 1 S D. */
static void do_wid(struct work *w, const struct instruction *in)
{
    const unsigned widths = EMU_PSW_S | EMU_PSW_D;
    unsigned s = (in->rrr & 2) != 0 ? EMU_PSW_S : 0, d = (in->rrr & 1) != 0 ? EMU_PSW_D : 0;
    w->ch->psw = (uint8_t)((w->ch->psw & ~widths) | s | d);
}

/* ---- Instructions: the data sheet's rows, in its order, letter by letter ---- */

/* A printed 0 or 1 is fixed, a letter is free. */
#define FIX_0 1u
#define FIX_1 1u
#define FIX_R 0u
#define FIX_P 0u
#define FIX_B 0u
#define FIX_S 0u
#define FIX_D 0u
#define FIX_A 0u
#define FIX_W 0u
#define FIX_M 0u
#define FIX_d 0u
#define FIX_w 0u
#define FIX_b 0u
#define VAL_0 0u
#define VAL_1 1u
#define VAL_R 0u
#define VAL_P 0u
#define VAL_B 0u
#define VAL_S 0u
#define VAL_D 0u
#define VAL_A 0u
#define VAL_W 0u
#define VAL_M 0u
#define VAL_d 0u
#define VAL_w 0u
#define VAL_b 0u

/* A byte from eight printed digits, once for which are fixed and once for their values. */
#define OCTET(X, g, h, i, j, k, l, m, n)                                                                   \
    (X##_##g << 7 | X##_##h << 6 | X##_##i << 5 | X##_##j << 4 | X##_##k << 3 | X##_##l << 2 | X##_##m << 1 | \
     X##_##n)
#define DIGITS(g, h, i, j, k, l, m, n, o, p, q, r, s, t, u, v)                                      \
    {                                                                                               \
        OCTET(FIX, g, h, i, j, k, l, m, n), OCTET(VAL, g, h, i, j, k, l, m, n),                     \
        OCTET(FIX, o, p, q, r, s, t, u, v), OCTET(VAL, o, p, q, r, s, t, u, v)                      \
    }

static const struct row rows[] = {
    /* Data transfers: pointers */
    {"LPD P,M",  DIGITS(P,P,P,0,0,A,A,1, 1,0,0,0,1,0,M,M), POINTER,  NOTHING,         DOUBLEWORD,     CC_FREE,   load_doubleword,  NO_SOURCE, NULL, NULL},
    {"LPDI P,I", DIGITS(P,P,P,1,0,0,0,1, 0,0,0,0,1,0,0,0), POINTER,  LPDI_BYTES,      NO_MEMORY,      CC_FREE,   load_immediate,   NO_SOURCE, NULL, NULL},
    {"MOVP M,P", DIGITS(P,P,P,0,0,A,A,1, 1,0,0,1,1,0,M,M), POINTER,  NOTHING,         STORED_POINTER, CC_FREE,   save_pointer,     NO_SOURCE, NULL, NULL},
    {"MOVP P,M", DIGITS(P,P,P,0,0,A,A,1, 1,0,0,0,1,1,M,M), POINTER,  NOTHING,         STORED_POINTER, CC_FREE,   restore_pointer,  NO_SOURCE, NULL, NULL},
    /* Data transfers: data */
    {"MOV M,M",  DIGITS(0,0,0,0,0,A,A,W, 1,0,0,1,0,0,M,M), FIXED,    SECOND_PAIR,     BY_W,           CC_FREE,   memory_to_memory, NO_SOURCE, NULL, NULL},
    {"MOV R,M",  DIGITS(R,R,R,0,0,A,A,W, 1,0,0,0,0,0,M,M), REGISTER, NOTHING,         BY_W,           CC_FREE,   to_register,      FROM_M,    take, NULL},
    {"MOV M,R",  DIGITS(R,R,R,0,0,A,A,W, 1,0,0,0,0,1,M,M), REGISTER, NOTHING,         BY_W,           CC_FREE,   to_memory,        FROM_R,    take, NULL},
    {"MOVI R",   DIGITS(R,R,R,w,b,0,0,W, 0,0,1,1,0,0,0,0), REGISTER, WB_LITERAL,      NO_MEMORY,      CC_FREE,   to_register,      FROM_I,    take, NULL},
    {"MOVI M",   DIGITS(0,0,0,w,b,A,A,W, 0,1,0,0,1,1,M,M), FIXED,    WB_LITERAL,      BY_W,           CC_FREE,   to_memory,        FROM_I,    take, NULL},
    /* Control transfer; JMP is ADDI to TP, so its dd is a literal's and agrees with W */
    {"CALL",     DIGITS(1,0,0,d,d,A,A,W, 1,0,0,1,1,1,M,M), FIXED,    DD_DISPLACEMENT, STORED_POINTER, CC_FREE,   call,             NO_SOURCE, NULL, NULL},
    {"JMP",      DIGITS(1,0,0,d,d,0,0,W, 0,0,1,0,0,0,0,0), REGISTER, WB_LITERAL,      NO_MEMORY,      CC_FREE,   to_register,      FROM_I,    sum,  NULL},
    {"JZ M",     DIGITS(0,0,0,d,d,A,A,W, 1,1,1,0,0,1,M,M), FIXED,    DD_DISPLACEMENT, BY_W,           CC_FREE,   jump_if,          FROM_M,    NULL, is_zero},
    {"JZ R",     DIGITS(R,R,R,d,d,0,0,0, 0,1,0,0,0,1,0,0), REGISTER, DD_DISPLACEMENT, NO_MEMORY,      CC_BARRED, jump_if,          FROM_R,    NULL, is_zero},
    {"JNZ M",    DIGITS(0,0,0,d,d,A,A,W, 1,1,1,0,0,0,M,M), FIXED,    DD_DISPLACEMENT, BY_W,           CC_FREE,   jump_if,          FROM_M,    NULL, is_not_zero},
    {"JNZ R",    DIGITS(R,R,R,d,d,0,0,0, 0,1,0,0,0,0,0,0), REGISTER, DD_DISPLACEMENT, NO_MEMORY,      CC_BARRED, jump_if,          FROM_R,    NULL, is_not_zero},
    {"JBT",      DIGITS(B,B,B,d,d,A,A,0, 1,0,1,1,1,1,M,M), BIT,      DD_DISPLACEMENT, BYTE,           CC_FREE,   jump_if,          FROM_M,    NULL, bit_true},
    {"JNBT",     DIGITS(B,B,B,d,d,A,A,0, 1,0,1,1,1,0,M,M), BIT,      DD_DISPLACEMENT, BYTE,           CC_FREE,   jump_if,          FROM_M,    NULL, bit_not_true},
    {"JMCE",     DIGITS(0,0,0,d,d,A,A,0, 1,0,1,1,0,0,M,M), FIXED,    DD_DISPLACEMENT, BYTE,           CC_FREE,   jump_if,          FROM_M,    NULL, compares_equal},
    {"JMCNE",    DIGITS(0,0,0,d,d,A,A,0, 1,0,1,1,0,1,M,M), FIXED,    DD_DISPLACEMENT, BYTE,           CC_FREE,   jump_if,          FROM_M,    NULL, compares_not_equal},
    /* Arithmetic and logic: increment, decrement */
    {"INC M",    DIGITS(0,0,0,0,0,A,A,W, 1,1,1,0,1,0,M,M), FIXED,    NOTHING,         BY_W,           CC_FREE,   to_memory,        NO_SOURCE, one_more,    NULL},
    {"INC R",    DIGITS(R,R,R,0,0,0,0,0, 0,0,1,1,1,0,0,0), REGISTER, NOTHING,         NO_MEMORY,      CC_BARRED, to_register,      NO_SOURCE, one_more,    NULL},
    {"DEC M",    DIGITS(0,0,0,0,0,A,A,W, 1,1,1,0,1,1,M,M), FIXED,    NOTHING,         BY_W,           CC_FREE,   to_memory,        NO_SOURCE, one_less,    NULL},
    {"DEC R",    DIGITS(R,R,R,0,0,0,0,0, 0,0,1,1,1,1,0,0), REGISTER, NOTHING,         NO_MEMORY,      CC_BARRED, to_register,      NO_SOURCE, one_less,    NULL},
    /* ADD */
    {"ADDI M,I", DIGITS(0,0,0,w,b,A,A,W, 1,1,0,0,0,0,M,M), FIXED,    WB_LITERAL,      BY_W,           CC_FREE,   to_memory,        FROM_I,    sum,         NULL},
    {"ADDI R,I", DIGITS(R,R,R,w,b,0,0,W, 0,0,1,0,0,0,0,0), REGISTER, WB_LITERAL,      NO_MEMORY,      CC_BARRED, to_register,      FROM_I,    sum,         NULL},
    {"ADD M,R",  DIGITS(R,R,R,0,0,A,A,W, 1,1,0,1,0,0,M,M), REGISTER, NOTHING,         BY_W,           CC_BARRED, to_memory,        FROM_R,    sum,         NULL},
    {"ADD R,M",  DIGITS(R,R,R,0,0,A,A,W, 1,0,1,0,0,0,M,M), REGISTER, NOTHING,         BY_W,           CC_BARRED, to_register,      FROM_M,    sum,         NULL},
    /* AND */
    {"ANDI M,I", DIGITS(0,0,0,w,b,A,A,W, 1,1,0,0,1,0,M,M), FIXED,    WB_LITERAL,      BY_W,           CC_FREE,   to_memory,        FROM_I,    both,        NULL},
    {"ANDI R,I", DIGITS(R,R,R,w,b,0,0,W, 0,0,1,0,1,0,0,0), REGISTER, WB_LITERAL,      NO_MEMORY,      CC_BARRED, to_register,      FROM_I,    both,        NULL},
    {"AND M,R",  DIGITS(R,R,R,0,0,A,A,W, 1,1,0,1,1,0,M,M), REGISTER, NOTHING,         BY_W,           CC_BARRED, to_memory,        FROM_R,    both,        NULL},
    {"AND R,M",  DIGITS(R,R,R,0,0,A,A,W, 1,0,1,0,1,0,M,M), REGISTER, NOTHING,         BY_W,           CC_BARRED, to_register,      FROM_M,    both,        NULL},
    /* OR; the data sheet prints A A in ORI R,I where its sister rows print 0 0, and 0 0 is how it is read */
    {"ORI M,I",  DIGITS(0,0,0,w,b,A,A,W, 1,1,0,0,0,1,M,M), FIXED,    WB_LITERAL,      BY_W,           CC_FREE,   to_memory,        FROM_I,    either,      NULL},
    {"ORI R,I",  DIGITS(R,R,R,w,b,0,0,W, 0,0,1,0,0,1,0,0), REGISTER, WB_LITERAL,      NO_MEMORY,      CC_BARRED, to_register,      FROM_I,    either,      NULL},
    {"OR M,R",   DIGITS(R,R,R,0,0,A,A,W, 1,1,0,1,0,1,M,M), REGISTER, NOTHING,         BY_W,           CC_BARRED, to_memory,        FROM_R,    either,      NULL},
    {"OR R,M",   DIGITS(R,R,R,0,0,A,A,W, 1,0,1,0,0,1,M,M), REGISTER, NOTHING,         BY_W,           CC_BARRED, to_register,      FROM_M,    either,      NULL},
    /* NOT; the scan drops one 0 in each of these rows */
    {"NOT R",    DIGITS(R,R,R,0,0,0,0,0, 0,0,1,0,1,1,0,0), REGISTER, NOTHING,         NO_MEMORY,      CC_BARRED, to_register,      NO_SOURCE, not_old,     NULL},
    {"NOT M",    DIGITS(0,0,0,0,0,A,A,W, 1,1,0,1,1,1,M,M), FIXED,    NOTHING,         BY_W,           CC_FREE,   to_memory,        NO_SOURCE, not_old,     NULL},
    {"NOT R,M",  DIGITS(R,R,R,0,0,A,A,W, 1,0,1,0,1,1,M,M), REGISTER, NOTHING,         BY_W,           CC_BARRED, to_register,      FROM_M,    not_operand, NULL},
    /* Bit manipulation and test */
    {"SETB",     DIGITS(B,B,B,0,0,A,A,0, 1,1,1,1,0,1,M,M), BIT,      NOTHING,         BYTE,           CC_FREE,   to_memory,        FROM_BIT,  either,      NULL},
    {"CLR",      DIGITS(B,B,B,0,0,A,A,0, 1,1,1,1,1,0,M,M), BIT,      NOTHING,         BYTE,           CC_FREE,   to_memory,        FROM_BIT,  without,     NULL},
    {"TSL",      DIGITS(0,0,0,1,1,A,A,0, 1,0,0,1,0,1,M,M), FIXED,    TSL_BYTES,       BYTE,           CC_FREE,   test_and_set,     NO_SOURCE, NULL, NULL},
    /* Control; the scan adds a 0 in some of these rows */
    {"HLT",      DIGITS(0,0,1,0,0,0,0,0, 0,1,0,0,1,0,0,0), FIXED,    NOTHING,         NO_MEMORY,      CC_FREE,   do_hlt,           NO_SOURCE, NULL, NULL},
    {"SINTR",    DIGITS(0,1,0,0,0,0,0,0, 0,0,0,0,0,0,0,0), FIXED,    NOTHING,         NO_MEMORY,      CC_FREE,   do_sintr,         NO_SOURCE, NULL, NULL},
    {"NOP",      DIGITS(0,0,0,0,0,0,0,0, 0,0,0,0,0,0,0,0), FIXED,    NOTHING,         NO_MEMORY,      CC_FREE,   do_nop,           NO_SOURCE, NULL, NULL},
    {"XFER",     DIGITS(0,1,1,0,0,0,0,0, 0,0,0,0,0,0,0,0), FIXED,    NOTHING,         NO_MEMORY,      CC_FREE,   do_xfer,          NO_SOURCE, NULL, NULL},
    {"WID",      DIGITS(1,S,D,0,0,0,0,0, 0,0,0,0,0,0,0,0), WIDTHS,   NOTHING,         NO_MEMORY,      CC_FREE,   do_wid,           NO_SOURCE, NULL, NULL},
};

/* The destination's pair of MOV M,M, which is no instruction of its own. */
static const struct digits second_pair = DIGITS(0,0,0,0,0,A,A,W, 1,1,0,0,1,1,M,M);

_Static_assert(sizeof rows / sizeof rows[0] == EMU_ROWS, "the public count of rows");

/* ---- Instructions: reading one into its shape ---- */

/* Whether a pair has the printed digits. */
static bool has_digits(const struct digits *d, uint8_t first, uint8_t second)
{
    return (first & d->mask1) == d->value1 && (second & d->mask2) == d->value2;
}

/* Whether PPP is a pointer, and dd or wb is one of its printed values, a literal's agreeing with W. */
static bool fields_agree(const struct row *row, uint8_t first)
{
    unsigned rrr = first >> 5, dd = first >> 3 & 3u, width = first & 1u;
    if (row->field == POINTER && rrr != 0 && rrr != 1 && rrr != 2 && rrr != RRR_TP) return false;
    if (row->follow == DD_DISPLACEMENT) return dd == 1 || dd == 2;
    if (row->follow == WB_LITERAL) return dd == width + 1;
    return true;
}

/* Whether a first pair is this row. */
static bool fits(const struct row *row, uint8_t first, uint8_t second)
{
    return has_digits(&row->digits, first, second) && fields_agree(row, first);
}

/* Refusal 4 for a pair that is this row. */
static bool uses_cc(const struct row *row, uint8_t first)
{
    return row->cc == CC_BARRED && first >> 5 == RRR_CC;
}

unsigned emu_row_of(uint8_t first, uint8_t second)
{
    unsigned i = 0;
    while (i < EMU_ROWS && !fits(&rows[i], first, second)) i++;
    return i;
}

unsigned emu_rows_fitting(uint8_t first, uint8_t second)
{
    unsigned count = 0;
    for (unsigned i = 0; i < EMU_ROWS; i++) count += fits(&rows[i], first, second);
    return count;
}

const char *emu_row_name(unsigned row)
{
    return row < EMU_ROWS ? rows[row].name : "3";
}

const char *emu_format_name(uint8_t first, uint8_t second)
{
    unsigned row = emu_row_of(first, second);
    if (row < EMU_ROWS && uses_cc(&rows[row], first)) return "4";
    return emu_row_name(row);
}

/* Takes the instruction's next byte. */
static uint8_t next_byte(struct work *w, struct instruction *in)
{
    uint8_t byte = (uint8_t)read_bytes(w, in->end, 1, in->row == NULL ? EMU_FIRST_PAIR : EMU_LATER_CODE);
    in->end = plus(in->end, 1);
    return byte;
}

/* Takes the instruction's next n bytes, low byte first. */
static uint32_t next_bytes(struct work *w, struct instruction *in, unsigned n)
{
    uint32_t value = 0;
    for (unsigned i = 0; i < n; i++) value |= (uint32_t)next_byte(w, in) << (8 * i);
    return value;
}

/* Takes a literal or displacement of n bytes. */
static uint32_t next_signed(struct work *w, struct instruction *in, unsigned n)
{
    return sign_extend(next_bytes(w, in, n), n);
}

/* Takes AA and MM from a pair. */
static struct place place_of(uint8_t first, uint8_t second)
{
    struct place p = {first >> 1 & 3u, second & 3u, 0};
    return p;
}

/* Takes the offset byte that AA 01 announces. */
static void take_offset(struct work *w, struct instruction *in, struct place *p)
{
    if (p->aa == 1) p->offset = next_byte(w, in);
}

/* Takes the second pair of MOV M,M and its offset byte; both bytes are there before either is judged. */
static void take_second_pair(struct work *w, struct instruction *in)
{
    uint8_t first = next_byte(w, in);
    uint8_t second = next_byte(w, in);
    if (!has_digits(&second_pair, first, second) || (first & 1u) + 1 != in->bytes) refuse(w, EMU_NO_INSTRUCTION);
    if (w->number != EMU_DONE) return;
    in->second = place_of(first, second);
    if (ASKED) w->known = true;
    take_offset(w, in, &in->second);
}

/* Takes what stands behind pair and offset byte. */
static void take_following(struct work *w, struct instruction *in, unsigned dd)
{
    switch (in->row->follow) {
    case WB_LITERAL: in->data = next_signed(w, in, dd); break;
    case DD_DISPLACEMENT: in->displacement = next_signed(w, in, dd); break;
    case LPDI_BYTES: in->data = next_bytes(w, in, 4); break;
    case TSL_BYTES:
        in->data = next_byte(w, in);
        in->displacement = next_signed(w, in, 1);
        break;
    case SECOND_PAIR: take_second_pair(w, in); break;
    default: break;
    }
}

/* Takes the first pair and finds its row; without one there is nothing more to read. */
static bool take_first_pair(struct work *w, struct instruction *in, uint8_t *first)
{
    *first = next_byte(w, in);
    uint8_t second = next_byte(w, in);
    if (w->number != EMU_DONE) return false;
    unsigned row = emu_row_of(*first, second);
    if (row == EMU_NO_ROW) {
        refuse(w, EMU_NO_INSTRUCTION);
        return false;
    }
    in->row = &rows[row];
    if (uses_cc(in->row, *first)) refuse(w, EMU_CC_USED);
    in->place = place_of(*first, second);
    return w->number == EMU_DONE;
}

/* Reads the instruction at TP into its shape, or refuses it. */
static void read_instruction(struct work *w, struct instruction *in)
{
    uint8_t first = 0;
    memset(in, 0, sizeof *in);
    in->end = w->ch->tp;
    if (!take_first_pair(w, in, &first)) return;
    in->rrr = first >> 5;
    in->bytes = in->row->length == BY_W ? (first & 1u) + 1 : (unsigned)in->row->length;
    if (in->row->length != NO_MEMORY) take_offset(w, in, &in->place);
    take_following(w, in, first >> 3 & 3u);
}

/* Counts a done instruction. */
static void count_instruction(const struct work *w, const struct instruction *in)
{
    if (emu_coverage == NULL || w->number != EMU_DONE) return;
    emu_coverage->row[in->row - rows]++;
    if (in->row->act == to_register && in->rrr == RRR_CC) emu_coverage->cc_written[in->row->source == FROM_I]++;
    if (w->jumped) emu_coverage->taken[in->row - rows]++;
}

/* One instruction; a mark from before it, unless it halts, becomes XF behind it, and no byte is held any more. */
static void instruction_step(struct work *w)
{
    struct instruction in;
    bool was_armed = w->ch->armed;
    read_instruction(w, &in);
    /* Who asks is told all of the last stage, also behind an offset byte that is not there. */
    if (w->number != EMU_DONE && !(ASKED && w->known)) return;
    w->ch->tp = in.end;
    in.row->act(w, &in);
    if (was_armed && w->ch->mode == EMU_RUNNING) {
        w->ch->psw |= EMU_PSW_XF;
        w->ch->armed = false;
    }
    drop(w->ch);
    count_instruction(w, &in);
}

/* ---- Transfers ---- */

/* What an end code that is on (01, 10, 11) adds to TP. */
static unsigned end_offset(unsigned code)
{
    return (code - 1) * 4;
}

/* One side of a transfer. */
struct side {
    struct emu_pointer *pointer;
    bool word, moves;
};

/* A side is a word side if it is 16 bits wide and its pointer is even. */
static struct side make_side(struct emu_pointer *pointer, bool wide, bool moves)
{
    struct side s = {pointer, wide && (pointer->address & 1u) == 0, moves};
    return s;
}

/* Where a side's second byte lies. */
static struct emu_pointer second_place(const struct side *s)
{
    return s->word || s->moves ? plus(*s->pointer, 1) : *s->pointer;
}

/* Whether storing this byte ends the transfer by TMC. */
static bool meets_tmc(const struct emu_channel *ch, uint32_t byte)
{
    return tmc_code(ch) != 0 && matches(ch->mc, byte) != ends_on_no_match(ch);
}

/* Refusal 5. */
static bool bad_transfer(const struct emu_channel *ch)
{
    bool some_wide = (ch->psw & (EMU_PSW_S | EMU_PSW_D)) != 0;
    return ch->fields.syn == 3 || (ch->fields.translate && some_wide);
}

/* Fetches the byte or the two bytes that are to be stored, low byte first. */
static uint32_t fetch(struct work *w, const struct side *source, bool two)
{
    uint32_t data = read_bytes(w, *source->pointer, 1, EMU_SOURCE);
    if (two) data |= read_bytes(w, second_place(source), 1, EMU_SOURCE) << 8;
    if (!w->ch->fields.translate) return data;
    w->translated = true;
    return read_bytes(w, plus(w->ch->gc, data & MASK8), 1, EMU_TABLE);
}

/* Stores one byte and looks at it for a match; answers whether it ends the transfer so. */
static bool store_one(struct work *w, struct emu_pointer place, uint32_t byte)
{
    bool met = meets_tmc(w->ch, byte);
    write_bytes(w, place, byte, 1, EMU_DESTINATION);
    if (met) w->ends |= EMU_END_TMC;
    return met;
}

/* Stores singly: a first byte that meets TMC keeps the second from being stored or tested. */
static unsigned store_singly(struct work *w, const struct side *destination, uint32_t data, bool two)
{
    bool low_met = store_one(w, *destination->pointer, data & MASK8);
    if (!two || low_met) return 1;
    store_one(w, second_place(destination), data >> 8 & MASK8);
    return 2;
}

/* Stores a word, of which only the low byte is looked at for a match. */
static unsigned store_word(struct work *w, const struct side *destination, uint32_t data)
{
    write_bytes(w, *destination->pointer, data, 2, EMU_DESTINATION);
    if (meets_tmc(w->ch, data & MASK8)) w->ends |= EMU_END_TMC;
    return 2;
}

/* Moves the pointers of moving sides on. */
static void move_on(const struct side *s, unsigned bytes)
{
    if (s->moves) *s->pointer = plus(*s->pointer, bytes);
}

/* Of several ends the largest offset counts. */
static void consider_end(struct work *w, unsigned end, unsigned offset)
{
    w->ends |= end;
    if (offset > w->end_offset) w->end_offset = offset;
}

/* Ends the transfer if one of its reasons holds now, behind the move. */
static void end_if_due(struct work *w)
{
    struct emu_channel *ch = w->ch;
    if ((w->ends & EMU_END_TMC) != 0) consider_end(w, EMU_END_TMC, end_offset(tmc_code(ch)));
    if (ch->fields.tbc != 0 && ch->bc == 0) consider_end(w, EMU_END_TBC, end_offset(ch->fields.tbc));
    if (ch->fields.ts) consider_end(w, EMU_END_TS, 0);
    if (w->ends == 0) return;
    ch->psw &= (uint8_t)~EMU_PSW_XF;
    ch->tp = plus(ch->tp, w->end_offset);
}


/* Names what BC was before a step whose first of two single stores met TMC, for the counters. */
static enum emu_leftover leftover_of(const struct emu_channel *ch, uint16_t before)
{
    unsigned tbc = ch->fields.tbc, tmc = tmc_code(ch);
    if (tbc == 0) return before > 2 ? EMU_LEFTOVER_OFF_MORE : (enum emu_leftover)(EMU_LEFTOVER_OFF_0 + before);
    if (before != 2) return before == 0 ? EMU_LEFTOVER_TBC_0 : EMU_LEFTOVER_TBC_MORE;
    if (tbc == tmc) return EMU_LEFTOVER_TBC_2_SAME;
    return tbc > tmc ? EMU_LEFTOVER_TBC_2_COUNT : EMU_LEFTOVER_TBC_2_MATCH;
}

/* The side that is read from: GB or GA, as its field says. */
static struct side source_side(struct emu_channel *ch)
{
    struct emu_pointer *pointer = ch->fields.source_is_gb ? &ch->gb : &ch->ga;
    return make_side(pointer, (ch->psw & EMU_PSW_S) != 0, ch->fields.source_moves);
}

/* The side that is stored to: the other one. */
static struct side destination_side(struct emu_channel *ch)
{
    struct emu_pointer *pointer = ch->fields.source_is_gb ? &ch->ga : &ch->gb;
    return make_side(pointer, (ch->psw & EMU_PSW_D) != 0, ch->fields.destination_moves);
}

/* A transfer step as its channel stands: both sides, and whether two bytes move. */
struct move {
    struct side source, destination;
    bool two;
};

/* The step that a channel has before it; with one byte left to count, a word must not run past the count. */
static struct move move_of(struct emu_channel *ch)
{
    struct move m = {source_side(ch), destination_side(ch), false};
    bool one_left = ch->fields.tbc != 0 && ch->bc == 1;
    m.two = (m.source.word || m.destination.word) && !one_left;
    return m;
}

/* The side whose device asks for bytes, or NULL where SYN is 00. */
static const struct side *synchronised_side(const struct emu_channel *ch, const struct move *m)
{
    return ch->fields.syn == 1 ? &m->source : ch->fields.syn == 2 ? &m->destination : NULL;
}

/* The half of a pair that a step is: two bytes move, and the side that asks for them takes them one by one. */
static enum emu_half half_of(const struct emu_channel *ch, const struct move *m)
{
    const struct side *asking = synchronised_side(ch, m);
    if (!m->two || asking == NULL || asking->word) return EMU_WHOLE;
    if (asking == &m->source) return holds(ch) ? EMU_SECOND_FETCH : EMU_FIRST_FETCH;
    return holds(ch) ? EMU_SECOND_STORE : EMU_FIRST_STORE;
}

/* Names the way in which the bytes of a whole step moved, for the counters. */
static unsigned shape_of(const struct move *m, unsigned stored)
{
    if (!m->two) return EMU_SHAPE_B_B;
    if (stored == 1) return EMU_SHAPE_W_B_CUT;
    if (!m->destination.word) return EMU_SHAPE_W_BB;
    return m->source.word ? EMU_SHAPE_W_W : EMU_SHAPE_BB_W;
}

/* What follows the last store of a step or pair: BC falls by the bytes fetched, the pointers move with those stored, ends
 * are looked for, and nothing is held. */
static void complete(struct work *w, const struct move *m, unsigned fetched, unsigned stored)
{
    move_on(&m->source, stored);
    move_on(&m->destination, stored);
    w->ch->bc = (uint16_t)(w->ch->bc - fetched);
    drop(w->ch);
    end_if_due(w);
}

/* A step that is no half. */
static void whole_step(struct work *w, const struct move *m)
{
    uint32_t data = fetch(w, &m->source, m->two);
    unsigned stored = m->two && m->destination.word ? store_word(w, &m->destination, data)
                                                    : store_singly(w, &m->destination, data, m->two);
    w->shape = shape_of(m, stored);
    complete(w, m, m->two ? 2 : 1, stored);
}

/* The first of two fetches, whose byte waits for the second. */
static void first_fetch(struct work *w, const struct move *m)
{
    hold(w->ch, read_bytes(w, *m->source.pointer, 1, EMU_SOURCE));
}

/* The second of two fetches, and the word that the two bytes are. */
static void second_fetch(struct work *w, const struct move *m)
{
    uint32_t low = held_byte(w->ch), high = read_bytes(w, second_place(&m->source), 1, EMU_SOURCE);
    unsigned stored = store_word(w, &m->destination, low | high << 8);
    complete(w, m, 2, stored);
}

/* A word, and the first of its two stores, which ends the transfer where it meets TMC; else the other byte waits. */
static void first_store(struct work *w, const struct move *m)
{
    uint32_t data = fetch(w, &m->source, true);
    if (store_one(w, *m->destination.pointer, data & MASK8)) complete(w, m, 2, 1);
    else hold(w->ch, data >> 8);
}

/* The second of two stores, of the byte that waited. */
static void second_store(struct work *w, const struct move *m)
{
    store_one(w, second_place(&m->destination), held_byte(w->ch));
    complete(w, m, 2, 2);
}

/* ---- Counting transfer steps ---- */

/* Names why a step is whole. */
static enum emu_whole whole_for(const struct emu_channel *ch, const struct move *m)
{
    const struct side *asking = synchronised_side(ch, m);
    if (asking == NULL) return EMU_WHOLE_UNSYNCHRONISED;
    if (!m->source.word && !m->destination.word) return EMU_WHOLE_NO_WORD;
    return asking->word ? EMU_WHOLE_SYNCHRONISED_WORD : EMU_WHOLE_LAST_BYTE;
}

/* Names the synchronised side of a pair. */
static unsigned synchronised_kind(const struct emu_channel *ch, const struct move *m)
{
    const struct side *asking = synchronised_side(ch, m);
    unsigned wide = asking == &m->source ? EMU_PSW_S : EMU_PSW_D;
    return (asking->moves ? EMU_SIDE_MOVES : 0u) | ((ch->psw & wide) != 0 ? EMU_SIDE_ODD : 0u) |
           (asking->pointer->tag ? EMU_SIDE_IO : 0u);
}

bool emu_half_has(enum emu_half half, enum emu_pair_byte byte)
{
    static const bool own[EMU_HALVES][EMU_PAIR_BYTES] = {[EMU_FIRST_FETCH] = {true, false, false, false},
                                                         [EMU_SECOND_FETCH] = {false, true, true, true},
                                                         [EMU_FIRST_STORE] = {true, true, true, false},
                                                         [EMU_SECOND_STORE] = {false, false, false, true}};
    return own[half][byte];
}

/* Counts the bytes of a pair that are not lent: those of a half by whether it was refused for them or met slots, and
 * those of the other half, which it leaves alone. */
static void count_pair_bytes(enum emu_half half, const struct move *m, const struct emu_memory *memory, bool refused)
{
    const struct emu_pointer places[EMU_PAIR_BYTES] = {*m->source.pointer, second_place(&m->source),
                                                       *m->destination.pointer, second_place(&m->destination)};
    bool found = false;
    for (unsigned i = 0; i < EMU_PAIR_BYTES; i++) {
        bool own = emu_half_has(half, i), in_io = places[i].tag;
        if (cell(memory, places[i]) != NULL) continue;
        if (refused && own && !in_io && !found) emu_coverage->half_beyond[half][i]++;
        if (!refused && own) emu_coverage->half_slot[half][i]++;
        if (!refused && !own && !in_io) emu_coverage->half_spared[half][i]++;
        found = found || (own && !in_io);
    }
}

/* Counts a half that was done or refused by 2, from the channel as it was given. */
static void count_half(const struct work *w, struct emu_channel *given)
{
    struct move m = move_of(given);
    if (w->number == EMU_DONE) emu_coverage->half_side[w->half][synchronised_kind(given, &m)]++;
    count_pair_bytes(w->half, &m, w->memory, w->number != EMU_DONE);
}

/* Counts a whole step that was done. */
static void count_whole(const struct work *w, struct emu_channel *given)
{
    struct move m = move_of(given);
    emu_coverage->shape[w->shape]++;
    if (holds(given)) emu_coverage->held_whole[whole_for(given, &m)]++;
}

/* Counts a step that 5 refused. */
static void count_bad_transfer(const struct emu_channel *given)
{
    emu_coverage->bad_transfer[holds(given)][given->fields.syn != 3]++;
}

/* Whether the first of two single stores was the last. */
static bool cut_short(const struct work *w)
{
    return w->half == EMU_FIRST_STORE ? w->ends != 0 : w->half == EMU_WHOLE && w->shape == EMU_SHAPE_W_B_CUT;
}

/* Counts a transfer step of a channel that was given so. */
static void count_transfer(const struct work *w, struct emu_channel given)
{
    if (emu_coverage == NULL) return;
    if (w->number == EMU_BAD_TRANSFER) count_bad_transfer(&given);
    if (w->number != EMU_BAD_TRANSFER && w->half != EMU_WHOLE) count_half(w, &given);
    if (w->number != EMU_DONE) return;
    if (w->half == EMU_WHOLE) count_whole(w, &given);
    if (cut_short(w))
        emu_coverage->leftover[w->half != EMU_WHOLE][ends_on_no_match(&given)][leftover_of(&given, given.bc)]++;
    emu_coverage->half_end[w->half][w->ends]++;
    emu_coverage->end[w->ends]++;
    if (w->translated) emu_coverage->translated++;
    if (w->ends != 0) emu_coverage->end_offset[w->end_offset / 4]++;
}

/* One transfer step: whole, or a half of a pair. */
static void transfer_step(struct work *w)
{
    struct emu_channel given = *w->ch;
    struct move m = move_of(w->ch);
    if (bad_transfer(w->ch)) {
        refuse(w, EMU_BAD_TRANSFER);
    } else {
        w->half = half_of(w->ch, &m);
        switch (w->half) {
        case EMU_FIRST_FETCH: first_fetch(w, &m); break;
        case EMU_SECOND_FETCH: second_fetch(w, &m); break;
        case EMU_FIRST_STORE: first_store(w, &m); break;
        case EMU_SECOND_STORE: second_store(w, &m); break;
        default: whole_step(w, &m); break;
        }
    }
    count_transfer(w, given);
}

/* ---- Which channel steps ---- */

/* The lines' bits for channel 1; channel 2 has the next bit up. */
enum line { LINE_DRQ = 1, LINE_EXT = 4 };

/* Ranks, of which the lower goes first. */
enum rank { RANK_FIRST = 1, RANK_PLAIN = 3, RANK_NONE = 9 };

/* Whether one of a channel's lines is up. */
static bool line_up(uint32_t lines, enum line line, unsigned channel)
{
    return (lines & (uint32_t)line << (channel - 1)) != 0;
}

/* Whether a channel is in a transfer. */
static bool transferring(const struct emu_channel *ch)
{
    return (ch->psw & EMU_PSW_XF) != 0;
}

/* Whether a channel's transfer is to be ended from outside. */
static bool externally_ended(const struct emu_state *state, unsigned channel, uint32_t lines)
{
    const struct emu_channel *ch = &state->channel[channel - 1];
    return ch->mode == EMU_RUNNING && transferring(ch) && ch->fields.tx != 0 && line_up(lines, LINE_EXT, channel);
}

/* A channel's rank; a transfer with SYN 11 does not wait, so that it can be refused. */
static enum rank rank_of(const struct emu_state *state, unsigned channel, uint32_t lines)
{
    const struct emu_channel *ch = &state->channel[channel - 1];
    if (ch->mode != EMU_RUNNING) return RANK_NONE;
    if (!transferring(ch)) return ch->fields.chained ? RANK_FIRST : RANK_PLAIN;
    bool waits = ch->fields.syn == 1 || ch->fields.syn == 2;
    return !waits || line_up(lines, LINE_DRQ, channel) ? RANK_FIRST : RANK_NONE;
}

/* The channel that goes when neither is ended from outside, or 0: rank, then priority, then taking turns. */
static unsigned choose(const struct emu_state *state, uint32_t lines)
{
    enum rank rank1 = rank_of(state, 1, lines), rank2 = rank_of(state, 2, lines);
    unsigned priority1 = state->channel[0].psw & EMU_PSW_PRIORITY;
    unsigned priority2 = state->channel[1].psw & EMU_PSW_PRIORITY;
    if (rank1 == RANK_NONE && rank2 == RANK_NONE) return 0;
    if (rank1 != rank2) return rank1 < rank2 ? 1 : 2;
    if (priority1 != priority2) return priority1 > priority2 ? 1 : 2;
    return state->last == 1 ? 2 : 1;
}

/* An external end: TP gains the TX offset, no byte moves, and one that was held is lost. */
static void external_step(struct work *w)
{
    unsigned offset = end_offset(w->ch->fields.tx);
    w->ch->tp = plus(w->ch->tp, offset);
    w->ch->psw &= (uint8_t)~EMU_PSW_XF;
    drop(w->ch);
    if (emu_coverage != NULL) emu_coverage->external[offset / 4]++;
}

/* Counts the empty slots that a step met, if it came to use them: a done one, or one whose bytes are no instruction. */
static void count_slots(const struct work *w)
{
    if (emu_coverage == NULL || (w->number != EMU_DONE && w->number != EMU_NO_INSTRUCTION)) return;
    for (unsigned i = 0; i < EMU_ACCESSES; i++) {
        if (w->empty[i] == 0) continue;
        unsigned of = w->in_io[i] == 1 ? EMU_ALONE : w->empty[i] == w->in_io[i] ? EMU_ALL : EMU_SOME;
        emu_coverage->slot[i][of]++;
    }
}

/* Counts a done step by what held bytes met with it. */
static void count_held(const struct emu_state *given, unsigned channel, char kind)
{
    if (emu_coverage == NULL) return;
    bool held = holds(&given->channel[channel - 1]);
    if (held && kind == 'I') emu_coverage->held_instruction++;
    if (held && kind == 'X') emu_coverage->held_external++;
    count_beside(given, channel,
                 kind == 'I' ? EMU_BESIDE_INSTRUCTION : kind == 'T' ? EMU_BESIDE_TRANSFER : EMU_BESIDE_EXTERNAL);
}

/* How many bytes a transfer step stored: those that are lent, and those that empty slots swallowed. */
static unsigned stored_by(const struct work *w)
{
    return w->stores + w->empty[EMU_DESTINATION];
}

/* Does the step that a channel has before it, and answers its number and count; a schedule asks what a transfer stored. */
static struct emu_answer do_step(struct emu_state *state, const struct emu_memory *memory, unsigned channel, char kind,
                                 unsigned *stored)
{
    struct work w;
    begin(&w, state, memory, channel);
    w.state.last = channel;
    if (kind == 'X') external_step(&w);
    else if (kind == 'T') transfer_step(&w);
    else instruction_step(&w);
    count_slots(&w);
    if (w.number == EMU_DONE) count_held(state, channel, kind);
    if (stored != NULL && kind == 'T') *stored = stored_by(&w);
    return finish(&w, state);
}

/* A step whose lines, buffers and state passed. */
static struct emu_stepped step_soundly(struct emu_state *state, const struct emu_memory *memory, uint32_t lines,
                                       unsigned *stored)
{
    struct emu_stepped refused = {EMU_NO_CHANNEL_CAN_RUN, 0, 0, 0}, done = {EMU_DONE, 0, 'X', 0};
    if (externally_ended(state, 1, lines)) done.channel = 1;
    else if (externally_ended(state, 2, lines)) done.channel = 2;
    else {
        done.channel = choose(state, lines);
        if (done.channel == 0) return refused;
        done.kind = transferring(&state->channel[done.channel - 1]) ? 'T' : 'I';
    }
    struct emu_answer answer = do_step(state, memory, done.channel, done.kind, stored);
    done.count = answer.count;
    refused.number = answer.number;
    return answer.number == EMU_DONE ? done : refused;
}

/* A step, and of a done one of a transfer how many bytes it stored, where that is asked. */
static inline struct emu_stepped step_storing(struct emu_state *state, const struct emu_memory *memory, uint32_t lines,
                                              unsigned *stored)
{
    struct emu_stepped stepped = {early_refusal(lines <= 15, memory, state), 0, 0, 0};
    if (stepped.number == EMU_DONE) stepped = step_soundly(state, memory, lines, stored);
    if (emu_coverage != NULL) count_refused(emu_coverage->step_refused, state, stepped.number);
    return stepped;
}

struct emu_stepped emu_step(struct emu_state *state, struct emu_memory *memory, uint32_t lines)
{
    return step_storing(state, memory, lines, NULL);
}

/* ---- Sweeps ---- */

/* How many bytes a transfer has left: BC, with 0 as 65,536. */
static uint32_t bytes_left(const struct emu_channel *ch)
{
    return ch->bc == 0 ? 65536u : ch->bc;
}

/* Where a range begins in its space: in I/O space at the low 16 bits of its pointer. */
static uint32_t beginning(struct emu_pointer p)
{
    return p.address & (p.tag ? MASK16 : MASK20);
}

/* Whether n bytes from a place on are lent; none of them wraps, since no buffer is longer than its space. */
static bool range_lent(const struct emu_memory *memory, struct emu_pointer p, uint32_t n)
{
    return beginning(p) + n <= (p.tag ? memory->io_len : memory->sys_len);
}

/* Whether two ranges of n bytes share one; in two spaces they never do. */
static bool ranges_share(struct emu_pointer a, struct emu_pointer b, uint32_t n)
{
    return a.tag == b.tag && beginning(a) < beginning(b) + n && beginning(b) < beginning(a) + n;
}

/* Where the source is. */
static struct emu_pointer source_of(const struct emu_channel *ch)
{
    return ch->fields.source_is_gb ? ch->gb : ch->ga;
}

/* Where the destination is. */
static struct emu_pointer destination_of(const struct emu_channel *ch)
{
    return ch->fields.source_is_gb ? ch->ga : ch->gb;
}

/* The conditions on the fields of CC that a channel fails: a block transfer that its byte count alone ends. */
static unsigned field_bars(const struct emu_fields *f)
{
    unsigned bars = 0;
    if (!f->destination_moves) bars |= 1u << EMU_BAR_DESTINATION_STAYS;
    if (!f->source_moves) bars |= 1u << EMU_BAR_SOURCE_STAYS;
    if (f->translate) bars |= 1u << EMU_BAR_TRANSLATES;
    if (f->syn != 0) bars |= 1u << EMU_BAR_SYN;
    if (f->ts) bars |= 1u << EMU_BAR_TS;
    if (f->tx != 0) bars |= 1u << EMU_BAR_TX;
    if (f->tbc == 0) bars |= 1u << EMU_BAR_TBC_OFF;
    if ((f->tmc & 3u) != 0) bars |= 1u << EMU_BAR_TMC;
    return bars;
}

/* The conditions on its two ranges. */
static unsigned range_bars(const struct emu_channel *ch, const struct emu_memory *memory)
{
    struct emu_pointer source = source_of(ch), destination = destination_of(ch);
    uint32_t n = bytes_left(ch);
    unsigned bars = 0;
    if (!range_lent(memory, source, n)) bars |= 1u << EMU_BAR_SOURCE_NOT_LENT;
    if (!range_lent(memory, destination, n)) bars |= 1u << EMU_BAR_DESTINATION_NOT_LENT;
    if (ranges_share(source, destination, n)) bars |= 1u << EMU_BAR_SHARED;
    return bars;
}

unsigned emu_bars(const struct emu_state *state, const struct emu_memory *memory, uint32_t channel, uint32_t lines)
{
    const struct emu_channel *ch = &state->channel[channel - 1], *other = &state->channel[2 - channel];
    unsigned bars = field_bars(&ch->fields) | range_bars(ch, memory);
    if (line_up(lines, LINE_EXT, 1) || line_up(lines, LINE_EXT, 2)) bars |= 1u << EMU_BAR_EXT;
    if (other->mode == EMU_RUNNING) bars |= 1u << EMU_BAR_OTHER_RUNS;
    if (ch->mode != EMU_RUNNING) bars |= 1u << EMU_BAR_STANDS;
    if (!transferring(ch)) bars |= 1u << EMU_BAR_NO_XF;
    return bars;
}

const char *emu_bar_name(enum emu_bar bar)
{
    static const char *const names[EMU_BARS] = {"EXT is up",       "the other channel runs", "the channel does not run",
                                                "XF is clear",     "the destination stays",  "the source stays",
                                                "translation",     "SYN is not 00",          "TS is on",
                                                "TX is on",        "TBC is off",             "TMC is on",
                                                "source not lent", "destination not lent",   "a byte in both ranges"};
    return names[bar];
}

/* How many steps n bytes take: n with two 8-bit sides; otherwise one for the lone byte where no 16-bit side begins at an
 * even address, and half of the rest, rounded up. */
static uint32_t steps_of(const struct emu_channel *ch, uint32_t n)
{
    bool from_words = (ch->psw & EMU_PSW_S) != 0, from_even = source_of(ch).address % 2 == 0;
    bool to_words = (ch->psw & EMU_PSW_D) != 0, to_even = destination_of(ch).address % 2 == 0;
    uint32_t lone = (from_words && from_even) || (to_words && to_even) ? 0 : 1;
    return from_words || to_words ? lone + (n - lone + 1) / 2 : n;
}

/* Moves the bytes of a transfer that meets every condition. */
static void move_all(const struct emu_channel *ch, const struct emu_memory *memory)
{
    memcpy(cell(memory, destination_of(ch)), cell(memory, source_of(ch)), bytes_left(ch));
}

/* Ends such a transfer by its count; its bytes have moved. */
static void end_swept(struct emu_channel *ch)
{
    uint32_t n = bytes_left(ch);
    ch->ga = plus(ch->ga, n);
    ch->gb = plus(ch->gb, n);
    ch->bc = 0;
    ch->psw &= (uint8_t)~EMU_PSW_XF;
    ch->tp = plus(ch->tp, end_offset(ch->fields.tbc));
    drop(ch);
}

/* Counts a done sweep of a channel that was given so. */
static void count_swept(const struct emu_channel *given)
{
    struct emu_pointer source = source_of(given), destination = destination_of(given);
    unsigned widths = ((given->psw & EMU_PSW_S) != 0 ? 1u : 0) | ((given->psw & EMU_PSW_D) != 0 ? 2u : 0);
    unsigned odd = (source.address & 1u) | (destination.address & 1u) << 1;
    unsigned spaces = (source.tag ? 1u : 0) | (destination.tag ? 2u : 0);
    emu_coverage->swept[widths][odd][spaces]++;
    if (holds(given)) emu_coverage->swept_held++;
    if (given->armed) emu_coverage->swept_armed++;
    if (given->bc == 0) emu_coverage->swept_all++;
}

/* Counts a sweep by the conditions that it failed, if that was one. */
static void count_barred(unsigned bars)
{
    for (unsigned i = 0; i < EMU_BARS; i++)
        if (bars == 1u << i) emu_coverage->barred[i]++;
}

/* A sweep whose arguments, buffers and state passed. */
static struct emu_swept sweep_soundly(struct emu_state *state, const struct emu_memory *memory, uint32_t channel,
                                      uint32_t lines)
{
    struct emu_channel *ch = &state->channel[channel - 1];
    struct emu_swept refused = {EMU_NOT_SWEEPABLE, 0, 0}, done = {EMU_DONE, 0, 0};
    unsigned bars = emu_bars(state, memory, channel, lines);
    if (emu_coverage != NULL) count_barred(bars);
    if (bars != 0) return refused;
    if (emu_coverage != NULL) count_swept(ch);
    done.steps = steps_of(ch, bytes_left(ch));
    done.count = 2 * bytes_left(ch);
    if (ASKED) {
        note(source_of(ch), EMU_SOURCE, true, false, *cell(memory, source_of(ch)));
        note(destination_of(ch), EMU_DESTINATION, true, true, *cell(memory, source_of(ch)));
        return done;
    }
    move_all(ch, memory);
    end_swept(ch);
    state->last = channel;
    return done;
}

struct emu_swept emu_sweep(struct emu_state *state, struct emu_memory *memory, uint32_t channel, uint32_t lines)
{
    bool arguments_good = (channel == 1 || channel == 2) && lines <= 15;
    struct emu_swept refused = {early_number(arguments_good, memory, state), 0, 0};
    return refused.number == EMU_DONE ? sweep_soundly(state, memory, channel, lines) : refused;
}

/* ---- Schedules ---- */

/* Whether a row is an attention or a step. */
static bool is_known(struct emu_row row)
{
    return row.kind == EMU_ROW_ATTENTION || row.kind == EMU_ROW_STEP;
}

/* It runs with XF, its field SYN is 01 or 10, and its DRQ is down; a number over 15 says nothing of a line. */
bool emu_waits(const struct emu_state *state, unsigned channel, uint32_t lines)
{
    const struct emu_channel *ch = &state->channel[channel - 1];
    bool synchronised = ch->fields.syn == 1 || ch->fields.syn == 2;
    return lines <= 15 && ch->mode == EMU_RUNNING && transferring(ch) && synchronised &&
           !line_up(lines, LINE_DRQ, channel);
}

/* Counts a row that came to this number over all. */
static void count_row(struct emu_report *report, unsigned number)
{
    if (number == EMU_DONE) report->accepted++;
    else report->refused++;
}

/* Runs an attention; one to no channel counts over all only. */
static void run_attention(struct emu_state *state, struct emu_memory *memory, uint32_t channel,
                          struct emu_report *report)
{
    unsigned number = emu_attention(state, memory, channel).number;
    count_row(report, number);
    if (channel != 1 && channel != 2) return;
    struct emu_tally *tally = &report->channel[channel - 1];
    if (number == EMU_DONE) tally->attentions_accepted++;
    else tally->attentions_refused++;
}

/* Runs a step; who waits is asked before it, and a refused one belongs to no channel. */
static void run_step(struct emu_state *state, struct emu_memory *memory, uint32_t lines, struct emu_report *report)
{
    for (unsigned channel = 1; channel <= 2; channel++)
        if (emu_waits(state, channel, lines)) report->channel[channel - 1].waiting_rows++;
    unsigned stored = 0;
    struct emu_stepped stepped = step_storing(state, memory, lines, &stored);
    count_row(report, stepped.number);
    if (stepped.number != EMU_DONE) return;
    struct emu_tally *tally = &report->channel[stepped.channel - 1];
    if (stepped.kind == 'I') tally->instructions++;
    if (stepped.kind == 'T') tally->transfer_steps++;
    if (stepped.kind == 'X') tally->external_ends++;
    tally->bytes_stored += stored;
}

unsigned emu_schedule(struct emu_state *state, struct emu_memory *memory, const struct emu_row *rows, size_t count,
                      struct emu_report *report)
{
    memset(report, 0, sizeof *report);
    for (size_t i = 0; i < count; i++)
        if (!is_known(rows[i])) return EMU_UNKNOWN_ROW;
    for (size_t i = 0; i < count; i++) {
        if (rows[i].kind == EMU_ROW_ATTENTION) run_attention(state, memory, rows[i].value, report);
        else run_step(state, memory, rows[i].value, report);
    }
    return EMU_DONE;
}

/* ---- Two processors on one board ---- */

/* Whether a board has a processor of this number. */
static bool is_processor(uint32_t processor)
{
    return processor == 1 || processor == 2;
}

/* The registers of a processor. */
static struct emu_state *registers_of(struct emu_processors *board, uint32_t processor)
{
    return &board->state[processor - 1];
}

/* What a processor sees: the board's system memory, and its own ports. */
static struct emu_memory seen_by(const struct emu_processors *board, uint32_t processor)
{
    struct emu_memory memory = {board->sys, board->sys_len, board->io[processor - 1], board->io_len[processor - 1]};
    return memory;
}

struct emu_answer emu_attention_of(struct emu_processors *board, uint32_t processor, uint32_t channel)
{
    if (!is_processor(processor)) return refused_by(EMU_BAD_ARGUMENT);
    struct emu_memory memory = seen_by(board, processor);
    return emu_attention(registers_of(board, processor), &memory, channel);
}

struct emu_stepped emu_step_of(struct emu_processors *board, uint32_t processor, uint32_t lines)
{
    struct emu_stepped refused = {EMU_BAD_ARGUMENT, 0, 0, 0};
    if (!is_processor(processor)) return refused;
    struct emu_memory memory = seen_by(board, processor);
    return emu_step(registers_of(board, processor), &memory, lines);
}

struct emu_answer emu_power_up_of(struct emu_processors *board, uint32_t processor)
{
    if (!is_processor(processor)) return refused_by(EMU_BAD_ARGUMENT);
    struct emu_memory memory = seen_by(board, processor);
    return emu_power_up(registers_of(board, processor), &memory);
}

struct emu_answer emu_reset_of(struct emu_processors *board, uint32_t processor)
{
    struct emu_answer done = {EMU_DONE, 0};
    if (!is_processor(processor)) return refused_by(EMU_BAD_ARGUMENT);
    emu_reset(registers_of(board, processor));
    return done;
}

struct emu_swept emu_sweep_of(struct emu_processors *board, uint32_t processor, uint32_t channel, uint32_t lines)
{
    struct emu_swept refused = {EMU_BAD_ARGUMENT, 0, 0};
    if (!is_processor(processor)) return refused;
    struct emu_memory memory = seen_by(board, processor);
    return emu_sweep(registers_of(board, processor), &memory, channel, lines);
}

unsigned emu_schedule_of(struct emu_processors *board, uint32_t processor, const struct emu_row *rows, size_t count,
                         struct emu_report *report)
{
    memset(report, 0, sizeof *report);
    if (!is_processor(processor)) return EMU_BAD_ARGUMENT;
    struct emu_memory memory = seen_by(board, processor);
    return emu_schedule(registers_of(board, processor), &memory, rows, count, report);
}

/* ---- The panel's side ---- */

/* The panel's answer. */
static uint32_t answer(unsigned number, uint32_t steps)
{
    return (uint32_t)number * 65536u + steps;
}

/* Refusals 12 and 11 of a run, which come before anything else. */
static unsigned run_refusal(const struct emu_memory *memory, uint32_t channel, uint32_t lines, uint32_t limit)
{
    if ((channel != 1 && channel != 2) || lines > 15 || limit > 65535) return EMU_BAD_ARGUMENT;
    return buffers_fit(memory) ? EMU_DONE : EMU_BAD_BUFFER;
}

/* A fresh state and one attention, with which every run begins. */
static unsigned set_going(struct emu_state *state, struct emu_memory *memory, uint32_t cp, uint32_t channel)
{
    unsigned number = emu_fresh(cp, state);
    return number != EMU_DONE ? number : emu_attention(state, memory, channel).number;
}

/* Steps until one is refused or the limit is reached, unless the run was refused before. */
static uint32_t go_on(unsigned number, struct emu_state *state, struct emu_memory *memory, uint32_t lines, uint32_t limit)
{
    uint32_t steps = 0;
    while (number == EMU_DONE && steps < limit) {
        number = emu_step(state, memory, lines).number;
        if (number == EMU_DONE) steps++;
    }
    return answer(number, steps);
}

uint32_t emu_run(struct emu_memory *memory, uint32_t cp, uint32_t channel, uint32_t lines, uint32_t limit)
{
    struct emu_state state;
    unsigned number = run_refusal(memory, channel, lines, limit);
    if (number == EMU_DONE) number = set_going(&state, memory, cp, channel);
    return go_on(number, &state, memory, lines, limit);
}

uint32_t emu_board(struct emu_memory *memory, uint32_t channel, uint32_t lines, uint32_t limit)
{
    struct emu_state state;
    unsigned number = run_refusal(memory, channel, lines, limit);
    emu_reset(&state);
    if (number == EMU_DONE) number = emu_power_up(&state, memory).number;
    if (number == EMU_DONE) number = emu_attention(&state, memory, channel).number;
    return go_on(number, &state, memory, lines, limit);
}

/* Prints one done step. */
static void print_step(FILE *out, unsigned long count, struct emu_stepped stepped, const struct emu_state *state)
{
    uint32_t tp = state->channel[stepped.channel - 1].tp.address;
    fprintf(out, "%lu %u %c %05lX\n", count, stepped.channel, stepped.kind, (unsigned long)tp);
}

void emu_panel(const uint8_t *input, size_t length, FILE *out)
{
    static uint8_t sys[4096], io[256];
    struct emu_memory memory = {sys, length, io, sizeof io};
    struct emu_state state;
    unsigned long steps = 0;
    if (length > sizeof sys) {
        fprintf(out, "end %u 0\n", (unsigned)EMU_BAD_BUFFER);
        return;
    }
    if (length > 0) memcpy(sys, input, length);
    memset(io, 0, sizeof io);
    unsigned number = set_going(&state, &memory, 0, 1);
    while (number == EMU_DONE && steps < 1000) {
        struct emu_stepped stepped = emu_step(&state, &memory, 0);
        number = stepped.number;
        if (number == EMU_DONE) print_step(out, ++steps, stepped, &state);
    }
    fprintf(out, "end %u %lu\n", number, steps);
}

/* ---- Comparing states ---- */

/* Whether two pointers agree. */
static bool same_pointer(struct emu_pointer a, struct emu_pointer b)
{
    return a.address == b.address && a.tag == b.tag;
}

/* Whether two channels agree. */
static bool same_channel(const struct emu_channel *a, const struct emu_channel *b)
{
    return same_pointer(a->ga, b->ga) && same_pointer(a->gb, b->gb) && same_pointer(a->gc, b->gc) &&
           same_pointer(a->tp, b->tp) && a->pp == b->pp && a->bc == b->bc && a->ix == b->ix && a->cc == b->cc &&
           emu_fields_value(&a->fields) == emu_fields_value(&b->fields) && a->mc == b->mc && a->psw == b->psw &&
           a->mode == b->mode && a->armed == b->armed && a->held == b->held;
}

bool emu_same_state(const struct emu_state *a, const struct emu_state *b)
{
    return same_channel(&a->channel[0], &b->channel[0]) && same_channel(&a->channel[1], &b->channel[1]) &&
           a->cp == b->cp && a->last == b->last && a->powered == b->powered && a->system_wide == b->system_wide &&
           a->io_wide == b->io_wide && a->soc_1 == b->soc_1;
}
