/* Reads and writes the bytes of a state, field by field in the order of the layout. */
#include "state_bytes.h"

/* Offsets of the layout. */
enum { AT_CP = 1, AT_LAST = 5, AT_BOARD = 6, AT_CHANNELS = 10, BLOCK = 47, VERSION = 4 };

/* Of a block: a byte with a range, where it is and the smallest value out of range. */
struct mark {
    const char *name;
    uint8_t at, from;
};

static const struct mark marks[CHANNEL_MARKS] = {
    {"GA's tag", 4, 2},      {"GB's tag", 9, 2},  {"GC's tag", 14, 2},         {"TP's tag", 19, 2},
    {"mode", 33, 3},         {"armed", 34, 2},    {"destination moves", 35, 2}, {"source moves", 36, 2},
    {"translate", 37, 2},    {"SYN", 38, 4},      {"source is GB", 39, 2},     {"chained", 40, 2},
    {"TS", 41, 2},           {"TX", 42, 4},       {"TBC", 43, 4},              {"TMC", 44, 8},
    {"held", 46, 2},         {"a byte, and none held", 45, 1},
};

/* The mark of its channel that a fault is about. */
static const struct mark *mark_of(enum state_fault fault)
{
    return &marks[(unsigned)(fault - FAULT_CHANNEL_1) % CHANNEL_MARKS];
}

const char *state_fault_name(enum state_fault fault)
{
    static const char *const names[FAULT_CHANNEL_1] = {"none",       "length",       "version",   "last",
                                                       "powered up", "SYSBUS bit 0", "SOC bit 0", "SOC bit 1"};
    return fault < FAULT_CHANNEL_1 ? names[fault] : mark_of(fault)->name;
}

size_t state_fault_at(enum state_fault fault)
{
    if (fault == FAULT_VERSION) return 0;
    if (fault == FAULT_LAST) return AT_LAST;
    if (fault < FAULT_CHANNEL_1) return AT_BOARD + (size_t)(fault - FAULT_BOARD);
    return (fault < FAULT_CHANNEL_2 ? AT_CHANNELS : AT_CHANNELS + BLOCK) + (size_t)mark_of(fault)->at;
}

bool state_fault_of_byte(enum state_fault fault)
{
    return fault == FAULT_BYTE_1 || fault == FAULT_BYTE_2;
}

uint8_t state_fault_from(enum state_fault fault)
{
    return fault >= FAULT_CHANNEL_1 ? mark_of(fault)->from : 2;
}

/* The number of some bytes, little end first. */
static uint32_t number_at(const uint8_t *bytes, unsigned width)
{
    uint32_t value = 0;
    for (unsigned i = 0; i < width; i++) value |= (uint32_t)bytes[i] << 8 * i;
    return value;
}

/* Writes a number into some bytes. */
static void put_number(uint8_t *bytes, unsigned width, uint32_t value)
{
    for (unsigned i = 0; i < width; i++) bytes[i] = (uint8_t)(value >> 8 * i);
}

/* Reads a pointer. */
static struct emu_pointer pointer_at(const uint8_t *bytes)
{
    struct emu_pointer p = {number_at(bytes, 4), bytes[4] == 1};
    return p;
}

/* Writes a pointer. */
static void put_pointer(uint8_t *bytes, struct emu_pointer p)
{
    put_number(bytes, 4, p.address);
    bytes[4] = p.tag ? 1 : 0;
}

/* Reads the fields of CC. */
static struct emu_fields fields_at(const uint8_t *bytes)
{
    struct emu_fields f;
    f.destination_moves = bytes[0] == 1;
    f.source_moves = bytes[1] == 1;
    f.translate = bytes[2] == 1;
    f.syn = bytes[3];
    f.source_is_gb = bytes[4] == 1;
    f.chained = bytes[5] == 1;
    f.ts = bytes[6] == 1;
    f.tx = bytes[7];
    f.tbc = bytes[8];
    f.tmc = bytes[9];
    return f;
}

/* Writes the fields of CC. */
static void put_fields(uint8_t *bytes, const struct emu_fields *f)
{
    bytes[0] = f->destination_moves ? 1 : 0;
    bytes[1] = f->source_moves ? 1 : 0;
    bytes[2] = f->translate ? 1 : 0;
    bytes[3] = f->syn;
    bytes[4] = f->source_is_gb ? 1 : 0;
    bytes[5] = f->chained ? 1 : 0;
    bytes[6] = f->ts ? 1 : 0;
    bytes[7] = f->tx;
    bytes[8] = f->tbc;
    bytes[9] = f->tmc;
}

/* Reads a channel from its block. */
static struct emu_channel channel_at(const uint8_t *block)
{
    struct emu_channel c;
    c.ga = pointer_at(block);
    c.gb = pointer_at(block + 5);
    c.gc = pointer_at(block + 10);
    c.tp = pointer_at(block + 15);
    c.pp = number_at(block + 20, 4);
    c.bc = (uint16_t)number_at(block + 24, 2);
    c.ix = (uint16_t)number_at(block + 26, 2);
    c.cc = (uint16_t)number_at(block + 28, 2);
    c.mc = (uint16_t)number_at(block + 30, 2);
    c.psw = block[32];
    c.mode = (enum emu_mode)block[33];
    c.armed = block[34] == 1;
    c.fields = fields_at(block + 35);
    c.held = (uint16_t)number_at(block + 45, 2);
    return c;
}

/* Writes a channel into its block. */
static void put_channel(uint8_t *block, const struct emu_channel *c)
{
    put_pointer(block, c->ga);
    put_pointer(block + 5, c->gb);
    put_pointer(block + 10, c->gc);
    put_pointer(block + 15, c->tp);
    put_number(block + 20, 4, c->pp);
    put_number(block + 24, 2, c->bc);
    put_number(block + 26, 2, c->ix);
    put_number(block + 28, 2, c->cc);
    put_number(block + 30, 2, c->mc);
    block[32] = c->psw;
    block[33] = (uint8_t)c->mode;
    block[34] = c->armed ? 1 : 0;
    put_fields(block + 35, &c->fields);
    put_number(block + 45, 2, c->held);
}

/* Whether a byte of a state is out of its range. */
static bool is_faulty(const uint8_t *bytes, enum state_fault fault)
{
    size_t at = state_fault_at(fault);
    bool ranged = !state_fault_of_byte(fault) || bytes[at + 1] == 0;
    return ranged && bytes[at] >= state_fault_from(fault);
}

enum state_fault state_from_bytes(const uint8_t *bytes, size_t length, struct emu_state *out)
{
    if (length != STATE_BYTES) return FAULT_LENGTH;
    if (bytes[0] != VERSION) return FAULT_VERSION;
    for (enum state_fault fault = FAULT_LAST; fault < STATE_FAULTS; fault++)
        if (is_faulty(bytes, fault)) return fault;
    out->cp = number_at(bytes + AT_CP, 4);
    out->last = bytes[AT_LAST] + 1u;
    out->powered = bytes[AT_BOARD] == 1;
    out->system_wide = bytes[AT_BOARD + 1] == 1;
    out->io_wide = bytes[AT_BOARD + 2] == 1;
    out->soc_1 = bytes[AT_BOARD + 3] == 1;
    out->channel[0] = channel_at(bytes + AT_CHANNELS);
    out->channel[1] = channel_at(bytes + AT_CHANNELS + BLOCK);
    return FAULT_NONE;
}

void state_to_bytes(const struct emu_state *state, uint8_t *bytes)
{
    bytes[0] = VERSION;
    put_number(bytes + AT_CP, 4, state->cp);
    bytes[AT_LAST] = (uint8_t)(state->last - 1u);
    bytes[AT_BOARD] = state->powered ? 1 : 0;
    bytes[AT_BOARD + 1] = state->system_wide ? 1 : 0;
    bytes[AT_BOARD + 2] = state->io_wide ? 1 : 0;
    bytes[AT_BOARD + 3] = state->soc_1 ? 1 : 0;
    put_channel(bytes + AT_CHANNELS, &state->channel[0]);
    put_channel(bytes + AT_CHANNELS + BLOCK, &state->channel[1]);
}
