/* The bytes of a state as docs/SERVICE.md lays them out, for the emulator's side of a comparison. */
#ifndef STATE_BYTES_H
#define STATE_BYTES_H

#include "emulator.h"

/* How many bytes a state has. */
enum { STATE_BYTES = 104 };

/* How many bytes of a channel's block have a range: its flags, its mode, the fields of CC, whether a byte is held, and
 * that byte where none is. */
enum { CHANNEL_MARKS = 8 + EMU_FIELDS };

/* Why bytes are no state: their length, their version, or the first flag, mode, field or held byte out of range. */
enum state_fault {
    FAULT_NONE,
    FAULT_LENGTH,
    FAULT_VERSION,
    FAULT_LAST,
    FAULT_BOARD,                        /* powered up, SYSBUS bit 0, SOC bit 0, SOC bit 1 */
    FAULT_CHANNEL_1 = FAULT_BOARD + 4,  /* GA's tag, GB's, GC's, TP's, the mode, the armed mark */
    FAULT_FIELDS_1 = FAULT_CHANNEL_1 + 6, /* the fields of CC in the paper's order */
    FAULT_HELD_1 = FAULT_FIELDS_1 + EMU_FIELDS, /* whether a byte is held */
    FAULT_BYTE_1,                       /* a byte that is not 0 where none is held */
    FAULT_CHANNEL_2 = FAULT_CHANNEL_1 + CHANNEL_MARKS,
    FAULT_FIELDS_2 = FAULT_CHANNEL_2 + 6,
    FAULT_HELD_2 = FAULT_FIELDS_2 + EMU_FIELDS,
    FAULT_BYTE_2,
    STATE_FAULTS = FAULT_CHANNEL_2 + CHANNEL_MARKS
};

/* A fault in words. */
const char *state_fault_name(enum state_fault fault);

/* Where the byte of a fault is; a fault of the length has none. */
size_t state_fault_at(enum state_fault fault);

/* Whether a fault is about the held byte, which is out of range only where the byte behind it says that none is held. */
bool state_fault_of_byte(enum state_fault fault);

/* The smallest value of that byte that is out of range, of the held byte where it has a range at all; of the version
 * every value but its own is. */
uint8_t state_fault_from(enum state_fault fault);

/* Reads a state from bytes, or answers why they are none. */
enum state_fault state_from_bytes(const uint8_t *bytes, size_t length, struct emu_state *out);

/* Writes a state into STATE_BYTES bytes. */
void state_to_bytes(const struct emu_state *state, uint8_t *bytes);

#endif
