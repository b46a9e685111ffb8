/* What docs/SCRIPT.md says a script of calls prints, by the emulator, with a tally of what was met. */
#ifndef SESSION_H
#define SESSION_H

#include "emulator/emulator.h"
#include "emulator/hex.h"
#include "emulator/listing.h"
#include "coverage.h"

/* The longest text of which calls are made, and the longest buffers that a script can ask for. */
#define SCRIPT_LIMIT 1048576u
#define SCRIPT_SYSTEM_ROOM 0x100001u
#define SCRIPT_IO_ROOM 0x10001u

/* The most bytes that one call lists, and the most characters that a line of them takes. */
enum { SCRIPT_LIST_LIMIT = 0x400, SCRIPT_LIST_LINE = 28 };

/* The calls, in the order of their table; `prom` stands behind them, since the lines behind it belong to it. */
enum script_call {
    CALL_MAKE, CALL_PUT, CALL_SET, CALL_CA, CALL_STEP, CALL_DUMP, CALL_SHOW, CALL_LIST, CALL_RESET,
    CALL_POWER, CALL_SWEEP, SCRIPT_LINES,
    CALL_PROM = SCRIPT_LINES, SCRIPT_CALLS
};

/* The registers that a script can set; the first six are addresses. */
enum script_name {
    SET_GA, SET_GB, SET_GC, SET_TP, SET_PP, SET_CP, SCRIPT_ADDRESSES,
    SET_BC = SCRIPT_ADDRESSES, SET_IX, SET_CC, SET_MC, SET_PSW,
    SET_GA_TAG, SET_GB_TAG, SET_GC_TAG, SET_TP_TAG, SET_ARM, SET_MODE, SET_LAST,
    SET_UP, SET_SYSBUS, SET_SOC, SET_GRANT, SET_FIELDS, SET_HELD, SCRIPT_REGISTERS
};

/* A register's name, the values that it takes (what is held takes 0 besides), and whether it is shared (channel 0). */
struct script_register {
    const char *name;
    uint32_t least, most;
    bool shared;
};

/* All registers, by their number above. */
extern const struct script_register script_registers[SCRIPT_REGISTERS];

/* Counters over the calls of all scripts; plain numbers only, so that a file can carry them from one to the next. */
struct tally {
    unsigned long scripts, calls, no_call;
    unsigned long call[SCRIPT_CALLS];
    unsigned long make[EMU_NUMBERS], power[EMU_NUMBERS], ca[EMU_NUMBERS], step[EMU_NUMBERS], sweep[EMU_NUMBERS];
    unsigned long prom[HEX_NUMBERS];
    unsigned long listed_instructions, listed_data, started;
    unsigned long kind[2][3];
    unsigned long stepped_under[16];
    unsigned long bytes[BYTES_KINDS][BYTES_COUNTS];
    unsigned long set[2][SCRIPT_REGISTERS];
    unsigned long none_held[2], anew[ANEWS];
    struct emu_coverage coverage;
};

/* One machine with its buffers, and what its last power-up, attention, step or sweep answered. */
struct session {
    struct emu_state state;
    struct emu_memory memory;
    unsigned answered;
    struct tally tally;
};

/* Begins with empty buffers, a fresh machine and an empty tally; the emulator's counters go into that tally. */
void session_begin(struct session *s);

/* Makes the call on a line (without its line feed), prints its answer, and answers how many lines that were. */
unsigned session_perform(struct session *s, const char *line, size_t length, FILE *out);

/* Whether a line is `prom`: the lines behind it, up to one that is `end`, are a file of hexadecimal records. */
bool session_opens_file(const char *line, size_t length);

/* Whether a line closes that file. */
bool session_closes_file(const char *line, size_t length);

/* Loads the file of a `prom`, prints its answer, and answers how many lines that were. */
unsigned session_load(struct session *s, const char *file, size_t length, FILE *out);

/* An address register of channel 1 or 2, or the shared one. */
uint32_t *session_address(struct session *s, uint32_t channel, unsigned which);

#endif
