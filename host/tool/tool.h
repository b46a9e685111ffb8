/* The parts of the bench tool: what its command line asks for, the machine it is run on, and its commands. */
#ifndef TOOL_H
#define TOOL_H

#include "examples/card_bus.h"
#include "iop89_service.h"

#include <stdbool.h>
#include <stdio.h>

/* The most bytes of a file and of lent memory; I/O memory's own limit is lower, so that 11 can be seen. */
#define TOOL_MOST 1048576u

/* How many of each thing a command takes. */
enum { TOOL_FILES = 16, TOOL_SHOWN = 16, TOOL_CHANNELS = 2, TOOL_EVENTS = 64, TOOL_PORTS = 8, TOOL_STOPS = 16,
       TOOL_SETTINGS = 32 };

/* What a command ends with; tool_help.c has them in words. */
enum tool_status { TOOL_DONE = 0, TOOL_REFUSED = 1, TOOL_FAILED = 2, TOOL_LIMIT = 3, TOOL_WAITS = 4, TOOL_NEVER = 5 };

/* What a file is taken for, by its content where nothing is said, and which bytes of a pair it has. */
enum tool_form { TOOL_BY_CONTENT, TOOL_RAW, TOOL_HEX };
enum tool_half { TOOL_WHOLE, TOOL_EVEN, TOOL_ODD };

/* A file and the system address that its first byte goes to. */
struct tool_file {
    const char *name;
    uint32_t at;
    bool has_at;
    enum tool_form form;
    enum tool_half half;
};

/* Bytes of one space; of I/O memory, whose it is. */
struct tool_range {
    uint32_t from, count;
    bool in_io, second;
};

/* An attention to be given before a step, counted from 1, with its CCW where one is to be stored first; of a pair, to which
 * processor. Its place among those of an order is TOOL_EVENTS where it is of none. */
struct tool_event {
    uint32_t step, channel, ccw;
    unsigned place;
    bool has_ccw, second;
};

/* A byte of a space each read of which takes the next byte of a file; of I/O memory, whose it is. */
struct tool_port {
    const char *name;
    uint32_t at;
    bool in_io, second;
};

/* A register to be set before the first step, of a pair of which processor; channel 0 is the one that gets attention. */
struct tool_setting {
    unsigned channel;
    enum iop89_register which;
    uint32_t value;
    bool in_io, second;
};

/* Line numbers, taken in turn. */
struct tool_lines {
    uint32_t *number;
    size_t count, room;
};

/* What a command line asks of one processor: its control block, its I/O memory, the channels that get attention, its line
 * numbers, and the files of its state. Of the length UINT32_MAX stands for 256. */
struct tool_processor {
    uint32_t channel[TOOL_CHANNELS];
    struct tool_lines lines;
    unsigned channels;
    const char *io_image, *state, *save_io, *save_state;
    uint32_t io_length, cp;
};

struct tool_command;

/* What a command line asks for; of system memory's length UINT32_MAX stands for "as long as the files need". A first
 * address that was not given is that of the first byte. The second processor is there where there is a pair; its word is
 * the first one that asks for something of it. */
struct tool_order {
    const struct tool_command *command;
    struct tool_file file[TOOL_FILES];
    struct tool_range shown[TOOL_SHOWN], watch[TOOL_STOPS];
    struct tool_processor of[2];
    struct tool_event event[TOOL_EVENTS];
    struct tool_port port[TOOL_PORTS];
    struct tool_setting setting[TOOL_SETTINGS];
    uint32_t stop[TOOL_STOPS], until;
    unsigned files, ranges, events, ports, stops, watches, settings;
    uint32_t system_length, limit;
    uint32_t from, count, first, room;
    const char *second_word, *out, *save, *trace_file, *script;
    bool source, board, sweep, trace, pair, over, diff, regs, no_header, bus, follow, labels, no_labels;
    bool has_cp, has_first, has_until, has_from;
};

/* A command: its name, its bit in an option's set, what stands behind it, what it does, an example, its function. */
struct tool_command {
    const char *name;
    unsigned bit;
    const char *takes, *does, *example;
    enum tool_status (*run)(const struct tool_order *order);
};

/* The bits of the commands. */
enum tool_command_bit {
    TOOL_RUN = 1, TOOL_STEP = 2, TOOL_SCHEDULE = 4, TOOL_LOAD = 8, TOOL_LIST = 16, TOOL_ASM = 32, TOOL_DEBUG = 64,
    TOOL_COMPARE = 128, TOOL_EXPLAIN = 256, TOOL_HELP = 512
};

/* An option: its name, what stands behind it, what it does, and the commands that take it. */
struct tool_option {
    const char *name, *values, *does;
    unsigned commands;
};

/* Every command and every option; a row without a name ends them. */
extern const struct tool_command tool_commands[];
extern const struct tool_option tool_options[];

/* Lent memory. */
struct tool_memory {
    uint8_t *sys, *io;
    size_t sys_len, io_len;
};

/* A text as it was read, with a zero behind it. */
struct tool_text {
    uint8_t *bytes;
    size_t length;
};

struct tool_machine;

/* A port as a card of the bus: its machine, and its place in the order. */
struct tool_reader {
    struct tool_machine *machine;
    unsigned port;
};

/* A machine that is stepped: its state and memory, that memory as it was given, how many steps were tried and how many were
 * done, which of the order's attentions were given, the text of each port and how far it was read, its ports on a bus, which
 * has what the last call touched, that call and its answer, and where a trace goes. Of a pair, which of the two it is, 0 or
 * 1, and the other one. */
struct tool_machine {
    const struct tool_order *order;
    uint8_t state[IOP89_STATE_LENGTH];
    struct tool_memory memory, given;
    uint32_t tried, done;
    uint64_t attended;
    struct tool_text text[TOOL_PORTS];
    size_t next[TOOL_PORTS];
    struct tool_reader reader[TOOL_PORTS];
    struct card card[TOOL_PORTS];
    struct card_bus bus;
    struct bus_call last;
    iop89_answer answer;
    FILE *trace;
    unsigned which;
    struct tool_machine *other;
};

/* ---- The end of the program, and words ---- */

/* Says what is wrong with the command line, or what the system could not do, and ends the program with TOOL_FAILED. */
_Noreturn void tool_usage(const char *complaint, const char *word);
_Noreturn void tool_give_up(const char *what);

/* Prints the help of all commands or of one; the same as a page for man; and a line for the shell's completion. */
void tool_print_help(FILE *out, const struct tool_command *command);
void tool_print_page(void);
void tool_print_completion(void);

/* Reads the words behind a command; the order has room for them. */
void tool_read_order(struct tool_order *order, int count, char **words);

/* Reads a number of some characters; answers what is wrong with it, or NULL. */
const char *tool_read_number(const char *from, size_t length, uint32_t *number);

/* Reads line numbers: those of a word, with commas, or those of a text, with anything between them and # for what is left
 * out; answers what is wrong with them, or NULL. Adds one to others. */
const char *tool_read_lines(const char *from, size_t length, struct tool_lines *lines);
void tool_add_line(struct tool_lines *lines, uint32_t number);

/* Reads a setting, [CHANNEL:]REGISTER=VALUE[/io], and a space, sys, io or io2, the second processor's; answers what is wrong
 * with it, or NULL. */
const char *tool_read_setting(const char *word, struct tool_setting *setting);
const char *tool_read_space(const char *word, bool *in_io, bool *second);

/* ---- Files and memory ---- */

/* Reads a text whole, - being standard input; what it stands in is the caller's. */
struct tool_text tool_read_text(const char *name);

/* The memory that an order asks for, the files loaded; what the second processor sees of it, with an I/O memory of its
 * own; a copy; and what was taken given back, of the second one its own. */
struct tool_memory tool_load(const struct tool_order *order);
struct tool_memory tool_load_second(const struct tool_order *order, struct tool_memory first);
struct tool_memory tool_copy(struct tool_memory memory);
void tool_free(struct tool_memory memory);
void tool_free_second(struct tool_memory memory);

/* What a text is, by its first characters; and, for PROM files, a text as bytes, by a function that gets each one that is
 * stored, or the program ended with the file's line and what is wrong there. */
enum tool_form tool_form_of(const char *name, struct tool_text text);
uint32_t tool_each_byte(const char *name, struct tool_text text, void (*put)(void *to, uint32_t at, uint8_t byte), void *to);

/* Whether a name is that of a PROM file that is to be written; and bytes written to a file, as one or as they are. */
bool tool_is_prom_name(const char *name);
void tool_save(const char *name, const uint8_t *bytes, size_t length, uint32_t at);

/* Saves what an order asks for of system memory, and of one processor's I/O memory and state, and says so. */
void tool_save_system(const struct tool_order *order, const struct tool_memory *memory);
void tool_save_own(const struct tool_processor *processor, const struct tool_memory *memory, const uint8_t *state);

/* ---- The commands ---- */

enum tool_status tool_run(const struct tool_order *order);
enum tool_status tool_step(const struct tool_order *order);
enum tool_status tool_step_pair(const struct tool_order *order);
enum tool_status tool_show_files(const struct tool_order *order);
enum tool_status tool_list(const struct tool_order *order);
enum tool_status tool_follow(const struct tool_order *order);
enum tool_status tool_asm(const struct tool_order *order);
enum tool_status tool_schedule(const struct tool_order *order);
enum tool_status tool_compare(const struct tool_order *order);
enum tool_status tool_debug(const struct tool_order *order);

/* Says what a number means; its own words, for the help. */
enum tool_status tool_explain(const char *word);

/* ---- The machine ---- */

/* Makes the state that calls begin with, of CP, of a file or by reset and power-up, which it prints; answers its number. The
 * board's power-up is the first processor's. */
unsigned tool_make_state(const struct tool_order *order, unsigned which, uint8_t *state, struct tool_memory *memory);

/* Single calls on one machine. */
iop89_answer tool_attend(uint8_t *state, struct tool_memory *m, uint32_t channel);
iop89_answer tool_do_step(uint8_t *state, struct tool_memory *m, uint32_t lines);

/* A machine with its memory and ports, and given back; then its state made, then its attentions given, each with a line, and
 * its registers set; the number that refused one of them. All of that of one machine alone. */
void tool_make(struct tool_machine *machine, const struct tool_order *order, unsigned which, struct tool_memory memory);
void tool_end(struct tool_machine *machine);
unsigned tool_begin(struct tool_machine *machine);
unsigned tool_attend_all(struct tool_machine *machine, bool quiet);
unsigned tool_start(struct tool_machine *machine, const struct tool_order *order, bool quiet);

/* What each of its lines begins with: nothing, or of a pair its processor. And the processor that its order asks for. */
const char *tool_whose(const struct tool_machine *machine);
const struct tool_processor *tool_asked(const struct tool_machine *machine);

/* The first attention that is due before a step and was not given, or NULL; one given, with its CCW; and all that are due
 * given: the number that refused one. The first step at which one is still to come, behind another, or UINT32_MAX. */
const struct tool_event *tool_due(const struct tool_machine *machine, uint32_t step);
unsigned tool_give(struct tool_machine *machine, const struct tool_event *event, bool quiet);
unsigned tool_give_due(struct tool_machine *machine, uint32_t step, bool quiet);
uint32_t tool_next_due(const struct tool_order *order, uint32_t behind);

/* Whether an attention is still to come, which may start what is idle now: its step is the next one tried. */
bool tool_skip_to_event(struct tool_machine *machine);

/* Tries one step: what it touches is asked, ports are read, and the step is made. */
iop89_answer tool_try_step(struct tool_machine *machine, char tail[64]);

/* Whether the next step stops, at an address or at a watched byte that is not what it was: then it says so. */
bool tool_stops(const struct tool_machine *machine);
bool tool_watch_hit(const struct tool_machine *machine);

/* The line number of a step that is tried, from 0 on; whether steps that answered 1 are to be tried on, since a channel
 * waits and under another line number need not; and what a number that stopped the steps makes of the command. */
uint32_t tool_lines_at(const struct tool_processor *processor, uint32_t at);
bool tool_goes_on(const struct tool_processor *processor, unsigned number, const uint8_t *state);
bool tool_runs(const uint8_t *state);
enum tool_status tool_status_of(unsigned number, const uint8_t *state, uint32_t steps);

/* What stands behind the line of the last step, which the state before it is handed for: its instruction in the listing's
 * words, or the bytes that it moved and where; nothing where it was refused. */
void tool_write_tail(char tail[64], const struct tool_machine *machine, const uint8_t *before);

/* Prints each access of the last call where -bus asks for it: what was read or stored, where, and which byte. */
void tool_print_bus(const struct tool_machine *machine);

/* ---- What is printed ---- */

/* Prints the names of the columns of a step's line. */
void tool_print_header(const struct tool_order *order);

/* Prints, each line behind whose it is: a number with its words and where each running channel stands, and of a call that
 * was refused why; and a step that was tried while every running channel waited. */
void tool_print_number(const char *whose, unsigned number, const char *words, const uint8_t *state,
                       const struct tool_memory *memory, uint32_t steps);
void tool_print_cause(const char *whose, unsigned number, const uint8_t *state, const struct tool_memory *memory,
                      struct bus_call call);
void tool_print_argument(unsigned number, const struct tool_order *order);
void tool_print_never(const char *whose, const uint8_t *state, const struct tool_memory *memory, uint32_t channel);
void tool_print_waiting(const char *whose, uint32_t number, const uint8_t *state);

/* Prints whether an attention was accepted, and then how many bytes it read and stored; hands back its number. */
unsigned tool_print_attention(const char *whose, uint32_t channel, iop89_answer answer);

/* Prints what a done step did: channel, kind, how many bytes it read and stored, TP, the registers that it changed, and
 * what stands behind. */
void tool_print_done(iop89_answer answer, const uint8_t *before, const uint8_t *state, const char *tail);
void tool_print_changes(const uint8_t *before, const uint8_t *state, unsigned channel);
void tool_print_tp(const uint8_t *state, unsigned channel);

/* Prints all registers of both channels. */
void tool_print_registers(const uint8_t *state);

/* Prints how many bytes a done call read and stored, and ends the line. */
void tool_print_count(iop89_answer answer);

/* Prints the ranges that an order asks for, in the memory of each of its processors; and one range. */
void tool_print_shown(const struct tool_order *order, const struct tool_memory *memory);
void tool_print_range(struct tool_range range, const struct tool_memory *memory);

/* Prints what changed of system memory and of I/O memory, as host/examples/changes.h shows it. */
void tool_print_diff(const struct tool_memory *before, const struct tool_memory *now);
void tool_print_diff_of(const char *space, uint8_t *before, uint8_t *now, size_t length);

/* ---- Listings ---- */

/* The longest line of a listing with its line feed. */
enum { TOOL_LINE = 28 };

/* One line of a listing: its characters without the line feed, and how many bytes it stands for. */
struct tool_line {
    char text[TOOL_LINE];
    size_t bytes;
};

/* The first line of some bytes. */
struct tool_line tool_first_line(const uint8_t *code, size_t length, uint32_t first);

/* Prints the listing of some bytes from a first address on, each line behind its address and bytes or, as source, alone;
 * with labels for its targets where that is asked for. */
void tool_print_listing(const uint8_t *code, size_t length, uint32_t first, bool source, bool labels);

/* Prints the instruction that some bytes begin with, its address and bytes before it; nothing where there are none. */
void tool_print_instruction(const uint8_t *code, size_t length, uint32_t address);

/* The target of a listed line, or false where it has none; and the line printed, its target as a label. */
bool tool_target(const char *line, uint32_t *target);
void tool_print_line(const uint8_t *code, uint32_t address, int digits, const struct tool_line *line, bool label);
int tool_digits(uint32_t first, size_t length);

#endif
