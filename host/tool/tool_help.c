/* The bench tool's commands and options as one table each: what is read, the help, the page for man, and completion. */
#include "tool.h"

#include <string.h>

/* Sets of commands that take the same options. */
enum {
    MACHINE = TOOL_RUN | TOOL_STEP | TOOL_SCHEDULE | TOOL_DEBUG | TOOL_COMPARE,
    CHANNELS = TOOL_RUN | TOOL_STEP | TOOL_DEBUG | TOOL_COMPARE,
    STEPS = TOOL_STEP | TOOL_DEBUG | TOOL_COMPARE,
    STEP_DEBUG = TOOL_STEP | TOOL_DEBUG,
    RUN_STEP = TOOL_RUN | TOOL_STEP,
    IMAGES = MACHINE | TOOL_LIST,
    HALVES = IMAGES & ~TOOL_COMPARE,
    ENDS = RUN_STEP | TOOL_DEBUG
};

const struct tool_command tool_commands[] = {
    {"run", TOOL_RUN, "[OPTIONS] FILE..",
     "one run, as iop89_run makes it: the number, the steps done, and how it ended",
     "iop89 run examples/copy-odd.bin -diff", tool_run},
    {"step", TOOL_STEP, "[OPTIONS] FILE..",
     "the same call by call: a line for each step, with what changed and, behind ;, the instruction or the bytes moved",
     "iop89 step examples/external.bin -lines 1 -limit 20", tool_step},
    {"debug", TOOL_DEBUG, "[OPTIONS] FILE..",
     "the same at a prompt: step, run, break, watch, look, set, list, undo; help there says how; or from standard input",
     "iop89 debug examples/copy-odd.bin", tool_debug},
    {"compare", TOOL_COMPARE, "[OPTIONS] FILE FILE",
     "two images under the same options: the first step at which the two machines differ",
     "iop89 compare examples/copy-odd.bin examples/copy-even.bin", tool_compare},
    {"schedule", TOOL_SCHEDULE, "[OPTIONS] ROWS FILE..",
     "rows of a text, attentions and steps in order, refused ones too, and a table of what they came to",
     "iop89 schedule examples/card.rows examples/card.bin -trace", tool_schedule},
    {"load", TOOL_LOAD, "FILE..",
     "what PROM files hold: the ranges that they store with their bytes, the start address, and how many bytes",
     "iop89 load examples/prom/srecord-segments.hex", tool_show_files},
    {"list", TOOL_LIST, "[OPTIONS] FILE..",
     "a channel program in the maker's notation, with address and bytes before each line and labels for its targets",
     "iop89 list examples/copy-odd.bin -follow", tool_list},
    {"asm", TOOL_ASM, "[OPTIONS] FILE",
     "a text in that notation, with labels, data and comments, to an image: written, or listed without -out",
     "iop89 asm examples/f59.asm -at 0x40", tool_asm},
    {"explain", TOOL_EXPLAIN, "NUMBER",
     "what a number means, when it is given, and what to look at", "iop89 explain 14", NULL},
    {"help", TOOL_HELP, "[COMMAND]", "this text, or that of one command; --help and -h do the same, --version the version",
     "iop89 help step", NULL},
    {NULL, 0, NULL, NULL, NULL, NULL},
};

const struct tool_option tool_options[] = {
    {"-at", "N", "system address of the next FILE (0); for asm, before or behind FILE: where the image lies",
     IMAGES | TOOL_ASM},
    {"-even", "FILE", "a PROM with the even bytes, from the address that -at gives or 0", HALVES},
    {"-odd", "FILE", "the PROM with the odd bytes; both may be PROM files or bytes", HALVES},
    {"-over", "", "files may store over each other, the later over the earlier", IMAGES},
    {"-raw", "", "the next FILE is bytes, whatever it begins with", IMAGES},
    {"-hex", "", "the next FILE is a PROM file (Intel hexadecimal), whatever it begins with", IMAGES | TOOL_LOAD},
    {"-system", "N", "length of system memory (as long as the files need)", IMAGES},
    {"-io", "N", "length of I/O memory, all zeros (256)", IMAGES},
    {"-io-image", "FILE", "I/O memory", IMAGES},
    {"-cp", "N", "address of the control block (0)", IMAGES},
    {"-board", "", "reset and power-up in its place: the board's bytes at FFFF6h name the control block", IMAGES},
    {"-state", "FILE", "a saved state in its place; attentions only where -channel or -attention asks for them", STEPS},
    {"-channel", "N", "channel that gets attention, 1 or 2 (1); but for run twice: both, in this order", CHANNELS},
    {"-attention", "N:C[:CCW]", "an attention to channel C before step N, with this CCW stored first", STEPS},
    {"-lines", "N", "sum of DRQ1 = 1, DRQ2 = 2, EXT1 = 4, EXT2 = 8, held throughout (0)", CHANNELS},
    {"-lines", "N,N..", "in turn, one for each step that is tried; where a channel waits, the next one is tried", STEPS},
    {"-lines", "FILE", "the same from a text; a name that begins with a digit is written ./1", STEPS},
    {"-limit", "N", "most steps (1000); under several line numbers, most that are tried", CHANNELS},
    {"-port", "SPACE ADDR FILE", "each read of this byte of sys or io gets the file's next byte", STEPS},
    {"-bus", "", "a line for each byte that a call reads or stores, in its order, below the call's own", STEP_DEBUG},
    {"-set", "REG=VALUE", "sets a register before the first step: GA=0x60/io, BC=5; 2:BC=5 of channel 2", STEPS},
    {"-until", "ADDR", "stops where TP of a running channel has come to this address", STEP_DEBUG},
    {"-break", "ADDR", "the same, for each of up to 16 addresses", STEP_DEBUG},
    {"-watch", "SPACE ADDR [LENGTH]", "stops behind a step that stored into one of these bytes of sys or io", STEP_DEBUG},
    {"-sweep", "", "a block transfer that can be swept is one call and one line, and counts as its steps", TOOL_STEP},
    {"-no-header", "", "no line with the names of the columns", TOOL_STEP},
    {"-pair", "N",
     "a second processor on the same system memory, its control block at N; they step in turn, each line has its "
     "processor, P1 or P2, and the limit counts both", TOOL_STEP},
    {"-io2", "N", "what -io is, of the second processor", TOOL_STEP},
    {"-io-image2", "FILE", "what -io-image is", TOOL_STEP},
    {"-channel2", "N", "what -channel is", TOOL_STEP},
    {"-lines2", "N,N..", "what -lines is", TOOL_STEP},
    {"-state2", "FILE", "what -state is", TOOL_STEP},
    {"-attention2", "N:C[:CCW]", "what -attention is, and N counts the steps of both", TOOL_STEP},
    {"-set2", "REG=VALUE", "what -set is; for -port and -watch its I/O memory is the space io2", TOOL_STEP},
    {"-show-io2", "FROM N", "what -show-io is", TOOL_STEP},
    {"-save-io2", "FILE", "what -save-io is", TOOL_STEP},
    {"-save-state2", "FILE", "what -save-state is", TOOL_STEP},
    {"-trace", "FILE", "writes the lines of make run, one for each step, to a file", TOOL_STEP},
    {"-trace", "", "a line for each row: its place, the row, its number, and what it did", TOOL_SCHEDULE},
    {"-show", "FROM N", "shows N bytes of system memory from FROM on, as they are at the end", RUN_STEP | TOOL_SCHEDULE},
    {"-show-io", "FROM N", "the same of I/O memory", RUN_STEP | TOOL_SCHEDULE},
    {"-regs", "", "shows all registers at the end", RUN_STEP},
    {"-diff", "", "shows every byte that changed", ENDS},
    {"-save", "FILE", "writes system memory as it is at the end, as a PROM file where the name ends in .hex, .ihx or .h86",
     ENDS},
    {"-save-io", "FILE", "the same of I/O memory", ENDS},
    {"-save-state", "FILE", "writes the state, 104 bytes, which -state takes back", ENDS},
    {"-script", "FILE", "the commands of a text in the place of the prompt", TOOL_DEBUG},
    {"-from", "N", "the first byte to be listed (0)", TOOL_LIST},
    {"-count", "N", "how many bytes are listed (all)", TOOL_LIST},
    {"-first", "N", "the address of the first byte, from which labels and targets count (that of -from or -at)",
     TOOL_LIST | TOOL_ASM},
    {"-follow", "", "lists what is reached from the control block: the programs of both channels", TOOL_LIST},
    {"-source", "", "the lines alone, which asm takes back", TOOL_LIST | TOOL_ASM},
    {"-labels", "", "labels in -source too: asm keeps 64", TOOL_LIST},
    {"-no-labels", "", "no labels", TOOL_LIST},
    {"-room", "N", "most bytes of the image (65536)", TOOL_ASM},
    {"-out", "FILE", "the image's file, a PROM file by its name as for -save, else the bytes alone", TOOL_ASM},
    {NULL, NULL, NULL, 0},
};

/* What a command ends with. */
static const struct {
    const char *status, *when;
} statuses[] = {
    {"0", "halted after work; listed, loaded, assembled, the same"},
    {"1", "refused by a number, or, for compare, different"},
    {"2", "words that it does not know, arguments that no machine has (12), files that cannot be read or written"},
    {"3", "stopped on the way: the limit, -until, -break or -watch"},
    {"4", "a channel waits for a request"},
    {"5", "never started: nothing ran"},
};

/* What stands behind the options. */
static const char *const notes[] = {
    "A FILE that begins with a record's colon is a PROM file (Intel hexadecimal, segmented addresses), whatever its name; "
    "its records say where its bytes go. - is standard input. Two files that store the same byte are refused, but for -over.",
    "Numbers are decimal, or hexadecimal behind 0x; 010 is ten. A file has at most 1,048,576 bytes.",
    "A line of step: its number, the channel, the kind (I instruction, T transfer step, X external end), bytes read and "
    "stored, TP, and what changed: registers, the byte held, armed or unarmed, and the mode: idle, running or suspended. A "
    "line with - for its kind and waits is a step that was tried while the channel waited for a request.",
    "schedule's ROWS, one a line: attention CHANNEL, step LINES, or kind K N for any row; a blank line and what follows # "
    "are left out. It ends with 0 whatever rows were refused, and with 1 for a row of unknown kind.",
    "asm's FILE has the lines of list, blank ones, and comments behind ;. A line may have a label in front, NAME:, and data "
    "in the place of an instruction: DB bytes, DW words. Where a number stands a sum may, as TABLE-(5+101B). It is "
    "assembled whole, or refused at its first bad line: 30 word, 31 operands, 32 parentheses, 33 label, 34 reach, 35 room.",
    "Which bytes a step touches, for its line, for ports, -watch and -bus and for the words of 2, the library tells before "
    "the step is made (iop89_touches_step).",
};

enum { NOTES = sizeof notes / sizeof notes[0], STATUSES = sizeof statuses / sizeof statuses[0] };

/* The most characters of a line, and where what an option does begins. */
enum { WIDTH = 118, INDENT = 26 };

/* Prints words behind an indent, broken between them. */
static void print_words(FILE *out, const char *words, int indent, int column)
{
    while (*words != '\0') {
        int length = (int)strcspn(words, " ");
        if (column > indent && column + 1 + length > WIDTH) {
            fprintf(out, "\n%*s", indent, "");
            column = indent;
        } else if (column > indent) {
            fputc(' ', out);
            column++;
        }
        fprintf(out, "%.*s", length, words);
        column += length;
        words += length;
        words += strspn(words, " ");
    }
    fputc('\n', out);
}

/* Prints an option with what it does. */
static void print_option(FILE *out, const struct tool_option *option)
{
    int written = fprintf(out, "  %s%s%s", option->name, option->values[0] != '\0' ? " " : "", option->values);
    if (written < INDENT) fprintf(out, "%*s", INDENT - written, "");
    else fprintf(out, "\n%*s", INDENT, "");
    print_words(out, option->does, INDENT, INDENT);
}

/* Prints the commands that take an option, where they are not all that run the machine. */
static void print_takers(FILE *out, unsigned commands)
{
    fprintf(out, "Options of");
    for (const struct tool_command *c = tool_commands; c->name != NULL; c++)
        if ((commands & c->bit) != 0) fprintf(out, " %s", c->name);
    fputs(":\n", out);
}

/* Whether an option is the first of the table with its set of commands. */
static bool is_first(const struct tool_option *option)
{
    const struct tool_option *o = tool_options;
    while (o->commands != option->commands) o++;
    return o == option;
}

/* Prints the options of one set of commands after another, or those of one command. */
static void print_options(FILE *out, const struct tool_command *command)
{
    for (const struct tool_option *set = tool_options; set->name != NULL; set++) {
        if (command != NULL && (set->commands & command->bit) != 0) print_option(out, set);
        if (command != NULL || !is_first(set)) continue;
        print_takers(out, set->commands);
        for (const struct tool_option *o = set; o->name != NULL; o++)
            if (o->commands == set->commands) print_option(out, o);
    }
}

void tool_print_help(FILE *out, const struct tool_command *command)
{
    fprintf(out, "usage: iop89 %s %s\n", command != NULL ? command->name : "COMMAND",
            command != NULL ? command->takes : "[OPTIONS] FILE..");
    for (const struct tool_command *c = tool_commands; c->name != NULL; c++) {
        if (command != NULL && c != command) continue;
        fprintf(out, "  %-8s ", c->name);
        print_words(out, c->does, 11, 11);
        fprintf(out, "           %s\n", c->example);
    }
    print_options(out, command);
    fputs("It ends with\n", out);
    for (size_t i = 0; i < STATUSES; i++) fprintf(out, "  %s  %s\n", statuses[i].status, statuses[i].when);
    for (size_t i = 0; command == NULL && i < NOTES; i++) print_words(out, notes[i], 0, 0);
}

/* ---- The page for man ---- */

/* Prints words for man, in which a hyphen is not broken, a backslash is doubled and a line's first dot is hidden. */
static void print_roff(const char *words)
{
    fputs("\\&", stdout);
    for (; *words != '\0'; words++) {
        if (*words == '-') fputs("\\-", stdout);
        else if (*words == '\\') fputs("\\e", stdout);
        else fputc(*words, stdout);
    }
    fputc('\n', stdout);
}

/* Prints a paragraph with a title. */
static void print_titled(const char *title, const char *values, const char *words)
{
    printf(".TP\n.B \\&");
    for (; *title != '\0'; title++) printf(*title == '-' ? "\\-" : "%c", *title);
    printf("%s%s\n", values[0] != '\0' ? " " : "", values);
    print_roff(words);
}

void tool_print_page(void)
{
    printf(".TH IOP89 1 \"\" \"iop89 %u.%u\"\n.SH NAME\niop89 \\- bench tool of the proved stand\\-in for Intel's 8089\n",
           IOP89_VERSION / 100, IOP89_VERSION % 100);
    printf(".SH SYNOPSIS\n.B iop89\nCOMMAND [OPTIONS] FILE..\n.SH COMMANDS\n");
    for (const struct tool_command *c = tool_commands; c->name != NULL; c++) {
        print_titled(c->name, c->takes, c->does);
        printf(".br\n");
        print_roff(c->example);
    }
    printf(".SH OPTIONS\n");
    for (const struct tool_option *o = tool_options; o->name != NULL; o++) print_titled(o->name, o->values, o->does);
    printf(".SH \"EXIT STATUS\"\n");
    for (size_t i = 0; i < STATUSES; i++) print_titled(statuses[i].status, "", statuses[i].when);
    printf(".SH NOTES\n");
    for (size_t i = 0; i < NOTES; i++) {
        printf(".PP\n");
        print_roff(notes[i]);
    }
}

void tool_print_completion(void)
{
    printf("complete -o default -W '");
    for (const struct tool_command *c = tool_commands; c->name != NULL; c++) printf("%s ", c->name);
    for (const struct tool_option *o = tool_options; o->name != NULL; o++)
        if (o == tool_options || strcmp(o[-1].name, o->name) != 0) printf("%s ", o->name);
    printf("--help --version' iop89\n");
}
