/* The bench tool's schedules: rows read from a text, run by one call, and the table of what they came to. */
#include "tool.h"

#include <inttypes.h>
#include <stdlib.h>
#include <string.h>

/* The most words of a row, and how much of a line a complaint shows. */
enum { MOST_WORDS = 3, MOST_SHOWN = 60 };

/* Rows as they were read, and the line that each stood in. */
struct rows {
    struct iop89_row *row;
    uint32_t *line;
    size_t count, room;
};

/* A place in a text: its name for complaints, the line, and what of it is still to be read. */
struct place {
    const char *name;
    uint32_t line;
    const char *from, *end;
};

/* One word of a line. */
struct word {
    const char *from;
    size_t length;
};

/* ---- The text ---- */

/* Says what is wrong with a line of the rows, and ends the program with TOOL_FAILED. */
static _Noreturn void complain(const struct place *at, const char *complaint, const char *from, size_t length)
{
    int shown = length < MOST_SHOWN ? (int)length : MOST_SHOWN;
    fflush(stdout);
    fprintf(stderr, "iop89: %s: line %" PRIu32 ": %s: %.*s\n", at->name, at->line, complaint, shown, from);
    exit(TOOL_FAILED);
}

/* Whether a character stands between words. */
static bool is_blank(char c)
{
    return c == ' ' || c == '\t' || c == '\r';
}

/* Takes the next line of a text; answers where it ends, without what follows # and the blanks before that. */
static const char *take_line(struct place *at)
{
    const char *from = at->from, *end = memchr(from, '\n', (size_t)(at->end - from));
    if (end == NULL) end = at->end;
    at->line++;
    at->from = end < at->end ? end + 1 : end;
    const char *comment = memchr(from, '#', (size_t)(end - from));
    if (comment != NULL) end = comment;
    while (end > from && is_blank(end[-1])) end--;
    return end;
}

/* Splits a line into words; answers how many there are, at most one more than a row has. */
static unsigned split(const char *from, const char *end, struct word words[MOST_WORDS + 1])
{
    unsigned count = 0;
    while (count <= MOST_WORDS) {
        while (from < end && is_blank(*from)) from++;
        if (from == end) break;
        words[count].from = from;
        while (from < end && !is_blank(*from)) from++;
        words[count].length = (size_t)(from - words[count].from);
        count++;
    }
    return count;
}

/* Whether a word is this one. */
static bool is(const struct word *word, const char *text)
{
    return word->length == strlen(text) && memcmp(word->from, text, word->length) == 0;
}

/* The number that a word of a row writes. */
static uint32_t number_of(const struct place *at, const struct word *word)
{
    uint32_t number = 0;
    const char *complaint = tool_read_number(word->from, word->length, &number);
    if (complaint != NULL) complain(at, complaint, word->from, word->length);
    return number;
}

/* The row that the words of a line are, which ends here. */
static struct iop89_row row_of(const struct place *at, const struct word *words, unsigned count, const char *end)
{
    struct iop89_row row = {0, 0};
    bool attention = is(&words[0], "attention"), step = is(&words[0], "step"), kind = is(&words[0], "kind");
    if ((!attention && !step && !kind) || count != (kind ? 3 : 2))
        complain(at, "no row", words[0].from, (size_t)(end - words[0].from));
    row.kind = kind ? number_of(at, &words[1]) : attention ? IOP89_ROW_ATTENTION : IOP89_ROW_STEP;
    row.value = number_of(at, &words[count - 1]);
    return row;
}

/* Adds a row. */
static void add_row(struct rows *rows, struct iop89_row row, uint32_t line)
{
    if (rows->count == rows->room) {
        rows->room = rows->room == 0 ? 256 : 2 * rows->room;
        rows->row = realloc(rows->row, rows->room * sizeof rows->row[0]);
        rows->line = realloc(rows->line, rows->room * sizeof rows->line[0]);
        if (rows->row == NULL || rows->line == NULL) tool_give_up("memory");
    }
    rows->row[rows->count] = row;
    rows->line[rows->count++] = line;
}

/* Reads the rows of a text; there is room for one also where there are none. */
static struct rows read_rows(const char *name)
{
    struct rows rows = {NULL, NULL, 0, 0};
    struct iop89_row none = {0, 0};
    struct word words[MOST_WORDS + 1];
    struct tool_text text = tool_read_text(name);
    const char *start = (const char *)text.bytes;
    struct place at = {name, 0, start, start + text.length};
    while (at.from < at.end) {
        const char *from = at.from, *end = take_line(&at);
        unsigned count = split(from, end, words);
        if (count > 0) add_row(&rows, row_of(&at, words, count, end), at.line);
    }
    add_row(&rows, none, 0);
    rows.count--;
    free(text.bytes);
    return rows;
}

/* ---- What is printed ---- */

/* Prints a row in its words. */
static void print_row(struct iop89_row row)
{
    if (row.kind == IOP89_ROW_ATTENTION) printf("attention %" PRIu32, row.value);
    else if (row.kind == IOP89_ROW_STEP) printf("step %" PRIu32, row.value);
    else printf("kind %" PRIu32 " %" PRIu32, row.kind, row.value);
}

/* Prints a number with its words, and of a row of unknown kind the line of the first. */
static void print_number(const char *name, const struct rows *rows, unsigned number)
{
    printf("number %u: %s\n", number, iop89_service_words(number));
    for (size_t i = 0; number == IOP89_UNKNOWN_ROW && i < rows->count; i++) {
        struct iop89_row row = rows->row[i];
        if (row.kind == IOP89_ROW_ATTENTION || row.kind == IOP89_ROW_STEP) continue;
        printf("%s: line %" PRIu32 ": ", name, rows->line[i]);
        print_row(row);
        putchar('\n');
        return;
    }
}

/* Prints a count in its column, or a dash where the report has none. */
static void print_cell(const uint64_t *count)
{
    if (count != NULL) printf("  %9" PRIu64, *count);
    else printf("  %9s", "-");
}

/* Prints a line of the table: a count over all, or one of each channel. */
static void print_line(const char *name, const uint64_t *all, const uint64_t *one, const uint64_t *two)
{
    printf("%-19s", name);
    print_cell(all);
    print_cell(one);
    print_cell(two);
    putchar('\n');
}

/* Prints the table of counts. */
static void print_report(const uint64_t *report)
{
    static const char *const names[] = {"attentions accepted", "attentions refused", "instructions", "transfer steps",
                                        "bytes stored",        "external ends",      "waiting rows"};
    printf("%-19s  %9s  %9s  %9s\n", "", "over all", "channel 1", "channel 2");
    print_line("rows accepted", &report[IOP89_ROWS_ACCEPTED], NULL, NULL);
    print_line("rows refused", &report[IOP89_ROWS_REFUSED], NULL, NULL);
    for (unsigned i = 0; i < sizeof names / sizeof names[0]; i++)
        print_line(names[i], NULL, &report[IOP89_REPORT_AT(1u, IOP89_ATTENTIONS_ACCEPTED_1) + i],
                   &report[IOP89_REPORT_AT(2u, IOP89_ATTENTIONS_ACCEPTED_1) + i]);
}

/* ---- The command ---- */

/* Makes one row as a single call, and prints its line: its place, its words, its number, and what it did or why not. */
static void trace_row(size_t place, struct iop89_row row, uint8_t *state, struct tool_memory *m)
{
    uint8_t before[IOP89_STATE_LENGTH];
    bool attention = row.kind == IOP89_ROW_ATTENTION;
    memcpy(before, state, sizeof before);
    iop89_answer answer = attention ? tool_attend(state, m, row.value) : tool_do_step(state, m, row.value);
    unsigned number = IOP89_ANSWER_NUMBER(answer);
    printf("%zu ", place);
    print_row(row);
    printf(": %u", number);
    if (number != IOP89_DONE) printf(" %s\n", iop89_service_words(number));
    else if (attention) tool_print_count(answer);
    else tool_print_done(answer, before, state, "");
}

/* Says which of the words do not go together: the rows have no place in memory, and files follow them. */
static void refuse_words(const struct tool_order *order)
{
    if (order->file[0].at != 0) tool_usage("-at before the rows", order->file[0].name);
    if (order->files < 2) tool_usage("no file behind the rows", order->file[0].name);
}

/* Without the rows' own, the files of an order. */
static struct tool_order without_rows(const struct tool_order *order)
{
    struct tool_order rest = *order;
    rest.files--;
    memmove(rest.file, rest.file + 1, rest.files * sizeof rest.file[0]);
    return rest;
}

/* Runs the rows, and answers the number. A trace is made of the same rows once more, by single calls on copies of state
 * and memory. */
static unsigned run_rows(const struct tool_order *order, const struct rows *rows, uint8_t *state, struct tool_memory *m,
                         uint64_t *report)
{
    uint8_t given[IOP89_STATE_LENGTH];
    struct tool_memory again = tool_copy(*m);
    memcpy(given, state, sizeof given);
    iop89_answer answer = iop89_schedule(state, IOP89_STATE_LENGTH, rows->row, rows->count, m->sys, m->sys_len, m->io,
                                         m->io_len, report, IOP89_REPORT_LENGTH);
    unsigned number = IOP89_ANSWER_NUMBER(answer);
    for (size_t i = 0; order->trace && number == IOP89_DONE && i < rows->count; i++)
        trace_row(i + 1, rows->row[i], given, &again);
    tool_free(again);
    return number;
}

enum tool_status tool_schedule(const struct tool_order *order)
{
    uint8_t state[IOP89_STATE_LENGTH];
    uint64_t report[IOP89_REPORT_LENGTH];
    refuse_words(order);
    struct tool_order rest = without_rows(order);
    struct rows rows = read_rows(order->file[0].name);
    struct tool_memory memory = tool_load(&rest);
    unsigned number = tool_make_state(&rest, 0, state, &memory);
    if (number == IOP89_DONE) number = run_rows(&rest, &rows, state, &memory, report);
    if (number == IOP89_DONE) print_report(report);
    else print_number(order->file[0].name, &rows, number);
    tool_print_shown(&rest, &memory);
    tool_free(memory);
    free(rows.row);
    free(rows.line);
    return number == IOP89_DONE ? TOOL_DONE : TOOL_REFUSED;
}
