/* The bench tool's assembler: a text becomes an image, which is written as it is or as a PROM file, or listed. */
#include "emulator/assembly.h"
#include "tool.h"

#include <inttypes.h>
#include <stdlib.h>
#include <string.h>

/* How much of a line a complaint shows. */
enum { MOST_SHOWN = 200 };

/* ---- Refusals ---- */

/* What is wrong with a label, in words. */
static const char *label_words(enum label_fault fault)
{
    switch (fault) {
    case LABEL_TOO_LONG: return "a label of more than 12 characters";
    case LABEL_TWICE: return "a label twice";
    case LABEL_RESERVED: return "a label that is a word or a register";
    case LABEL_ONE_TOO_MANY: return "one label more than 64";
    case LABEL_UNKNOWN: return "an unknown label";
    default: return iop89_asm_words(IOP89_BAD_LABEL);
    }
}

/* Says some characters of a text, a control character as a question mark, and at most so many. */
static void say(const uint8_t *from, size_t length)
{
    for (size_t i = 0; i < length && i < MOST_SHOWN; i++)
        fputc((from[i] < 32 && from[i] != '\t') || from[i] == 127 ? '?' : from[i], stderr);
    if (length > MOST_SHOWN) fputs(" ..", stderr);
}

/* Says a line of a text by itself. */
static void say_line(struct tool_text text, uint32_t line)
{
    const uint8_t *from = text.bytes, *end = text.bytes + text.length, *lf;
    while ((lf = memchr(from, '\n', (size_t)(end - from))) != NULL && --line > 0) from = lf + 1;
    if (lf != NULL) end = lf;
    while (end > from && end[-1] == '\r') end--;
    fputs("\n    ", stderr);
    say(from, (size_t)(end - from));
    fputc('\n', stderr);
}

/* Says which number refused a text, in words, and at which line, with the line; for 33 which label and why. */
static _Noreturn void refuse(const struct tool_order *order, struct tool_text text, iop89_asm_answer answer)
{
    unsigned number = IOP89_ASM_NUMBER(answer);
    struct faulty_label label = {LABEL_GOOD, 0, 0};
    if (number == IOP89_BAD_LABEL) label = assembly_label(text.bytes, text.length, IOP89_ASM_LINE(answer));
    fflush(stdout);
    fprintf(stderr, "iop89: %s: line %" PRIu32 ": %u, %s", order->file[0].name, IOP89_ASM_LINE(answer), number,
            number == IOP89_BAD_LABEL ? label_words(label.fault) : iop89_asm_words(number));
    if (number == IOP89_NO_ROOM) fprintf(stderr, " in %" PRIu32 " bytes", order->room);
    if (label.fault != LABEL_GOOD) {
        fputs(": ", stderr);
        say(text.bytes + label.at, label.length);
    }
    say_line(text, IOP89_ASM_LINE(answer));
    exit(TOOL_REFUSED);
}

/* ---- The command ---- */

/* Says which of the words are not for texts, and which do not go together. */
static void refuse_words(const struct tool_order *order)
{
    if (order->files > 1) tool_usage("asm takes one text", order->file[1].name);
    if (order->out == NULL) return;
    if (order->source) tool_usage("-source and -out", NULL);
    if (strcmp(order->out, order->file[0].name) == 0) tool_usage("-out would overwrite the text", order->out);
}

enum tool_status tool_asm(const struct tool_order *order)
{
    refuse_words(order);
    struct tool_text text = tool_read_text(order->file[0].name);
    uint8_t *image = malloc(order->room + 1u);
    if (image == NULL) tool_give_up("memory");
    uint32_t first = order->has_first ? order->first : order->file[0].at;
    iop89_asm_answer answer = iop89_assemble(text.bytes, text.length, first, image, order->room);
    if (IOP89_ASM_NUMBER(answer) != IOP89_DONE) refuse(order, text, answer);
    if (order->out != NULL) tool_save(order->out, image, IOP89_ASM_STORED(answer), order->file[0].at);
    else tool_print_listing(image, IOP89_ASM_STORED(answer), first, order->source, false);
    free(image);
    free(text.bytes);
    return TOOL_DONE;
}
