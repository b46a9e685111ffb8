/* Loads the memory that the bench tool's command line asks for, from files whole or in halves, and saves it again. */
#include "tool.h"

#include <inttypes.h>
#include <stdlib.h>
#include <string.h>

/* Room for so many bytes, all zeros; never null, also for none. */
static uint8_t *room(size_t length)
{
    uint8_t *bytes = calloc(length + 1, 1);
    if (bytes == NULL) tool_give_up("memory");
    return bytes;
}

/* The most bytes of a text: a megabyte of data in records of one byte each, with room to spare. */
enum { MOST_TEXT = 32 << 20 };

struct tool_text tool_read_text(const char *name)
{
    struct tool_text text = {room(MOST_TEXT), 0};
    bool standard = strcmp(name, "-") == 0;
    FILE *file = standard ? stdin : fopen(name, "rb");
    if (file == NULL) tool_give_up(name);
    text.length = fread(text.bytes, 1, MOST_TEXT, file);
    bool more = text.length == MOST_TEXT && fgetc(file) != EOF;
    if (ferror(file)) tool_give_up(name);
    if (!standard) fclose(file);
    if (more) tool_usage("a text of more than 32 megabytes", name);
    return text;
}

/* ---- Files into memory ---- */

/* Where files go: memory, which file stored each byte (its place and one), how far they reach, and the file at hand. */
struct target {
    const struct tool_order *order;
    uint8_t *sys, *owner;
    size_t end;
    unsigned file;
};

/* Says that two files store the same byte. */
static _Noreturn void refuse_overlap(const struct target *to, uint32_t at)
{
    fflush(stdout);
    fprintf(stderr, "iop89: %s stores at %05" PRIX32 ", where %s has stored; -over lets the later one win\n",
            to->order->file[to->file].name, at, to->order->file[to->owner[at] - 1u].name);
    exit(TOOL_FAILED);
}

/* Stores a byte of the file at hand, whose own address this is: a half has every other byte of memory. */
static void put(void *to, uint32_t own, uint8_t byte)
{
    struct target *target = to;
    const struct tool_file *file = &target->order->file[target->file];
    uint64_t at = file->half == TOOL_WHOLE ? (uint64_t)file->at + own
                                           : (uint64_t)file->at + 2u * (uint64_t)own + (file->half == TOOL_ODD);
    if (at >= TOOL_MOST) tool_usage("a file that reaches past a megabyte", file->name);
    uint8_t owner = target->owner[at];
    if (owner != 0 && owner != target->file + 1 && !target->order->over) refuse_overlap(target, (uint32_t)at);
    target->owner[at] = (uint8_t)(target->file + 1);
    target->sys[at] = byte;
    if (at + 1 > target->end) target->end = (size_t)at + 1;
}

/* Loads the file at hand. */
static void load_file(struct target *to)
{
    const struct tool_file *file = &to->order->file[to->file];
    struct tool_text text = tool_read_text(file->name);
    enum tool_form form = file->form != TOOL_BY_CONTENT ? file->form : tool_form_of(file->name, text);
    if (form == TOOL_HEX && file->has_at && file->half == TOOL_WHOLE)
        tool_usage("-at before a PROM file, which has its own addresses", file->name);
    if (form == TOOL_HEX) tool_each_byte(file->name, text, put, to);
    else if (text.length > TOOL_MOST) tool_usage("a file that reaches past a megabyte", file->name);
    else for (size_t i = 0; i < text.length; i++) put(to, (uint32_t)i, text.bytes[i]);
    free(text.bytes);
}

/* The I/O memory that a processor asks for: a file, or zeros; answers its length. */
static size_t load_io(const struct tool_processor *processor, uint8_t *io)
{
    if (processor->io_image == NULL) return processor->io_length != UINT32_MAX ? processor->io_length : 256;
    struct tool_text text = tool_read_text(processor->io_image);
    if (text.length > TOOL_MOST) tool_usage("a file that reaches past a megabyte", processor->io_image);
    memcpy(io, text.bytes, text.length);
    free(text.bytes);
    return text.length;
}

struct tool_memory tool_load(const struct tool_order *order)
{
    struct tool_memory memory = {room(TOOL_MOST), room(TOOL_MOST), 0, 0};
    struct target to = {order, memory.sys, room(TOOL_MOST), 0, 0};
    for (to.file = 0; to.file < order->files; to.file++) load_file(&to);
    memory.sys_len = to.end;
    free(to.owner);
    if (order->system_length != UINT32_MAX) {
        if (order->system_length < memory.sys_len) tool_usage("the files need more than -system lends", NULL);
        memory.sys_len = order->system_length;
    }
    memory.io_len = load_io(&order->of[0], memory.io);
    return memory;
}

struct tool_memory tool_load_second(const struct tool_order *order, struct tool_memory first)
{
    struct tool_memory memory = {first.sys, room(TOOL_MOST), first.sys_len, 0};
    memory.io_len = load_io(&order->of[1], memory.io);
    return memory;
}

struct tool_memory tool_copy(struct tool_memory memory)
{
    struct tool_memory copy = {room(TOOL_MOST), room(TOOL_MOST), memory.sys_len, memory.io_len};
    memcpy(copy.sys, memory.sys, memory.sys_len);
    memcpy(copy.io, memory.io, memory.io_len);
    return copy;
}

void tool_free(struct tool_memory memory)
{
    free(memory.sys);
    free(memory.io);
}

void tool_free_second(struct tool_memory memory)
{
    free(memory.io);
}
