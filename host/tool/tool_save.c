/* What the bench tool writes: images as they are or as PROM files, and states. */
#include "tool.h"

#include <inttypes.h>
#include <string.h>

/* The data bytes of a record, and the addresses of a segment. */
enum { RECORD = 16, SEGMENT = 65536 };

/* The types of records. */
enum { DATA_RECORD = 0, END_RECORD = 1, SEGMENT_RECORD = 2 };

/* Whether a name ends so, in large or small letters. */
static bool ends_in(const char *name, const char *end)
{
    size_t length = strlen(name), tail = strlen(end);
    if (length <= tail) return false;
    for (size_t i = 0; i < tail; i++) {
        char c = name[length - tail + i];
        if (c >= 'A' && c <= 'Z') c = (char)(c - 'A' + 'a');
        if (c != end[i]) return false;
    }
    return true;
}

bool tool_is_prom_name(const char *name)
{
    return ends_in(name, ".hex") || ends_in(name, ".ihx") || ends_in(name, ".h86");
}

/* Writes a record with its check byte. */
static void write_record(FILE *file, uint32_t offset, unsigned type, const uint8_t *bytes, size_t count)
{
    size_t sum = count + (offset >> 8) + offset + type;
    fprintf(file, ":%02zX%04" PRIX32 "%02X", count, offset, type);
    for (size_t i = 0; i < count; i++) {
        fprintf(file, "%02X", bytes[i]);
        sum += bytes[i];
    }
    fprintf(file, "%02zX\n", (0 - sum) & 0xFFu);
}

/* Writes an image from an address on as a PROM file: no record goes over the end of a segment. */
static void write_hex(FILE *file, const uint8_t *image, size_t length, uint32_t at)
{
    uint32_t segment = 0;
    for (size_t done = 0, count; done < length; done += count) {
        uint32_t address = at + (uint32_t)done;
        count = SEGMENT - address % SEGMENT;
        if (count > RECORD) count = RECORD;
        if (count > length - done) count = length - done;
        if (address / SEGMENT != segment) {
            uint8_t base[2] = {(uint8_t)((segment = address / SEGMENT) << 4), 0};
            write_record(file, 0, SEGMENT_RECORD, base, sizeof base);
        }
        write_record(file, address % SEGMENT, DATA_RECORD, image + done, count);
    }
    write_record(file, 0, END_RECORD, NULL, 0);
}

void tool_save(const char *name, const uint8_t *bytes, size_t length, uint32_t at)
{
    bool hex = tool_is_prom_name(name);
    if (hex && at + length > TOOL_MOST) tool_usage("a PROM file that reaches past a megabyte", name);
    FILE *file = fopen(name, "wb");
    if (file == NULL) tool_give_up(name);
    if (hex) write_hex(file, bytes, length, at);
    else fwrite(bytes, 1, length, file);
    bool failed = fflush(file) != 0 || ferror(file);
    if (failed || fclose(file) != 0) tool_give_up(name);
    printf("%s: %zu byte%s from %05" PRIX32 "\n", name, length, length == 1 ? "" : "s", at);
}

void tool_save_system(const struct tool_order *order, const struct tool_memory *memory)
{
    if (order->save != NULL) tool_save(order->save, memory->sys, memory->sys_len, 0);
}

void tool_save_own(const struct tool_processor *processor, const struct tool_memory *memory, const uint8_t *state)
{
    const char *name = processor->save_state;
    if (processor->save_io != NULL) tool_save(processor->save_io, memory->io, memory->io_len, 0);
    if (name == NULL) return;
    if (tool_is_prom_name(name)) tool_usage("a state is no PROM file", name);
    tool_save(name, state, IOP89_STATE_LENGTH, 0);
}
