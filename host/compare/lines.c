/* Writes a script's lines, one call each, in all the ways in which a line may be written. */
#include "lines.h"

#include <inttypes.h>
#include <stdarg.h>
#include <string.h>

/* The bytes of one put, seldom and mostly, and room for a line that holds them with spaces to spare. */
enum { MOST_PUT = 4096, USUAL_PUT = 256, LINE_ROOM = 2 * MOST_PUT + 100 };

void write_line(struct writer *w, const char *line)
{
    const char *end = chance(&w->d, 30) ? "\r\n" : "\n";
    w->written += (size_t)fprintf(w->out, "%s%s", w->written > 0 ? end : "", line);
}

void perform(struct writer *w, const char *line)
{
    session_perform(&w->s, line, strlen(line), w->nowhere);
    write_line(w, line);
    if (w->left > 0) w->left--;
    w->since_dump++;
}

void perform_file(struct writer *w, char *file, size_t length)
{
    if (length > 0 && file[length - 1] != '\n') file[length++] = '\n';
    session_load(&w->s, file, length, w->nowhere);
    write_line(w, chance(&w->d, 50) ? " prom  " : "prom");
    w->written += (size_t)fprintf(w->out, "\n") + fwrite(file, 1, length, w->out) + (size_t)fprintf(w->out, "end");
    if (w->left > 0) w->left--;
    w->since_dump++;
}

/* Writes what is passed over: a comment, an empty line or a line of spaces. */
static void write_passed_over(struct writer *w)
{
    static const char *const lines[] = {"", " ", "    ", "#", "# dump", "#step 0"};
    write_line(w, ONE_OF(&w->d, lines));
}

size_t lent(const struct writer *w)
{
    return w->s.memory.sys_len + w->s.memory.io_len;
}

/* Writes a dump where one is due. */
static void dump_if_due(struct writer *w)
{
    unsigned every = lent(w) <= SMALL_BUFFERS ? 8 : 60;
    if (w->since_dump < every) return;
    perform(w, "dump");
    w->since_dump = 0;
}

/* Copies a line, each space so many times. */
static void spread(char *to, const char *from, unsigned spaces)
{
    for (; *from != '\0'; from++)
        for (unsigned i = *from == ' ' ? spaces : 1; i > 0; i--) *to++ = *from;
    *to = '\0';
}

void say(struct writer *w, const char *form, ...)
{
    static char line[LINE_ROOM], spaced[LINE_ROOM];
    size_t before = chance(&w->d, 20) ? 1 + below(&w->d, 3) : 0;
    va_list values;
    va_start(values, form);
    memset(line, ' ', before);
    vsnprintf(line + before, sizeof line - before - 1, form, values);
    va_end(values);
    if (chance(&w->d, 20)) strcat(line, " ");
    if (chance(&w->d, 20)) write_passed_over(w);
    spread(spaced, line, chance(&w->d, 20) ? 2 + below(&w->d, 2) : 1);
    perform(w, spaced);
    dump_if_due(w);
}

struct digits number(struct writer *w, uint32_t value)
{
    struct digits n;
    unsigned kind = below(&w->d, 20);
    const char *form = kind == 0 ? "%08" PRIx32 : kind < 4 ? "%" PRIX32 : kind == 4 ? "%04" PRIX32 : "%" PRIx32;
    snprintf(n.text, sizeof n.text, form, value);
    return n;
}

void put(struct writer *w, bool in_io, uint32_t at, const uint8_t *bytes, size_t count)
{
    static char text[2 * MOST_PUT + 1];
    const char *form = chance(&w->d, 100) ? "%02X" : "%02x";
    size_t most = chance(&w->d, 50) ? MOST_PUT : USUAL_PUT;
    while (count > 0) {
        size_t now = count < most ? count : most;
        for (size_t i = 0; i < now; i++) snprintf(text + 2 * i, 3, form, bytes[i]);
        say(w, "put %d %s %s", in_io, number(w, at).text, text);
        at += (uint32_t)now;
        bytes += now;
        count -= now;
    }
}

void place(struct writer *w, bool in_io, uint32_t address, const uint8_t *bytes, size_t count)
{
    uint32_t mask = in_io ? 0xFFFFu : MASK20;
    size_t length = in_io ? w->s.memory.io_len : w->s.memory.sys_len;
    for (size_t i = 0, run; i < count; i += run > 0 ? run : 1) {
        uint32_t at = (address + (uint32_t)i) & mask;
        run = at < length ? length - at : 0;
        if (run > count - i) run = count - i;
        put(w, in_io, at, bytes + i, run);
    }
}

void set(struct writer *w, uint32_t channel, unsigned which, uint32_t value)
{
    const struct script_register *r = &script_registers[which];
    say(w, "set %u %s %s", r->shared ? 0 : (unsigned)channel, r->name, number(w, value).text);
}

void step(struct writer *w, uint32_t lines)
{
    say(w, "step %s", number(w, lines).text);
}

void sweep(struct writer *w, uint32_t channel, uint32_t lines)
{
    struct digits of = number(w, channel);
    say(w, "sweep %s %s", of.text, number(w, lines).text);
}
