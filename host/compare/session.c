/* Performs a script's calls on one machine: words, numbers, registers, and what each call prints. */
#include "session.h"

#include <inttypes.h>
#include <stdlib.h>
#include <string.h>

/* ---- Words and numbers ---- */

/* A line or a word of one. */
struct text {
    const char *at;
    size_t length;
};

/* More words than this no call has. */
enum { MOST_WORDS = 4 };

/* Splits a line at its spaces; answers how many words there are, or one more than any call has. */
static unsigned split(struct text line, struct text word[MOST_WORDS])
{
    unsigned words = 0;
    size_t i = 0;
    for (;;) {
        while (i < line.length && line.at[i] == ' ') i++;
        if (i == line.length) return words;
        if (words == MOST_WORDS) return MOST_WORDS + 1;
        word[words].at = line.at + i;
        while (i < line.length && line.at[i] != ' ') i++;
        word[words].length = (size_t)(line.at + i - word[words].at);
        words++;
    }
}

/* Whether a word is this name. */
static bool is(struct text word, const char *name)
{
    return word.length == strlen(name) && memcmp(word.at, name, word.length) == 0;
}

/* A hexadecimal digit's value, or 16 for any other character. */
static unsigned digit(char c)
{
    if (c >= '0' && c <= '9') return (unsigned)(c - '0');
    if (c >= 'a' && c <= 'f') return (unsigned)(c - 'a') + 10;
    if (c >= 'A' && c <= 'F') return (unsigned)(c - 'A') + 10;
    return 16;
}

/* Reads a number of one to eight digits that is no larger than most. */
static bool number(struct text word, uint32_t most, uint32_t *out)
{
    *out = 0;
    for (size_t i = 0; i < word.length; i++) {
        if (digit(word.at[i]) > 15) return false;
        *out = *out << 4 | digit(word.at[i]);
    }
    return word.length >= 1 && word.length <= 8 && *out <= most;
}

/* Whether a word is bytes of two digits each. */
static bool is_bytes(struct text word)
{
    for (size_t i = 0; i < word.length; i++)
        if (digit(word.at[i]) > 15) return false;
    return word.length > 0 && word.length % 2 == 0;
}

/* ---- Registers ---- */

const struct script_register script_registers[SCRIPT_REGISTERS] = {
    [SET_GA] = {"ga", 0, UINT32_MAX, false},  [SET_GB] = {"gb", 0, UINT32_MAX, false},
    [SET_GC] = {"gc", 0, UINT32_MAX, false},  [SET_TP] = {"tp", 0, UINT32_MAX, false},
    [SET_PP] = {"pp", 0, UINT32_MAX, false},  [SET_CP] = {"cp", 0, UINT32_MAX, true},
    [SET_BC] = {"bc", 0, 0xFFFF, false},      [SET_IX] = {"ix", 0, 0xFFFF, false},
    [SET_CC] = {"cc", 0, 0xFFFF, false},      [SET_MC] = {"mc", 0, 0xFFFF, false},
    [SET_PSW] = {"psw", 0, 0xFF, false},      [SET_GA_TAG] = {"ga.t", 0, 1, false},
    [SET_GB_TAG] = {"gb.t", 0, 1, false},     [SET_GC_TAG] = {"gc.t", 0, 1, false},
    [SET_TP_TAG] = {"tp.t", 0, 1, false},     [SET_ARM] = {"arm", 0, 1, false},
    [SET_MODE] = {"mode", 0, 2, false},       [SET_LAST] = {"last", 1, 2, true},
    [SET_UP] = {"up", 0, 1, true},            [SET_SYSBUS] = {"sysbus", 0, 1, true},
    [SET_SOC] = {"soc", 0, 1, true},          [SET_GRANT] = {"grant", 0, 1, true},
    [SET_FIELDS] = {"fields", 0, 0xFFFF, false}, [SET_HELD] = {"held", EMU_HELD, EMU_HELD | 0xFF, false},
};

/* Whether a register takes a value. */
static bool takes(unsigned which, uint32_t value)
{
    const struct script_register *r = &script_registers[which];
    return (value >= r->least && value <= r->most) || (which == SET_HELD && value == EMU_NONE_HELD);
}

/* The register of this name, or SCRIPT_REGISTERS. */
static unsigned find_register(struct text name)
{
    unsigned which = 0;
    while (which < SCRIPT_REGISTERS && !is(name, script_registers[which].name)) which++;
    return which;
}

uint32_t *session_address(struct session *s, uint32_t channel, unsigned which)
{
    struct emu_channel *ch = &s->state.channel[channel == 2];
    uint32_t *named[SCRIPT_ADDRESSES] = {&ch->ga.address, &ch->gb.address, &ch->gc.address,
                                         &ch->tp.address, &ch->pp,         &s->state.cp};
    return named[which];
}

/* Sets a register to a value that it takes; CC without its fields, and these, as those of a CC value, without CC. */
static void set_register(struct session *s, uint32_t channel, unsigned which, uint32_t value)
{
    struct emu_channel *ch = &s->state.channel[channel == 2];
    switch (which) {
    case SET_BC: ch->bc = (uint16_t)value; break;
    case SET_IX: ch->ix = (uint16_t)value; break;
    case SET_CC: ch->cc = (uint16_t)value; break;
    case SET_MC: ch->mc = (uint16_t)value; break;
    case SET_PSW: ch->psw = (uint8_t)value; break;
    case SET_GA_TAG: ch->ga.tag = value != 0; break;
    case SET_GB_TAG: ch->gb.tag = value != 0; break;
    case SET_GC_TAG: ch->gc.tag = value != 0; break;
    case SET_TP_TAG: ch->tp.tag = value != 0; break;
    case SET_ARM: ch->armed = value != 0; break;
    case SET_MODE: ch->mode = (enum emu_mode)value; break;
    case SET_LAST: s->state.last = value; break;
    case SET_UP: s->state.powered = value != 0; break;
    case SET_SYSBUS: s->state.system_wide = value != 0; break;
    case SET_SOC: s->state.io_wide = value != 0; break;
    case SET_GRANT: s->state.soc_1 = value != 0; break;
    case SET_FIELDS: ch->fields = emu_fields_of((uint16_t)value); break;
    case SET_HELD: ch->held = (uint16_t)value; break;
    default: *session_address(s, channel, which) = value; break;
    }
}

/* ---- Buffers ---- */

/* One of the two buffers. */
struct buffer {
    uint8_t *bytes;
    size_t length;
};

/* The buffer of a space. */
static struct buffer buffer_of(const struct session *s, uint32_t space)
{
    struct buffer sys = {s->memory.sys, s->memory.sys_len}, io = {s->memory.io, s->memory.io_len};
    return space == 0 ? sys : io;
}

/* The digest of a buffer: 32-bit FNV-1a. */
static uint32_t digest(struct buffer b)
{
    uint32_t sum = 0x811C9DC5u;
    for (size_t i = 0; i < b.length; i++) sum = (sum ^ b.bytes[i]) * 0x1000193u;
    return sum;
}

/* Gives a machine zeroed buffers of these lengths. */
static void lend(struct session *s, size_t sys_len, size_t io_len)
{
    memset(s->memory.sys, 0, sys_len);
    memset(s->memory.io, 0, io_len);
    s->memory.sys_len = sys_len;
    s->memory.io_len = io_len;
}

/* Room for the largest buffer of a space. */
static uint8_t *room(size_t length)
{
    uint8_t *bytes = malloc(length);
    if (bytes == NULL) {
        fputs("session: out of memory\n", stderr);
        exit(2);
    }
    return bytes;
}

void session_begin(struct session *s)
{
    memset(s, 0, sizeof *s);
    s->memory.sys = room(SCRIPT_SYSTEM_ROOM);
    s->memory.io = room(SCRIPT_IO_ROOM);
    lend(s, 0, 0);
    emu_fresh(0, &s->state);
    emu_coverage = &s->tally.coverage;
}

/* ---- Calls: each answers how many lines it printed, 0 for a line that is no call ---- */

/* make SYS IO CP */
static unsigned call_make(struct session *s, const struct text *word, FILE *out)
{
    uint32_t sys_len, io_len, cp;
    if (!number(word[1], SCRIPT_SYSTEM_ROOM, &sys_len) || !number(word[2], SCRIPT_IO_ROOM, &io_len)) return 0;
    if (!number(word[3], UINT32_MAX, &cp)) return 0;
    lend(s, sys_len, io_len);
    s->tally.anew[ANEW_FRESH] += emu_holds(&s->state);
    unsigned answer = emu_fresh(cp, &s->state);
    s->tally.make[answer]++;
    fprintf(out, "make %u\n", answer);
    return 1;
}

/* put SPACE ADDRESS BYTES */
static unsigned call_put(struct session *s, const struct text *word, FILE *out)
{
    uint32_t space, address;
    if (!number(word[1], 1, &space) || !number(word[2], UINT32_MAX, &address) || !is_bytes(word[3])) return 0;
    struct buffer b = buffer_of(s, space);
    size_t count = word[3].length / 2;
    if (address > b.length || count > b.length - address) return 0;
    for (size_t i = 0; i < count; i++)
        b.bytes[address + i] = (uint8_t)(digit(word[3].at[2 * i]) << 4 | digit(word[3].at[2 * i + 1]));
    fputs("put 0\n", out);
    return 1;
}

/* set CHANNEL REGISTER VALUE */
static unsigned call_set(struct session *s, const struct text *word, FILE *out)
{
    uint32_t channel, value;
    unsigned which = find_register(word[2]);
    if (!number(word[1], 2, &channel) || which == SCRIPT_REGISTERS) return 0;
    const struct script_register *r = &script_registers[which];
    if (r->shared != (channel == 0) || !number(word[3], UINT32_MAX, &value) || !takes(which, value)) return 0;
    set_register(s, channel, which, value);
    s->tally.set[channel == 2][which]++;
    s->tally.none_held[channel == 2] += which == SET_HELD && value == EMU_NONE_HELD;
    fputs("set 0\n", out);
    return 1;
}

/* reset */
static unsigned call_reset(struct session *s, const struct text *word, FILE *out)
{
    (void)word;
    s->tally.anew[ANEW_RESET] += emu_holds(&s->state);
    emu_reset(&s->state);
    fputs("reset 0\n", out);
    return 1;
}

/* power */
static unsigned call_power(struct session *s, const struct text *word, FILE *out)
{
    (void)word;
    bool held = emu_holds(&s->state);
    struct emu_answer a = emu_power_up(&s->state, &s->memory);
    s->tally.anew[ANEW_POWER_UP] += held && a.number == EMU_DONE;
    s->answered = a.number;
    s->tally.power[a.number]++;
    s->tally.bytes[a.number == EMU_DONE ? BYTES_OF_POWER_UP : BYTES_OF_REFUSED][a.count]++;
    fprintf(out, "power %u %u\n", a.number, a.count);
    return 1;
}

/* ca CHANNEL */
static unsigned call_ca(struct session *s, const struct text *word, FILE *out)
{
    uint32_t channel;
    if (!number(word[1], UINT32_MAX, &channel)) return 0;
    struct emu_answer a = emu_attention(&s->state, &s->memory, channel);
    s->answered = a.number;
    s->tally.ca[a.number]++;
    s->tally.bytes[a.number == EMU_DONE ? BYTES_OF_ATTENTION : BYTES_OF_REFUSED][a.count]++;
    fprintf(out, "ca %u %u\n", a.number, a.count);
    return 1;
}

/* Counts a done step by its channel and kind, and by its lines. */
static void count_done(struct tally *t, struct emu_stepped stepped, uint32_t lines)
{
    t->kind[stepped.channel - 1][stepped.kind == 'I' ? 0 : stepped.kind == 'T' ? 1 : 2]++;
    t->stepped_under[lines]++;
}

/* step LINES */
static unsigned call_step(struct session *s, const struct text *word, FILE *out)
{
    uint32_t lines;
    if (!number(word[1], UINT32_MAX, &lines)) return 0;
    struct emu_stepped stepped = emu_step(&s->state, &s->memory, lines);
    bool done = stepped.number == EMU_DONE;
    s->answered = stepped.number;
    s->tally.step[stepped.number]++;
    s->tally.bytes[done ? bytes_of_step(stepped.kind) : BYTES_OF_REFUSED][stepped.count]++;
    if (done) count_done(&s->tally, stepped, lines);
    fprintf(out, "step %u %u %c %u\n", stepped.number, stepped.channel, done ? stepped.kind : '.', stepped.count);
    return 1;
}

/* sweep CHANNEL LINES */
static unsigned call_sweep(struct session *s, const struct text *word, FILE *out)
{
    uint32_t channel, lines;
    if (!number(word[1], UINT32_MAX, &channel) || !number(word[2], UINT32_MAX, &lines)) return 0;
    struct emu_swept a = emu_sweep(&s->state, &s->memory, channel, lines);
    s->answered = a.number;
    s->tally.sweep[a.number]++;
    fprintf(out, "sweep %u %" PRIu32 " %" PRIu32 "\n", a.number, a.steps, a.count);
    return 1;
}

/* Prints a pointer and its tag. */
static void print_pointer(const char *name, struct emu_pointer p, FILE *out)
{
    fprintf(out, " %s %08" PRIx32 " %d", name, p.address, p.tag);
}

/* Prints a channel's line. */
static void print_channel(const struct session *s, unsigned channel, FILE *out)
{
    const struct emu_channel *ch = &s->state.channel[channel - 1];
    fprintf(out, "ch %u", channel);
    print_pointer("ga", ch->ga, out);
    print_pointer("gb", ch->gb, out);
    print_pointer("gc", ch->gc, out);
    print_pointer("tp", ch->tp, out);
    fprintf(out, " pp %08" PRIx32 " bc %04x ix %04x", ch->pp, ch->bc, ch->ix);
    fprintf(out, " cc %04x fields %04x mc %04x", ch->cc, emu_fields_value(&ch->fields), ch->mc);
    fprintf(out, " psw %02x mode %d arm %d held %04x\n", ch->psw, (int)ch->mode, ch->armed, ch->held);
}

/* Prints a buffer's length and digest. */
static void print_buffer(const char *name, struct buffer b, FILE *out)
{
    fprintf(out, " %s %08zx %08" PRIx32, name, b.length, digest(b));
}

/* dump */
static unsigned call_dump(struct session *s, const struct text *word, FILE *out)
{
    (void)word;
    print_channel(s, 1, out);
    print_channel(s, 2, out);
    fprintf(out, "cp %08" PRIx32 " last %u", s->state.cp, s->state.last);
    fprintf(out, " up %d sysbus %d", s->state.powered, s->state.system_wide);
    fprintf(out, " soc %d grant %d", s->state.io_wide, s->state.soc_1);
    print_buffer("sys", buffer_of(s, 0), out);
    print_buffer("io", buffer_of(s, 1), out);
    fputc('\n', out);
    return 3;
}

/* show SPACE ADDRESS */
static unsigned call_show(struct session *s, const struct text *word, FILE *out)
{
    uint32_t space, address;
    if (!number(word[1], 1, &space) || !number(word[2], UINT32_MAX, &address)) return 0;
    struct buffer b = buffer_of(s, space);
    fputs("show", out);
    for (uint64_t i = address; i < (uint64_t)address + 16; i++) {
        if (i < b.length) fprintf(out, " %02x", b.bytes[i]);
        else fputs(" --", out);
    }
    fputc('\n', out);
    return 1;
}

/* Counts a listing's lines: of instructions, and of data. */
static void count_listed(struct tally *t, const struct listing_coverage *met)
{
    for (unsigned i = 0; i < LISTING_ROWS; i++) t->listed_instructions += met->row[i];
    for (unsigned i = 0; i < DATA_REASONS; i++) t->listed_data += met->data[i];
}

/* list SPACE ADDRESS LENGTH */
static unsigned call_list(struct session *s, const struct text *word, FILE *out)
{
    static uint8_t text[SCRIPT_LIST_LIMIT * SCRIPT_LIST_LINE];
    struct listing_coverage met = {.longest = 0};
    uint32_t space, address, length;
    unsigned lines = 0;
    if (!number(word[1], 1, &space) || !number(word[2], UINT32_MAX, &address)) return 0;
    if (!number(word[3], SCRIPT_LIST_LIMIT, &length) || length == 0) return 0;
    struct buffer b = buffer_of(s, space);
    if (address > b.length || length > b.length - address) return 0;
    struct listing listed = list_code(b.bytes + address, length, address, text, sizeof text, &met);
    count_listed(&s->tally, &met);
    fwrite(text, 1, listed.characters, out);
    for (uint32_t i = 0; i < listed.characters; i++) lines += text[i] == '\n';
    return lines;
}

/* The table of calls: name, words with the name, and deed. */
static const struct {
    const char *name;
    unsigned words;
    unsigned (*act)(struct session *s, const struct text *word, FILE *out);
} calls[SCRIPT_LINES] = {
    [CALL_MAKE] = {"make", 4, call_make}, [CALL_PUT] = {"put", 4, call_put},    [CALL_SET] = {"set", 4, call_set},
    [CALL_CA] = {"ca", 2, call_ca},       [CALL_STEP] = {"step", 2, call_step}, [CALL_DUMP] = {"dump", 1, call_dump},
    [CALL_SHOW] = {"show", 3, call_show}, [CALL_LIST] = {"list", 4, call_list}, [CALL_RESET] = {"reset", 1, call_reset},
    [CALL_POWER] = {"power", 1, call_power}, [CALL_SWEEP] = {"sweep", 3, call_sweep},
};

bool session_opens_file(const char *line, size_t length)
{
    struct text whole = {line, length}, word[MOST_WORDS];
    return split(whole, word) == 1 && is(word[0], "prom");
}

bool session_closes_file(const char *line, size_t length)
{
    struct text whole = {line, length};
    return is(whole, "end");
}

unsigned session_load(struct session *s, const char *file, size_t length, FILE *out)
{
    struct hex_answer a = hex_load((const uint8_t *)file, length, s->memory.sys, s->memory.sys_len);
    s->tally.calls++;
    s->tally.call[CALL_PROM]++;
    s->tally.prom[a.number]++;
    s->tally.started += a.number == HEX_DONE && a.start != 0;
    fprintf(out, "prom %u %" PRIu32 " %08" PRIx32 "\n", a.number, a.line, a.start);
    return 1;
}

unsigned session_perform(struct session *s, const char *line, size_t length, FILE *out)
{
    struct text whole = {line, length}, word[MOST_WORDS];
    unsigned words = split(whole, word), which = 0, printed = 0;
    if (words == 0 || line[0] == '#') return 0;
    s->tally.calls++;
    while (which < SCRIPT_LINES && !is(word[0], calls[which].name)) which++;
    if (which < SCRIPT_LINES && words == calls[which].words) printed = calls[which].act(s, word, out);
    if (printed > 0) {
        s->tally.call[which]++;
        return printed;
    }
    s->tally.no_call++;
    fputs("?\n", out);
    return 1;
}
