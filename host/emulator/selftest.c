/* Hand-thought cases for the emulator: the paper's twelve, its example, the decoder's counts, and every reading. Most are
 * rows of words; what is counted or goes over a range is a loop. */
#include "emulator.h"

#include <stdlib.h>
#include <string.h>

#define MIB EMU_SYSTEM_LIMIT

/* A state with both memories at their full size, of which a case lends what it likes. */
struct rig {
    struct emu_state s;
    struct emu_memory m;
    uint8_t sys[MIB];
    uint8_t io[EMU_IO_LIMIT];
};

/* What is, and what a case wants it to be after the call. */
static struct rig now, want;
static unsigned long checks, failures;

/* The row that is played, which a failed check shows; NULL where none is. */
static const char *row;

/* Channel 1 and 2 as they are and as wanted. */
#define N now.s.channel[0]
#define N2 now.s.channel[1]
#define W want.s.channel[0]
#define W2 want.s.channel[1]
#define CHECK(condition) check((condition), #condition, __LINE__)
#define DONE(kind) done((kind), 1, 0, __LINE__)
#define DONE_ON(kind, channel, lines) done((kind), (channel), (lines), __LINE__)
#define REFUSED(number) refused((number), 0, __LINE__)
#define REFUSED_ON(number, lines) refused((number), (lines), __LINE__)
#define ATTEND(channel) attend((channel), 0, __LINE__)
#define ATTEND_REFUSED(channel, number) attend((channel), (number), __LINE__)

/* Counts a check and shows one that fails. */
static void check(bool good, const char *what, int line)
{
    checks++;
    if (good) return;
    failures++;
    if (row != NULL) printf("\"%s\": not so: %s\n", row, what);
    else printf("line %d: not so: %s\n", line, what);
}

/* ---- The rig ---- */

/* Channel 1 runs at 100h in system space; both memories are full and hold bytes that are not 0. */
static void reset(void)
{
    memset(now.sys, 0xA5, sizeof now.sys);
    memset(now.io, 0x5A, sizeof now.io);
    now.m = (struct emu_memory){now.sys, MIB, now.io, EMU_IO_LIMIT};
    emu_fresh(0x40, &now.s);
    N.mode = EMU_RUNNING;
    N.psw = EMU_PSW_TB;
    N.tp.address = 0x100;
    N.pp = 0x400;
    N.ga.address = 0x1000;
    N.gb.address = 0x2000;
    N.gc.address = 0x3000;
}

/* Puts bytes, written in hex with blanks or dots between them, at an address of one memory, wrapping; answers how many. */
static unsigned put(uint8_t *memory, size_t size, uint32_t at, const char *hex)
{
    unsigned n = 0;
    char *next;
    for (unsigned long byte = strtoul(hex, &next, 16); next != hex; byte = strtoul(hex, &next, 16)) {
        memory[(at + n++) % size] = (uint8_t)byte;
        hex = *next == '.' ? next + 1 : next;
    }
    return n;
}

/* Bytes that are there before the call, by space. */
static unsigned sys(uint32_t at, const char *hex) { return put(now.sys, MIB, at, hex); }
static unsigned io(uint32_t at, const char *hex) { return put(now.io, EMU_IO_LIMIT, at, hex); }

/* Bytes that are wanted after the call, by space. */
static void want_sys(uint32_t at, const char *hex) { put(want.sys, MIB, at, hex); }

/* Wants nothing to change. */
static void want_same(void)
{
    memcpy(&want, &now, sizeof want);
}

/* Puts an instruction at channel 1's TP and wants nothing but TP past it. */
static void code(const char *hex)
{
    unsigned n = N.tp.tag ? io(N.tp.address & 0xFFFF, hex) : sys(N.tp.address, hex);
    want_same();
    W.tp.address = (W.tp.address + n) & 0xFFFFF;
    want.s.last = 1;
}

/* Whether state and every byte of both memories are as wanted. */
static void check_all(int line)
{
    check(emu_same_state(&now.s, &want.s), "state as wanted", line);
    check(memcmp(now.sys, want.sys, sizeof now.sys) == 0, "system memory as wanted", line);
    check(memcmp(now.io, want.io, sizeof now.io) == 0, "I/O memory as wanted", line);
}

/* Steps and wants it done so. */
static void done(char kind, unsigned channel, uint32_t lines, int line)
{
    struct emu_stepped stepped = emu_step(&now.s, &now.m, lines);
    check(stepped.number == 0, "step done", line);
    check(stepped.kind == kind && stepped.channel == channel, "kind and channel", line);
    check_all(line);
}

/* Steps and wants it refused, with nothing changed. */
static void refused(unsigned number, uint32_t lines, int line)
{
    want_same();
    struct emu_stepped stepped = emu_step(&now.s, &now.m, lines);
    check(stepped.number == number, "number of refusal", line);
    check(stepped.kind == 0 && stepped.channel == 0 && stepped.count == 0, "no kind, no channel, no bytes", line);
    check_all(line);
}

/* Gives an attention and wants this number; a refused one changes nothing. */
static void attend(uint32_t channel, unsigned number, int line)
{
    if (number != 0) want_same();
    struct emu_answer answer = emu_attention(&now.s, &now.m, channel);
    check(answer.number == number, "number of attention", line);
    check((answer.count == 0) == (number != 0), "bytes where it is accepted", line);
    check_all(line);
}

/* ---- What rows begin with, and what they want ---- */

/* A board at the top of memory: SYSBUS, the configuration block at FFFD0h, there SOC and CP 500h. */
static void board(const char *sysbus, const char *soc)
{
    reset();
    sys(0xFFFF6, sysbus);
    sys(0xFFFF8, "D0 FF 00 F0");
    sys(0xFFFD0, soc);
    sys(0xFFFD2, "00 00 50 00");
    want_same();
}

/* Powers up and wants this number, state and memory. */
static void powers(unsigned number, int line)
{
    struct emu_answer answer = emu_power_up(&now.s, &now.m);
    check(answer.number == number, "power-up's number", line);
    check(answer.count == (number == 0 ? 11u : 0u), "power-up's eleven bytes", line);
    check_all(line);
}

/* Sweeps and wants it done, for so many steps and two accesses of each of n bytes. */
static void swept(uint32_t channel, uint32_t lines, uint32_t steps, uint32_t n, int line)
{
    struct emu_swept answer = emu_sweep(&now.s, &now.m, channel, lines);
    check(answer.number == 0, "sweep done", line);
    check(answer.steps == steps && answer.count == 2 * n, "steps and bytes of a sweep", line);
    check_all(line);
}

/* Sweeps and wants it refused, with nothing changed. */
static void unswept(unsigned number, uint32_t channel, uint32_t lines, int line)
{
    want_same();
    struct emu_swept answer = emu_sweep(&now.s, &now.m, channel, lines);
    check(answer.number == number, "number of sweep", line);
    check(answer.steps == 0 && answer.count == 0, "no steps, no bytes", line);
    check_all(line);
}

/* Wants a sweep of n bytes that ended by this offset; the case says which bytes arrive. */
static void want_swept(uint32_t n, unsigned end)
{
    want_same();
    want.s.last = 1;
    W.ga.address = (W.ga.address + n) & 0xFFFFF;
    W.gb.address = (W.gb.address + n) & 0xFFFFF;
    W.bc = 0;
    W.psw &= (uint8_t)~EMU_PSW_XF;
    W.tp.address = (W.tp.address + end) & 0xFFFFF;
    W.held = EMU_NONE_HELD;
}

/* Puts a control block with this CCW and PB at 500h for one channel, and wants nothing else. */
static void block(unsigned channel, unsigned ccw)
{
    uint32_t at = now.s.cp + (channel == 2 ? 8 : 0);
    now.sys[at & 0xFFFFF] = (uint8_t)ccw;
    sys(at + 2, "00 01 40 00");
}

/* Channel 1 at 100h of system space, GA at a place of I/O space of which so many bytes are lent. */
static void slot(uint32_t at, size_t io_len)
{
    reset();
    N.ga = (struct emu_pointer){at, true};
    now.m.io_len = io_len;
}

/* Sets channel 1 to a transfer from GA at 1000h to GB at 2000h; the case then says what differs. */
static void transfer(unsigned widths, unsigned cc, unsigned bc)
{
    reset();
    N.psw = (uint8_t)(EMU_PSW_TB | EMU_PSW_XF | widths);
    emu_set_cc(&N, (uint16_t)cc);
    N.bc = (uint16_t)bc;
    sys(0x1000, "11 22 33 44");
}

/* Wants a step that moved this many bytes on moving sides and ended by this offset (or went on, if negative). */
static void want_moved(unsigned bytes, int end)
{
    want_same();
    want.s.last = 1;
    bool gb = (N.cc & 0x0400) != 0;
    struct emu_pointer *source = gb ? &W.gb : &W.ga, *destination = gb ? &W.ga : &W.gb;
    if ((N.cc & 0x4000) != 0) source->address = (source->address + bytes) & 0xFFFFF;
    if ((N.cc & 0x8000) != 0) destination->address = (destination->address + bytes) & 0xFFFFF;
    W.bc = (uint16_t)(N.bc - bytes);
    if (end < 0) return;
    W.psw &= (uint8_t)~EMU_PSW_XF;
    W.tp.address = (W.tp.address + (unsigned)end) & 0xFFFFF;
}

/* Wants a step whose first of two single stores ended it by this offset: one byte stored, two counted. */
static void want_cut(int end)
{
    want_moved(1, end);
    W.bc = (uint16_t)(N.bc - 2);
    want_sys(0x2000, "11");
}

/* Both channels ready for a plain instruction. */
static void both_ready(void)
{
    reset();
    N2 = N;
    N2.tp.address = 0x200;
    sys(0x100, "00 00");
    sys(0x200, "00 00");
}

/* The channel that the next step takes, or 0. */
static unsigned goes(uint32_t lines)
{
    struct emu_state s = now.s;
    struct emu_stepped stepped = emu_step(&s, &now.m, lines);
    return stepped.number == 0 ? stepped.channel : 0;
}

/* Wants a half that holds this byte for the other one and changes nothing else. */
static void want_half(unsigned byte)
{
    want_same();
    want.s.last = 1;
    W.held = (uint16_t)(EMU_HELD | byte);
}

/* Wants the second half of a pair, which ended by this offset (or went on, if negative). */
static void want_pair(int end)
{
    want_moved(2, end);
    W.held = EMU_NONE_HELD;
}

/* One step of a transfer, and how many bytes it read and stored. */
static void transfer_counts(unsigned count, int line)
{
    struct emu_stepped stepped = emu_step(&now.s, &now.m, 0);
    check(stepped.number == 0 && stepped.kind == 'T' && stepped.count == count, "a transfer step's bytes", line);
}

/* ---- Rows: cases in words ---- */

/* A row is one case, or the next call of the case before it, in words that are done from left to right. Numbers are
 * hexadecimal.
 *
 *   reset, fresh           the rig anew; its state made fresh from CP 40h
 *   transfer=SD,C000,9     a transfer with these widths (- for none), this CC and this BC
 *   slot=2000,1000         GA at this place of I/O space, of which so many bytes are lent
 *   block=1,03             the control block of this channel with this CCW
 *   ready                  both channels ready for a plain instruction
 *   twins                  channel 2 as channel 1 is
 *   board=01,01            a board with these bytes for SYSBUS and SOC
 *   ga=1000  ga=1000/1     a pointer's address; with its tag; ga=/1 is the tag alone, ga+4 adds to the address
 *   pp bc ix mc cc held    these registers; cc writes its fields too, cc-alone does not, cc-bit turns one bit of it
 *   psw=TB,XF  psw+P       flags of PSW: just these (- for none), or these besides; psw-XF without
 *   mode=running  armed=1  2.ga=1000 and so on are channel 2's
 *   cp last powered        the state's own, and system_wide, io_wide, soc_1; fresh=500 is the fresh state of a CP
 *   sys_len io_len         how much is lent
 *   @1000=11.22  #5=33     bytes of system memory, and of I/O memory
 *   code=08.30.80          an instruction at TP; wants nothing but TP past it
 *   want                   wants nothing to change
 *   moved=2  moved=2,4     wants a transfer step of so many bytes, that goes on or ended by this offset
 *   cut=4  half=11         wants one that a match cut short; a half that holds this byte
 *   pair  pair=4           wants the second half of a pair, that goes on or ended by this offset
 *   swept=5,4              wants a sweep of so many bytes that ended by this offset
 *
 * Behind one of the last words registers and bytes are what is wanted; bc?7 asks what a register has come to. A row ends
 * with its call, whose numbers of refusals are decimal:
 *
 *   I  T  X  T,2,3         a step of this kind is done; by channel 2 under line number 3
 *   refused=5  refused=5,3 a step is refused by this number; under these lines
 *   step  step=1           a step is done, whatever it does; under these lines
 *   attend=1  attend=1,8   an attention to this channel is accepted; is refused by this number
 *   attended=1             an attention is accepted, whatever it does
 *   goes=0,2               under these lines this channel goes next
 *   counts=4               a transfer step is done, and answers so many bytes
 *   power=2                power-up answers this number
 *   sweep=3,5  unswept=15  a sweep of channel 1 is done, in so many steps and bytes; is refused by this number; channel
 *                          and lines may follow
 */

/* Whether a word has this name; then what stands behind it and its mark. */
static const char *named_word(const char *word, const char *name)
{
    size_t length = strlen(name);
    if (strncmp(word, name, length) != 0) return NULL;
    return word[length] == '\0' ? word + length : strchr("=+-?,", word[length]) != NULL ? word + length + 1 : NULL;
}

/* The next number of a word, and on behind the comma that ends it. */
static uint32_t next_number(const char **at)
{
    char *end;
    uint32_t value = (uint32_t)strtoul(*at, &end, 16);
    *at = *end == ',' ? end + 1 : end;
    return value;
}

/* The flag of PSW that a list of names begins with. */
static uint8_t flag_of(const char *list)
{
    static const char *const names[8] = {"D", "S", "TB", "IC", "IS", "LL", "XF", "P"};
    size_t length = strcspn(list, ",");
    for (unsigned i = 0; i < 8; i++)
        if (strlen(names[i]) == length && strncmp(names[i], list, length) == 0) return (uint8_t)(1u << i);
    check(false, "a flag of PSW", 0);
    return 0;
}

/* The flags of PSW in a list of names. */
static uint8_t flags_of(const char *list)
{
    uint8_t flags = 0;
    for (const char *at = list; *at != '\0' && *at != '-'; at += *at == ',') {
        flags |= flag_of(at);
        at += strcspn(at, ",");
    }
    return flags;
}

/* Writes or looks at a pointer, by the mark behind its name. */
static void pointer_word(struct emu_pointer *p, char mark, const char *value)
{
    char *end;
    uint32_t address = (uint32_t)strtoul(value, &end, 16);
    if (mark == '?') check(p->address == address && (*end != '/' || p->tag == (end[1] == '1')), "the pointer", 0);
    else if (mark == '+') p->address = (p->address + address) & 0xFFFFF;
    else if (end != value) p->address = address;
    if (mark != '?' && *end == '/') p->tag = end[1] == '1';
}

/* Writes or looks at a number of 16 bits. */
static void number_word(uint16_t *to, char mark, const char *value)
{
    uint16_t number = (uint16_t)next_number(&value);
    if (mark == '?') check(*to == number, "the register", 0);
    else *to = number;
}

/* Writes PSW, flags of it, or the channel's other things; answers false for a name of none. */
static bool channel_word(struct emu_channel *c, const char *word)
{
    const char *value;
    if ((value = named_word(word, "psw")) != NULL) {
        uint8_t flags = flags_of(value);
        c->psw = word[3] == '+' ? c->psw | flags : word[3] == '-' ? (uint8_t)(c->psw & ~flags) : flags;
    } else if ((value = named_word(word, "mode")) != NULL) {
        c->mode = *value == 'i' ? EMU_IDLE : *value == 'r' ? EMU_RUNNING : EMU_SUSPENDED;
    } else if ((value = named_word(word, "armed")) != NULL) c->armed = *value == '1';
    else if ((value = named_word(word, "cc-alone")) != NULL) c->cc = (uint16_t)next_number(&value);
    else if ((value = named_word(word, "cc-bit")) != NULL) c->cc ^= (uint16_t)(1u << next_number(&value));
    else if ((value = named_word(word, "cc")) != NULL) emu_set_cc(c, (uint16_t)next_number(&value));
    else if ((value = named_word(word, "pp")) != NULL) c->pp = next_number(&value);
    else return false;
    return true;
}

/* Writes or looks at a register; answers false for a name of none. */
static bool register_word(struct emu_channel *c, const char *word)
{
    struct emu_pointer *pointers[4] = {&c->ga, &c->gb, &c->gc, &c->tp};
    uint16_t *numbers[4] = {&c->bc, &c->ix, &c->mc, &c->held};
    static const char *const names[2][4] = {{"ga", "gb", "gc", "tp"}, {"bc", "ix", "mc", "held"}};
    for (unsigned i = 0; i < 4; i++) {
        const char *value = named_word(word, names[0][i]);
        if (value != NULL) return pointer_word(pointers[i], value[-1], value), true;
        value = named_word(word, names[1][i]);
        if (value != NULL) return number_word(numbers[i], value[-1], value), true;
    }
    return channel_word(c, word);
}

/* Makes the rig, or what is wanted of it, what a word says; answers false for a word of another kind. */
static bool rig_word(const char *word)
{
    const char *at;
    if (strcmp(word, "reset") == 0) reset();
    else if (strcmp(word, "fresh") == 0) emu_fresh(0x40, &now.s);
    else if (strcmp(word, "ready") == 0) both_ready();
    else if (strcmp(word, "twins") == 0) N2 = N;
    else if ((at = named_word(word, "board")) != NULL) {
        const char bytes[2][3] = {{at[0], at[1], '\0'}, {at[3], at[4], '\0'}};
        board(bytes[0], bytes[1]);
    }
    else if ((at = named_word(word, "block")) != NULL) {
        unsigned channel = next_number(&at);
        block(channel, next_number(&at));
    } else if ((at = named_word(word, "slot")) != NULL) {
        uint32_t place = next_number(&at);
        slot(place, next_number(&at));
    } else if ((at = named_word(word, "transfer")) != NULL) {
        unsigned widths = (strchr("S", *at) != NULL ? EMU_PSW_S : 0u) | (at[*at == 'S'] == 'D' ? EMU_PSW_D : 0u);
        at = strchr(at, ',') + 1;
        unsigned cc = next_number(&at);
        transfer(widths, cc, next_number(&at));
    } else return false;
    return true;
}

/* Says what is wanted; answers false for a word of another kind. */
static bool want_word(const char *word)
{
    const char *at;
    if (strcmp(word, "want") == 0) want_same();
    else if ((at = named_word(word, "code")) != NULL) code(at);
    else if ((at = named_word(word, "moved")) != NULL) {
        unsigned bytes = next_number(&at);
        want_moved(bytes, *at == '\0' ? -1 : (int)next_number(&at));
    } else if ((at = named_word(word, "cut")) != NULL) want_cut((int)next_number(&at));
    else if ((at = named_word(word, "half")) != NULL) want_half(next_number(&at));
    else if ((at = named_word(word, "swept")) != NULL) {
        uint32_t bytes = next_number(&at);
        want_swept(bytes, next_number(&at));
    }
    else if ((at = named_word(word, "pair")) != NULL) want_pair(*at == '\0' ? -1 : (int)next_number(&at));
    else return false;
    return true;
}

/* Makes a row's sweep and checks it; answers false for a word of another kind. */
static bool sweep_word(const char *word)
{
    const char *at;
    if ((at = named_word(word, "sweep")) != NULL) {
        uint32_t steps = next_number(&at), bytes = next_number(&at), channel = *at == '\0' ? 1 : next_number(&at);
        swept(channel, next_number(&at), steps, bytes, 0);
    } else if ((at = named_word(word, "unswept")) != NULL) {
        unsigned number = (unsigned)strtoul(at, NULL, 10);
        at += strcspn(at, ",");
        at += *at == ',';
        uint32_t channel = *at == '\0' ? 1 : next_number(&at);
        unswept(number, channel, next_number(&at), 0);
    } else return false;
    return true;
}

/* Makes a row's call and checks it; answers false for a word of another kind. */
static bool call_word(const char *word)
{
    const char *at;
    if (strchr("ITX", *word) != NULL && (word[1] == '\0' || word[1] == ',')) {
        at = word[1] == ',' ? word + 2 : "1,0";
        unsigned channel = next_number(&at);
        done(*word, channel, next_number(&at), 0);
    } else if ((at = named_word(word, "refused")) != NULL) {
        unsigned number = (unsigned)strtoul(at, NULL, 10);
        at += strcspn(at, ",");
        refused(number, *at == ',' ? (at++, next_number(&at)) : 0, 0);
    } else if ((at = named_word(word, "step")) != NULL)
        check(emu_step(&now.s, &now.m, next_number(&at)).number == 0, "step done", 0);
    else if ((at = named_word(word, "attend")) != NULL) {
        uint32_t channel = next_number(&at);
        attend(channel, (unsigned)strtoul(at, NULL, 10), 0);
    } else if ((at = named_word(word, "attended")) != NULL)
        check(emu_attention(&now.s, &now.m, next_number(&at)).number == 0, "attention accepted", 0);
    else if ((at = named_word(word, "goes")) != NULL) {
        uint32_t lines = next_number(&at);
        check(goes(lines) == next_number(&at), "the channel that goes", 0);
    } else if ((at = named_word(word, "counts")) != NULL) transfer_counts(next_number(&at), 0);
    else if ((at = named_word(word, "power")) != NULL) powers((unsigned)strtoul(at, NULL, 10), 0);
    else return sweep_word(word);
    return true;
}

/* Writes what a word says of state, memory or registers. */
static bool value_word(struct rig *rig, const char *word)
{
    const char *at;
    if (*word == '@' || *word == '#') {
        uint32_t place = (uint32_t)strtoul(word + 1, NULL, 16);
        put(*word == '@' ? rig->sys : rig->io, *word == '@' ? MIB : EMU_IO_LIMIT, place, strchr(word, '=') + 1);
    } else if ((at = named_word(word, "sys_len")) != NULL) rig->m.sys_len = next_number(&at);
    else if ((at = named_word(word, "io_len")) != NULL) rig->m.io_len = next_number(&at);
    else if ((at = named_word(word, "cp")) != NULL) rig->s.cp = next_number(&at);
    else if ((at = named_word(word, "last")) != NULL) rig->s.last = (uint8_t)next_number(&at);
    else if ((at = named_word(word, "powered")) != NULL) rig->s.powered = *at == '1';
    else if ((at = named_word(word, "system_wide")) != NULL) rig->s.system_wide = *at == '1';
    else if ((at = named_word(word, "io_wide")) != NULL) rig->s.io_wide = *at == '1';
    else if ((at = named_word(word, "soc_1")) != NULL) rig->s.soc_1 = *at == '1';
    else if ((at = named_word(word, "fresh")) != NULL) emu_fresh(next_number(&at), &rig->s);
    else {
        unsigned second = strncmp(word, "2.", 2) == 0;
        return register_word(&rig->s.channel[second], word + 2 * second);
    }
    return true;
}

/* Plays a row. */
static void play_row(const char *text)
{
    static char words[512];
    struct rig *rig = &now;
    row = text;
    snprintf(words, sizeof words, "%s", text);
    for (char *word = strtok(words, " "); word != NULL; word = strtok(NULL, " ")) {
        if (rig_word(word) || call_word(word)) rig = &now;
        else if (want_word(word)) rig = &want;
        else if (!value_word(rig, word)) check(false, word, 0);
    }
    row = NULL;
}

/* Plays rows, of which NULL is behind the last. */
static void play(const char *const *rows)
{
    for (; *rows != NULL; rows++) play_row(*rows);
}

#define PLAY(...) play((const char *const[]){__VA_ARGS__, NULL})

/* ---- The decoder ---- */

/* The paper's prose, opcode by opcode, as a second reading beside the table. */
static const char *by_the_paper(unsigned first, unsigned second)
{
    unsigned rrr = first >> 5, dd = first >> 3 & 3, aa = first >> 1 & 3, wide = first & 1, mm = second & 3;
    bool pointer = rrr < 3 || rrr == 4, jumps = dd == 1 || dd == 2, agrees = dd == wide + 1;
    const char *cc = rrr == 6 ? "4" : NULL;
#define IF(condition, name) return (condition) ? (name) : "3"
#define IF_NOT_CC(condition, name) return !(condition) ? "3" : cc ? cc : (name)
    switch (second >> 2) {
    case 0x00:
        if (mm != 0 || (first & 0x1F) != 0 || rrr == 1) return "3";
        return rrr == 0 ? "NOP" : rrr == 2 ? "SINTR" : rrr == 3 ? "XFER" : "WID";
    case 0x02: IF(pointer && dd == 2 && aa == 0 && wide && mm == 0, "LPDI P,I");
    case 0x08:
        if (rrr == 4) IF(agrees && aa == 0 && mm == 0, "JMP");
        IF_NOT_CC(agrees && aa == 0 && mm == 0, "ADDI R,I");
    case 0x09: IF_NOT_CC(agrees && aa == 0 && mm == 0, "ORI R,I");
    case 0x0A: IF_NOT_CC(agrees && aa == 0 && mm == 0, "ANDI R,I");
    case 0x0B: IF_NOT_CC((first & 0x1F) == 0 && mm == 0, "NOT R");
    case 0x0C: IF(agrees && aa == 0 && mm == 0, "MOVI R");
    case 0x0E: IF_NOT_CC((first & 0x1F) == 0 && mm == 0, "INC R");
    case 0x0F: IF_NOT_CC((first & 0x1F) == 0 && mm == 0, "DEC R");
    case 0x10: IF_NOT_CC(jumps && aa == 0 && !wide && mm == 0, "JNZ R");
    case 0x11: IF_NOT_CC(jumps && aa == 0 && !wide && mm == 0, "JZ R");
    case 0x12: IF(first == 0x20 && mm == 0, "HLT");
    case 0x13: IF(rrr == 0 && agrees, "MOVI M");
    case 0x20: IF(dd == 0, "MOV R,M");
    case 0x21: IF(dd == 0, "MOV M,R");
    case 0x22: IF(pointer && dd == 0 && wide, "LPD P,M");
    case 0x23: IF(pointer && dd == 0 && wide, "MOVP P,M");
    case 0x24: IF(rrr == 0 && dd == 0, "MOV M,M");
    case 0x25: IF(rrr == 0 && dd == 3 && !wide, "TSL");
    case 0x26: IF(pointer && dd == 0 && wide, "MOVP M,P");
    case 0x27: IF(rrr == 4 && jumps, "CALL");
    case 0x28: IF_NOT_CC(dd == 0, "ADD R,M");
    case 0x29: IF_NOT_CC(dd == 0, "OR R,M");
    case 0x2A: IF_NOT_CC(dd == 0, "AND R,M");
    case 0x2B: IF_NOT_CC(dd == 0, "NOT R,M");
    case 0x2C: IF(rrr == 0 && jumps && !wide, "JMCE");
    case 0x2D: IF(rrr == 0 && jumps && !wide, "JMCNE");
    case 0x2E: IF(jumps && !wide, "JNBT");
    case 0x2F: IF(jumps && !wide, "JBT");
    case 0x30: IF(rrr == 0 && agrees, "ADDI M,I");
    case 0x31: IF(rrr == 0 && agrees, "ORI M,I");
    case 0x32: IF(rrr == 0 && agrees, "ANDI M,I");
    case 0x34: IF_NOT_CC(dd == 0, "ADD M,R");
    case 0x35: IF_NOT_CC(dd == 0, "OR M,R");
    case 0x36: IF_NOT_CC(dd == 0, "AND M,R");
    case 0x37: IF(rrr == 0 && dd == 0, "NOT M");
    case 0x38: IF(rrr == 0 && jumps, "JNZ M");
    case 0x39: IF(rrr == 0 && jumps, "JZ M");
    case 0x3A: IF(rrr == 0 && dd == 0, "INC M");
    case 0x3B: IF(rrr == 0 && dd == 0, "DEC M");
    case 0x3D: IF(dd == 0 && !wide, "SETB");
    case 0x3E: IF(dd == 0 && !wide, "CLR");
    default: return "3";
    }
#undef IF
#undef IF_NOT_CC
}

/* Whether a first pair has this name. */
static bool named(unsigned first, unsigned second, const char *name)
{
    return strcmp(emu_format_name((uint8_t)first, (uint8_t)second), name) == 0;
}

/* First pairs with the names that they have, of which NULL is behind the last. */
static void names(const char *const *rows)
{
    for (; *rows != NULL; rows++) {
        char *name;
        unsigned pair = (unsigned)strtoul(*rows, &name, 16);
        row = *rows;
        check(named(pair >> 8, pair & 0xFF, name + 1), "the pair's name", 0);
    }
    row = NULL;
}

#define NAMES(...) names((const char *const[]){__VA_ARGS__, NULL})

/* All 65,536 first pairs. */
static void test_decoder_counts(void)
{
    unsigned threes = 0, fours = 0, instructions = 0, unlike_paper = 0, doubled = 0, doubled_jmp = 0;
    unsigned per_row[EMU_ROWS + 1] = {0};
    for (unsigned pair = 0; pair < 65536; pair++) {
        uint8_t first = (uint8_t)(pair >> 8), second = (uint8_t)pair;
        const char *name = emu_format_name(first, second);
        if (strcmp(name, "3") == 0) threes++;
        else if (strcmp(name, "4") == 0) fours++;
        else instructions++;
        if (strcmp(name, by_the_paper(first, second)) != 0) unlike_paper++;
        per_row[emu_row_of(first, second)]++;
        if (emu_rows_fitting(first, second) == 2 && strcmp(name, "JMP") == 0) doubled_jmp++;
        else if (emu_rows_fitting(first, second) > 1) doubled++;
    }
    printf("first pairs: %u instructions, %u answers 3, %u answers 4\n", instructions, threes, fours);
    CHECK(instructions == 3687);
    CHECK(threes == 61612);
    CHECK(fours == 237);
    CHECK(unlike_paper == 0);
    CHECK(doubled == 0);
    CHECK(doubled_jmp == 2);
    CHECK(per_row[EMU_NO_ROW] == 61612);
    for (unsigned row = 0; row < EMU_ROWS; row++) CHECK(per_row[row] > 0);
}

/* The step's own answers over all first pairs agree with the names; no pair is refused otherwise on full memory. */
static void test_decoder_by_steps(void)
{
    unsigned unlike = 0;
    reset();
    for (unsigned pair = 0; pair < 65536; pair++) {
        struct emu_state s = now.s;
        now.sys[0x100] = (uint8_t)(pair >> 8);
        now.sys[0x101] = (uint8_t)pair;
        put(now.sys, MIB, 0x102, "00 00 00 00 00 00");
        unsigned second_pair = (pair >> 9 & 3) == 1 ? 0x103 : 0x102;
        now.sys[second_pair] = (uint8_t)(pair >> 8 & 1);
        now.sys[second_pair + 1] = 0xCC;
        const char *name = emu_format_name(now.sys[0x100], now.sys[0x101]);
        unsigned number = emu_step(&s, &now.m, 0).number;
        unsigned expected = strcmp(name, "3") == 0 ? 3 : strcmp(name, "4") == 0 ? 4 : 0;
        if (number != expected) unlike++;
    }
    CHECK(unlike == 0);
}

/* Pairs that the maker's listings print. */
static void test_decoder_listings(void)
{
    NAMES("0A4F MOVI M", "B130 MOVI R", "5130 MOVI R", "EABA JNBT", "0A4E MOVI M", "0293 MOV M,M", "D130 MOVI R",
          "A000 WID", "238B LPD P,M", "6000 XFER", "6ABE JBT", "A03C DEC R", "A840 JNZ R", "4000 SINTR",
          "2048 HLT");
}

/* The readings on instruction codes, name by name. */
static void test_decoder_readings(void)
{
    NAMES(
          /* CALL with AA 11 is an instruction, its W is free */
          "8E9C CALL", "8F9C CALL", "979F CALL",
          "809C 3", "989C 3", "089C 3", "C89C 3",
          /* ORI to a register has AA 00 */
          "0824 ORI R,I", "1124 ORI R,I",
          "0A24 3", "0C24 3", "0E24 3", "1324 3",
          /* JMP's dd agrees with W */
          "8820 JMP", "9120 JMP",
          "9020 3", "8920 3", "9820 3", "8020 3",
          /* fixed digits count where there is no operand */
          "0000 NOP", "0001 3", "0100 3", "0800 3",
          "2000 3", "0200 3", "4100 3", "6002 3",
          "8000 WID", "C000 WID", "E000 WID", "E003 3",
          "2049 3", "2148 3", "4048 3", "0048 3",
          "1108 LPDI P,I", "1109 3", "1008 3", "0908 3",
          "1130 MOVI R", "1131 3", "0822 3", "082B 3",
          /* W is 0 in register forms without it, bit instructions, JMCE, JMCNE, TSL */
          "012C 3", "0138 3", "013C 3", "002C NOT R",
          "0940 3", "0944 3", "0840 JNZ R", "1044 JZ R",
          "01F4 3", "01F8 3", "00F4 SETB", "E0F8 CLR",
          "09BC 3", "09B8 3", "09B0 3", "09B4 3",
          "1994 3", "1894 TSL", "0894 3", "3894 3",
          /* W is 1 in LPD, LPDI and MOVP */
          "0088 3", "008C 3", "0098 3",
          "0188 LPD P,M", "018C MOVP P,M", "0198 MOVP M,P");
    /* PPP 3, 5, 6, 7 is 3, also 6 */
    for (unsigned ppp = 0; ppp < 8; ppp++) {
        bool pointer = ppp == 0 || ppp == 1 || ppp == 2 || ppp == 4;
        CHECK(named(ppp << 5 | 0x01, 0x88, pointer ? "LPD P,M" : "3"));
        CHECK(named(ppp << 5 | 0x11, 0x08, pointer ? "LPDI P,I" : "3"));
        CHECK(named(ppp << 5 | 0x01, 0x8C, pointer ? "MOVP P,M" : "3"));
        CHECK(named(ppp << 5 | 0x01, 0x98, pointer ? "MOVP M,P" : "3"));
    }
    NAMES(
          /* opcode 33h as a first pair */
          "00CC 3", "01CF 3",
          /* uses of CC */
          "C0A0 4", "C1A4 4", "C0A8 4", "C0AC 4",
          "C0D0 4", "C6D4 4", "C0DB 4",
          "C820 4", "D124 4", "C828 4",
          "C02C 4", "C038 4", "C03C 4",
          "C840 4", "D044 4",
          /* no uses of CC */
          "C080 MOV R,M", "C184 MOV M,R", "C830 MOVI R",
          "C0F4 SETB", "C0F8 CLR", "C8BC JBT", "C8B8 JNBT",
          /* 3 comes before 4 */
          "C83C 3", "C12C 3", "C020 3", "D020 3",
          /* dd where it stands; the fixed 00 of memory forms */
          "00E4 3", "18E4 3", "10E4 JZ M", "09E0 JNZ M",
          "0880 3", "08E8 3", "10D0 3", "20EC 3",
          "2090 3", "0890 3", "20DC 3", "284C 3",
          "084C MOVI M", "104C 3", "09C0 3", "11C4 ORI M,I");
}

/* ---- The paper's twelve cases ---- */

/* Counts the steps of a transfer of n bytes with both sides moving and the count alone ending it. */
static unsigned long transfer_steps(unsigned widths, uint32_t from, uint32_t to, unsigned n)
{
    unsigned long steps = 0, bytes = n == 0 ? 65536 : n, wrong = 0;
    reset();
    for (unsigned long i = 0; i < bytes; i++) now.sys[from + i] = (uint8_t)(i * 7 + i / 256 + 1);
    want_same();
    N.psw = (uint8_t)(EMU_PSW_TB | EMU_PSW_XF | widths);
    emu_set_cc(&N, 0xC008);
    N.bc = (uint16_t)n;
    N.ga.address = from;
    N.gb.address = to;
    while ((N.psw & EMU_PSW_XF) != 0 && steps < 70000) {
        struct emu_stepped stepped = emu_step(&now.s, &now.m, 0);
        CHECK(stepped.number == 0 && stepped.kind == 'T');
        steps++;
    }
    memcpy(want.sys + to, want.sys + from, bytes);
    wrong = (unsigned long)(memcmp(now.sys, want.sys, MIB) != 0);
    CHECK(wrong == 0);
    CHECK(N.ga.address == from + bytes && N.gb.address == to + bytes && N.bc == 0 && N.tp.address == 0x100);
    return steps;
}

/* Cases 1 to 12 of the paper's table. */
static void test_twelve_cases(void)
{
    PLAY(
         /* 1 */
         "reset code=08.30.80 ga=FFF80/1 I",
         /* 2 */
         "reset code=71.30.34.12 bc=1234 I",
         /* 3 */
         "reset code=88.20.FE tp=101 I",
         /* 4 */
         "reset ga=0 code=08.20.FF ga=FFFFF I",
         /* 5 */
         "reset gb=12345/1 code=21.98 @1000=45.23.18 I",
         "reset gb=12345/0 code=21.98 @1000=45.23.10 I",
         /* 6 */
         "reset code=11.08.10.00.FF.FF ga=0 I",
         /* 7 */
         "reset mc=F041 @1000=4F code=08.B0.10 tp+10 I",
         "reset mc=F041 @1000=5F code=08.B0.10 I");
    /* 8 */
    CHECK(transfer_steps(0, 0x1000, 0x2000, 5) == 5);
    CHECK(transfer_steps(3, 0x1000, 0x2000, 5) == 3);
    /* 9 */
    CHECK(transfer_steps(3, 0x1001, 0x2001, 1) == 1);
    CHECK(transfer_steps(3, 0x1001, 0x2001, 4) == 3);
    /* 10 */
    CHECK(transfer_steps(3, 0x10000, 0x40000, 0) == 32768);
    CHECK(transfer_steps(3, 0x10001, 0x40001, 0) == 32769);
    /* 11 */
    CHECK(transfer_steps(2, 0x1001, 0x2000, 2) == 2);
    /* 12 */
    reset();
    N2 = N;
    N2.tp.address = 0x200;
    sys(0x100, "00 00 00 00 00 00");
    sys(0x200, "00 00 00 00 00 00");
    for (unsigned i = 0; i < 4; i++) CHECK(emu_step(&now.s, &now.m, 0).channel == 1 + i % 2);
}

/* ---- Fresh and the early refusals ---- */

/* A fresh state, good and bad. */
static void test_fresh(void)
{
    struct emu_state a, b;
    memset(&a, 0xEE, sizeof a);
    CHECK(emu_fresh(0xFFFFF, &a) == 0);
    CHECK(a.cp == 0xFFFFF && a.last == 2 && a.powered && !a.system_wide && !a.io_wide && !a.soc_1);
    for (unsigned i = 0; i < 2; i++) {
        const struct emu_channel *c = &a.channel[i];
        CHECK(c->mode == EMU_IDLE && !c->armed && c->psw == 0 && c->pp == 0);
        CHECK(c->bc == 0 && c->ix == 0 && c->cc == 0 && c->mc == 0 && emu_fields_value(&c->fields) == 0);
        CHECK(c->ga.address == 0 && !c->ga.tag && c->gb.address == 0 && !c->gb.tag);
        CHECK(c->gc.address == 0 && !c->gc.tag && c->tp.address == 0 && !c->tp.tag);
    }
    CHECK(emu_fresh(0, &b) == 0);
    memset(&a, 0xEE, sizeof a);
    CHECK(emu_fresh(0x100000, &a) == 10);
    CHECK(emu_same_state(&a, &b));
    memset(&a, 0xEE, sizeof a);
    CHECK(emu_fresh(0xFFFFFFFF, &a) == 10);
    CHECK(emu_same_state(&a, &b));
}

/* ---- Reset and power-up ---- */

/* After reset every attention and step is 13, behind 12, 11 and 10. */
static void test_reset(void)
{
    struct emu_state fresh;
    reset();
    emu_fresh(0, &fresh);
    emu_reset(&now.s);
    fresh.powered = false;
    CHECK(emu_same_state(&now.s, &fresh));
    PLAY(
         "want attend=1,13",
         "attend=3,12",
         "refused=13",
         "refused=12,10",
         "io_len=10001 attend=1,11",
         "refused=11",
         "io_len=10000 cp=100000 want attend=1,10",
         "refused=10");
}

/* What a power-up finds, from any state, and what it stores. */
static void test_power_up(void)
{
    static const char *const bytes[] = {"FE", "01", "FD", "03"};
    for (unsigned i = 0; i < 16; i++) {
        board(bytes[i & 3], bytes[i >> 2]);
        if (i % 3 == 0) emu_reset(&now.s);
        if (i % 3 == 1) now.s.cp = 0x100000, N.ga.address = 0xFFFFFFFF;
        emu_fresh(0x500, &want.s);
        want.s.system_wide = (i & 3) != 0;
        want.s.io_wide = i >> 2 != 0;
        want.s.soc_1 = i >> 2 == 0 || i >> 2 == 3;
        want_sys(0x501, "00");
        powers(0, __LINE__);
    }
}

/* 11, then 2 for each of the eleven bytes, and nothing changed. */
static void test_power_up_refusals(void)
{
    PLAY(
         "board=01,01 io_len=10001 power=11",
         "board=01,01 sys_len=FFFFB power=2",
         "sys_len=FFFFC want fresh=500 system_wide=1 io_wide=1 @501=00 power=0",
         /* SOC, the last byte of CP's pointer, and BUSY just beyond */
         "board=01,01 @FFFF8=FC.FF.00.F0 sys_len=FFFFC want power=2",
         "@FFFF8=F7.FF.00.F0 want power=2",
         "board=01,01 @FFFD2=FB.FF.00.F0 sys_len=FFFFC want power=2");
}

/* Addresses wrap, and every byte is read before BUSY is stored. */
static void test_power_up_wraps(void)
{
    PLAY(
         "board=01,02 @FFFF8=FE.FF.00.F0 @FFFFE=02 @0=F7.FF.00.F0 want fresh=FFFF7 system_wide=1 soc_1=1 @FFFF8=00 "
         "power=0");
}

/* The run with power-up in the place of a CP. */
static void test_board(void)
{
    board("00", "00");
    sys(0x500, "03 EE 10 00 50 00");
    sys(0x510, "20 05 00 00");
    sys(0x520, "20 48");
    CHECK(emu_board(&now.m, 1, 0, 1000) == 1 * 65536 + 1 && now.sys[0x501] == 0x00);
    sys(0x500, "02 EE");
    CHECK(emu_board(&now.m, 1, 0, 1000) == 6 * 65536 && now.sys[0x501] == 0x00);
    sys(0x500, "03 EE");
    now.m.sys_len = 0xFFFFB;
    CHECK(emu_board(&now.m, 1, 0, 1000) == 2 * 65536 && now.sys[0x501] == 0xEE);
    now.m.sys_len = MIB + 1;
    CHECK(emu_board(&now.m, 1, 0, 1000) == 11 * 65536);
    CHECK(emu_board(&now.m, 3, 0, 1000) == 12 * 65536);
}

/* 12 before 11 before 10 before all else. */
static void test_early_order(void)
{
    PLAY(
         "reset @40=00 cp=100000 io_len=10001 refused=12,10",
         "refused=12,FFFFFFFF",
         "attend=0,12",
         "attend=3,12",
         "attend=FFFFFFFF,12",
         "refused=11,F",
         "attend=1,11",
         "attend=2,11",
         "io_len=10000 refused=10",
         "attend=1,10",
         "sys_len=100001 refused=11",
         "attend=1,11");
    now.m.sys_len = 0;
    now.m.sys = NULL;
    REFUSED(10);
    PLAY(
         "cp=40 refused=2",
         "attend=1,2",
         /* 10 before 1 */
         "fresh refused=1",
         "2.gc=100000 refused=10");
}

/* 10 looks at five registers of both channels, whatever their mode. */
static void test_refusal_10(void)
{
    for (unsigned channel = 0; channel < 2; channel++) {
        for (unsigned which = 0; which < 5; which++) {
            for (unsigned mode = 0; mode < 3; mode++) {
                reset();
                sys(0x100, "00 00");
                sys(0x40, "00");
                struct emu_channel *c = &now.s.channel[channel];
                uint32_t *named_registers[5] = {&c->ga.address, &c->gb.address, &c->gc.address, &c->tp.address, &c->pp};
                c->mode = (enum emu_mode)mode;
                *named_registers[which] = 0x100000;
                struct emu_state given = now.s;
                CHECK(emu_step(&now.s, &now.m, 0).number == 10);
                CHECK(emu_attention(&now.s, &now.m, 1).number == 10 && emu_attention(&now.s, &now.m, 2).number == 10);
                CHECK(emu_same_state(&now.s, &given));
                *named_registers[which] = 0xFFFFF;
                CHECK(emu_attention(&now.s, &now.m, 1).number == 0);
            }
        }
    }
    PLAY(
         "reset cp=100000 refused=10",
         "attend=1,10");
}

/* ---- Attention ---- */

/* Start, in both spaces and on both channels. */
static void test_start(void)
{
    PLAY(
         "reset fresh block=1,01 @500=CD.AB want pp=500 tp=ABCD/1 mode=running psw=TB @41=FF attend=1",
         /* channel 2's block is at CP + 8; the doubleword pointer wraps */
         "reset block=2,03 @500=10.00.FF.FF 2.tp=/1 2.armed=1 2.psw=XF,IS,IC,S want 2.pp=500 2.tp=0/0 "
         "2.mode=running 2.psw=IS,IC,TB,S 2.armed=0 @49=FF attend=2",
         /* PB's own address wraps: offset 10h, segment FFFFh */
         "reset mode=idle @40=01.00.10.00.FF.FF @0=34.12 want pp=0 tp=1234/1 mode=running @41=FF attend=1",
         /* TP's word is not sign-extended */
         "reset mode=suspended armed=1 block=1,01 @500=FF.FF want pp=500 tp=FFFF/1 mode=running armed=0 @41=FF "
         "attend=1",
         /* refused while running, even for the other start */
         "reset block=1,03 attend=1,8",
         "block=1,01 attend=1,8",
         /* the mode alone says that it runs: TB plays no part */
         "psw=- attend=1,8",
         "mode=idle psw=TB attended=1");
}

/* Start reads before BUSY is stored, also where PB is the block itself. */
static void test_start_overlap(void)
{
    PLAY(
         "reset mode=idle @40=03.12.40.00.00.00 want pp=40 tp=1603/0 mode=running @41=FF attend=1");
}

/* The control block wraps at the end of system space, byte by byte. */
static void test_block_wraps(void)
{
    reset();
    N.mode = EMU_IDLE;
    now.s.cp = 0xFFFFE;
    sys(0xFFFFE, "03 00 FF FF FF 0F");
    sys(0xFEF, "00");
    want_same();
    /* offset FFFFh, segment 0FFFh: 1FFEFh */
    sys(0x1FFEF, "78 56 34 12");
    want_same();
    W.pp = 0x1FFEF;
    W.tp = (struct emu_pointer){0x12340 + 0x5678, false};
    W.mode = EMU_RUNNING;
    want_sys(0xFFFFF, "FF");
    ATTEND(1);
    PLAY(
         /* channel 2's block at CP + 8 wraps as a whole */
         "reset cp=FFFFA 2.mode=running @2=07 want 2.mode=idle @3=00 attend=2",
         /* PB wraps: suspend at FFFFEh */
         "reset block=1,06 pp=FFFFE tp=9ABCD/1 want @FFFFE=CD.AB.98.04 @41=00 mode=suspended psw=- attend=1",
         "block=1,05 want @41=FF mode=running psw=TB attend=1");
}

/* Suspend and resume. */
static void test_suspend_resume(void)
{
    PLAY(
         /* the PSW is stored as it was, with TB and XF, before bits 5 and 7 and ICF */
         "reset block=1,BE psw=XF,IS,IC,TB,D tp=12345/1 armed=1 want @400=45.23.18.5D @41=00 mode=suspended "
         "psw=P,LL,D attend=1",
         /* resume: all eight bits, then TB, then bits 5 and 7, then ICF; XF comes back, the mark stays */
         "block=1,8D want @41=FF mode=running psw=XF,IC,TB,D psw+P attend=1",
         /* resume sets TB and ignores the zeros below the tag */
         "reset mode=suspended psw=P,XF,LL,IS,IC,TB,S,D block=1,05 @400=45.23.17.00 want @41=FF mode=running psw=TB "
         "tp=12345/0 attend=1",
         /* a resume with priority in the stored byte follows the CCW */
         "reset mode=suspended block=1,25 @400=00.00.0F.80 want @41=FF mode=running psw=LL,TB tp=0/1 attend=1");
    /* BUSY within PB's four bytes ends as 0 */
    for (unsigned i = 0; i < 4; i++) {
        static const char *const after[4] = {"00 23 18 04", "45 00 18 04", "45 23 00 04", "45 23 18 00"};
        reset();
        block(1, 0x06);
        N.pp = 0x41 - i;
        N.tp = (struct emu_pointer){0x12345, true};
        want_same();
        want_sys(N.pp, after[i]);
        W.mode = EMU_SUSPENDED;
        W.psw = 0;
        ATTEND(1);
    }
    PLAY(
         /* resume reads before BUSY is stored */
         "reset mode=suspended block=1,05 pp=41 @41=45.23.18.03 want @41=FF mode=running psw=TB,S,D tp=12345/1 "
         "attend=1",
         /* PB is taken at PP, not at the block's pointer, and the channel is the one asked */
         "reset twins 2.pp=600 2.tp=54321 block=2,06 want @600=21.43.50.04 @49=00 2.mode=suspended 2.psw=- attend=2");
}

/* Commands in modes that do not take them. */
static void test_command_refusals(void)
{
    for (unsigned command = 0; command < 8; command++) {
        for (unsigned mode = 0; mode < 3; mode++) {
            reset();
            block(1, command);
            N.mode = (enum emu_mode)mode;
            unsigned expected = command == 2 || command == 4               ? 6
                                : command == 5 && mode != EMU_SUSPENDED    ? 7
                                : (command & 5) == 1 && mode == EMU_RUNNING ? 8
                                : command == 6 && mode != EMU_RUNNING      ? 9
                                                                           : 0;
            if (command == 5) expected = mode != EMU_SUSPENDED ? 7 : 0;
            if (expected != 0) ATTEND_REFUSED(1, expected);
            else CHECK(emu_attention(&now.s, &now.m, 1).number == 0);
        }
    }
    PLAY(
         /* 6 comes before other bytes, and a CCW beyond memory before 6 */
         "reset block=1,02 sys_len=41 attend=1,6",
         "sys_len=40 attend=1,2",
         /* 7, 8 and 9 come before other bytes */
         "sys_len=41 block=1,05 attend=1,7",
         "block=1,03 attend=1,8",
         "mode=idle block=1,06 attend=1,9",
         /* CCW bit 6 says nothing */
         "reset block=1,40 want attend=1");
}

/* Which bytes an attention needs, to the byte. */
static void test_attention_bytes(void)
{
    PLAY(
         /* 000 needs the CCW alone, and neither reads nor stores BUSY */
         "reset block=1,00 sys_len=41 want attend=1",
         /* halt needs BUSY */
         "block=1,07 attend=1,2",
         "sys_len=42 want mode=idle psw=- @41=00 attend=1",
         /* start 001: the block's four pointer bytes, PB's first two, BUSY */
         "reset mode=idle @40=01.00.10.00.00.00 sys_len=45 attend=1,2",
         "sys_len=46 attended=1",
         "reset mode=idle block=1,01 sys_len=501 attend=1,2",
         "sys_len=502 attended=1",
         /* start 011: PB's first four */
         "reset mode=idle block=1,03 sys_len=502 attend=1,2",
         "sys_len=503 attend=1,2",
         "sys_len=504 attended=1");
    /* suspend and resume: PB's four at PP and BUSY */
    for (unsigned i = 0; i < 2; i++) {
        reset();
        N.mode = i == 0 ? EMU_RUNNING : EMU_SUSPENDED;
        block(1, i == 0 ? 0x06 : 0x05);
        now.m.sys_len = 0x403;
        ATTEND_REFUSED(1, 2);
        now.m.sys_len = 0x404;
        CHECK(emu_attention(&now.s, &now.m, 1).number == 0);
        reset();
        N.mode = i == 0 ? EMU_RUNNING : EMU_SUSPENDED;
        N.pp = 0;
        block(1, i == 0 ? 0x06 : 0x05);
        now.m.sys_len = 0x41;
        ATTEND_REFUSED(1, 2);
        now.m.sys_len = 0x42;
        CHECK(emu_attention(&now.s, &now.m, 1).number == 0);
    }
    PLAY(
         /* BUSY that wraps past a short memory's end */
         "reset cp=FFFFF @FFFFF=07 want mode=idle psw=- @0=00 attend=1");
}

/* ICF, load limit and priority on a command that does nothing more, and on halt. */
static void test_icf(void)
{
    for (unsigned upper = 0; upper < 32; upper++) {
        for (unsigned bits = 0; bits < 16; bits++) {
            unsigned psw = (bits & 1 ? 0x08u : 0) | (bits & 2 ? 0x10u : 0) | (bits & 4 ? 0x20u : 0) | (bits & 8 ? 0x80u : 0);
            unsigned icf = upper & 3, expected = (psw & 0x18) | (upper << 3 & 0xA0) | 0x47;
            if (icf == 1 || icf == 3) expected &= ~0x10u;
            if (icf == 2) expected |= 0x08;
            if (icf == 3) expected &= ~0x08u;
            reset();
            block(1, upper << 3);
            N.psw = (uint8_t)(psw | 0x47);
            CHECK(emu_attention(&now.s, &now.m, 1).number == 0 && N.psw == expected && N.mode == EMU_RUNNING);
            block(1, upper << 3 | 7);
            CHECK(emu_attention(&now.s, &now.m, 1).number == 0 && N.psw == (expected & ~0x44u) && N.mode == EMU_IDLE);
        }
    }
    /* halt from any mode takes the mark; a command leaves "last" and the other channel alone */
    for (unsigned mode = 0; mode < 3; mode++) {
        reset();
        block(1, 0x07);
        N.mode = (enum emu_mode)mode;
        N.armed = true;
        now.s.last = 1;
        want_same();
        W.mode = EMU_IDLE;
        W.armed = false;
        W.psw = 0;
        want_sys(0x41, "00");
        ATTEND(1);
    }
}

/* ---- Instructions: order of tests ---- */

/* First bytes, 3, 4, later bytes, the second pair, operands, BUSY. */
static void test_order_of_tests(void)
{
    PLAY(
         /* the first two bytes */
         "reset @100=04.04 sys_len=100 refused=2",
         "sys_len=101 refused=2",
         "sys_len=102 refused=3",
         /* 4 before later bytes */
         "@100=C8.20 refused=4",
         /* 3 before 4 */
         "@100=C0.20 refused=3",
         /* data bytes */
         "@100=71.30.34.12 refused=2",
         "sys_len=103 refused=2",
         "sys_len=104 step",
         /* displacement bytes count where the jump is not taken */
         "reset bc=1 @100=70.44.00.00 sys_len=103 refused=2",
         "sys_len=104 step tp?104",
         /* TSL's displacement counts where the lock is free */
         "reset ga=0/1 #0=00 @100=18.94.FF.10 sys_len=103 refused=2");
    now.m.sys_len = 0x104;
    CHECK(emu_step(&now.s, &now.m, 0).number == 0 && now.io[0] == 0xFF);
    PLAY(
         /* offset byte */
         "reset ga=0 @100=62.80.01 sys_len=102 refused=2",
         "sys_len=103 step",
         /* LPDI's six bytes */
         "reset @100=11.08.00.00.00.00 sys_len=105 refused=2",
         "sys_len=106 step",
         /* operand bytes: the last one of each length */
         "reset @100=61.80 ga=1FF sys_len=200 refused=2",
         "@100=60.80 step",
         "reset @100=21.88 sys_len=1003 refused=2",
         "@100=21.8C step",
         "reset @100=21.98 sys_len=1002 refused=2",
         "@100=88.9C.00 refused=2",
         "sys_len=1003 step",
         "reset @100=88.9C.00 sys_len=1003 step",
         /* a read beyond memory refuses a jump that could not be judged */
         "reset @100=08.E4.10 sys_len=1000 refused=2",
         /* HLT's BUSY */
         "reset @100=20.48 cp=200 sys_len=201 refused=2",
         "sys_len=202 step",
         /* an instruction whose bytes all are beyond memory while the other channel could run: refused all the same */
         "reset twins psw+P tp=300 @100=00.00 sys_len=200 refused=2");
}

/* MOV M,M: its second pair. */
static void test_second_pair(void)
{
    PLAY(
         /* a second pair of which one byte is not lent is 2 even if the other is wrong */
         "reset @100=00.90.FF.00 sys_len=103 refused=2",
         "sys_len=104 refused=3",
         "@100=00.90.00.CC sys_len=102 refused=2",
         /* the first offset byte stands before the second pair */
         "reset @100=02.90.05.00.CD @1005=77 want tp=105 last=1 @2000=77 I",
         "reset @100=02.90.05.00.CD sys_len=104 refused=2",
         /* 3 from that pair before its offset byte and before operands */
         "reset @100=00.90.22.CC sys_len=104 refused=3",
         "@100=00.90.02.CC.01 refused=2",
         "sys_len=105 refused=2");
    /* the second pair's fixed digits and its W */
    static const char *const wrong[] = {"00 90 01 CC", "01 90 00 CC", "00 90 08 CC", "00 90 20 CC", "00 90 80 CC",
                                        "00 90 00 C8", "00 90 00 D0", "00 90 00 90", "00 90 10 CC", "00 90 40 CC"};
    for (unsigned i = 0; i < sizeof wrong / sizeof wrong[0]; i++) {
        reset();
        sys(0x100, wrong[i]);
        REFUSED(3);
    }
    PLAY(
         /* words, with source and destination in different spaces and both offsets */
         "reset gb=/1 @1004=34.12 code=03.90.04.03.CD.06 #2006=34.12 I",
         /* the maker's listing: source first */
         "reset @408=99 gc=FF00/1 code=02.93.08.02.CE.01 #FF01=99 I",
         /* the second address uses the grown IX and may grow it again */
         "reset ix=4 @1004=11.22 code=07.90.07.CD ix=8 @2006=11.22 I",
         "reset ix=4 @1004=33 code=06.90.04.CD ix=5 @2005=33 I",
         "reset ix=4 @1004=33 code=04.90.06.CD ix=5 @2004=33 I",
         /* overlap: the word is read whole before it is stored */
         "reset gb=1001 @1000=11.22.33 code=01.90.01.CD @1000=11.11.22 I",
         /* destination beyond memory */
         "reset @100=01.90.01.CD sys_len=2001 refused=2");
}

/* ---- Instructions: addresses ---- */

/* Wrapping in both spaces, byte by byte. */
static void test_wrapping(void)
{
    PLAY(
         /* a word at FFFFh of I/O space has its high byte at 0 */
         "reset ga=3FFFF/1 #FFFF=34 #0=12 code=61.80 bc=1234 I",
         "reset ga=3FFFF/1 bc=1234 code=61.84 #FFFF=34.12 I",
         /* a word at FFFFFh of system space */
         "reset ga=FFFFF/0 bc=BEEF code=61.84 @FFFFF=EF.BE I",
         /* instruction bytes wrap; TP counts in 20 bits whatever its tag */
         "reset tp=FFFFE code=71.30.34.12 tp?2 bc=1234 I",
         "reset tp=5FFFE/1 code=71.30.34.12 tp?60002 bc=1234 I",
         "reset tp=FFFFF/1 code=00.00 tp?1 I",
         /* stored pointers wrap */
         "reset ga=FFFE/1 gb=6789A/0 code=21.98 #FFFE=9A.78.60 I",
         "reset ga=FFFFD/0 @FFFFD=10.32.54.76 code=41.88 gc=79750/0 I",
         /* base + offset and base + IX count in 20 bits */
         "reset ga=FFFF8 @7=44 code=62.80.0F bc=44 I",
         "reset ga=FFFF8 ix=FFFF @FFF7=45 code=64.80 bc=45 I",
         /* a short I/O buffer: the 16-bit address counts */
         "reset ga=10000/1 @100=60.80 io_len=1 step bc?5A",
         /* PP is always system */
         "reset pp=12345 @12345=78.56 code=61.83 bc=5678 I",
         /* the offset byte is unsigned */
         "reset @10FF=01 code=62.80.FF bc=1 I");
}

/* ---- Empty card slots ---- */

/* Reads give FFh, byte for byte, at the 16-bit address. */
static void test_slots_read(void)
{
    PLAY(
         "slot=2000,1000 code=60.80 bc=FFFF I",
         "slot=2000,0 code=61.80 bc=FFFF I",
         /* a word over the edge: a lent low byte, FFh above it */
         "slot=FFF,1000 #FFF=21 code=61.80 bc=FF21 I",
         /* a word at FFFFh: FFh below, the byte at 0 above it */
         "slot=FFFF,1 #0=43 code=61.80 bc=43FF I",
         /* the high four bits of the pointer are dropped before the length counts */
         "slot=30800,1000 #800=34.12 code=61.80 bc=1234 I",
         /* pointers: LPD of four bytes FFh, MOVP with one lent byte */
         "slot=2000,1000 code=41.88 gc=FFEF/0 I",
         "slot=FFF,1000 #FFF=12 code=41.8C gc=FFF12/1 I",
         /* TSL finds FFh, which is not free, and jumps */
         "slot=2000,1000 code=18.94.77.10 tp+10 I",
         /* JZ on a byte, JMCE on FFh */
         "slot=2000,1000 code=08.E4.10 I",
         "slot=2000,1000 mc=FFFF code=08.B0.10 tp+10 I");
}

/* Stores vanish, byte for byte; what is read before them is FFh. */
static void test_slots_store(void)
{
    PLAY(
         "slot=2000,1000 bc=1234 code=61.84 I",
         "slot=FFF,1000 bc=1234 code=61.84 #FFF=34 I",
         "slot=FFFF,1 bc=1234 code=61.84 #0=12 I",
         "slot=FFE,1000 gb=6789A/0 code=21.98 #FFE=9A.78 I",
         /* CALL jumps though its way back is lost */
         "slot=2000,0 code=88.9C.10 tp+10 I",
         /* INC and SETB of a slot; MOV M,M from one and into one */
         "slot=2000,1000 code=01.E8 I",
         "slot=2000,1000 code=60.F4 I",
         "slot=2000,1000 code=01.90.01.CD @2000=FF.FF I",
         "slot=2000,1000 code=01.91.01.CC I");
}

/* Code: a first pair with a byte in an empty slot is 3, later bytes are FFh. */
static void test_slots_code(void)
{
    PLAY(
         "slot=0,1000 tp=2000/1 refused=3",
         "slot=0,1000 tp=FFF/1 #FFF=71 refused=3",
         "slot=0,1 tp=FFFF/1 #0=30 refused=3",
         "slot=0,0 tp=0/1 refused=3",
         /* MOVI BC with both bytes of data empty, then with one */
         "slot=0,1000 tp=FFE/1 #FFE=71.30 want bc=FFFF tp=1002 last=1 I",
         "slot=0,1000 tp=FFD/1 #FFD=71.30.34 want bc=FF34 tp=1001 last=1 I",
         /* a displacement of FFh, a second pair of FF FF, an offset byte of FFh */
         "slot=0,1000 tp=FFE/1 #FFE=88.20 want tp=1000 last=1 I",
         "slot=0,1000 tp=FFE/1 #FFE=00.90 refused=3",
         "slot=0,1000 tp=FFE/1 gb=2000/0 #FFE=62.81 @20FF=44 want bc=44 tp=1001 last=1 I");
}

/* ---- Instructions: moves and pointers ---- */

/* MOV, MOVI, LPD, LPDI, MOVP. */
static void test_moves(void)
{
    PLAY(
         /* a byte into each kind of register is sign-extended; pointers get tag 1 */
         "reset @1000=80 code=20.80 gb=FFF80/1 I",
         "reset @1000=7F code=20.80 gb=7F/1 I",
         "reset @1000=80 code=60.80 bc=FF80 I",
         "reset @1000=00.80 code=41.80 gc=F8000/1 I",
         "reset @1000=FF.7F code=C1.80 cc=7FFF I",
         "reset @1000=FF.7F code=E1.80 mc=7FFF I",
         /* MOVI, byte and word, also to CC */
         "reset code=D1.30.20.88 cc=8820 I",
         "reset code=C8.30.80 cc=FF80 I",
         "reset code=E8.30.7F mc=7F I",
         /* writing TP jumps and sets the tag */
         "reset code=91.30.34.92 tp=F9234/1 I",
         "reset @1000=34.12 code=81.80 tp=1234/1 I",
         /* TP as an operand is the address past the instruction */
         "reset code=83.84.02 @1002=03.01 I",
         /* MOV M,R stores the low bits only */
         "reset gb=ABCDE code=21.84 @1000=DE.BC I",
         "reset gb=ABCDE code=20.84 @1000=DE I",
         "reset cc=1234 code=C1.84 @1000=34.12 I",
         /* MOVI M */
         "reset code=08.4D.99 @2000=99 I",
         "reset code=13.4D.05.99.88 @2005=99.88 I",
         /* LPD and LPDI clear the tag */
         "reset gb=/1 @1000=05.00.34.12 code=21.88 gb=12345/0 I",
         "reset tp=/1 code=91.08.05.00.34.12 tp=12345/0 I",
         /* MOVP loads the tag and ignores the low three bits */
         "reset @1000=45.23.1F code=01.8C ga=12345/1 I",
         "reset gb=/1 @1000=45.23.F7 code=21.8C gb=F2345/0 I",
         /* MOVP TP returns */
         "reset @3000=03.02.98 code=81.8E tp=90203/1 I",
         /* MOVP M,TP saves the address past the instruction, with its tag */
         "reset tp=20100/1 code=83.98.01 @1001=03.01.28 I");
}

/* IX and its growth. */
static void test_index(void)
{
    PLAY(
         /* AA 10 leaves IX; AA 11 grows it by 1 or 2 */
         "reset ix=10 @1010=11.22 code=65.80 bc=2211 I",
         "reset ix=10 @1010=11.22 code=67.80 bc=2211 ix=12 I",
         "reset ix=10 @1010=11 code=66.80 bc=11 ix=11 I",
         /* IX wraps in 16 bits */
         "reset ix=FFFF @10FFF=11.22 code=67.80 bc=2211 ix=1 I",
         /* growth 3: MOVP both ways, CALL with either W; growth 4: LPD */
         "reset ix=8 code=27.98 @1008=00.20.00 ix=B I",
         "reset ix=8 @1008=45.23.18 code=27.8C gb=12345/1 ix=B I",
         "reset ix=8 code=8E.9C.10 @1008=03.01.00 tp+10 ix=B I",
         "reset ix=8 code=97.9C.00.FF @1008=04.01.00 tp=4 ix=B I",
         "reset ix=8 @1008=00.00.00.10 code=27.88 gb=10000 ix=C I",
         /* MOV IX,[GA+IX+] ends with what was loaded */
         "reset ix=8 @1008=34.12 code=A7.80 ix=1234 I",
         /* ADD IX,[GA+IX+] ends with the old IX plus the operand */
         "reset ix=8 @1008=00.01 code=A7.A0 ix=108 I",
         /* NOT IX,[GA+IX+]; AND and OR read the old IX */
         "reset ix=8 @1008=0F code=A6.AC ix=FFF0 I",
         "reset ix=8 @1008=01 code=A6.A4 ix=9 I",
         /* MOV [GA+IX+],IX stores the old IX; ADD [GA+IX+],IX adds the old IX */
         "reset ix=8 code=A7.84 @1008=08.00 ix=A I",
         "reset ix=8 @1008=10 code=A6.D0 @1008=18 ix=9 I");
    /* instructions without W on a byte grow IX by 1 */
    static const char *const bytes[] = {"0E BC 00", "0E B8 00", "0E B0 00", "0E B4 00", "1E 94 00 00"};
    for (unsigned i = 0; i < sizeof bytes / sizeof bytes[0]; i++) {
        reset();
        N.ix = 8;
        code(bytes[i]);
        W.ix = 9;
        DONE('I');
    }
    PLAY(
         "reset ix=8 code=06.F4 ix=9 I",
         "reset ix=8 code=06.F8 @1008=A4 ix=9 I",
         /* by W in JZ, INC, MOVI and ADDI on memory */
         "reset ix=8 code=0F.E4.10 ix=A I",
         "reset ix=8 code=07.E8 @1008=A6.A5 ix=A I",
         "reset ix=8 code=17.4C.34.12 @1008=34.12 ix=A I",
         "reset ix=8 code=0E.C0.01 @1008=A6 ix=9 I",
         /* a jump that is not taken grows IX too */
         "reset ix=8 @1008=01 code=0E.E4.10 ix=9 I");
}

/* ---- Instructions: arithmetic and logic ---- */

/* On registers. */
static void test_register_arithmetic(void)
{
    PLAY(
         /* ADD keeps the tag, carries into 20 bits */
         "reset ga=FFFF/1 code=08.20.01 ga=10000 I",
         "reset ga=0/0 code=11.20.00.80 ga=F8000 I",
         "reset ga=FFFFF/1 code=08.20.01 ga=0 I",
         /* a 16-bit register keeps the low 16 bits */
         "reset bc=FFFF code=68.20.02 bc=1 I",
         "reset bc=10 code=68.20.80 bc=FF90 I",
         /* logic on all 20 bits with the operand sign-extended; the tag stays */
         "reset ga=ABCDE/1 code=08.28.F0 ga=ABCD0 I",
         "reset ga=ABCDE/1 code=08.28.0F ga=E I",
         "reset ga=1234/0 code=08.24.84 ga=FFFB4 I",
         "reset gc=1234 code=51.24.84.00 gc=12B4 I",
         "reset ga=12345/1 code=00.2C ga=EDCBA I",
         "reset bc=1234 code=60.2C bc=EDCB I",
         /* INC and DEC, wrapping */
         "reset gb=FFFFF/1 code=20.38 gb=0 I",
         "reset gb=0 code=20.3C gb=FFFFF I",
         "reset mc=FFFF code=E0.38 mc=0 I",
         "reset ix=0 code=A0.3C ix=FFFF I",
         /* from memory, into each kind of register */
         "reset gb=10000/1 @1000=FF.FF code=21.A0 gb=FFFF I",
         "reset gb=10000/0 @1000=FF code=20.A4 gb=FFFFF I",
         "reset gb=ABCDE/1 @1000=FF.7F code=21.A8 gb=3CDE I",
         /* NOT R,M: of the sign-extended operand, and the tag stays */
         "reset gb=12345/0 @1000=0F code=20.AC gb=FFFF0 I",
         "reset gb=12345/1 @1000=00.80 code=21.AC gb=7FFF I",
         "reset gb=/1 @1000=80 code=20.AC gb=7F I",
         /* TP: INC skips a byte, AND keeps its tag */
         "reset code=80.38 tp=103 I",
         "reset tp=20100/1 code=88.28.F0 tp=20100/1 I",
         "reset @1000=10 code=80.A0 tp=112 I",
         "reset code=80.2C tp=FFEFD I");
}

/* On memory. */
static void test_memory_arithmetic(void)
{
    PLAY(
         "reset @1000=FF.00 code=00.E8 @1000=00.00 I",
         "reset @1000=FF.00 code=01.E8 @1000=00.01 I",
         "reset @1000=00.00 code=01.EC @1000=FF.FF I",
         "reset @1000=00.00 code=00.EC @1000=FF.00 I",
         "reset @1000=0F.F0 code=01.DC @1000=F0.0F I",
         "reset @1000=0F.F0 code=00.DC @1000=F0.F0 I",
         "reset @1000=01.01 code=11.C0.FF.00 @1000=00.02 I",
         "reset @1000=01.01 code=08.C0.FF @1000=00.01 I",
         "reset @1000=FF.FF code=11.C8.F0.0F @1000=F0.0F I",
         "reset @1000=01.01 code=08.C4.80 @1000=81.01 I",
         "reset @1000=FF.00 bc=101 code=61.D0 @1000=00.02 I",
         "reset @1000=F0.0F bc=3C3C code=61.D8 @1000=30.0C I",
         "reset @1000=F0.0F gb=F0C03 code=21.D4 @1000=F3.0F I",
         "reset @1000=F0.0F bc=3C3C code=60.D8 @1000=30.0F I",
         "reset @1000=F1.0F code=11.C4.0F.30 @1000=FF.3F I",
         "reset @1000=F0.0F gb=F3003 code=21.D4 @1000=F3.3F I",
         /* in I/O space only the I/O byte changes */
         "reset ga=/1 code=00.E8 #1000=5B I",
         /* TP as the register is the address past the instruction */
         "reset @1000=01.00 code=81.D0 @1000=03.01 I");
    /* every bit of SETB and CLR, BBB 6 among them */
    for (unsigned bit = 0; bit < 8; bit++) {
        char hex[16];
        reset();
        sys(0x1000, "00");
        snprintf(hex, sizeof hex, "%02X F4", bit << 5);
        code(hex);
        want.sys[0x1000] = (uint8_t)(1u << bit);
        DONE('I');
        reset();
        sys(0x1000, "FF");
        snprintf(hex, sizeof hex, "%02X F8", bit << 5);
        code(hex);
        want.sys[0x1000] = (uint8_t) ~(1u << bit);
        DONE('I');
    }
}

/* A byte or word as a signed number. */
static int64_t as_signed(uint32_t value, bool word)
{
    int64_t v = word ? value & 0xFFFF : value & 0xFF;
    return v >= (word ? 0x8000 : 0x80) ? v - (word ? 0x10000 : 0x100) : v;
}

/* ADD, OR, AND and NOT by plain arithmetic: 0 to 3 in the order of their opcodes. */
static uint32_t by_arithmetic(unsigned operation, int64_t old, int64_t operand)
{
    int64_t results[4] = {old + operand, old | operand, old & operand, -1 - operand};
    return (uint32_t)(results[operation] & 0xFFFFF);
}

/* Where RRR's value lies, as pointer or as word. */
static uint32_t register_value(struct emu_channel *c, unsigned rrr)
{
    uint32_t values[8] = {c->ga.address, c->gb.address, c->gc.address, c->bc, c->tp.address, c->ix, c->cc, c->mc};
    return values[rrr];
}

/* Sets RRR's value, as much as it has room for. */
static void set_register(struct emu_channel *c, unsigned rrr, uint32_t value)
{
    struct emu_pointer *pointers[8] = {&c->ga, &c->gb, &c->gc, NULL, &c->tp, NULL, NULL, NULL};
    uint16_t *words[8] = {NULL, NULL, NULL, &c->bc, NULL, &c->ix, &c->cc, &c->mc};
    if (pointers[rrr] != NULL) pointers[rrr]->address = value & 0xFFFFF;
    else *words[rrr] = (uint16_t)value;
}

/* One of four forms (R,M; M,R; R,I; M,I) of one operation, with PP as base so that every register is free. */
static void arithmetic_case(unsigned form, unsigned operation, unsigned rrr, bool word, uint32_t held, uint32_t other)
{
    static const unsigned opcode[4][4] = {
        {0x28, 0x29, 0x2A, 0x2B}, {0x34, 0x35, 0x36, 0}, {0x08, 0x09, 0x0A, 0}, {0x30, 0x31, 0x32, 0}};
    struct emu_state s;
    uint8_t small[32] = {0};
    struct emu_memory m = {small, sizeof small, NULL, 0};
    bool immediate = form >= 2, to_register = form == 0 || form == 2, memory = form != 2;
    uint32_t in_memory = form == 3 ? held : other, length = immediate ? (word ? 4 : 3) : 2;
    emu_fresh(0x10, &s);
    struct emu_channel *c = &s.channel[0];
    c->mode = EMU_RUNNING;
    c->pp = 0x18;
    c->ga.tag = true;
    set_register(c, rrr, held);
    c->tp.address = rrr == 4 ? (0x20u - length) & 0x1F : 0x04;
    uint32_t at = c->tp.address, old = rrr == 4 ? at + length : register_value(c, rrr);
    small[at] = (uint8_t)((form == 3 ? 0 : rrr << 5) | (immediate ? (word ? 0x10u : 0x08u) : 0) | (word ? 1u : 0));
    small[at + 1] = (uint8_t)(opcode[form][operation] << 2 | (memory ? 3u : 0));
    if (immediate) put(small, 32, at + 2, "00 00");
    if (immediate) small[at + 2] = (uint8_t)other;
    if (immediate && word) small[at + 3] = (uint8_t)(other >> 8);
    small[0x18] = (uint8_t)in_memory;
    small[0x19] = (uint8_t)(in_memory >> 8);
    CHECK(emu_step(&s, &m, 0).number == 0);
    if (to_register) {
        uint32_t result = by_arithmetic(operation, old, as_signed(other, word));
        CHECK(register_value(c, rrr) == (rrr < 3 || rrr == 4 ? result : (result & 0xFFFF)));
        CHECK(c->ga.tag && !c->gb.tag);
    } else {
        uint32_t operand = form == 3 ? (uint32_t)as_signed(other, word) : old;
        uint32_t result = by_arithmetic(operation, as_signed(in_memory, word), operand);
        CHECK(small[0x18] == (result & 0xFF) && small[0x19] == (word ? result >> 8 & 0xFF : in_memory >> 8));
    }
}

/* Every form, operation, width and register over numbers at the edges. */
static void test_arithmetic_sweep(void)
{
    static const uint32_t edges[] = {0, 1, 0x7F, 0x80, 0xFF, 0x100, 0x7FFF, 0x8000, 0xC35A, 0xFFFF};
    const unsigned count = sizeof edges / sizeof edges[0];
    for (unsigned form = 0; form < 4; form++)
        for (unsigned operation = 0; operation < (form == 0 ? 4u : 3u); operation++)
            for (unsigned rrr = 0; rrr < 8; rrr++)
                for (unsigned i = 0; i < 2 * count * count && rrr != 6; i++) {
                    uint32_t held = edges[i / 2 % count] | (i % 3 == 0 ? 0xA0000 : 0);
                    if (form == 3 || (form == 1 && rrr == 4)) held &= 0xFFFF;
                    arithmetic_case(form, operation, rrr, i % 2 != 0, held, edges[i / 2 / count]);
                }
}

/* ---- Instructions: jumps ---- */

/* One conditional jump on a byte or word at GA, taken or not. */
static void jump_case(const char *at_ga, const char *hex, bool taken, uint32_t by)
{
    reset();
    N.mc = 0xF041;
    N.bc = 0;
    N.gb.address = 0x10000;
    N.gc.address = 0x00001;
    sys(0x1000, at_ga);
    code(hex);
    if (taken) W.tp.address = (W.tp.address + by) & 0xFFFFF;
    DONE('I');
}

/* Conditions and displacements. */
static void test_jumps(void)
{
    jump_case("00 01", "08 E4 7F", true, 0x7F);
    jump_case("00 01", "09 E4 7F", false, 0);
    jump_case("00 00", "09 E4 80", true, 0xFFF80);
    jump_case("00 00", "11 E4 00 80", true, 0xF8000);
    jump_case("00 00", "10 E4 FF 7F", true, 0x7FFF);
    jump_case("00 01", "08 E0 7F", false, 0);
    jump_case("00 01", "09 E0 FD", true, 0xFFFFD);
    jump_case("80", "08 E0 01", true, 1);
    /* registers: low 16 bits only */
    jump_case("00", "28 44 10", true, 0x10);
    jump_case("00", "28 40 10", false, 0);
    jump_case("00", "48 44 10", false, 0);
    jump_case("00", "48 40 10", true, 0x10);
    jump_case("00", "70 44 FE FF", true, 0xFFFFE);
    jump_case("00", "68 40 10", false, 0);
    jump_case("00", "E8 40 10", true, 0x10);
    /* TP as tested register is past the instruction, never 0 here */
    jump_case("00", "88 40 10", true, 0x10);
    /* bits, BBB 6 among them */
    jump_case("40", "C8 BC 10", true, 0x10);
    jump_case("40", "C8 B8 10", false, 0);
    jump_case("BF", "C8 BC 10", false, 0);
    jump_case("BF", "D0 B8 10 00", true, 0x10);
    jump_case("01", "08 BC 10", true, 0x10);
    jump_case("80", "E8 BC 10", true, 0x10);
    jump_case("7F", "E8 BC 10", false, 0);
    /* masked compare */
    jump_case("4F", "08 B4 10", false, 0);
    jump_case("5F", "08 B4 10", true, 0x10);
    jump_case("40", "10 B0 00 01", true, 0x100);
    jump_case("C1", "08 B0 10", false, 0);
    PLAY(
         /* TP that tests to 0 */
         "reset tp=FFFD code=88.44.10 tp=10010 I",
         /* JMP both ways, and around the end of 20 bits; the tag stays */
         "reset tp=FFFF0/1 code=88.20.7F tp=72 I",
         "reset code=91.20.00.80 tp=F8104 I",
         /* CALL stores TP in stored form, then jumps */
         "reset tp=20100/1 code=8A.9D.04.F0 @2004=04.01.28 tp=200F4 I",
         "reset code=90.9F.00.10 @400=04.01.00 tp=1104 I",
         /* a displacement of one byte with W 1, and of two with W 0 */
         "reset code=89.9C.10 @1000=03.01.00 tp=113 I",
         /* TSL: 0 is replaced, otherwise jump */
         "reset @1000=00 code=18.94.FF.FC @1000=FF I",
         "reset @1000=01 code=18.94.FF.FC tp=100 I",
         "reset @1005=00 code=1A.94.05.77.FB @1005=77 I",
         "reset @1005=80 code=1A.94.05.00.FB tp=100 I");
}

/* ---- Instructions: control ---- */

/* NOP, SINTR, WID, HLT. */
static void test_control(void)
{
    PLAY(
         "reset code=00.00 I",
         "reset code=40.00 I",
         "reset psw+IC code=40.00 psw+IS I",
         "reset psw+IS code=40.00 I");
    for (unsigned sd = 0; sd < 4; sd++) {
        char hex[16];
        reset();
        N.psw = (uint8_t)(EMU_PSW_TB | (sd ^ 3));
        snprintf(hex, sizeof hex, "%02X 00", 0x80 | sd << 5);
        code(hex);
        W.psw = (uint8_t)(EMU_PSW_TB | sd);
        DONE('I');
    }
    PLAY(
         /* HLT: TP past it, BUSY of its own block */
         "reset psw=P,LL,IS,IC,TB,S,D code=20.48 mode=idle psw=P,LL,IS,IC,S,D @41=00 I",
         "reset twins mode=idle @100=20.48 want 2.mode=idle 2.psw=- 2.tp=102 last=2 @49=00 I,2,0",
         "refused=1");
}

/* XFER and the armed mark. */
static void test_xfer(void)
{
    PLAY(
         "reset code=60.00 armed=1 I",
         /* the next instruction sets XF and takes the mark */
         "code=E0.00 psw=XF,TB,S,D armed=0 I",
         /* a second XFER while armed is the next instruction */
         "reset armed=1 code=60.00 psw+XF armed=0 I",
         /* HLT: no transfer */
         "reset armed=1 code=20.48 armed=0 mode=idle psw=- @41=00 I",
         /* a refused instruction leaves the mark */
         "reset armed=1 @100=04.04 refused=3",
         /* a jump may follow */
         "reset armed=1 code=88.20.10 tp+10 psw+XF armed=0 I");
    /* the mark outlives suspend and resume */
    reset();
    N.armed = true;
    block(1, 0x06);
    CHECK(emu_attention(&now.s, &now.m, 1).number == 0 && N.armed);
    block(1, 0x05);
    CHECK(emu_attention(&now.s, &now.m, 1).number == 0 && N.armed);
    PLAY(
         /* a transfer step and an external end leave the mark alone */
         "reset armed=1 psw+XF cc=20 want last=1 bc=FFFF @2000=A5 T",
         "want psw=TB X,1,4",
         "code=00.00 psw+XF armed=0 I");
}

/* ---- Transfers ---- */

/* Shapes: which bytes move where. */
static void test_transfer_shapes(void)
{
    /* B-B in all four moves */
    for (unsigned f = 0; f < 4; f++) {
        transfer(0, f << 14, 9);
        want_moved(1, -1);
        want_sys(0x2000, "11");
        DONE('T');
    }
    /* W-W */
    for (unsigned f = 0; f < 4; f++) {
        transfer(3, f << 14, 9);
        want_moved(2, -1);
        want_sys(0x2000, "11 22");
        DONE('T');
    }
    PLAY(
         /* B/B-W: a byte side that moves on takes a and a + 1, one that does not takes a twice */
         "transfer=D,C000,9 moved=2 @2000=11.22 T",
         "transfer=D,8000,9 moved=2 @2000=11.11 T",
         /* a word side that does not move on takes a and a + 1 each time */
         "transfer=D,4000,9 moved=2 @2000=11.22 T",
         "moved=2 @2000=33.44 T",
         "transfer=S,8000,9 moved=2 @2000=11.22 T",
         "moved=2 @2002=11.22 T",
         /* W-B/B to a byte side that does not move: the second byte stays */
         "transfer=S,4000,9 moved=2 @2000=22 T",
         /* odd addresses: 16 bits wide but no word side */
         "transfer=SD,C000,9 ga=1001 gb=2001 moved=1 @2001=22 T",
         "transfer=SD,C000,9 ga=1001 moved=2 @2000=22.33 T",
         "transfer=SD,C000,9 gb=2001 moved=2 @2001=11.22 T",
         /* source 16 at an odd address that does not move, destination a word side: a twice */
         "transfer=SD,8000,9 ga=1001 moved=2 @2000=22.22 T",
         /* destination 16 at an odd address that does not move */
         "transfer=SD,4000,9 gb=2001 moved=2 @2001=22 T",
         /* source is GB */
         "transfer=-,C400,9 @2000=77 moved=1 @1000=77 T",
         "transfer=S,8400,9 @2000=77.88 moved=2 @1000=77.88 T",
         /* spaces by tag; evenness is bit 0 of the 20-bit pointer */
         "transfer=SD,C000,9 ga=31000/1 #1000=66.99 moved=2 @2000=66.99 T",
         "transfer=-,C000,9 gb=/1 moved=1 #2000=11 T",
         /* pointers wrap; bytes at the end of each space wrap by themselves */
         "transfer=-,C000,9 ga=FFFFF/1 #FFFF=66 moved=1 ga?0 @2000=66 T",
         "transfer=D,C000,9 ga=FFFF/1 #FFFF=66.77 moved=2 ga?10001/1 @2000=66.77 T",
         "transfer=D,C000,9 ga=FFFFF @FFFFF=66.77 moved=2 ga?1 @2000=66.77 T",
         /* reads come first where the sides overlap */
         "transfer=SD,C000,9 gb=1001 moved=2 @1001=11.22 T",
         "transfer=D,C000,9 ga=1001 gb=1002 moved=2 @1002=22.33 T");
}

/* The byte count, on and off. */
static void test_transfer_count(void)
{
    PLAY(
         /* TBC off: BC falls and wraps, and nothing ends */
         "transfer=-,C000,1 moved=1 @2000=11 T");
    CHECK(N.bc == 0);
    PLAY(
         "moved=1 bc?FFFF @2001=22 T",
         /* TBC off and BC 1: two bytes all the same */
         "transfer=SD,C000,1 moved=2 bc?FFFF @2000=11.22 T");
    /* TBC on and BC 1: one byte, at each side's address, in every shape */
    for (unsigned widths = 0; widths < 4; widths++) {
        for (unsigned tbc = 1; tbc < 4; tbc++) {
            transfer(widths, 0xC000 | tbc << 3, 1);
            want_moved(1, (int)(tbc - 1) * 4);
            want_sys(0x2000, "11");
            DONE('T');
        }
    }
    PLAY(
         /* TBC on and BC 0 moves, and does not end */
         "transfer=-,C008,0 moved=1 @2000=11 T",
         "transfer=SD,C008,0 moved=2 bc?FFFE @2000=11.22 T",
         /* 2 ends with a word, 3 goes on, offset 8 */
         "transfer=SD,C018,2 moved=2,8 @2000=11.22 T",
         "transfer=SD,C018,3 moved=2 @2000=11.22 T",
         "moved=1,8 @2002=33 T",
         /* TP's end offset wraps and keeps the tag */
         "transfer=-,C018,1 tp=FFFFC/1 moved=1,8 tp?4 @2000=11 T",
         /* TS ends each transfer, offset 0 */
         "transfer=SD,C080,9 moved=2,0 @2000=11.22 T",
         /* TS and TBC: the larger offset */
         "transfer=SD,C090,2 moved=2,4 @2000=11.22 T",
         "transfer=SD,C090,4 moved=2,0 @2000=11.22 T");
}

/* Masked compare. */
static void test_transfer_match(void)
{
    /* TMC 001, 010, 011 on a match: offsets 0, 4, 8; 101 to 111 on none */
    for (unsigned tmc = 0; tmc < 8; tmc++) {
        for (unsigned equal = 0; equal < 2; equal++) {
            transfer(0, 0xC000 | tmc, 9);
            N.mc = equal ? 0xFF11 : 0xFF12;
            bool on = (tmc & 3) != 0, met = on && (equal != 0) == (tmc < 4);
            want_moved(1, met ? (int)((tmc & 3) - 1) * 4 : -1);
            want_sys(0x2000, "11");
            DONE('T');
        }
    }
    PLAY(
         /* TMC 100 is off; a mask of 0 matches everything */
         "transfer=-,C004,9 mc=FF99 moved=1 @2000=11 T",
         "transfer=-,C001,9 mc=99 moved=1,0 @2000=11 T",
         "transfer=-,C005,9 mc=99 moved=1 @2000=11 T",
         /* of a stored word only the low byte is looked at */
         "transfer=SD,C002,9 mc=FF22 moved=2 @2000=11.22 T",
         "transfer=SD,C002,9 mc=FF11 moved=2,4 @2000=11.22 T",
         "transfer=D,C002,9 mc=FF22 moved=2 @2000=11.22 T",
         "transfer=D,C006,9 mc=FF22 moved=2,4 @2000=11.22 T",
         /* W-B/B: the first single store meets TMC, the second is not made, BC falls as if it were */
         "transfer=S,C002,9 mc=FF11 cut=4 bc?7 T",
         /* the same with the source fixed and with the destination fixed */
         "transfer=S,8002,9 mc=FF11 cut=4 T",
         "transfer=S,4002,9 mc=FF11 cut=4 T",
         /* the second single store meets TMC: both made */
         "transfer=S,C003,9 mc=FF22 moved=2,8 @2000=11.22 T",
         /* "no match" on the first of two */
         "transfer=S,C007,9 mc=FF22 cut=8 T",
         "transfer=S,C007,9 mc=FF11 moved=2,8 @2000=11.22 T",
         /* single stores also on a wide destination at an odd address */
         "transfer=SD,C001,9 gb=2001 mc=FF11 moved=1,0 bc=7 @2001=11 T",
         "transfer=SD,C001,9 gb=2001 mc=FF22 moved=2,0 @2001=11.22 T",
         /* a single byte forced by BC 1 is matched like any other */
         "transfer=SD,C00B,1 mc=FF11 moved=1,8 @2000=11 T",
         "transfer=SD,C01A,1 mc=FF11 moved=1,8 @2000=11 T",
         /* of several ends the largest offset wins, also over the byte count */
         "transfer=-,C08B,1 mc=FF11 moved=1,8 @2000=11 T",
         "transfer=SD,C00A,2 mc=FF11 moved=2,4 @2000=11.22 T",
         "transfer=S,C082,9 mc=FF11 cut=4 T",
         /* with TX on but no EXT up nothing ends */
         "transfer=-,C060,9 moved=1 @2000=11 T");
}

/* What BC is where the first of two single stores ends the transfer, matched or (bit 2 of TMC) not matched. */
static void test_transfer_leftover(void)
{
    static const struct {
        unsigned cc, before, after;
        int end;
    } rows[] = {
        {0xC019, 2, 0, 8},      /* TBC + 8, TMC + 0: the count has ended too */
        {0xC00B, 2, 0, 8},      /* TBC + 0, TMC + 8 */
        {0xC012, 2, 0, 4},      /* both + 4 */
        {0xC001, 2, 0, 0},      /* TBC off: BC 0 is no end, though the match is */
        {0xC002, 1, 0xFFFF, 4}, /* TBC off */
        {0xC003, 0, 0xFFFE, 8}, /* TBC off */
        {0xC01A, 0, 0xFFFE, 4}, /* TBC on: no end by the count */
        {0xC019, 3, 1, 0},      /* TBC on, one byte would be left */
        {0xC019, 4, 2, 0},
    };
    for (unsigned i = 0; i < 2 * (sizeof rows / sizeof rows[0]); i++) {
        bool none = i % 2 == 1;
        transfer(EMU_PSW_S, rows[i / 2].cc | (none ? 4u : 0), rows[i / 2].before);
        N.mc = none ? 0xFF22 : 0xFF11;
        want_cut(rows[i / 2].end);
        CHECK(W.bc == rows[i / 2].after);
        DONE('T');
    }
    PLAY(
         /* TBC on and BC 1: one byte moves, so it is not this case */
         "transfer=S,C01A,1 mc=FF11 moved=1,8 bc?0 @2000=11 T",
         /* the second of two single stores, and the low byte of a word: both are stored, both count */
         "transfer=S,C019,2 mc=FF22 moved=2,8 @2000=11.22 T",
         "transfer=SD,C019,2 mc=FF11 moved=2,8 @2000=11.22 T");
}

/* Translation. */
static void test_transfer_translate(void)
{
    PLAY(
         "transfer=-,E000,9 @3011=99 moved=1 @2000=99 T",
         /* in GC's space, the byte as an unsigned offset, wrapping */
         "transfer=-,E000,9 gc=3FFFF/1 @1000=F0 #EF=98 moved=1 @2000=98 T",
         "transfer=-,E000,9 gc=FFFFF @1000=F0 @EF=97 moved=1 @2000=97 T",
         /* match looks at the translated byte */
         "transfer=-,E002,9 mc=FF99 @3011=99 moved=1,4 @2000=99 T",
         "transfer=-,E002,9 mc=FF11 @3011=99 moved=1 @2000=99 T");
    /* a 16-bit side is the width bit, whatever the address */
    for (unsigned widths = 1; widths < 4; widths++) {
        transfer(widths, 0xE000, 9);
        REFUSED(5);
        N.ga.address = 0x1001;
        N.gb.address = 0x2001;
        REFUSED(5);
        N.bc = 1;
        emu_set_cc(&N, (uint16_t)(N.cc | 0x0008));
        REFUSED(5);
    }
}

/* Refusals 5 and 2 of a transfer. */
static void test_transfer_refusals(void)
{
    PLAY(
         "transfer=-,D800,9 refused=5",
         "refused=5,3",
         "sys_len=0 refused=5",
         /* 5 before 2, and not waited for */
         "transfer=SD,E000,9 sys_len=10 refused=5",
         /* source, destination, translated byte */
         "transfer=-,C000,9 sys_len=1000 refused=2",
         "sys_len=2000 refused=2",
         "sys_len=2001 step",
         "transfer=-,E000,9 sys_len=3011 refused=2",
         "sys_len=3012 step",
         /* the second byte of a word side */
         "transfer=SD,C000,9 sys_len=2001 refused=2",
         "transfer=SD,C000,9 ga=2FFE sys_len=2FFF refused=2",
         /* both source bytes are tested, also where a match prevents the second store */
         "transfer=S,C001,9 ga=2FFE mc=0 sys_len=2FFF refused=2",
         /* a second single store that a match prevents is not tested */
         "transfer=S,C001,9 mc=FF11 sys_len=2001 cut=0 T",
         "transfer=S,C001,9 mc=FF12 sys_len=2001 refused=2",
         /* a second single store at the same address needs no more */
         "transfer=S,4000,9 sys_len=2001 moved=2 @2000=22 T",
         /* a byte forced by BC 1 needs one byte on each side */
         "transfer=SD,C008,1 sys_len=2001 moved=1,0 @2000=11 T");
}

/* Transfers out of empty slots and into them: FFh goes, what is stored vanishes, and all else is as ever. */
static void test_slots_transfer(void)
{
    PLAY(
         /* a byte, and a word, out of slots */
         "transfer=-,C000,9 ga=2000/1 io_len=1000 moved=1 @2000=FF T",
         "transfer=SD,C000,9 ga=2000/1 io_len=0 moved=2 @2000=FF.FF T",
         /* over the edge */
         "transfer=SD,C000,9 ga=FFE/1 io_len=FFF #FFE=21 moved=2 @2000=21.FF T",
         /* into slots: BC falls and the match looks at what vanishes */
         "transfer=-,C001,9 gb=2000/1 mc=FF11 io_len=1000 moved=1,0 T",
         "transfer=SD,C008,2 gb=2000/1 io_len=1000 moved=2,0 T",
         "transfer=SD,C000,9 gb=FFE/1 io_len=FFF moved=2 #FFE=11 T",
         /* FFh out of a slot meets TMC */
         "transfer=-,C001,9 ga=2000/1 mc=FFFF io_len=1000 moved=1,0 @2000=FF T",
         /* translation: FFh as the index, and an entry in a slot */
         "transfer=-,E000,9 ga=2000/1 io_len=1000 @30FF=77 moved=1 @2000=77 T",
         "transfer=-,E000,9 gc=2000/1 io_len=1000 moved=1 @2000=FF T");
}

/* System space has no empty slots: 2, wherever I/O memory ends. */
static void test_slots_system(void)
{
    for (size_t io_len = 0; io_len <= EMU_IO_LIMIT; io_len += EMU_IO_LIMIT) {
        reset();
        sys(0x100, "60 80");
        now.m.sys_len = 0x1000;
        now.m.io_len = io_len;
        REFUSED(2);
        transfer(0, 0xC000, 9);
        N.gb = (struct emu_pointer){0x20, true};
        now.m.sys_len = 0x1000;
        now.m.io_len = io_len;
        REFUSED(2);
    }
}

/* ---- Which channel steps ---- */

/* Ranks, priority, turns. */
static void test_choice(void)
{
    PLAY(
         /* turns */
         "ready goes=0,1",
         "last=1 goes=0,2",
         /* priority before turns */
         "psw+P goes=0,1",
         "2.psw+P goes=0,2",
         "psw=TB last=2 goes=0,2",
         /* rank before priority: chained, transfer */
         "cc=100 goes=0,1",
         "cc=0 psw+XF goes=0,1",
         /* a transfer and a chained program have one rank */
         "2.cc=100 goes=0,2",
         "2.psw=TB goes=0,1",
         "last=1 goes=0,2",
         /* waiting for DRQ: none; each channel has its own DRQ */
         "ready psw+XF cc=800 goes=0,2",
         "goes=2,2",
         "goes=1,1",
         "cc=1000 goes=0,2",
         "goes=1,1",
         "cc=1100 goes=0,2",
         "2.mode=idle refused=1",
         "refused=1,2",
         "refused=1,4",
         "ready 2.psw+XF 2.cc=1000 last=1 goes=0,1",
         "goes=1,1",
         "goes=2,2",
         /* SYN 11 does not wait: it goes, and is refused, and the other channel is not tried */
         "ready 2.psw+XF 2.cc=1800 refused=5",
         /* a refused instruction is not tried on the other channel */
         "ready @100=04.04 refused=3");
    CHECK(now.s.last == 2);
    PLAY(
         /* idle and suspended channels do not run, whatever TB and XF */
         "ready mode=suspended goes=0,2",
         "2.mode=idle refused=1",
         "psw+XF cc=20 refused=1,F",
         /* a running channel with TB 0 runs */
         "ready psw=- 2.mode=idle goes=0,1");
}

/* External ends. */
static void test_external(void)
{
    for (unsigned tx = 1; tx < 4; tx++) {
        transfer(3, 0xC000 | tx << 5, 9);
        want_same();
        want.s.last = 1;
        W.psw &= (uint8_t)~EMU_PSW_XF;
        W.tp.address += (tx - 1) * 4;
        DONE_ON('X', 1, 4);
    }
    PLAY(
         /* TX 00: EXT says nothing; another channel's EXT says nothing */
         "transfer=-,C000,9 moved=1 @2000=11 T,1,4",
         "transfer=-,C020,9 moved=1 @2000=11 T,1,8",
         /* no XF: EXT says nothing */
         "reset cc=60 code=00.00 I,1,4",
         /* it goes first, before priority and DRQ; channel 1 before 2 */
         "transfer=-,C060,9 twins 2.tp=200 2.psw+P 2.cc=C040 last=1 want psw-XF tp=108 X,1,F",
         "want last=2 2.psw-XF 2.tp=204 X,2,F",
         /* a waiting transfer is ended too */
         "transfer=-,C820,9 want last=1 psw-XF X,1,4",
         /* 5 is not asked, nor is memory */
         "transfer=SD,F860,9 tp=FFFFE/1 sys_len=0 io_len=0 want last=1 psw-XF tp=6 X,1,4",
         /* 12, 11 and 10 are */
         "transfer=-,C020,9 refused=12,14",
         "io_len=10001 refused=11,4",
         "io_len=0 2.pp=100000 refused=10,4");
}

/* ---- The fields of CC ---- */

/* Every CC value taken apart by division, and put together again without bit 9. */
static void test_fields(void)
{
    unsigned wrong = 0, all = 0;
    for (unsigned cc = 0; cc < 65536; cc++) {
        struct emu_fields f = emu_fields_of((uint16_t)cc);
        wrong += f.destination_moves != cc / 32768 || f.source_moves != cc / 16384 % 2 || f.translate != cc / 8192 % 2;
        wrong += f.syn != cc / 2048 % 4 || f.source_is_gb != cc / 1024 % 2 || f.chained != cc / 256 % 2;
        wrong += f.ts != cc / 128 % 2 || f.tx != cc / 32 % 4 || f.tbc != cc / 8 % 4 || f.tmc != cc % 8;
        wrong += emu_fields_value(&f) != (cc & 0xFDFF);
    }
    CHECK(wrong == 0);
    /* the fields' bits are all of CC but bit 9, each in one field */
    for (unsigned i = 0; i < EMU_FIELDS; i++) {
        CHECK((all & emu_field_bits(i)) == 0);
        all |= emu_field_bits(i);
    }
    CHECK(all == 0xFDFF);
}

/* 14 looks at every bit but bit 9, of both channels, whatever their mode. */
static void test_refusal_14(void)
{
    for (unsigned i = 0; i < 2 * 3 * 16; i++) {
        unsigned channel = i % 2, mode = i / 2 % 3, bit = i / 6;
        reset();
        sys(0x100, "00 00");
        sys(0x40, "00");
        struct emu_channel *c = &now.s.channel[channel];
        c->mode = (enum emu_mode)mode;
        emu_set_cc(c, 0x5A35);
        c->cc ^= (uint16_t)(1u << bit);
        struct emu_state given = now.s;
        unsigned number = bit == 9 ? 0 : 14;
        CHECK(emu_attention(&now.s, &now.m, 1).number == number);
        CHECK(emu_same_state(&now.s, &given) || number == 0);
        now.s = given;
        bool none_runs = N.mode != EMU_RUNNING && N2.mode != EMU_RUNNING;
        CHECK(emu_step(&now.s, &now.m, 0).number == (number == 0 && none_runs ? 1 : number));
        CHECK(emu_same_state(&now.s, &given) || number == 0);
        /* the fields made those of CC, or CC that of the fields */
        now.s = given;
        c->fields = emu_fields_of(c->cc);
        CHECK(emu_attention(&now.s, &now.m, 1).number == 0);
        now.s = given;
        c->cc = emu_fields_value(&c->fields);
        CHECK(emu_attention(&now.s, &now.m, 1).number == 0);
    }
    PLAY(
         /* TMC 100 and 000 disagree, though both are off */
         "reset @100=00.00 cc=4 cc-alone=0 refused=14",
         "attend=2,14");
}

/* 14 comes behind 12, 11, 10 and 13 and before everything else; power-up, fresh and reset do not ask. */
static void test_14_in_order(void)
{
    PLAY(
         "reset 2.cc-alone=8000 powered=0 cp=100000 io_len=10001 refused=12,10",
         "attend=3,12",
         "refused=11",
         "attend=1,11",
         "io_len=0 refused=10",
         "attend=1,10",
         "cp=40 refused=13",
         "attend=1,13",
         "powered=1 refused=14",
         "attend=1,14",
         /* before 2 of the CCW, 6 and 9; before 1, 2 of the code, 3 and 5 */
         "sys_len=0 refused=14",
         "attend=1,14",
         "sys_len=100000 @40=02 @48=06 attend=1,14",
         "attend=2,14",
         "@100=04.04 refused=14",
         "mode=idle refused=14",
         "transfer=-,1800,9 2.cc-alone=8000 refused=14",
         "2.cc-alone=0 refused=5",
         /* an external end asks too */
         "transfer=-,20,9 cc-alone=21 refused=14,4");
    /* power-up from such a state */
    board("00", "00");
    emu_fresh(0x500, &want.s);
    want_sys(0x501, "00");
    N.cc = 0xFFFF;
    N2.fields.syn = 2;
    powers(0, __LINE__);
}

/* MOV and MOVI to CC renew this channel's fields and no other's; nothing else touches them. */
static void test_renewed(void)
{
    for (unsigned i = 0; i < 4; i++) {
        static const char *const movi[2] = {"D1 30 5A A5", "D1 30 A5 5A"}, *const mov[2] = {"5A A5", "A5 5A"};
        uint16_t value = i % 2 == 0 ? 0xA55A : 0x5AA5;
        reset();
        emu_set_cc(&N, (uint16_t)~value);
        emu_set_cc(&N2, 0x1234);
        sys(0x1000, mov[i % 2]);
        code(i < 2 ? movi[i % 2] : "C1 80");
        W.cc = value;
        W.fields = emu_fields_of(value);
        DONE('I');
        CHECK(emu_fields_value(&N2.fields) == (0x1234 & 0xFDFF) && N2.cc == 0x1234);
    }
    PLAY(
         /* MOV from CC stores CC itself, bit 9 with it */
         "reset cc=0 cc-alone=200 code=C1.84 @1000=00.02 I");
    /* the next step goes by what was moved: chained, channel 1 goes again before channel 2 */
    reset();
    N2 = N;
    N2.tp.address = 0x200;
    sys(0x100, "D1 30 00 01 00 00 D1 30 00 00 00 00");
    sys(0x200, "00 00 00 00");
    static const unsigned order[] = {1, 1, 1, 2, 1, 2};
    for (unsigned i = 0; i < 6; i++) CHECK(emu_step(&now.s, &now.m, 0).channel == order[i]);
    /* attentions leave them */
    for (unsigned channel = 1; channel <= 2; channel++) {
        static const uint8_t commands[] = {0x03, 0x06, 0x05, 0x00, 0x07};
        reset();
        N.mode = EMU_IDLE;
        emu_set_cc(&N, 0xBEEF);
        emu_set_cc(&N2, 0x4321);
        for (unsigned i = 0; i < sizeof commands; i++) {
            block(channel, commands[i]);
            CHECK(emu_attention(&now.s, &now.m, channel).number == 0);
            CHECK(N.cc == 0xBEEF && emu_fields_value(&N.fields) == (0xBEEF & 0xFDFF));
            CHECK(N2.cc == 0x4321 && emu_fields_value(&N2.fields) == (0x4321 & 0xFDFF));
        }
    }
}

/* ---- The panel ---- */

/* The 38-byte example. */
static void example(uint8_t *bytes)
{
    memset(bytes, 0, 38);
    put(bytes, 38, 0, "03 00 10 00 00 00");
    put(bytes, 38, 0x10, "20");
    put(bytes, 38, 0x20, "71 30 34 12 20 48");
}

/* Whether the program prints exactly this for an input. */
static void check_trace(const uint8_t *input, size_t length, const char *expected, int line)
{
    static char text[65536];
    FILE *out = tmpfile();
    if (out == NULL) {
        check(false, "a temporary file", line);
        return;
    }
    emu_panel(input, length, out);
    rewind(out);
    size_t n = fread(text, 1, sizeof text - 1, out);
    text[n] = 0;
    fclose(out);
    check(strcmp(text, expected) == 0, "trace as wanted", line);
}

/* The program's trace. */
static void test_panel_program(void)
{
    static uint8_t input[8192];
    static char long_trace[65536];
    example(input);
    check_trace(input, 38, "1 1 I 00024\n2 1 I 00026\nend 1 2\n", __LINE__);
    check_trace(input, 37, "1 1 I 00024\nend 2 1\n", __LINE__);
    check_trace(input, 0, "end 2 0\n", __LINE__);
    check_trace(NULL, 0, "end 2 0\n", __LINE__);
    check_trace(input, 4097, "end 11 0\n", __LINE__);
    check_trace(input, 8192, "end 11 0\n", __LINE__);
    /* 4,096 bytes are taken; an endless program meets the limit with number 0 */
    put(input, sizeof input, 0x20, "88 20 FD");
    size_t used = 0;
    for (unsigned i = 1; i <= 1000; i++)
        used += (size_t)snprintf(long_trace + used, sizeof long_trace - used, "%u 1 I 00020\n", i);
    snprintf(long_trace + used, sizeof long_trace - used, "end 0 1000\n");
    check_trace(input, 4096, long_trace, __LINE__);
    /* command 000 is accepted and nothing runs; a refused attention */
    input[0] = 0x00;
    check_trace(input, 38, "end 1 0\n", __LINE__);
    input[0] = 0x06;
    check_trace(input, 38, "end 9 0\n", __LINE__);
    input[0] = 0x04;
    check_trace(input, 38, "end 6 0\n", __LINE__);
    /* a transfer step is T: MOVI CC,C008h; MOVI BC,1; XFER; NOP; one byte GA to GB; HLT in I/O space is not reached */
    input[0] = 0x03;
    put(input, sizeof input, 0x20, "D1 30 08 C0 68 30 01 60 00 00 00 20 48");
    check_trace(input, 0x2D,
                "1 1 I 00024\n2 1 I 00027\n3 1 I 00029\n4 1 I 0002B\n5 1 T 0002B\n6 1 I 0002D\nend 1 6\n", __LINE__);
    /* 256 bytes of I/O memory: start in I/O space at FEh runs one NOP; behind it slots are empty, and FF FF is none */
    input[0] = 0x01;
    put(input, sizeof input, 0x10, "FE 00");
    check_trace(input, 38, "1 1 I 00100\nend 3 1\n", __LINE__);
}

/* The run's answer over channel, lines and limit. */
static void test_run(void)
{
    uint8_t system[64], device[4] = {0};
    struct emu_memory m = {system, 38, device, 4};
    memset(system, 0, sizeof system);
    example(system);
    CHECK(emu_run(&m, 0, 1, 0, 1000) == 1 * 65536 + 2);
    CHECK(system[1] == 0x00);
    example(system);
    CHECK(emu_run(&m, 0, 1, 0, 1) == 1);
    CHECK(system[1] == 0xFF);
    /* at the limit the number is 0, and limit 0 still gives the attention */
    example(system);
    CHECK(emu_run(&m, 0, 1, 0, 2) == 2);
    example(system);
    CHECK(emu_run(&m, 0, 1, 0, 0) == 0);
    CHECK(system[1] == 0xFF);
    system[0] = 0x02;
    CHECK(emu_run(&m, 0, 1, 0, 0) == 6 * 65536);
    /* 12, then 11, then 10 */
    example(system);
    m.sys_len = MIB + 1;
    CHECK(emu_run(&m, 0x100000, 0, 0, 5) == 12 * 65536);
    CHECK(emu_run(&m, 0x100000, 3, 0, 5) == 12 * 65536);
    CHECK(emu_run(&m, 0x100000, 1, 16, 5) == 12 * 65536);
    CHECK(emu_run(&m, 0x100000, 1, 0, 65536) == 12 * 65536);
    CHECK(emu_run(&m, 0x100000, 1, 15, 65535) == 11 * 65536);
    m.sys_len = 38;
    m.io_len = 65537;
    CHECK(emu_run(&m, 0x100000, 1, 15, 65535) == 11 * 65536);
    m.io_len = 4;
    CHECK(emu_run(&m, 0x100000, 1, 15, 65535) == 10 * 65536);
    CHECK(emu_run(&m, 0xFFFFF, 1, 15, 65535) == 2 * 65536);
    CHECK(system[1] == 0x00);
    /* steps before a refusal keep their effect */
    example(system);
    put(system, 64, 0x20, "0A 4F 02 77 04 04");
    CHECK(emu_run(&m, 0, 1, 0, 1000) == 3 * 65536 + 1);
    CHECK(system[0x12] == 0x77 && system[1] == 0xFF);
    /* an endless program: 65,535 steps */
    example(system);
    put(system, 64, 0x20, "88 20 FD");
    CHECK(emu_run(&m, 0, 1, 0, 65535) == 65535);
    /* channel 2's block */
    memset(system, 0, sizeof system);
    put(system, 64, 8, "03 00 10 00 00 00");
    put(system, 64, 0x10, "20");
    put(system, 64, 0x20, "20 48");
    CHECK(emu_run(&m, 0, 2, 0, 1000) == 1 * 65536 + 1);
    CHECK(system[9] == 0x00);
    /* lines are held throughout: a transfer that waits for DRQ, and one that EXT ends */
    for (unsigned lines = 0; lines < 3; lines++) {
        static const uint32_t held[3] = {0, 1, 5}, answers[3] = {1 * 65536 + 4, 1 * 65536 + 6, 1 * 65536 + 6};
        memset(system, 0, sizeof system);
        put(system, 64, 0, "03 00 10 00 00 00");
        put(system, 64, 0x10, "18");
        put(system, 64, 0x18, "D1 30 28 C8 68 30 01 60 00 00 00 20 48");
        m.sys_len = 64;
        CHECK(emu_run(&m, 0, 1, held[lines], 1000) == answers[lines]);
    }
}

/* ---- One request, one byte: pairs ---- */

/* SYN 01: two fetches, and the word is stored with the second. */
static void test_pair_fetches(void)
{
    PLAY(
         /* both sides move on: pointers and BC wait for the second half, and so does the word */
         "transfer=D,C800,9 half=11 T,1,1",
         "pair ga?1002 gb?2002 bc?7 @2000=11.22 T,1,1",
         /* the next pair begins with a fetch again */
         "half=33 T,1,1",
         "pair @2002=33.44 T,1,1",
         /* a port that stays is read at both halves, and not again for the byte that is held */
         "transfer=D,8800,9 half=11 T,1,1",
         "@1000=77 pair @2000=11.77 T,1,1",
         /* what is held need not be what stands there now */
         "transfer=D,C800,9 held=199 pair @2000=99.22 T,1,1",
         /* a held byte 0 is one */
         "transfer=D,C800,9 @1000=00 half=0 T,1,1",
         "@1000=88 pair @2000=00.22 T,1,1");
    /* 16 bits wide at an odd address, moving on or not; the word side may stay */
    for (unsigned moves = 0; moves < 4; moves++) {
        transfer(EMU_PSW_S | EMU_PSW_D, 0x0800 | moves << 14, 9);
        N.ga.address = 0x1001;
        want_half(0x22);
        DONE_ON('T', 1, 1);
        want_pair(-1);
        want_sys(0x2000, (moves & 1) != 0 ? "22 33" : "22 22");
        DONE_ON('T', 1, 1);
        CHECK(N.ga.address == ((moves & 1) != 0 ? 0x1003 : 0x1001) && N.bc == 7);
    }
    PLAY(
         /* from an I/O port into system memory, the source being GB; and from system memory into I/O memory */
         "transfer=D,8C00,9 ga=3000/0 gb=F8004/1 #8004=C1 half=C1 T,1,1",
         "#8004=C2 pair @3000=C1.C2 T,1,1",
         "transfer=D,C800,9 gb=20/1 half=11 T,1,1",
         "pair #20=11.22 T,1,1",
         /* each byte's place wraps by itself */
         "transfer=SD,C800,9 ga=FFFFF @FFFFF=D1 @0=D2 half=D1 T,1,1",
         "pair ga?1 @2000=D1.D2 T,1,1");
}

/* SYN 10: the word is read with the first of two stores. */
static void test_pair_stores(void)
{
    PLAY(
         "transfer=S,D000,9 half=22 @2000=11 T,1,1",
         /* the second store has the byte that was read then, not the one that stands there now */
         "@1001=77 pair ga?1002 gb?2002 bc?7 @2001=22 T,1,1",
         "half=44 @2002=33 T,1,1",
         /* a port that stays is stored to twice */
         "transfer=S,5000,9 half=22 @2000=11 T,1,1",
         "pair ga?1002 gb?2000 bc?7 @2000=22 T,1,1");
    /* 16 bits wide at an odd address, moving on or not; the word side may stay */
    for (unsigned moves = 0; moves < 4; moves++) {
        transfer(EMU_PSW_S | EMU_PSW_D, 0x1000 | moves << 14, 9);
        N.gb.address = 0x2001;
        want_half(0x22);
        want_sys(0x2001, "11");
        DONE_ON('T', 1, 1);
        want_pair(-1);
        want_sys((moves & 2) != 0 ? 0x2002 : 0x2001, "22");
        DONE_ON('T', 1, 1);
        CHECK(N.ga.address == ((moves & 1) != 0 ? 0x1002 : 0x1000) && N.bc == 7);
    }
    PLAY(
         /* from system memory to an I/O port, the source being GB */
         "transfer=S,5400,9 ga=F8004/1 gb=1000/0 half=22 #8004=11 T,1,1",
         "pair #8004=22 T,1,1",
         /* what a first half of the other kind held is stored, where the step has become this one */
         "transfer=S,D000,9 held=199 pair @2001=99 T,1,1");
}

/* Each half has a request of its own, is a step of its channel and makes it the last one. */
static void test_pair_requests(void)
{
    for (unsigned syn = 1; syn < 3; syn++) {
        transfer(syn == 1 ? EMU_PSW_D : EMU_PSW_S, 0xC000 | syn << 11, 9);
        REFUSED_ON(1, 0);
        CHECK(emu_step(&now.s, &now.m, 1).number == 0);
        REFUSED_ON(1, 0);
        REFUSED_ON(1, 2);
        REFUSED_ON(1, 14);
        CHECK(N.held == (EMU_HELD | (syn == 1 ? 0x11 : 0x22)) && N.bc == 9);
        CHECK(emu_step(&now.s, &now.m, 1).number == 0);
        CHECK(N.held == EMU_NONE_HELD && N.bc == 7);
        REFUSED_ON(1, 0);
    }
    /* two channels take turns, half by half, and each holds its own byte */
    transfer(EMU_PSW_D, 0xC800, 9);
    N2 = N;
    N2.ga.address = 0x1002;
    N2.gb.address = 0x2002;
    for (unsigned i = 0; i < 4; i++) {
        struct emu_stepped stepped = emu_step(&now.s, &now.m, 3);
        CHECK(stepped.number == 0 && stepped.channel == 1 + i % 2 && stepped.kind == 'T' && now.s.last == 1 + i % 2);
        CHECK(N.held == (i < 2 ? 0x111 : 0) && N2.held == (i == 1 || i == 2 ? 0x133 : 0));
    }
    CHECK(now.sys[0x2000] == 0x11 && now.sys[0x2001] == 0x22 && now.sys[0x2002] == 0x33 && now.sys[0x2003] == 0x44);
    PLAY(
         /* channel 2's DRQ is line 2 */
         "transfer=D,C800,9 twins mode=idle held=155 refused=1,1",
         "want last=2 2.held=111 T,2,2");
}

/* Ends: by count, TS and match at the second half, or at a first store that meets TMC. */
static void test_pair_ends(void)
{
    /* TS does not end it at the first half, and does at the second */
    for (unsigned syn = 1; syn < 3; syn++) {
        transfer(syn == 1 ? EMU_PSW_D : EMU_PSW_S, 0xC080 | syn << 11, 9);
        want_half(syn == 1 ? 0x11 : 0x22);
        if (syn == 2) want_sys(0x2000, "11");
        DONE_ON('T', 1, 1);
        want_pair(0);
        want_sys(0x2000, "11 22");
        DONE_ON('T', 1, 1);
    }
    /* the count: 2 ends at the second half, by TBC's offset; 0 and 3 go on; with TBC off nothing ends, and 1 is a pair */
    for (unsigned syn = 1; syn < 3; syn++) {
        static const struct {
            unsigned cc, before;
            int end;
        } rows[] = {{0x08, 2, 0}, {0x10, 2, 4}, {0x18, 2, 8}, {0x18, 0, -1}, {0x18, 3, -1}, {0x00, 2, -1}, {0x00, 1, -1},
                    {0x98, 2, 8}, {0x88, 0, 0}};
        for (unsigned i = 0; i < sizeof rows / sizeof rows[0]; i++) {
            transfer(syn == 1 ? EMU_PSW_D : EMU_PSW_S, 0xC000 | syn << 11 | rows[i].cc, rows[i].before);
            want_half(syn == 1 ? 0x11 : 0x22);
            if (syn == 2) want_sys(0x2000, "11");
            DONE_ON('T', 1, 1);
            want_pair(rows[i].end);
            want_sys(0x2000, "11 22");
            DONE_ON('T', 1, 1);
        }
    }
    PLAY(
         /* of a word that came in two fetches the low byte, which is the held one, is looked at */
         "transfer=D,C802,9 mc=FF11 half=11 T,1,1",
         "pair=4 @2000=11.22 T,1,1",
         "transfer=D,C802,9 mc=FF22 half=11 T,1,1",
         "pair @2000=11.22 T,1,1",
         "transfer=D,C806,9 mc=FF22 held=122 pair @2000=22.22 T,1,1",
         "transfer=D,C806,9 mc=FF22 held=123 pair=4 @2000=23.22 T,1,1",
         /* of two stores the second */
         "transfer=S,D003,9 mc=FF22 half=22 @2000=11 T,1,1",
         "pair=8 @2001=22 T,1,1");
    /* match, count and TS at a second half: the largest offset */
    for (unsigned syn = 1; syn < 3; syn++) {
        transfer(syn == 1 ? EMU_PSW_D : EMU_PSW_S, 0xC093 | syn << 11, 2);
        N.mc = 0xFF99;
        N.held = EMU_HELD | 0x99;
        want_pair(8);
        want_sys(syn == 1 ? 0x2000 : 0x2001, syn == 1 ? "99 22" : "99");
        DONE_ON('T', 1, 1);
    }
}

/* The first of two stores meets TMC: it ends there, pointers by 1, BC by 2, and nothing is held. */
static void test_pair_cut(void)
{
    static const struct {
        unsigned cc, before, after;
        int end;
    } rows[] = {
        {0xD019, 2, 0, 8},      /* TBC + 8, TMC + 0: the count has ended too */
        {0xD00B, 2, 0, 8},      /* TBC + 0, TMC + 8 */
        {0xD012, 2, 0, 4},      /* both + 4 */
        {0xD001, 2, 0, 0},      /* TBC off: BC 0 is no end, though the match is */
        {0xD002, 1, 0xFFFF, 4}, /* TBC off */
        {0xD003, 0, 0xFFFE, 8}, /* TBC off */
        {0xD01A, 0, 0xFFFE, 4}, /* TBC on: no end by the count */
        {0xD019, 3, 1, 0},      /* TBC on, one byte would be left */
        {0xD082, 9, 7, 4},      /* TS too */
        {0xD099, 2, 0, 8},      /* all three */
    };
    for (unsigned i = 0; i < 2 * (sizeof rows / sizeof rows[0]); i++) {
        bool none = i % 2 == 1;
        transfer(EMU_PSW_S, rows[i / 2].cc | (none ? 4u : 0), rows[i / 2].before);
        N.mc = none ? 0xFF22 : 0xFF11;
        want_cut(rows[i / 2].end);
        CHECK(W.ga.address == 0x1001 && W.gb.address == 0x2001 && W.bc == rows[i / 2].after && W.held == EMU_NONE_HELD);
        DONE_ON('T', 1, 1);
    }
    PLAY(
         /* the second store is then neither made nor tested, the second fetch is */
         "transfer=S,D001,9 mc=FF11 sys_len=2001 cut=0 T,1,1");
}

/* What is no pair is done in one step, under a request or without. */
static void test_pair_never(void)
{
    static const struct {
        unsigned widths, cc, from, to, bc;
        bool two;
    } rows[] = {
        {EMU_PSW_D, 0xC000, 0x1000, 0x2000, 9, true},             /* not synchronised */
        {EMU_PSW_S, 0xC000, 0x1000, 0x2000, 9, true},
        {EMU_PSW_S, 0xC800, 0x1000, 0x2000, 9, true},             /* the word side is the synchronised one */
        {EMU_PSW_D, 0xD000, 0x1000, 0x2000, 9, true},
        {EMU_PSW_S | EMU_PSW_D, 0xC800, 0x1000, 0x2001, 9, true},
        {EMU_PSW_S | EMU_PSW_D, 0xD000, 0x1001, 0x2000, 9, true},
        {EMU_PSW_S | EMU_PSW_D, 0xC800, 0x1000, 0x2000, 9, true}, /* words on both sides */
        {EMU_PSW_S | EMU_PSW_D, 0xD000, 0x1000, 0x2000, 9, true},
        {0, 0xC800, 0x1000, 0x2000, 9, false},                    /* no word side */
        {0, 0xD000, 0x1000, 0x2000, 9, false},
        {EMU_PSW_D, 0xC800, 0x1000, 0x2001, 9, false},
        {EMU_PSW_S, 0xD000, 0x1001, 0x2000, 9, false},
        {EMU_PSW_D, 0xC808, 0x1000, 0x2000, 1, false},            /* the last byte goes alone */
        {EMU_PSW_S, 0xD010, 0x1000, 0x2000, 1, false},
        {EMU_PSW_S | EMU_PSW_D, 0xC818, 0x1001, 0x2000, 1, false},
    };
    for (unsigned i = 0; i < 2 * (sizeof rows / sizeof rows[0]); i++) {
        transfer(rows[i / 2].widths, rows[i / 2].cc, rows[i / 2].bc);
        N.ga.address = rows[i / 2].from;
        N.gb.address = rows[i / 2].to;
        /* a held byte is not used, and is dropped */
        if (i % 2 == 1) N.held = EMU_HELD | 0x99;
        want_moved(rows[i / 2].two ? 2 : 1, rows[i / 2].bc == 1 ? (int)((rows[i / 2].cc >> 3 & 3) - 1) * 4 : -1);
        W.held = EMU_NONE_HELD;
        memcpy(want.sys + rows[i / 2].to, now.sys + rows[i / 2].from, rows[i / 2].two ? 2 : 1);
        DONE_ON('T', 1, 1);
    }
    PLAY(
         /* translation under a request moves one byte, whatever is held */
         "transfer=-,E800,9 held=112 @3011=99 moved=1 held=0 @2000=99 T,1,1");
}

/* Gives channel 1 an attention with this CCW while it holds 5Ah in this mode, and wants that it then holds so much. */
static void attend_holding(unsigned ccw, enum emu_mode mode, unsigned held, int line)
{
    transfer(EMU_PSW_D, 0xC800, 9);
    N.mode = mode;
    N.held = EMU_HELD | 0x5A;
    N2.held = EMU_HELD | 0xA5;
    block(1, ccw);
    check(emu_attention(&now.s, &now.m, 1).number == 0, "accepted with a byte held", line);
    check(N.held == held, "held behind an attention", line);
    check(N2.held == (EMU_HELD | 0xA5), "the other channel's byte", line);
}

/* What keeps a held byte. */
static void test_held_kept(void)
{
    for (unsigned upper = 0; upper < 32; upper++) {
        for (unsigned mode = 0; mode < 3; mode++) attend_holding(upper << 3, (enum emu_mode)mode, 0x15A, __LINE__);
        attend_holding(upper << 3 | 6, EMU_RUNNING, 0x15A, __LINE__);
        attend_holding(upper << 3 | 5, EMU_SUSPENDED, 0x15A, __LINE__);
    }
    /* over a suspend and a resume, and then used */
    for (unsigned syn = 1; syn < 3; syn++) {
        transfer(syn == 1 ? EMU_PSW_D : EMU_PSW_S, 0xC000 | syn << 11, 9);
        CHECK(emu_step(&now.s, &now.m, 1).number == 0);
        block(1, 6);
        want_same();
        want_sys(0x400, syn == 1 ? "00 01 00 45" : "00 01 00 46");
        want_sys(0x41, "00");
        W.mode = EMU_SUSPENDED;
        W.psw &= (uint8_t) ~(EMU_PSW_TB | EMU_PSW_XF);
        ATTEND(1);
        REFUSED_ON(1, 15);
        block(1, 5);
        want_same();
        want_sys(0x41, "FF");
        W.mode = EMU_RUNNING;
        W.psw |= EMU_PSW_TB | EMU_PSW_XF;
        ATTEND(1);
        REFUSED_ON(1, 0);
        sys(0x1000, syn == 1 ? "88" : "88 99");
        want_pair(-1);
        want_sys(0x2000, "11 22");
        DONE_ON('T', 1, 1);
    }
    /* what the other channel does: attentions, instructions, transfers, external ends */
    for (unsigned command = 0; command < 8; command++) {
        static const enum emu_mode taken[8] = {EMU_IDLE, EMU_IDLE,      EMU_IDLE,    EMU_IDLE,
                                               EMU_IDLE, EMU_SUSPENDED, EMU_RUNNING, EMU_RUNNING};
        if (command == 2 || command == 4) continue;
        transfer(EMU_PSW_D, 0xC800, 9);
        N.held = EMU_HELD | 0x5A;
        N2.mode = taken[command];
        block(2, command);
        CHECK(emu_attention(&now.s, &now.m, 2).number == 0 && N.held == 0x15A);
    }
    for (unsigned i = 0; i < 3; i++) {
        transfer(EMU_PSW_D, 0xC800, 9);
        N.held = EMU_HELD | 0x5A;
        N2 = N;
        N2.held = EMU_NONE_HELD;
        emu_set_cc(&N2, i == 0 ? 0 : i == 1 ? 0xC000 : 0xC020);
        N2.psw = (uint8_t)(i == 0 ? EMU_PSW_TB : N2.psw);
        sys(0x100, "00 00");
        struct emu_stepped stepped = emu_step(&now.s, &now.m, i == 2 ? 8 : 0);
        CHECK(stepped.number == 0 && stepped.channel == 2 && stepped.kind == "ITX"[i] && N.held == 0x15A);
    }
    PLAY(
         /* refused: resume, start and suspend in the wrong mode, a start whose bytes are not lent, and steps */
         "transfer=D,C800,9 held=15A block=1,05 attend=1,7",
         "block=1,03 attend=1,8",
         "block=1,02 attend=1,6",
         "mode=idle block=1,06 attend=1,9",
         "block=1,03 sys_len=501 attend=1,2",
         "reset held=15A @100=04.04 refused=3",
         "@100=C0.38 refused=4",
         "mode=suspended refused=1");
}

/* What drops a held byte. */
static void test_held_dropped(void)
{
    /* start in either space, from idle and suspended; halt from any mode */
    for (unsigned mode = 0; mode < 3; mode++) {
        if (mode != EMU_RUNNING) attend_holding(1, (enum emu_mode)mode, 0, __LINE__);
        if (mode != EMU_RUNNING) attend_holding(3, (enum emu_mode)mode, 0, __LINE__);
        attend_holding(7, (enum emu_mode)mode, 0, __LINE__);
    }
    PLAY(
         /* an instruction, HLT among them; where the mark becomes XF too */
         "reset held=15A code=00.00 held=0 I",
         "reset held=15A armed=1 code=A0.00 held=0 armed=0 psw+XF,D I",
         "reset held=15A code=20.48 held=0 mode=idle psw=- @41=00 I");
    /* an external end stores nothing and moves neither pointers nor BC, with DRQ up or not */
    for (unsigned i = 0; i < 4; i++) {
        transfer(i % 2 == 0 ? EMU_PSW_D : EMU_PSW_S, (i % 2 == 0 ? 0xC800 : 0xD000) | 0x60, 9);
        CHECK(emu_step(&now.s, &now.m, 1).number == 0 && N.held != EMU_NONE_HELD);
        want_same();
        W.held = EMU_NONE_HELD;
        W.psw &= (uint8_t)~EMU_PSW_XF;
        W.tp.address += 8;
        DONE_ON('X', 1, i < 2 ? 4 : 5);
    }
    PLAY(
         /* a pair whose second half comes when one byte is left: that byte goes alone, read anew */
         "transfer=D,C818,9 step=1 held?111",
         "bc=1 @1000=77 moved=1,8 held=0 @2000=77 T,1,1",
         "transfer=S,D018,9 step=1 held?122",
         "bc=1 @1000=77 moved=1,8 held=0 @2000=77 T,1,1");
    /* nothing is held in a state that is made */
    struct emu_state s;
    memset(&s, 0xFF, sizeof s);
    CHECK(emu_fresh(0x40, &s) == 0 && s.channel[0].held == EMU_NONE_HELD && s.channel[1].held == EMU_NONE_HELD);
    memset(&s, 0xFF, sizeof s);
    CHECK(emu_fresh(0x100000, &s) == 10 && s.channel[0].held == EMU_NONE_HELD && s.channel[1].held == EMU_NONE_HELD);
    memset(&s, 0xFF, sizeof s);
    emu_reset(&s);
    CHECK(s.channel[0].held == EMU_NONE_HELD && s.channel[1].held == EMU_NONE_HELD);
    reset();
    board("01", "00");
    N.held = EMU_HELD | 0x5A;
    N2.held = EMU_HELD | 0xA5;
    CHECK(emu_power_up(&now.s, &now.m).number == 0 && N.held == EMU_NONE_HELD && N2.held == EMU_NONE_HELD);
    reset();
    N.held = EMU_HELD | 0x5A;
    now.m.sys_len = 0x10;
    CHECK(emu_power_up(&now.s, &now.m).number == 2 && N.held == 0x15A);
}

/* Refusals 5 and 2: either half asks for 5 first, and for 2 only at the bytes that it reads or stores. */
static void test_pair_refusals(void)
{
    /* 5, whatever is held and lent */
    for (unsigned i = 0; i < 2; i++) {
        transfer(EMU_PSW_D, 0xD800, 9);
        if (i == 1) N.held = EMU_HELD | 0x5A;
        REFUSED_ON(5, 1);
        now.m.sys_len = 0;
        REFUSED_ON(5, 1);
        for (unsigned syn = 1; syn < 3; syn++) {
            transfer(syn == 1 ? EMU_PSW_D : EMU_PSW_S, 0xE000 | syn << 11, 9);
            if (i == 1) N.held = EMU_HELD | 0x5A;
            REFUSED_ON(5, 1);
            now.m.sys_len = 0;
            REFUSED_ON(5, 1);
        }
    }
    PLAY(
         /* first fetch: the first source byte and no other */
         "transfer=D,C800,9 sys_len=1000 refused=2,1",
         "sys_len=1001 half=11 T,1,1",
         /* second fetch: the second source byte, then both of the word */
         "refused=2,1",
         "sys_len=1002 refused=2,1",
         "sys_len=2001 refused=2,1",
         "sys_len=2002 pair @2000=11.22 T,1,1",
         /* it does not ask for the first source byte again */
         "transfer=SD,C800,9 ga=FFFFF held=15A @0=33 sys_len=2002 pair @2000=5A.33 T,1,1",
         /* first store: both source bytes and the first place */
         "transfer=S,D000,9 gb=800 sys_len=1000 refused=2,1",
         "sys_len=1001 refused=2,1",
         "transfer=S,D000,9 sys_len=2000 refused=2,1",
         "sys_len=2001 half=22 @2000=11 T,1,1",
         /* second store: the second place and no other */
         "refused=2,1",
         "sys_len=2002 ga=3000 pair @2001=22 T,1,1",
         "transfer=SD,D000,9 ga=3000 gb=FFFFF held=15A sys_len=1 pair @0=5A T,1,1",
         /* a byte that ends at the first store asks for the second source byte nevertheless */
         "transfer=S,D001,9 ga=2FFE mc=0 sys_len=2FFF refused=2,1");
}

/* Pairs from and to empty slots. */
static void test_pair_slots(void)
{
    PLAY(
         "transfer=D,8800,9 ga=2000/1 io_len=1000 half=FF T,1,1",
         "pair @2000=FF.FF T,1,1",
         /* into slots: what vanishes is looked at, and counts */
         "transfer=D,C801,9 gb=2000/1 mc=FF11 io_len=1000 half=11 T,1,1",
         "pair=0 T,1,1",
         "transfer=S,5000,9 gb=2000/1 io_len=1000 half=22 T,1,1",
         "pair T,1,1",
         /* a card that is pulled between the halves */
         "transfer=D,8800,9 ga=2000/1 #2000=31 half=31 T,1,1",
         "io_len=2000 pair @2000=31.FF T,1,1");
}

/* How many bytes each half reads and stores: 1 and 3, or 3 and 1; and 3 for a first store that ends. */
static void test_counts_of_halves(void)
{
    static const unsigned counts[2][2] = {{1, 3}, {3, 1}};
    for (unsigned i = 0; i < 4; i++) {
        bool stores = i % 2 == 1;
        transfer(stores ? EMU_PSW_S : EMU_PSW_D, (stores ? 0xD000 : 0xC800) & (i < 2 ? 0xFFFF : 0x3FFF), 9);
        if (i >= 2) N.ga.tag = N.gb.tag = true, now.m.io_len = 0;
        for (unsigned half = 0; half < 2; half++) {
            struct emu_stepped stepped = emu_step(&now.s, &now.m, 1);
            CHECK(stepped.number == 0 && stepped.kind == 'T' && stepped.count == counts[stores][half]);
        }
        CHECK(N.held == EMU_NONE_HELD && N.bc == 7);
    }
    transfer(EMU_PSW_S, 0xD001, 9);
    N.mc = 0xFF11;
    CHECK(emu_step(&now.s, &now.m, 1).count == 3 && N.held == EMU_NONE_HELD);
    /* a waiting step and a refused half count none */
    transfer(EMU_PSW_D, 0xC800, 9);
    CHECK(emu_step(&now.s, &now.m, 0).count == 0);
    now.m.sys_len = 0x1001;
    CHECK(emu_step(&now.s, &now.m, 1).count == 1 && emu_step(&now.s, &now.m, 1).count == 0);
}

/* States that differ in what is held differ. */
static void test_held_compared(void)
{
    reset();
    want_same();
    CHECK(emu_same_state(&now.s, &want.s) && !emu_holds(&now.s));
    N.held = EMU_HELD;
    CHECK(!emu_same_state(&now.s, &want.s) && emu_holds(&now.s));
    W.held = EMU_HELD | 1;
    CHECK(!emu_same_state(&now.s, &want.s));
    N.held = W.held = EMU_NONE_HELD;
    N2.held = EMU_HELD | 0xFF;
    CHECK(!emu_same_state(&now.s, &want.s) && emu_holds(&now.s));
}

/* A run with DRQ up throughout: both halves are steps. */
static void test_pair_run(void)
{
    static uint8_t bytes[0x100], ports[16];
    struct emu_memory m = {bytes, sizeof bytes, ports, sizeof ports};
    memset(bytes, 0, sizeof bytes);
    put(bytes, sizeof bytes, 0, "03 00 10 00 00 00");
    put(bytes, sizeof bytes, 0x10, "20 00 00 00");
    /* MOVI GA,4; LPDI GB,80h,0; MOVI BC,5; MOVI CC,8808h; XFER; WID 8,16; HLT */
    put(bytes, sizeof bytes, 0x20, "11 30 04 00 31 08 80 00 00 00 71 30 05 00 D1 30 08 88 60 00 A0 00 20 48");
    ports[4] = 0x5A;
    CHECK(emu_run(&m, 0, 1, 0, 100) == 1 * 65536 + 6);
    put(bytes, sizeof bytes, 0, "03 00");
    CHECK(emu_run(&m, 0, 1, 1, 100) == 1 * 65536 + 12);
    for (unsigned i = 0; i < 6; i++) CHECK(bytes[0x80 + i] == (i < 5 ? 0x5A : 0));
    /* at a limit between the halves nothing is stored yet of the second word */
    memset(bytes + 0x80, 0, 8);
    put(bytes, sizeof bytes, 0, "03 00");
    CHECK(emu_run(&m, 0, 1, 1, 9) == 9);
    CHECK(bytes[0x81] == 0x5A && bytes[0x82] == 0);
}

/* The counters of pairs and held bytes. */
static void test_pair_coverage(void)
{
    static struct emu_coverage c;
    memset(&c, 0, sizeof c);
    emu_coverage = &c;
    transfer(EMU_PSW_D, 0x8898, 3);
    N.ga = (struct emu_pointer){0x2000, true};
    now.m.io_len = 0;
    now.m.sys_len = 0x2001;
    CHECK(emu_step(&now.s, &now.m, 1).number == 0 && emu_step(&now.s, &now.m, 1).number == 2);
    PLAY(
         "sys_len=2002 step=1",
         "transfer=SD,D002,9 gb=2001 mc=FF11 2.held=100 step=1",
         "psw+XF held=100 cc=C800 ga=1000 step=1");
    N.held = EMU_HELD;
    emu_set_cc(&N, 0xF800);
    CHECK(emu_step(&now.s, &now.m, 1).number == 5);
    PLAY(
         "block=1,00 attended=1");
    emu_coverage = NULL;
    CHECK(c.half_end[EMU_FIRST_FETCH][0] == 1 && c.half_end[EMU_SECOND_FETCH][EMU_END_TS] == 1);
    CHECK(c.half_end[EMU_FIRST_STORE][EMU_END_TMC] == 1 && c.half_end[EMU_FIRST_STORE][0] == 0);
    CHECK(c.half_side[EMU_FIRST_FETCH][EMU_SIDE_IO] == 1 && c.half_side[EMU_SECOND_FETCH][EMU_SIDE_IO] == 1);
    CHECK(c.half_side[EMU_FIRST_STORE][EMU_SIDE_MOVES | EMU_SIDE_ODD] == 1);
    CHECK(c.half_spared[EMU_FIRST_FETCH][EMU_SECOND_STORED] == 1);
    CHECK(c.half_spared[EMU_FIRST_FETCH][EMU_FIRST_STORED] == 0);
    CHECK(c.half_beyond[EMU_SECOND_FETCH][EMU_SECOND_STORED] == 1);
    CHECK(c.half_beyond[EMU_SECOND_FETCH][EMU_FIRST_STORED] == 0);
    CHECK(c.half_slot[EMU_FIRST_FETCH][EMU_FIRST_READ] == 1 && c.half_slot[EMU_SECOND_FETCH][EMU_SECOND_READ] == 1);
    CHECK(c.leftover[1][0][EMU_LEFTOVER_OFF_MORE] == 1 && c.leftover[0][0][EMU_LEFTOVER_OFF_MORE] == 0);
    CHECK(c.held_whole[EMU_WHOLE_SYNCHRONISED_WORD] == 1 && c.bad_transfer[1][0] == 1 && c.bad_transfer[0][0] == 0);
    CHECK(c.held_attention[0] == 1 && c.held_refused[2] == 1 && c.held_refused[5] == 1);
    CHECK(c.held_beside[EMU_BESIDE_TRANSFER] == 2 && c.held_beside[EMU_BESIDE_ATTENTION] == 1);
}

/* ---- Invariants over made-up calls ---- */

/* A number from a fixed sequence. */
static uint32_t made_up(void)
{
    static uint64_t seed = 88172645463325252u;
    seed ^= seed << 13;
    seed ^= seed >> 7;
    seed ^= seed << 17;
    return (uint32_t)(seed >> 16);
}

/* A small address, or now and then one at an edge. */
static uint32_t made_up_address(void)
{
    static const uint32_t edges[] = {0xFFFFF, 0xFFFF, 0xFFFE, 0x10000, 0xFFFFC, 0x100000};
    uint32_t r = made_up();
    return r % 16 == 0 ? edges[r / 16 % 6] : r / 16 % 220;
}

/* A channel with anything in it. */
static void made_up_channel(struct emu_channel *c)
{
    struct emu_pointer *pointers[4] = {&c->ga, &c->gb, &c->gc, &c->tp};
    for (unsigned i = 0; i < 4; i++) *pointers[i] = (struct emu_pointer){made_up_address(), made_up() % 2 != 0};
    c->pp = made_up_address() & 0xFFFFF;
    c->bc = (uint16_t)(made_up() % 5);
    c->ix = (uint16_t)(made_up() % 8);
    emu_set_cc(c, (uint16_t)made_up());
    if (made_up() % 50 == 0) c->cc ^= (uint16_t)(1u << made_up() % 16);
    c->mc = (uint16_t)made_up();
    c->psw = (uint8_t)made_up();
    c->mode = (enum emu_mode)(made_up() % 3);
    c->armed = made_up() % 4 == 0;
    c->held = (uint16_t)(made_up() % 2 == 0 ? EMU_NONE_HELD : EMU_HELD | made_up() % 256);
}

/* Whether every 20-bit register of a state is one, the fields are those of CC, and what is held is a byte or nothing. */
static bool sound(const struct emu_state *s)
{
    bool good = s->cp <= 0xFFFFF;
    for (unsigned i = 0; i < 2; i++) {
        const struct emu_channel *c = &s->channel[i];
        good = good && c->ga.address <= 0xFFFFF && c->gb.address <= 0xFFFFF && c->gc.address <= 0xFFFFF;
        good = good && c->tp.address <= 0xFFFFF && c->pp <= 0xFFFFF;
        good = good && emu_fields_value(&c->fields) == (c->cc & 0xFDFF);
        good = good && (c->held == EMU_NONE_HELD || (c->held >= EMU_HELD && c->held <= 0x1FF));
    }
    return good;
}

/* A refusal changes nothing, a done call leaves a sound state, marks its channel and lets the other one be. */
static void test_invariants(void)
{
    unsigned broken = 0, numbers[EMU_NUMBERS] = {0};
    for (unsigned long i = 0; i < 200000; i++) {
        uint8_t a[256], b[256], a0[256], b0[256];
        struct emu_memory m = {a, made_up() % 257, b, made_up() % 257};
        struct emu_state s, s0;
        for (unsigned j = 0; j < 256; j++) a[j] = (uint8_t)made_up(), b[j] = (uint8_t)(made_up() % 2 ? made_up() : 0);
        emu_fresh(made_up() % 200, &s);
        s.powered = made_up() % 50 != 0;
        s.io_wide = made_up() % 2 != 0;
        made_up_channel(&s.channel[0]);
        made_up_channel(&s.channel[1]);
        if (made_up() % 2 != 0) a[s.channel[0].tp.address % 255 + 1] = (uint8_t)(made_up() % 0x40 << 2);
        s0 = s;
        memcpy(a0, a, sizeof a);
        memcpy(b0, b, sizeof b);
        bool attention = made_up() % 4 == 0;
        unsigned channel = made_up() % 2 + 1, number, count, least = 1, most = 10;
        if (attention) {
            struct emu_answer answer = emu_attention(&s, &m, channel);
            number = answer.number;
            count = answer.count;
        } else {
            struct emu_stepped stepped = emu_step(&s, &m, made_up() % 17);
            number = stepped.number;
            channel = stepped.channel;
            count = stepped.count;
            least = stepped.kind == 'X' ? 0 : stepped.kind == 'T' ? 1 : 2;
            most = stepped.kind == 'X' ? 0 : stepped.kind == 'T' ? 4 : 10;
        }
        numbers[number]++;
        broken += number != 0 ? count != 0 : count < least || count > most;
        bool changed = !emu_same_state(&s, &s0) || memcmp(a, a0, sizeof a) != 0 || memcmp(b, b0, sizeof b) != 0;
        if (number != 0) {
            broken += changed;
            continue;
        }
        broken += !sound(&s) || s.cp != s0.cp || s.last != (attention ? s0.last : channel);
        s0.channel[channel - 1] = s.channel[channel - 1];
        s0.last = s.last;
        broken += !emu_same_state(&s, &s0);
    }
    CHECK(broken == 0);
    for (unsigned number = 0; number < EMU_NOT_SWEEPABLE; number++) CHECK(number == 11 || numbers[number] > 0);
}

/* ---- How many bytes a call touches ---- */

/* An instruction, what stands at GA and 5 behind it, and how many bytes it reads and stores. */
struct counted {
    const char *hex, *at_ga;
    unsigned count;
};

/* Instructions: their own bytes, and each access of their operands. */
static void test_counts_of_instructions(void)
{
    static const struct counted cases[] = {
        /* nothing but their own bytes, and HLT's BUSY */
        {"00 00", "00", 2}, {"40 00", "00", 2}, {"60 00", "00", 2}, {"E0 00", "00", 2}, {"60 38", "00", 2},
        {"20 48", "00", 3}, {"68 30 12", "00", 3}, {"71 30 34 12", "00", 4}, {"71 20 34 12", "00", 4},
        {"88 20 00", "00", 3}, {"91 20 00 00", "00", 4}, {"11 08 00 00 00 00", "00", 6},
        /* an operand read, or stored */
        {"60 80", "00", 3}, {"61 80", "00", 4}, {"63 80 05", "00", 5}, {"63 A0 05", "00", 5}, {"63 AC 05", "00", 5},
        {"60 84", "00", 3}, {"63 84 05", "00", 5}, {"08 4C 12", "00", 4}, {"13 4C 05 34 12", "00", 7},
        {"03 88 05", "00", 7}, {"03 8C 05", "00", 6}, {"03 98 05", "00", 6},
        /* read and then stored: the same byte twice */
        {"00 E8", "00", 4}, {"03 E8 05", "00", 7}, {"03 EC 05", "00", 7}, {"03 DC 05", "00", 7}, {"63 D0 05", "00", 7},
        {"13 C0 05 34 12", "00", 9}, {"02 F4 05", "00", 5}, {"02 F8 05", "00", 5},
        /* MOV M,M of bytes and words, with none, one and two offset bytes */
        {"00 90 00 CD", "00", 6}, {"01 90 01 CD", "00", 8}, {"03 90 05 01 CD", "00", 9}, {"01 90 03 CD 05", "00", 9},
        {"03 91 08 03 CC 0A", "00", 10},
        /* jumps, taken and not: the displacement counts both ways */
        {"09 E4 05", "00 00", 5}, {"09 E4 05", "00 01", 5}, {"11 E4 05 00", "00 00", 6}, {"11 E4 05 00", "00 01", 6},
        {"13 E4 05 00 00", "00", 7}, {"68 40 10", "00", 3}, {"70 44 10 00", "00", 4}, {"70 40 10 00", "00", 4},
        {"08 BC 10", "01", 4}, {"08 BC 10", "00", 4}, {"12 BC 05 10 00", "00", 6}, {"12 B0 05 10 00", "00", 6},
        {"8B 9C 05 00", "00", 7}, {"93 9C 05 00 00", "00", 8},
        /* TSL stores where it found 0 */
        {"18 94 FF 10", "00", 6}, {"18 94 FF 10", "01", 5}, {"1A 94 05 FF 10", "00 00 00 00 00 00", 7},
        {"1A 94 05 FF 10", "00 00 00 00 00 80", 6},
    };
    for (unsigned i = 0; i < sizeof cases / sizeof cases[0]; i++) {
        reset();
        sys(0x1000, cases[i].at_ga);
        sys(0x100, cases[i].hex);
        struct emu_stepped stepped = emu_step(&now.s, &now.m, 0);
        check(stepped.number == 0 && stepped.kind == 'I' && stepped.count == cases[i].count, cases[i].hex, __LINE__);
    }
    /* empty slots count: INC of a word of which one byte or none is there */
    for (size_t io_len = 0; io_len < 2; io_len++) {
        slot(0, io_len);
        sys(0x100, "01 E8");
        CHECK(emu_step(&now.s, &now.m, 0).count == 6);
    }
}

/* Attention: the CCW, and what its command reads and stores. */
static void test_counts_of_attentions(void)
{
    static const unsigned ccw[] = {0, 7, 6, 5, 1, 3}, counts[] = {1, 2, 6, 6, 8, 10};
    static const enum emu_mode modes[] = {EMU_IDLE, EMU_IDLE, EMU_RUNNING, EMU_SUSPENDED, EMU_IDLE, EMU_SUSPENDED};
    for (unsigned i = 0; i < 12; i++) {
        unsigned channel = 1 + i / 6;
        reset();
        now.s.channel[channel - 1].mode = modes[i % 6];
        block(channel, ccw[i % 6] | 0x38);
        struct emu_answer answer = emu_attention(&now.s, &now.m, channel);
        CHECK(answer.number == 0 && answer.count == counts[i % 6]);
    }
    /* refused by its command, and by a byte that is not lent, after bytes were read */
    reset();
    block(1, 3);
    CHECK(emu_attention(&now.s, &now.m, 1).number == 8 && emu_attention(&now.s, &now.m, 1).count == 0);
    N.mode = EMU_IDLE;
    now.m.sys_len = 0x501;
    CHECK(emu_attention(&now.s, &now.m, 1).number == 2 && emu_attention(&now.s, &now.m, 1).count == 0);
}

/* Transfer steps: one byte, one translated, two, two where a match prevents the second store; and external ends. */
static void test_counts_of_transfers(void)
{
    static const unsigned both = EMU_PSW_S | EMU_PSW_D;
    PLAY(
         "transfer=-,C008,9 counts=2",
         "transfer=-,E008,9 counts=3",
         "transfer=SD,C008,9 counts=4",
         "transfer=SD,C008,1 counts=2",
         /* ports that do not move on are taken twice */
         "transfer=D,8008,9 counts=4",
         "transfer=S,4008,9 counts=4",
         /* the first of two single stores meets TMC, the second does, and a word's low byte does */
         "transfer=S,C001,9 mc=FF11 counts=3",
         "transfer=S,C001,9 mc=FF22 counts=4",
         "transfer=SD,C001,9 mc=FF11 counts=4",
         /* from and to empty slots */
         "transfer=SD,C008,9 ga=/1 gb=/1 io_len=0 counts=4");
    /* refused: SYN 11, and a byte of the destination beyond what is lent */
    transfer(0, 0xD808, 9);
    CHECK(emu_step(&now.s, &now.m, 0).number == 5 && emu_step(&now.s, &now.m, 0).count == 0);
    transfer(both, 0xC008, 9);
    now.m.sys_len = 0x2001;
    CHECK(emu_step(&now.s, &now.m, 0).number == 2 && emu_step(&now.s, &now.m, 0).count == 0);
    transfer(both, 0xC060, 9);
    struct emu_stepped stepped = emu_step(&now.s, &now.m, 4);
    CHECK(stepped.number == 0 && stepped.kind == 'X' && stepped.count == 0);
}

/* ---- Counters ---- */

/* The lent counters say what happened, and refused steps count as refusals only. */
static void test_coverage(void)
{
    static struct emu_coverage c;
    memset(&c, 0, sizeof c);
    emu_coverage = &c;
    reset();
    sys(0x100, "88 20 00");
    CHECK(emu_step(&now.s, &now.m, 0).number == 0);
    sys(0x103, "04 04");
    CHECK(emu_step(&now.s, &now.m, 0).number == 3);
    PLAY(
         "transfer=S,C09A,9 mc=FF11 step",
         "transfer=S,C060,9 step=4",
         "block=1,06 attended=1");
    CHECK(emu_attention(&now.s, &now.m, 1).number == 9);
    N2.cc = 0x0A00;
    CHECK(emu_attention(&now.s, &now.m, 1).number == 14);
    CHECK(emu_step(&now.s, &now.m, 16).number == 12);
    N.cc ^= 1;
    CHECK(emu_step(&now.s, &now.m, 0).number == 14);
    emu_coverage = NULL;
    CHECK(strcmp(emu_row_name(emu_row_of(0x88, 0x20)), "JMP") == 0);
    CHECK(c.row[emu_row_of(0x88, 0x20)] == 1 && c.step_refused[3] == 1);
    CHECK(c.shape[EMU_SHAPE_W_B_CUT] == 1 && c.end[EMU_END_TMC | EMU_END_TS] == 1 && c.end_offset[1] == 1);
    CHECK(c.leftover[0][0][EMU_LEFTOVER_TBC_MORE] == 1 && c.leftover[1][0][EMU_LEFTOVER_TBC_MORE] == 0);
    CHECK(c.external[2] == 1 && c.attention[6] == 1 && c.attention_refused[9] == 1);
    CHECK(c.apart[1][3] == 1 && c.apart_number[12] == 1 && c.apart_number[14] == 2 && c.apart_number[0] == 0);
    CHECK(c.apart_mode[1][EMU_IDLE] == 2 && c.apart_mode[0][EMU_SUSPENDED] == 1 && c.bit_9[0] + c.bit_9[1] == 0);
    unsigned long all = 0;
    for (unsigned row = 0; row < EMU_ROWS; row++) all += c.row[row];
    CHECK(all == 1);
    CHECK(c.slot[EMU_READ][EMU_ALONE] == 0);
    CHECK(strcmp(emu_row_name(EMU_NO_ROW), "3") == 0);
}

/* ---- A sweep in one go ---- */

#define SWEPT(steps, n) swept(1, 0, (steps), (n), __LINE__)
#define UNSWEPT(number) unswept((number), 1, 0, __LINE__)

/* Sweeps worked out by hand. */
static void test_sweep_worked(void)
{
    PLAY(
         /* both sides 16 bits and odd in I/O space, with high bits in both pointers: a lone byte, then two words */
         "transfer=SD,C010,5 ga=30011/1 gb=50021/1 #11=A1.A2.A3.A4.A5.A6 swept=5,4 #21=A1.A2.A3.A4.A5 ga?30016 "
         "gb?50026 tp?104 sweep=3,5",
         /* from system space by GB into I/O space by GA, bytes into words: three words and a last byte */
         "transfer=D,C408,7 ga=44/1 gb=1001/0 @1000=10.11.12.13.14.15.16.17.18 swept=7,0 #44=11.12.13.14.15.16.17 "
         "sweep=4,7");
    /* one byte left, for any widths and addresses */
    for (unsigned i = 0; i < 16; i++) {
        transfer(i % 4, 0xC018, 1);
        N.ga.address += i / 4 % 2;
        N.gb.address += i / 8;
        want_swept(1, 8);
        want_sys(0x2000 + i / 8, i / 4 % 2 == 0 ? "11" : "22");
        SWEPT(1, 1);
    }
    PLAY(
         /* TP wraps in 20 bits and keeps its tag, a pointer at the top goes to 0 */
         "transfer=-,C018,2 tp=FFFFC/1 gb=FFFFE swept=2,8 @FFFFE=11.22 tp?4 gb?0 sweep=2,2");
}

/* The paper's cases 8 to 11, and their neighbours: how many steps a sweep stands for. */
static void test_sweep_steps(void)
{
    static const unsigned both = EMU_PSW_S | EMU_PSW_D;
    static const struct {
        unsigned widths;
        uint32_t from, to, n, steps;
    } cases[] = {
        {0, 0, 0, 5, 5}, {both, 0, 0, 5, 3}, {both, 1, 1, 1, 1}, {both, 1, 1, 4, 3}, {EMU_PSW_S, 1, 0, 2, 2},
        /* two 8-bit sides take a byte a step, wherever they are */
        {0, 1, 0, 4, 4}, {0, 0, 1, 4, 4}, {0, 1, 1, 4, 4},
        /* one word side is enough for two bytes a step */
        {both, 0, 1, 4, 2}, {both, 1, 0, 4, 2}, {EMU_PSW_S, 0, 1, 4, 2}, {EMU_PSW_D, 1, 0, 4, 2},
        {both, 0, 1, 5, 3}, {EMU_PSW_D, 1, 0, 5, 3}, {both, 0, 0, 2, 1}, {both, 0, 0, 3, 2},
        /* none at the start: a lone byte comes first */
        {EMU_PSW_S, 1, 0, 3, 2}, {EMU_PSW_S, 1, 1, 4, 3}, {EMU_PSW_D, 0, 1, 4, 3}, {EMU_PSW_D, 1, 1, 5, 3},
        {both, 1, 1, 2, 2}, {both, 1, 1, 3, 2}, {EMU_PSW_D, 0, 1, 2, 2}, {EMU_PSW_D, 0, 1, 1, 1},
    };
    for (unsigned i = 0; i < sizeof cases / sizeof cases[0]; i++) {
        transfer(cases[i].widths, 0xC008, cases[i].n);
        N.ga.address = 0x3000 + cases[i].from;
        N.gb.address = 0x4000 + cases[i].to;
        sys(0x3000, "01 02 03 04 05 06");
        want_swept(cases[i].n, 0);
        memcpy(want.sys + 0x4000 + cases[i].to, want.sys + 0x3000 + cases[i].from, cases[i].n);
        SWEPT(cases[i].steps, cases[i].n);
    }
}

/* BC 0 is 65,536 bytes, here with all of I/O space on one side. */
static void test_sweep_all(void)
{
    static const unsigned both = EMU_PSW_S | EMU_PSW_D;
    static const struct {
        unsigned widths;
        uint32_t at, steps;
        bool from_io;
    } cases[] = {
        {0, 0x20000, 65536, false},         {both, 0x20000, 32768, false}, {both, 0x20001, 32768, false},
        {EMU_PSW_S, 0x20001, 32769, false}, {0, 0xF0000, 65536, true},     {EMU_PSW_D, 0xEFFFF, 32769, true},
    };
    for (unsigned i = 0; i < sizeof cases / sizeof cases[0]; i++) {
        transfer(cases[i].widths, 0xC008, 0);
        N.ga = cases[i].from_io ? (struct emu_pointer){0x70000, true} : (struct emu_pointer){cases[i].at, false};
        N.gb = cases[i].from_io ? (struct emu_pointer){cases[i].at, false} : (struct emu_pointer){0x70000, true};
        for (unsigned j = 0; j < 65536; j++) {
            now.sys[cases[i].at + j] = (uint8_t)(j * 7 + j / 256 + 1);
            now.io[j] = (uint8_t)(j * 5 + j / 256 + 3);
        }
        want_swept(65536, 0);
        if (cases[i].from_io) memcpy(want.sys + cases[i].at, now.io, 65536);
        else memcpy(want.io, now.sys + cases[i].at, 65536);
        CHECK((cases[i].from_io ? W.ga : W.gb).address == 0x80000);
        SWEPT(cases[i].steps, 65536);
    }
    /* within system space, and one byte less than lent */
    transfer(both, 0xC008, 0);
    N.ga.address = 0x00001;
    N.gb.address = 0x10001;
    now.m.sys_len = 0x20001;
    want_swept(65536, 0);
    memcpy(want.sys + 0x10001, now.sys + 1, 65536);
    SWEPT(32769, 65536);
    PLAY(
         "transfer=SD,C008,0 ga=1 gb=10001 sys_len=20000 unswept=15");
}

/* What a sweep leaves alone: marks, other bits of the PSW, other registers, the other channel; and what it does not ask. */
static void test_sweep_keeps(void)
{
    for (unsigned lines = 0; lines < 4; lines++) {
        transfer(EMU_PSW_S, 0xC308 | (lines % 2) << 2, 4);
        N.psw |= EMU_PSW_PRIORITY | EMU_PSW_LOAD_LIMIT | EMU_PSW_IS | EMU_PSW_IC;
        N.armed = true;
        N.held = EMU_HELD | 0x5A;
        N.ix = 0x1234;
        N.mc = 0xFF11;
        N.ga.tag = lines >= 2;
        N.gc = (struct emu_pointer){0xABCDE, true};
        N2.held = EMU_HELD | 0xA5;
        N2.armed = true;
        N2.psw = 0xFF;
        N2.mode = lines % 2 != 0 ? EMU_SUSPENDED : EMU_IDLE;
        emu_set_cc(&N2, 0xFFFF);
        now.s.system_wide = now.s.io_wide = now.s.soc_1 = true;
        io(0x1000, "51 52 53 54");
        want_swept(4, 0);
        want_sys(0x2000, lines < 2 ? "11 22 33 44" : "51 52 53 54");
        CHECK(W.armed && W.psw == 0xBE);
        swept(1, lines, 2, 4, __LINE__);
        /* with XF clear there is no second one */
        unswept(15, 1, lines, __LINE__);
    }
    PLAY(
         /* without TB, and by channel 2, whose turn it was */
         "transfer=-,C008,3 twins 2.psw=XF mode=suspended last=2 want 2.ga+3 2.gb+3 2.bc=0 2.psw=- @2000=11.22.33 "
         "sweep=3,3,2,3");
}

/* Each condition by itself: met, it is swept; failed, it is 15. */
static void test_sweep_bars(void)
{
    for (unsigned i = 0; i < 16; i++) {
        transfer(0, 0xC008, 4);
        if (i < 4) CHECK(emu_sweep(&now.s, &now.m, 1, i).number == 0);
        else unswept(15, 1, i, __LINE__);
    }
    /* modes: this channel running, the other not, also where that one only waits */
    for (unsigned i = 0; i < 9; i++) {
        transfer(0, 0xC008, 4);
        N.mode = (enum emu_mode)(i % 3);
        N2.mode = (enum emu_mode)(i / 3);
        N2.psw = EMU_PSW_XF;
        emu_set_cc(&N2, 0x0800);
        if (N.mode == EMU_RUNNING && N2.mode != EMU_RUNNING) CHECK(emu_sweep(&now.s, &now.m, 1, 0).number == 0);
        else UNSWEPT(15);
    }
    /* every CC: both sides move, no translation, SYN 00, TS 0, TX 00, TBC on, TMC's low bits 00; the rest is free */
    unsigned done_ones = 0, wrong = 0;
    transfer(0, 0xC008, 4);
    for (unsigned cc = 0; cc < 65536; cc++) {
        struct emu_state s = now.s;
        emu_set_cc(&s.channel[0], (uint16_t)cc);
        bool plain = (cc & 0xF8E3) == 0xC000 && (cc & 0x0018) != 0;
        struct emu_swept answer = emu_sweep(&s, &now.m, 1, 0);
        wrong += answer.number != (plain ? 0u : 15u) || answer.steps != (plain ? 4u : 0u);
        done_ones += answer.number == 0;
    }
    CHECK(wrong == 0);
    CHECK(done_ones == 3 * 2 * 8);
    PLAY(
         "transfer=-,C008,4 psw=P,LL,IS,IC,TB,S,D unswept=15");
}

/* The fields decide where CC and they agree, and bit 9 of CC is in none. */
static void test_sweep_fields(void)
{
    transfer(0, 0xC008, 4);
    N.cc ^= 0x0200;
    CHECK(emu_sweep(&now.s, &now.m, 1, 0).number == 0);
    for (unsigned bit = 0; bit < 16; bit++) {
        transfer(0, 0xC008, 4);
        N.cc ^= (uint16_t)(1u << bit);
        if (bit != 9) UNSWEPT(14);
    }
}

/* Points both sides, which move n bytes, and lends so much. */
static void ranges(struct emu_pointer from, struct emu_pointer to, uint32_t n, size_t sys_len, size_t io_len)
{
    transfer(0, 0xC008, n);
    N.ga = from;
    N.gb = to;
    now.m.sys_len = sys_len;
    now.m.io_len = io_len;
}

/* Whether a sweep of such ranges is done. */
#define FITS(...) (ranges(__VA_ARGS__), emu_sweep(&now.s, &now.m, 1, 0).number == 0)
#define SYS(at) (struct emu_pointer){(at), false}
#define IO(at) (struct emu_pointer){(at), true}

/* Ranges: lent to their last byte, without wrapping, and no byte in both. */
static void test_sweep_ranges(void)
{
    /* up to the end of what is lent, and one byte past it */
    CHECK(FITS(SYS(0x10), SYS(0x20), 8, 0x28, 0) && !FITS(SYS(0x10), SYS(0x20), 8, 0x27, 0));
    CHECK(FITS(SYS(0x20), SYS(0x10), 8, 0x28, 0) && !FITS(SYS(0x20), SYS(0x10), 8, 0x27, 0));
    CHECK(FITS(IO(0x10), SYS(0), 8, 8, 0x18) && FITS(SYS(0), IO(0x10), 8, 8, 0x18));
    CHECK(!FITS(IO(0x10), SYS(0), 8, 8, 0x17) && !FITS(IO(0x10), SYS(0), 8, 7, 0x18));
    CHECK(!FITS(SYS(0), IO(0x10), 8, 8, 0x17) && !FITS(SYS(0), IO(0x10), 8, 7, 0x18));
    CHECK(!FITS(IO(0), SYS(0), 1, 1, 0) && !FITS(SYS(0), IO(0), 1, 0, 1) && FITS(SYS(0), IO(0), 1, 1, 1));
    /* the last byte at the top of its space, and past it, where the next would be at 0 */
    CHECK(FITS(SYS(0xFFFF8), SYS(0x20), 8, MIB, 0) && !FITS(SYS(0xFFFF9), SYS(0x20), 8, MIB, 0));
    CHECK(FITS(SYS(0x20), SYS(0xFFFF8), 8, MIB, 0) && !FITS(SYS(0x20), SYS(0xFFFF9), 8, MIB, 0));
    CHECK(FITS(IO(0xFFF8), IO(0x20), 8, 0, 65536) && !FITS(IO(0xFFF9), IO(0x20), 8, 0, 65536));
    CHECK(FITS(IO(0x20), IO(0xFFF8), 8, 0, 65536) && !FITS(IO(0x20), IO(0xFFF9), 8, 0, 65536));
    CHECK(FITS(IO(0xAFFF8), IO(0x20), 8, 0, 65536) && !FITS(IO(0xAFFF9), IO(0x20), 8, 0, 65536));
    CHECK(FITS(SYS(0xFFFFF), IO(0xFFFF), 1, MIB, 65536) && !FITS(SYS(0xFFFFF), IO(0xFFFF), 2, MIB, 65536));
    CHECK(FITS(SYS(0xFFFE), SYS(0x20), 8, MIB, 0) && !FITS(IO(0xFFFE), SYS(0x20), 8, MIB, 65536));
    /* next to each other, and with one byte in both, either way round */
    CHECK(FITS(SYS(0x10), SYS(0x18), 8, 0x40, 0) && !FITS(SYS(0x10), SYS(0x17), 8, 0x40, 0));
    CHECK(FITS(SYS(0x18), SYS(0x10), 8, 0x40, 0) && !FITS(SYS(0x17), SYS(0x10), 8, 0x40, 0));
    CHECK(FITS(IO(0x10), IO(0x18), 8, 0, 0x40) && !FITS(IO(0x10), IO(0x17), 8, 0, 0x40));
    CHECK(!FITS(SYS(0x10), SYS(0x10), 8, 0x40, 0) && !FITS(SYS(0x10), SYS(0x10), 1, 0x40, 0));
    /* only the low 16 bits tell places of I/O space apart, and two spaces share nothing */
    CHECK(!FITS(IO(0x10010), IO(0x20017), 8, 0, 0x40) && FITS(IO(0x10010), IO(0x20018), 8, 0, 0x40));
    CHECK(FITS(SYS(0x10), IO(0x10), 8, 0x40, 0x40) && FITS(IO(0x10), SYS(0x10), 8, 0x40, 0x40));
    CHECK(FITS(SYS(0x10010), SYS(0x20017), 8, MIB, 0));
}

/* 12, 11, 10, 13, 14, 15, in this order. */
static void test_sweep_order(void)
{
    PLAY(
         "transfer=-,C008,4 psw=- 2.cc-bit=0 powered=0 2.gc=100000 io_len=10001 unswept=12,0,0",
         "unswept=12,3,10",
         "unswept=12,FFFFFFFF,0",
         "unswept=12,1,10",
         "unswept=12,2,FFFFFFFF",
         "unswept=11",
         "io_len=10000 sys_len=100001 unswept=11,2,F",
         "sys_len=100000 unswept=10",
         "2.gc=0 cp=100000 unswept=10",
         "cp=0 unswept=13",
         "powered=1 unswept=14",
         "2.cc-bit=0 unswept=15",
         "psw=XF swept=4,0 @2000=11.22.33.44 sweep=4,4");
}

/* Sweeps beside the plain steps of the emulator, over widths, addresses, spaces and counts. */
static void test_sweep_plainly(void)
{
    unsigned unlike = 0;
    for (unsigned i = 0; i < 4 * 4 * 4 * 24; i++) {
        uint8_t a[128], b[128], a0[128], b0[128];
        struct emu_memory m = {a, sizeof a, b, sizeof b}, m0 = {a0, sizeof a0, b0, sizeof b0};
        struct emu_state s, s0;
        uint32_t steps = 0, count = 0;
        for (unsigned j = 0; j < 128; j++) a[j] = a0[j] = (uint8_t)made_up(), b[j] = b0[j] = (uint8_t)made_up();
        emu_fresh(0, &s);
        struct emu_channel *c = &s.channel[i / 7 % 2];
        made_up_channel(c);
        c->gc.address = c->tp.address = 0x12345;
        c->mode = EMU_RUNNING;
        c->psw = (uint8_t)((c->psw & ~3u) | EMU_PSW_XF | i % 4);
        emu_set_cc(c, (uint16_t)(0xC000 | (made_up() & 0x0704) | (1 + made_up() % 3) << 3));
        c->ga = (struct emu_pointer){10 + i / 4 % 2, i / 16 % 2 != 0};
        c->gb = (struct emu_pointer){60 + i / 8 % 2, i / 32 % 2 != 0};
        c->bc = (uint16_t)(1 + i / 64);
        s0 = s;
        while ((s0.channel[i / 7 % 2].psw & EMU_PSW_XF) != 0 && steps < 100) {
            count += emu_step(&s0, &m0, i % 4).count;
            steps++;
        }
        struct emu_swept answer = emu_sweep(&s, &m, 1 + i / 7 % 2, i % 4);
        unlike += answer.number != 0 || answer.steps != steps || answer.count != count || !emu_same_state(&s, &s0);
        unlike += memcmp(a, a0, sizeof a) != 0 || memcmp(b, b0, sizeof b) != 0;
    }
    CHECK(unlike == 0);
}

/* The counters of sweeps: refused ones by what alone barred them, and done ones by their sides. */
static void test_sweep_coverage(void)
{
    static struct emu_coverage c;
    memset(&c, 0, sizeof c);
    emu_coverage = &c;
    transfer(EMU_PSW_D, 0xC408, 0);
    N.held = EMU_HELD;
    N.armed = true;
    N.gb = (struct emu_pointer){0x20001, false};
    N.ga = (struct emu_pointer){0, true};
    CHECK(emu_sweep(&now.s, &now.m, 1, 4).number == 15 && emu_sweep(&now.s, &now.m, 1, 0).number == 0);
    transfer(0, 0xC008, 4);
    N.ga.address = N.gb.address;
    CHECK(emu_sweep(&now.s, &now.m, 1, 0).number == 15 && emu_sweep(&now.s, &now.m, 1, 8).number == 15);
    CHECK(emu_bars(&now.s, &now.m, 1, 8) == (1u << EMU_BAR_EXT | 1u << EMU_BAR_SHARED));
    emu_coverage = NULL;
    unsigned long all = 0;
    for (unsigned i = 0; i < EMU_BARS; i++) all += c.barred[i];
    CHECK(all == 2 && c.barred[EMU_BAR_EXT] == 1 && c.barred[EMU_BAR_SHARED] == 1);
    CHECK(c.swept[2][1][2] == 1 && c.swept_held == 1 && c.swept_armed == 1 && c.swept_all == 1);
    CHECK(strcmp(emu_bar_name(EMU_BAR_SHARED), "a byte in both ranges") == 0);
}

/* ---- Schedules ---- */

/* Rows as a case writes them. */
#define CA(channel) {EMU_ROW_ATTENTION, (channel)}
#define STEP(lines) {EMU_ROW_STEP, (lines)}

/* Whether two reports agree. */
static bool same_report(const struct emu_report *a, const struct emu_report *b)
{
    bool same = a->accepted == b->accepted && a->refused == b->refused;
    for (unsigned i = 0; i < 2; i++) {
        const struct emu_tally *x = &a->channel[i], *y = &b->channel[i];
        same = same && x->attentions_accepted == y->attentions_accepted && x->attentions_refused == y->attentions_refused;
        same = same && x->instructions == y->instructions && x->transfer_steps == y->transfer_steps;
        same = same && x->bytes_stored == y->bytes_stored && x->external_ends == y->external_ends;
        same = same && x->waiting_rows == y->waiting_rows;
    }
    return same;
}

/* Runs rows on the rig and wants this number and this report; what stood in the report before does not count. */
static void scheduled(const struct emu_row *rows, size_t count, unsigned number, struct emu_report wanted, int line)
{
    struct emu_report report;
    memset(&report, 0xEE, sizeof report);
    check(emu_schedule(&now.s, &now.m, rows, count, &report) == number, "number of schedule", line);
    check(same_report(&report, &wanted), "report as wanted", line);
}

/* The report of these counts: accepted, refused, and seven of each channel in the report's order. */
#define REPORT(...) (struct emu_report){__VA_ARGS__}

/* Rows, written out, and their report. */
#define SCHEDULED(rows, ...) scheduled((rows), sizeof(rows) / sizeof((rows)[0]), 0, REPORT(__VA_ARGS__), __LINE__)

/* A card that drops its request after each byte, in both directions: four halves, and a row that waits before each. */
static void test_schedule_card(void)
{
    static const struct emu_row rows[] = {STEP(0), STEP(1), STEP(0), STEP(1), STEP(0), STEP(1), STEP(0), STEP(1)};
    transfer(EMU_PSW_D, 0xC808, 4);
    want_same();
    want_sys(0x2000, "11 22 33 44");
    SCHEDULED(rows, 4, 4, {{0, 0, 0, 4, 4, 0, 4}, {0}});
    CHECK(memcmp(now.sys, want.sys, sizeof now.sys) == 0 && N.bc == 0 && (N.psw & EMU_PSW_XF) == 0);
    transfer(EMU_PSW_S, 0xD008, 4);
    SCHEDULED(rows, 4, 4, {{0, 0, 0, 4, 4, 0, 4}, {0}});
    CHECK(memcmp(now.sys, want.sys, sizeof now.sys) == 0 && N.bc == 0 && (N.psw & EMU_PSW_XF) == 0);
    /* a first fetch stores nothing, and the word is stored with the second */
    transfer(EMU_PSW_D, 0xC808, 4);
    scheduled(rows, 2, 0, REPORT(1, 1, {{0, 0, 0, 1, 0, 0, 1}, {0}}), __LINE__);
    scheduled(rows, 2, 0, REPORT(1, 1, {{0, 0, 0, 1, 2, 0, 1}, {0}}), __LINE__);
    /* of two stores each has its own */
    transfer(EMU_PSW_S, 0xD008, 4);
    scheduled(rows, 2, 0, REPORT(1, 1, {{0, 0, 0, 1, 1, 0, 1}, {0}}), __LINE__);
    scheduled(rows, 2, 0, REPORT(1, 1, {{0, 0, 0, 1, 1, 0, 1}, {0}}), __LINE__);
}

/* What transfer steps store: bytes, words, a word of which a match lets one byte by, and what empty slots swallow. */
static void test_schedule_stored(void)
{
    static const struct emu_row one[] = {STEP(0)};
    static const unsigned both = EMU_PSW_S | EMU_PSW_D;
    static const struct {
        unsigned widths, cc, bc, stored;
    } cases[] = {{0, 0xC000, 4, 1},         {both, 0xC000, 4, 2}, {EMU_PSW_S, 0xC000, 4, 2}, {EMU_PSW_D, 0xC000, 4, 2},
                 {both, 0xC008, 1, 1},      {0, 0xE000, 4, 1},    {EMU_PSW_S, 0xC001, 4, 1}, {EMU_PSW_S, 0xC009, 2, 1},
                 {EMU_PSW_D, 0xC001, 4, 2}, {both, 0xC001, 4, 2}, {0, 0xC001, 4, 1}};
    for (unsigned i = 0; i < sizeof cases / sizeof cases[0]; i++) {
        for (unsigned lent = 0; lent < 2; lent++) {
            transfer(cases[i].widths, cases[i].cc, cases[i].bc);
            N.mc = 0xFF11;
            N.gb.tag = true;
            now.m.io_len = lent == 0 ? 0x2000 : EMU_IO_LIMIT;
            SCHEDULED(one, 1, 0, {{0, 0, 0, 1, cases[i].stored, 0, 0}, {0}});
        }
    }
    /* BC fell by 2 where one byte was stored */
    transfer(EMU_PSW_S, 0xC001, 4);
    N.mc = 0xFF11;
    SCHEDULED(one, 1, 0, {{0, 0, 0, 1, 1, 0, 0}, {0}});
    CHECK(N.bc == 2 && N.gb.address == 0x2001);
    /* a half that a match ends stored one too */
    transfer(EMU_PSW_S, 0xD001, 4);
    N.mc = 0xFF11;
    static const struct emu_row asked[] = {STEP(1)};
    SCHEDULED(asked, 1, 0, {{0, 0, 0, 1, 1, 0, 0}, {0}});
    CHECK(N.bc == 2 && (N.psw & EMU_PSW_XF) == 0);
    /* what an instruction stores is not among them, nor what a refused step would have stored */
    reset();
    code("11 4C 34 12");
    SCHEDULED(one, 1, 0, {{0, 0, 1, 0, 0, 0, 0}, {0}});
    transfer(0, 0xC000, 4);
    now.m.sys_len = 0x2000;
    SCHEDULED(one, 0, 1, {{0}, {0}});
}

/* Which rows find a channel waiting: by its mode, XF, SYN and the lines. */
static void test_schedule_waits(void)
{
    for (uint32_t lines = 0; lines < 20; lines++) {
        for (unsigned syn = 0; syn < 4; syn++) {
            struct emu_row row = STEP(lines);
            transfer(0, 0xC000 | syn << 11, 9);
            N2 = N;
            bool synchronised = syn == 1 || syn == 2, line = lines <= 15;
            bool waits1 = line && synchronised && lines % 2 == 0, waits2 = line && synchronised && lines / 2 % 2 == 0;
            bool moves = line && syn != 3 && !(waits1 && waits2), first = moves && !waits1 && now.s.last == 2;
            bool second = moves && !first;
            scheduled(&row, 1, 0,
                      REPORT(moves, !moves, {{0, 0, 0, first, first, 0, waits1}, {0, 0, 0, second, second, 0, waits2}}),
                      __LINE__);
            CHECK(emu_waits(&now.s, 1, lines) == waits1 && emu_waits(&now.s, 2, lines) == waits2);
        }
    }
    /* not without XF, nor idle or suspended; with a held byte as without */
    static const struct emu_row one[] = {STEP(0)};
    for (unsigned i = 0; i < 3; i++) {
        transfer(EMU_PSW_D, 0xC800, 9);
        N.mode = (enum emu_mode)i;
        SCHEDULED(one, 0, 1, {{0, 0, 0, 0, 0, 0, i == EMU_RUNNING}, {0}});
        N.held = EMU_HELD;
        SCHEDULED(one, 0, 1, {{0, 0, 0, 0, 0, 0, i == EMU_RUNNING}, {0}});
    }
    transfer(EMU_PSW_D, 0xC800, 9);
    N.psw &= (uint8_t)~EMU_PSW_XF;
    sys(0x100, "00 00");
    SCHEDULED(one, 1, 0, {{0, 0, 1, 0, 0, 0, 0}, {0}});
}

/* A waiting row counts whatever becomes of it: done by the other channel, ended by EXT, refused. */
static void test_schedule_waits_anyway(void)
{
    static const struct emu_row none[] = {STEP(0)}, ext[] = {STEP(4)}, all[] = {STEP(15)};
    /* the other channel's instruction */
    transfer(0, 0xC800, 9);
    N2.mode = EMU_RUNNING;
    N2.tp.address = 0x180;
    sys(0x180, "00 00");
    SCHEDULED(none, 1, 0, {{0, 0, 0, 0, 0, 0, 1}, {0, 0, 1, 0, 0, 0, 0}});
    /* its own external end, with DRQ down and up */
    transfer(0, 0xC820, 9);
    SCHEDULED(ext, 1, 0, {{0, 0, 0, 0, 0, 1, 1}, {0}});
    transfer(0, 0xC820, 9);
    SCHEDULED(all, 1, 0, {{0, 0, 0, 0, 0, 1, 0}, {0}});
    /* the other one's, and that one refused by 5 or 3 */
    transfer(0, 0xC800, 9);
    N2 = N;
    emu_set_cc(&N2, 0xC040);
    static const struct emu_row ext2[] = {STEP(8)};
    SCHEDULED(ext2, 1, 0, {{0, 0, 0, 0, 0, 0, 1}, {0, 0, 0, 0, 0, 1, 0}});
    transfer(0, 0xC800, 9);
    N2 = N;
    emu_set_cc(&N2, 0xD800);
    SCHEDULED(none, 0, 1, {{0, 0, 0, 0, 0, 0, 1}, {0}});
    transfer(0, 0xC800, 9);
    N2.mode = EMU_RUNNING;
    N2.tp.address = 0x180;
    sys(0x180, "20 00");
    SCHEDULED(none, 0, 1, {{0, 0, 0, 0, 0, 0, 1}, {0}});
    /* refused by 10, 11, 13, 14 */
    for (unsigned i = 0; i < 4; i++) {
        transfer(0, 0xC800, 9);
        if (i == 0) N2.gc.address = 0x100000;
        if (i == 1) now.m.io_len = EMU_IO_LIMIT + 1;
        if (i == 2) now.s.powered = false;
        if (i == 3) N2.cc ^= 1;
        SCHEDULED(none, 0, 1, {{0, 0, 0, 0, 0, 0, 1}, {0}});
        now.m.io_len = EMU_IO_LIMIT;
    }
    /* SYN by the field and not by CC, either way round */
    transfer(0, 0xC800, 9);
    N.cc = 0xC000;
    SCHEDULED(none, 0, 1, {{0, 0, 0, 0, 0, 0, 1}, {0}});
    transfer(0, 0xC000, 9);
    N.cc = 0xC800;
    SCHEDULED(none, 0, 1, {{0}, {0}});
    /* the state before the row counts: the one that sets XF does not wait, the next does */
    transfer(0, 0xC800, 9);
    N.psw = EMU_PSW_TB;
    N.armed = true;
    sys(0x100, "00 00");
    static const struct emu_row two[] = {STEP(0), STEP(0)};
    SCHEDULED(two, 1, 1, {{0, 0, 1, 0, 0, 0, 1}, {0}});
}

/* Attentions: accepted and refused ones of each channel, and those to none. */
static void test_schedule_attentions(void)
{
    static const struct emu_row rows[] = {CA(1), CA(2), CA(2), CA(3), CA(0), CA(0xFFFFFFFF), CA(257), CA(1)};
    reset();
    N.mode = EMU_IDLE;
    sys(0x40, "00 00");
    sys(0x48, "02 00");
    want_same();
    SCHEDULED(rows, 2, 6, {{2, 0, 0, 0, 0, 0, 0}, {0, 2, 0, 0, 0, 0, 0}});
    check_all(__LINE__);
    /* a start is accepted once, and steps under a number over 15 belong to no channel */
    static const struct emu_row start[] = {CA(2), CA(2), STEP(0), STEP(16), STEP(0xFFFFFFFF), STEP(0)};
    reset();
    N.mode = EMU_IDLE;
    sys(0x48, "03 00 00 05 00 00");
    sys(0x500, "00 06 00 00");
    sys(0x600, "00 00 20 48");
    SCHEDULED(start, 3, 3, {{0}, {1, 1, 2, 0, 0, 0, 0}});
    CHECK(N2.mode == EMU_IDLE && now.s.last == 2);
}

/* 16: found before the first row is run, at any place and for any number but 1 and 2. */
static void test_schedule_unknown(void)
{
    static const uint32_t kinds[] = {0, 3, 4, 255, 257, 258, 65537, 65538, 0x80000001, 0xFFFFFFFF};
    for (unsigned i = 0; i < sizeof kinds / sizeof kinds[0]; i++) {
        for (unsigned at = 0; at < 3; at++) {
            struct emu_row rows[3] = {STEP(0), STEP(0), STEP(0)};
            rows[at].kind = kinds[i];
            transfer(0, 0xC000, 9);
            want_same();
            scheduled(rows, 3, 16, REPORT(0, 0, {{0}, {0}}), __LINE__);
            check_all(__LINE__);
        }
    }
    /* it looks at no state and no memory; no rows at all are done, and change nothing */
    static const struct emu_row unknown[] = {{0, 0}};
    transfer(0, 0xC800, 9);
    now.s.cp = 0x100000;
    now.m.sys_len = MIB + 1;
    want_same();
    scheduled(unknown, 1, 16, REPORT(0, 0, {{0}, {0}}), __LINE__);
    scheduled(unknown, 0, 0, REPORT(0, 0, {{0}, {0}}), __LINE__);
    now.m.sys_len = MIB;
    check_all(__LINE__);
}

/* Adds the counts of a second report to a first. */
static void add_report(struct emu_report *to, const struct emu_report *from)
{
    to->accepted += from->accepted;
    to->refused += from->refused;
    for (unsigned i = 0; i < 2; i++) {
        struct emu_tally *x = &to->channel[i];
        const struct emu_tally *y = &from->channel[i];
        x->attentions_accepted += y->attentions_accepted;
        x->attentions_refused += y->attentions_refused;
        x->instructions += y->instructions;
        x->transfer_steps += y->transfer_steps;
        x->bytes_stored += y->bytes_stored;
        x->external_ends += y->external_ends;
        x->waiting_rows += y->waiting_rows;
    }
}

/* Whether the counts of a report of so many rows stand to each other as they must. */
static bool adds_up(const struct emu_report *r, uint64_t rows)
{
    const struct emu_tally *x = &r->channel[0], *y = &r->channel[1];
    uint64_t attended = x->attentions_accepted + y->attentions_accepted;
    uint64_t done_steps = x->instructions + x->transfer_steps + x->external_ends + y->instructions + y->transfer_steps +
                          y->external_ends;
    return r->accepted + r->refused == rows && r->accepted == attended + done_steps &&
           x->bytes_stored <= 2 * x->transfer_steps && y->bytes_stored <= 2 * y->transfer_steps;
}

/* Schedules of made-up rows on made-up machines: cut in two, they leave the same and their counts add. */
static void test_schedule_cut(void)
{
    unsigned unlike = 0;
    for (unsigned i = 0; i < 20000; i++) {
        uint8_t a[256], b[256], a0[256], b0[256];
        struct emu_memory m = {a, sizeof a, b, made_up() % 257}, m0 = {a0, sizeof a0, b0, m.io_len};
        struct emu_state s, s0;
        struct emu_row rows[24];
        struct emu_report whole, first, second;
        size_t count = made_up() % 25, cut = made_up() % (count + 1);
        for (unsigned j = 0; j < 256; j++) a[j] = a0[j] = (uint8_t)made_up(), b[j] = b0[j] = (uint8_t)(made_up() % 4);
        for (size_t j = 0; j < count; j++) {
            bool attention = made_up() % 8 == 0;
            rows[j] = (struct emu_row){attention ? 1 : 2, made_up() % (attention ? 4 : 17)};
        }
        emu_fresh(made_up() % 200, &s);
        made_up_channel(&s.channel[0]);
        made_up_channel(&s.channel[1]);
        s0 = s;
        unlike += emu_schedule(&s, &m, rows, count, &whole) != 0;
        unlike += emu_schedule(&s0, &m0, rows, cut, &first) != 0;
        unlike += emu_schedule(&s0, &m0, rows + cut, count - cut, &second) != 0;
        unlike += !adds_up(&whole, count) || !adds_up(&first, cut) || !adds_up(&second, count - cut);
        add_report(&first, &second);
        unlike += !same_report(&whole, &first) || !emu_same_state(&s, &s0);
        unlike += memcmp(a, a0, sizeof a) != 0 || memcmp(b, b0, sizeof b) != 0;
    }
    CHECK(unlike == 0);
}

/* ---- Two processors on one board ---- */

/* The rig's state and I/O memory as processor 1, and a second one that is as the first, with 3Ch in its own I/O memory. */
static struct emu_processors two;
static uint8_t io_2[EMU_IO_LIMIT];

/* Puts the rig as it is on a board, a processor beside it. */
static void put_on_board(void)
{
    memset(io_2, 0x3C, sizeof io_2);
    two = (struct emu_processors){{now.s, now.s}, now.sys, now.m.sys_len, {now.io, io_2}, {now.m.io_len, EMU_IO_LIMIT}};
}

/* Whether a processor is as it was on another board. */
static bool same_processor(const struct emu_processors *given, unsigned index)
{
    return emu_same_state(&two.state[index], &given->state[index]);
}

/* Every call with this processor, its number, and zeros in a schedule's report; how many answer otherwise. */
static unsigned calls_refused(uint32_t processor, unsigned number)
{
    static const struct emu_row rows[] = {{EMU_ROW_STEP, 0}, {EMU_ROW_ATTENTION, 1}};
    struct emu_report report;
    memset(&report, 0xEE, sizeof report);
    struct emu_stepped stepped = emu_step_of(&two, processor, 16);
    struct emu_swept swept_by = emu_sweep_of(&two, processor, 3, 16);
    struct emu_answer attended = emu_attention_of(&two, processor, 3), powered = emu_power_up_of(&two, processor);
    struct emu_answer after_reset = emu_reset_of(&two, processor);
    unsigned otherwise = stepped.number != number || stepped.kind != 0 || stepped.channel != 0 || stepped.count != 0;
    otherwise += swept_by.number != number || swept_by.steps != 0 || swept_by.count != 0;
    otherwise += attended.number != number || attended.count != 0;
    otherwise += powered.number != number || powered.count != 0;
    otherwise += after_reset.number != number || after_reset.count != 0;
    otherwise += emu_schedule_of(&two, processor, rows, 2, &report) != number;
    return otherwise + !same_report(&report, &REPORT(0, 0, {{0}, {0}}));
}

/* 12 for a processor that is neither 1 nor 2, before all else and also for reset. */
static void test_processors_number(void)
{
    static const uint32_t none[] = {0, 3, 4, 255, 256, 257, 258, 65537, 65538, 0x80000001, 0xFFFFFFFF};
    for (unsigned i = 0; i < sizeof none / sizeof none[0]; i++) {
        transfer(0, 0xC008, 4);
        put_on_board();
        if (i % 2 == 1) {
            two.sys_len = MIB + 1;
            two.state[0].cp = 0x100000;
            two.state[1].powered = false;
        }
        struct emu_processors given = two;
        want_same();
        CHECK(calls_refused(none[i], EMU_BAD_ARGUMENT) == 0);
        CHECK(same_processor(&given, 0) && same_processor(&given, 1));
        check_all(__LINE__);
    }
}

/* A done step of one leaves the other's registers, the mark of the last channel among them, and its I/O memory. */
static void test_processors_apart(void)
{
    for (uint32_t processor = 1; processor <= 2; processor++) {
        reset();
        sys(0x100, "0A 4C 00 77"); /* MOVBI [GA].0,77H */
        N.ga = (struct emu_pointer){0x1234, true};
        put_on_board();
        struct emu_processors given = two;
        CHECK(emu_step_of(&two, processor, 0).number == EMU_DONE);
        CHECK(same_processor(&given, 2 - processor) && two.state[processor - 1].last == 1);
        CHECK(two.state[processor - 1].channel[0].tp.address == 0x104);
        CHECK(now.io[0x1234] == (processor == 1 ? 0x77 : 0x5A) && io_2[0x1234] == (processor == 2 ? 0x77 : 0x3C));
        now.io[0x1234] = 0x5A;
        io_2[0x1234] = 0x3C;
        want_same();
        memset(want.io, 0x5A, sizeof want.io);
        CHECK(memcmp(now.io, want.io, sizeof want.io) == 0);
        memset(want.io, 0x3C, sizeof want.io);
        CHECK(memcmp(io_2, want.io, sizeof want.io) == 0);
    }
}

/* 10, 11, 13 and 14 look at the one named and at system memory alone. */
static void test_processors_refusals(void)
{
    static const unsigned numbers[] = {EMU_BAD_POINTER, EMU_BAD_POINTER, EMU_BAD_BUFFER, EMU_NOT_POWERED_UP,
                                       EMU_FIELDS_DISAGREE, EMU_BAD_BUFFER};
    for (unsigned i = 0; i < 12; i++) {
        unsigned broken = i % 2, other = 1 - broken;
        transfer(0, 0xC008, 4);
        put_on_board();
        if (i / 2 == 0) two.state[broken].cp = 0x100000;
        if (i / 2 == 1) two.state[broken].channel[1].gc.address = 0x100000;
        if (i / 2 == 2) two.io_len[broken] = EMU_IO_LIMIT + 1;
        if (i / 2 == 3) two.state[broken].powered = false;
        if (i / 2 == 4) two.state[broken].channel[1].cc ^= 1;
        if (i / 2 == 5) two.sys_len = MIB + 1;
        bool shared = i / 2 == 5;
        CHECK(emu_step_of(&two, broken + 1, 0).number == numbers[i / 2]);
        CHECK(emu_sweep_of(&two, broken + 1, 1, 0).number == numbers[i / 2]);
        CHECK(emu_attention_of(&two, broken + 1, 1).number == numbers[i / 2]);
        struct emu_processors given = two;
        CHECK(emu_step_of(&two, other + 1, 0).number == (shared ? EMU_BAD_BUFFER : EMU_DONE));
        CHECK(emu_sweep_of(&two, other + 1, 1, 0).number == (shared ? EMU_BAD_BUFFER : EMU_DONE));
        CHECK(same_processor(&given, broken));
    }
}

/* Each has its own power mark, and both power up from the same bytes; two control blocks come of a changed pointer. */
static void test_processors_power_up(void)
{
    reset();
    sys(0xFFFF6, "01 00 00 05 00 00");
    sys(0x500, "02 00 00 06 00 00");
    put_on_board();
    struct emu_processors given = two;
    CHECK(emu_reset_of(&two, 1).number == EMU_DONE && !two.state[0].powered && same_processor(&given, 1));
    CHECK(emu_reset_of(&two, 2).number == EMU_DONE && !two.state[1].powered);
    CHECK(emu_power_up_of(&two, 2).number == EMU_DONE && two.state[1].cp == 0x600 && two.state[1].powered);
    CHECK(!two.state[0].powered && emu_step_of(&two, 1, 0).number == EMU_NOT_POWERED_UP);
    CHECK(emu_step_of(&two, 2, 0).number == EMU_NO_CHANNEL_CAN_RUN);
    CHECK(emu_power_up_of(&two, 1).number == EMU_DONE && two.state[0].cp == 0x600);
    CHECK(emu_same_state(&two.state[0], &two.state[1]));
    sys(0x502, "00 07 00 00");
    CHECK(emu_power_up_of(&two, 1).number == EMU_DONE && two.state[0].cp == 0x700 && two.state[1].cp == 0x600);
    CHECK(emu_power_up_of(&two, 1).count == 11);
    two.io_len[1] = EMU_IO_LIMIT + 1;
    CHECK(emu_power_up_of(&two, 1).number == EMU_DONE && emu_power_up_of(&two, 2).number == EMU_BAD_BUFFER);
}

/* One control block for both: each takes its own start from it, and BUSY is the one byte. What TSL finds the other left. */
static void test_processors_shared(void)
{
    reset();
    N.mode = EMU_IDLE;
    sys(0x40, "03 00 00 05 00 00");
    sys(0x500, "00 06 00 00");
    /* TSL [PP].8,55H,+10H */
    sys(0x600, "1A 97 08 55 10");
    sys(0x508, "00");
    put_on_board();
    CHECK(emu_attention_of(&two, 1, 1).number == EMU_DONE && now.sys[0x41] == 0xFF);
    now.sys[0x41] = 0;
    CHECK(emu_attention_of(&two, 1, 1).number == EMU_ALREADY_RUNNING && now.sys[0x41] == 0);
    CHECK(emu_attention_of(&two, 2, 1).number == EMU_DONE && now.sys[0x41] == 0xFF);
    CHECK(emu_step_of(&two, 2, 0).number == EMU_DONE && now.sys[0x508] == 0x55);
    CHECK(emu_step_of(&two, 1, 0).number == EMU_DONE && now.sys[0x508] == 0x55);
    CHECK(two.state[0].channel[0].tp.address == 0x615 && two.state[1].channel[0].tp.address == 0x605);
}

/* A sweep asks for the other channel of its own processor; what the other processor's channels do does not matter. A
 * schedule is its processor's too. */
static void test_processors_sweep(void)
{
    static const struct emu_row rows[] = {STEP(0), STEP(0), CA(3)};
    struct emu_report report;
    transfer(0, 0xC008, 4);
    put_on_board();
    two.state[0].channel[1] = two.state[0].channel[0];
    CHECK(emu_sweep_of(&two, 1, 1, 0).number == EMU_NOT_SWEEPABLE);
    struct emu_processors given = two;
    two.state[1].channel[0].gb.tag = true;
    struct emu_swept done_by = emu_sweep_of(&two, 2, 1, 0);
    CHECK(done_by.number == EMU_DONE && done_by.steps == 4 && done_by.count == 8 && same_processor(&given, 0));
    CHECK(io_2[0x2000] == 0x11 && io_2[0x2003] == 0x44 && now.io[0x2000] == 0x5A && now.sys[0x2000] == 0xA5);
    transfer(0, 0xC008, 4);
    put_on_board();
    given = two;
    CHECK(emu_schedule_of(&two, 2, rows, 3, &report) == EMU_DONE && same_processor(&given, 0));
    CHECK(same_report(&report, &REPORT(2, 1, {{0, 0, 0, 2, 2, 0, 0}, {0}})) && two.state[1].channel[0].bc == 2);
}

/* Made-up calls on made-up processors: what one does is what it does alone, and the other stays. */
static void test_processors_alone(void)
{
    unsigned unlike = 0;
    for (unsigned i = 0; i < 50000; i++) {
        uint8_t a[256], a0[256], b[2][256], b0[2][256];
        struct emu_processors board = {.sys = a, .sys_len = sizeof a, .io = {b[0], b[1]}};
        for (unsigned j = 0; j < 2; j++) board.io_len[j] = made_up() % 257;
        uint32_t processor = 1 + made_up() % 2, lines = made_up() % 17, channel = made_up() % 4;
        for (unsigned j = 0; j < 256; j++) a[j] = (uint8_t)made_up(), b[0][j] = b[1][j] = (uint8_t)(made_up() % 4);
        for (unsigned j = 0; j < 2; j++) {
            emu_fresh(made_up() % 200, &board.state[j]);
            made_up_channel(&board.state[j].channel[0]);
            made_up_channel(&board.state[j].channel[1]);
        }
        memcpy(a0, a, sizeof a);
        memcpy(b0, b, sizeof b);
        struct emu_state alone = board.state[processor - 1], other = board.state[2 - processor];
        struct emu_memory m = {a0, sizeof a0, b0[processor - 1], board.io_len[processor - 1]};
        if (made_up() % 4 == 0)
            unlike += emu_attention_of(&board, processor, channel).number != emu_attention(&alone, &m, channel).number;
        else unlike += emu_step_of(&board, processor, lines).number != emu_step(&alone, &m, lines).number;
        unlike += !emu_same_state(&board.state[processor - 1], &alone);
        unlike += !emu_same_state(&board.state[2 - processor], &other);
        unlike += memcmp(a, a0, sizeof a) != 0 || memcmp(b, b0, sizeof b) != 0;
    }
    CHECK(unlike == 0);
}

/* Runs every case and fails if one check did. */
int main(void)
{
    test_decoder_counts();
    test_decoder_by_steps();
    test_decoder_listings();
    test_decoder_readings();
    test_twelve_cases();
    test_fresh();
    test_reset();
    test_power_up();
    test_power_up_refusals();
    test_power_up_wraps();
    test_board();
    test_early_order();
    test_refusal_10();
    test_start();
    test_start_overlap();
    test_block_wraps();
    test_suspend_resume();
    test_command_refusals();
    test_attention_bytes();
    test_icf();
    test_order_of_tests();
    test_second_pair();
    test_wrapping();
    test_slots_read();
    test_slots_store();
    test_slots_code();
    test_slots_transfer();
    test_slots_system();
    test_moves();
    test_index();
    test_register_arithmetic();
    test_memory_arithmetic();
    test_arithmetic_sweep();
    test_jumps();
    test_control();
    test_xfer();
    test_transfer_shapes();
    test_transfer_count();
    test_transfer_match();
    test_transfer_leftover();
    test_transfer_translate();
    test_transfer_refusals();
    test_choice();
    test_external();
    test_fields();
    test_refusal_14();
    test_14_in_order();
    test_renewed();
    test_panel_program();
    test_run();
    test_counts_of_instructions();
    test_counts_of_attentions();
    test_counts_of_transfers();
    test_pair_fetches();
    test_pair_stores();
    test_pair_requests();
    test_pair_ends();
    test_pair_cut();
    test_pair_never();
    test_held_kept();
    test_held_dropped();
    test_pair_refusals();
    test_pair_slots();
    test_counts_of_halves();
    test_held_compared();
    test_pair_run();
    test_invariants();
    test_coverage();
    test_pair_coverage();
    test_sweep_worked();
    test_sweep_steps();
    test_sweep_all();
    test_sweep_keeps();
    test_sweep_bars();
    test_sweep_fields();
    test_sweep_ranges();
    test_sweep_order();
    test_sweep_plainly();
    test_sweep_coverage();
    test_schedule_card();
    test_schedule_stored();
    test_schedule_waits();
    test_schedule_waits_anyway();
    test_schedule_attentions();
    test_schedule_unknown();
    test_schedule_cut();
    test_processors_number();
    test_processors_apart();
    test_processors_refusals();
    test_processors_power_up();
    test_processors_shared();
    test_processors_sweep();
    test_processors_alone();
    printf("%lu checks, %lu failures\n", checks, failures);
    return failures == 0 ? 0 : 1;
}
