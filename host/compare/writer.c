/* Writes random scripts, in which what comes next depends on where the machine stands. */
#include "writer.h"

#include "cases.h"
#include "hex_texts.h"
#include "lines.h"

/* ---- Programs and attentions ---- */

/* One of the channels' numbers. */
static uint32_t some_channel(struct writer *w)
{
    return 1 + below(&w->d, 2);
}

/* A channel as it stands. */
static const struct emu_channel *channel_of(const struct writer *w, uint32_t channel)
{
    return &w->s.state.channel[channel == 2];
}

/* Begins a program for the memory that is lent. */
static struct program *fresh_program(struct writer *w)
{
    new_program(&w->p, &w->d, w->s.memory.sys_len, w->s.memory.io_len);
    return &w->p;
}

/* A place for data. */
static uint32_t data_place(struct writer *w, bool in_io)
{
    return some_place(fresh_program(w), in_io);
}

/* Where a program of a channel goes: its own half of the space, or the space's end for one that is cut off. */
static uint32_t program_place(struct writer *w, uint32_t channel, bool in_io, unsigned cut)
{
    size_t length = in_io ? w->s.memory.io_len : w->s.memory.sys_len;
    uint32_t mask = in_io ? 0xFFFFu : MASK20;
    if (cut > 0) return (uint32_t)(length + cut - w->p.length) & mask;
    if (length > 65536) length = 65536;
    size_t first = channel == 2 ? length / 2 : in_io || length < 256 ? 0 : 64, last = first + length / 2;
    return (uint32_t)first + below(&w->d, last > first + w->p.length ? last - first - w->p.length : 16);
}

/* Writes a new program for a channel and remembers where it starts. */
static void give_program(struct writer *w, uint32_t channel)
{
    bool in_io = (w->s.memory.io_len > 64 || chance(&w->d, 50)) && chance(&w->d, 300);
    struct program *p = fresh_program(w);
    unsigned cut = 0;
    if (chance(&w->d, 40)) write_noise(p);
    else if (chance(&w->d, 60)) cut = write_cut(p);
    else if (chance(&w->d, 600)) write_rich(p);
    else write_round(p);
    w->program[channel - 1] = program_place(w, channel, in_io, cut);
    w->program_in_io[channel - 1] = in_io;
    place(w, in_io, w->program[channel - 1], p->byte, p->length);
}

/* Where a channel's control block is. */
static uint32_t block_of(const struct writer *w, uint32_t channel)
{
    return w->s.state.cp + (channel == 2 ? 8 : 0);
}

/* A CCW with this command and any upper bits. */
static uint8_t ccw(struct writer *w, unsigned command)
{
    return (uint8_t)(command | below(&w->d, 32) << 3);
}

/* Writes control and parameter block for a channel's program, and starts it. */
static void start(struct writer *w, uint32_t channel)
{
    bool in_io = w->program_in_io[channel - 1];
    uint32_t at = w->program[channel - 1], near = 16 + 8 * channel + below(&w->d, 4);
    uint32_t pb = chance(&w->d, 800) && near + 4 < w->s.memory.sys_len ? near : data_place(w, false);
    uint8_t block[6] = {ccw(w, in_io ? 1 : 3)};
    uint8_t words[4] = {(uint8_t)at, (uint8_t)(at >> 8)};
    block[1] = (uint8_t)below(&w->d, 256);
    as_doubleword(&w->d, pb, block + 2);
    if (!in_io) as_doubleword(&w->d, at, words);
    place(w, false, pb, words, in_io ? 2 : 4);
    place(w, false, block_of(w, channel), block, sizeof block);
    say(w, "ca %u", (unsigned)channel);
}

/* A command for a channel in this mode: mostly one that it takes. */
static unsigned likely_command(struct writer *w, enum emu_mode mode)
{
    static const uint8_t idle[] = {0, 1, 3, 6, 7}, running[] = {0, 6, 6, 6, 7}, suspended[] = {0, 1, 3, 5, 5, 5, 5, 7};
    if (mode == EMU_IDLE) return ONE_OF(&w->d, idle);
    return mode == EMU_RUNNING ? ONE_OF(&w->d, running) : ONE_OF(&w->d, suspended);
}

/* Writes a CCW with this command and gives the attention. */
static void command(struct writer *w, uint32_t channel, unsigned bits)
{
    uint8_t byte = ccw(w, bits);
    place(w, false, block_of(w, channel), &byte, 1);
    say(w, "ca %s", number(w, channel).text);
}

/* Gives an attention with a new command, mostly one that is taken. */
static void give_command(struct writer *w)
{
    uint32_t channel = some_channel(w);
    enum emu_mode mode = channel_of(w, channel)->mode;
    command(w, channel, chance(&w->d, 500) ? likely_command(w, mode) : below(&w->d, 8));
}

/* A channel's number, or what is none. */
static uint32_t odd_channel(struct writer *w)
{
    static const uint32_t channels[] = {0, 1, 2, 3, 4, 0x101, 0x10001, 0x10002, 0x80000001, 0xFFFFFFFF};
    return ONE_OF(&w->d, channels);
}

/* Gives an attention to what is no channel, or with whatever the block holds. */
static void give_odd_attention(struct writer *w)
{
    say(w, "ca %s", number(w, odd_channel(w)).text);
}

/* Steps, or sweeps a channel, under any lines or a number that is no line number. */
static void step_or_sweep(struct writer *w)
{
    uint32_t lines = below(&w->d, 18);
    if (chance(&w->d, 650)) step(w, lines);
    else sweep(w, chance(&w->d, 900) ? some_channel(w) : odd_channel(w), lines);
}

/* ---- Registers ---- */

/* Sets GA, GB or GC and its tag to a place for data. */
static void point(struct writer *w, uint32_t channel, unsigned which)
{
    bool in_io = chance(&w->d, 400);
    set(w, channel, which, data_place(w, in_io));
    set(w, channel, which - SET_GA + SET_GA_TAG, in_io);
}

/* One of GA, GB and GC. */
static unsigned some_pointer(struct writer *w)
{
    return SET_GA + below(&w->d, 3);
}

/* An address that a sound state never has. */
static uint32_t unsound_address(struct writer *w)
{
    static const uint32_t odd[] = {0x100000, 0x100001, 0x1FFFFF, 0x80000000, 0xFFFFFFFF};
    return chance(&w->d, 800) ? ONE_OF(&w->d, odd) : (uint32_t)roll(&w->d) | 0x100000u;
}

/* Any value that a register takes, an address mostly one of lent memory; a machine stays powered up. */
static uint32_t some_value(struct writer *w, unsigned which)
{
    const struct script_register *r = &script_registers[which];
    if (which == SET_CP) return choose_cp(&w->d, w->s.memory.sys_len) & MASK20;
    if (which < SCRIPT_ADDRESSES) return chance(&w->d, 700) ? data_place(w, false) : below(&w->d, EMU_SYSTEM_LIMIT);
    if (which == SET_CC || which == SET_FIELDS) return transfer_cc(&w->d);
    if (which == SET_UP) return 1;
    if (which == SET_HELD && chance(&w->d, 300)) return EMU_NONE_HELD;
    return r->least + below(&w->d, r->most - r->least + 1);
}

/* Sets CC and its fields, in either order; the fields at times from a value with the other bit 9. */
static void set_cc(struct writer *w, uint32_t channel, uint32_t cc)
{
    uint32_t fields = chance(&w->d, 100) ? cc ^ 0x0200u : cc;
    bool cc_first = chance(&w->d, 700);
    if (cc_first) set(w, channel, SET_CC, cc);
    set(w, channel, SET_FIELDS, fields);
    if (!cc_first) set(w, channel, SET_CC, cc);
}

/* Makes the fields of both channels those of CC again, or CC theirs. */
static void mend_fields(struct writer *w)
{
    for (uint32_t channel = 1; channel <= 2; channel++) {
        uint16_t cc = channel_of(w, channel)->cc, fields = emu_fields_value(&channel_of(w, channel)->fields);
        if (((cc ^ fields) & 0xFDFFu) == 0) continue;
        if (chance(&w->d, 500)) set(w, channel, SET_FIELDS, cc);
        else set(w, channel, SET_CC, fields);
    }
}

/* Sets the next register; CC and its fields both, where it is one of them. */
static void set_any(struct writer *w)
{
    uint32_t channel = some_channel(w);
    unsigned which = w->set_turn++ % SCRIPT_REGISTERS;
    uint32_t value = some_value(w, which);
    if (which == SET_CC || which == SET_FIELDS) set_cc(w, channel, value);
    else set(w, channel, which, value);
}

/* Calls under a state that is not sound, or under one of the bad arguments that are refused before it; then mends it. */
static void go_unsound(struct writer *w)
{
    uint32_t channel = some_channel(w);
    unsigned which = below(&w->d, SCRIPT_ADDRESSES);
    uint32_t sound = *session_address(&w->s, channel, which);
    set(w, channel, which, unsound_address(w));
    for (unsigned i = 1 + below(&w->d, 3); i > 0; i--) {
        if (chance(&w->d, 500)) give_odd_attention(w);
        else step_or_sweep(w);
    }
    set(w, channel, which, sound);
}

/* Bits of a field of CC, at least one. */
static uint32_t some_bits(struct writer *w, unsigned field)
{
    uint32_t bits = emu_field_bits(field), lowest = bits & (0u - bits), some = bits & (1 + below(&w->d, 7)) * lowest;
    return some != 0 ? some : lowest;
}

/* Sets CC without its fields, or these without it, to a value that differs in one field. */
static void part(struct writer *w, uint32_t channel, unsigned field)
{
    uint32_t value = channel_of(w, channel)->cc ^ some_bits(w, field);
    set(w, channel, chance(&w->d, 500) ? SET_CC : SET_FIELDS, value);
}

/* Calls once while a field disagrees by itself; the channels, their modes and their fields take turns. */
static void part_in_turn(struct writer *w)
{
    uint32_t channel = 1 + w->turn / EMU_FIELDS % 2;
    enum emu_mode mode = channel_of(w, channel)->mode;
    set(w, channel, SET_MODE, w->turn % 3);
    part(w, channel, w->turn % EMU_FIELDS);
    if (chance(&w->d, 500)) say(w, "ca %u", (unsigned)some_channel(w));
    else if (chance(&w->d, 600)) step(w, below(&w->d, 16));
    else sweep(w, some_channel(w), below(&w->d, 16));
    mend_fields(w);
    set(w, channel, SET_MODE, (uint32_t)mode);
    w->turn++;
}

/* Calls while CC and its fields disagree in some channel, at times with what is refused before; then mends it. */
static void go_apart(struct writer *w)
{
    uint32_t channel = some_channel(w), sound = *session_address(&w->s, channel, SET_GC);
    bool alone = chance(&w->d, 300), unsound = !alone && chance(&w->d, 500), down = !alone && !unsound;
    part(w, channel, below(&w->d, EMU_FIELDS));
    if (chance(&w->d, 200)) set(w, 3 - channel, SET_FIELDS, below(&w->d, 65536));
    if (unsound) set(w, channel, SET_GC, unsound_address(w));
    if (down) set(w, 0, SET_UP, 0);
    for (unsigned i = 1 + below(&w->d, 3); i > 0; i--) {
        if (chance(&w->d, 100)) give_odd_attention(w);
        else if (chance(&w->d, 400)) give_command(w);
        else step_or_sweep(w);
    }
    if (unsound) set(w, channel, SET_GC, sound);
    if (down) set(w, 0, SET_UP, 1);
    mend_fields(w);
}

/* A CC for a transfer of its own: any bits, but seldom SYN 11, which is refused, and often all ends. */
static uint32_t any_cc(struct writer *w)
{
    uint32_t cc = below(&w->d, 65536);
    if (chance(&w->d, 900) && (cc >> 11 & 3u) == 3) cc &= ~(1u << (11 + below(&w->d, 2)));
    if (chance(&w->d, 700)) cc &= ~(1u << 13);
    if (chance(&w->d, 200)) cc |= 1u << 7 | 1u << 3 | 1u;
    return chance(&w->d, 400) ? transfer_cc(&w->d) : cc;
}

/* A PSW in a transfer; translation goes mostly with 8 bits on both sides. */
static uint32_t transfer_psw(struct writer *w, uint32_t cc)
{
    uint32_t psw = EMU_PSW_XF | EMU_PSW_TB | below(&w->d, 256);
    bool bytes = (cc >> 13 & 1u) != 0 && chance(&w->d, 850);
    return bytes ? psw & ~(uint32_t)(EMU_PSW_S | EMU_PSW_D) : psw;
}

/* Whether a channel is in a transfer. */
static bool transfers(const struct writer *w, uint32_t channel)
{
    return channel_of(w, channel)->mode == EMU_RUNNING && (channel_of(w, channel)->psw & EMU_PSW_XF) != 0;
}

/* Lines for a step, EXT in so many of 1,000. */
static uint32_t good_lines(struct writer *w, unsigned ext_in_1000)
{
    uint32_t lines = below(&w->d, 16);
    return chance(&w->d, ext_in_1000) ? lines : lines & 3u;
}

/* Puts a channel into a transfer by its registers, and steps until it ends, is refused or has gone on enough. */
static void transfer_once(struct writer *w, uint32_t channel, uint32_t cc)
{
    set(w, channel, SET_BC, chance(&w->d, 700) ? 1 + below(&w->d, 3) : transfer_count(&w->d));
    set(w, channel, SET_MC, transfer_mc(&w->d));
    set_cc(w, channel, cc);
    set(w, channel, SET_PSW, transfer_psw(w, cc));
    w->s.answered = EMU_DONE;
    for (unsigned i = 12; i > 0 && w->s.answered == EMU_DONE && transfers(w, channel); i--)
        step(w, good_lines(w, 250) | 1u << (channel - 1));
}

/* Sets what a channel holds to none, where it holds a byte. */
static void let_go(struct writer *w, uint32_t channel)
{
    if (channel_of(w, channel)->held != EMU_NONE_HELD) set(w, channel, SET_HELD, EMU_NONE_HELD);
}

/* Lets a channel hold some byte. */
static void let_hold(struct writer *w, uint32_t channel)
{
    set(w, channel, SET_HELD, EMU_HELD | below(&w->d, 256));
}

/* How a search begins: TBC, TMC without its bit 2, and BC. */
struct search {
    uint32_t tbc, tmc, bc;
};

/* A search whose first byte meets TMC with this count left. */
static struct search search_with(struct writer *w, unsigned leftover)
{
    uint32_t code = 1 + below(&w->d, 3), less = 1 + below(&w->d, 2), more = less + 1 + below(&w->d, 3 - less);
    struct search off = {0, code, leftover - EMU_LEFTOVER_OFF_0}, on = {code, 1 + below(&w->d, 3), 0};
    struct search count = {more, less, 2}, match = {less, more, 2}, same = {code, code, 2};
    if (leftover == EMU_LEFTOVER_TBC_2_COUNT) return count;
    if (leftover == EMU_LEFTOVER_TBC_2_MATCH) return match;
    if (leftover == EMU_LEFTOVER_TBC_2_SAME) return same;
    if (leftover == EMU_LEFTOVER_TBC_MORE) on.bc = 3 + below(&w->d, 6);
    return leftover < EMU_LEFTOVER_OFF_0 ? on : off;
}

/* Lets a channel search words for a pattern and store them as bytes, with a request for each or without; the counts that
   are left take turns. */
static void search_in_turn(struct writer *w, uint32_t channel)
{
    unsigned turn = w->search_turn++;
    bool asking = turn % 2 != 0, none = turn / 2 % 2 != 0;
    struct search s = search_with(w, turn / 4 % EMU_LEFTOVERS);
    uint32_t cc = (search_cc(&w->d) & ~0x1Fu) | (asking ? 2u << 11 : 0) | s.tbc << 3 | (none ? 4u : 0) | s.tmc;
    unsigned source = (cc >> 10 & 1u) != 0 ? SET_GB : SET_GA;
    set(w, channel, source, *session_address(&w->s, channel, source) & ~1u);
    set(w, channel, SET_BC, s.bc);
    set(w, channel, SET_MC, search_mc(&w->d, cc));
    set_cc(w, channel, cc);
    set(w, channel, SET_PSW, (EMU_PSW_XF | EMU_PSW_TB | EMU_PSW_S | below(&w->d, 256)) & ~(uint32_t)EMU_PSW_D);
    if (asking) let_go(w, channel);
    step(w, good_lines(w, 50) | (asking ? channel : 0));
}

/* Points a channel's pointers at data and lets it transfer, mostly without the other channel. */
static void transfer(struct writer *w)
{
    uint32_t channel = some_channel(w), other = 3 - channel;
    if (channel_of(w, channel)->mode != EMU_RUNNING) set(w, channel, SET_MODE, EMU_RUNNING);
    if (channel_of(w, other)->mode == EMU_RUNNING && chance(&w->d, 600))
        set(w, other, SET_MODE, chance(&w->d, 500) ? EMU_IDLE : EMU_SUSPENDED);
    point(w, channel, SET_GA);
    point(w, channel, SET_GB);
    if (chance(&w->d, 300)) point(w, channel, SET_GC);
    for (unsigned i = 1 + below(&w->d, 3); i > 0; i--) transfer_once(w, channel, any_cc(w));
    for (unsigned i = 2 + below(&w->d, 4); i > 0; i--) search_in_turn(w, channel);
}

/* ---- What comes next ---- */

/* Lines for a step: any, EXT less often; now and then no line number at all. */
static uint32_t some_lines(struct writer *w)
{
    static const uint32_t odd[] = {16, 17, 31, 0xFF, 0x100, 0x10000, 0x80000000, 0xFFFFFFFF};
    if (chance(&w->d, 12)) return ONE_OF(&w->d, odd);
    return good_lines(w, 400);
}

/* Puts a few instructions where a channel's TP is, with something that they can work on, and steps. */
static void try_instructions(struct writer *w, uint32_t channel)
{
    const struct emu_channel *ch = channel_of(w, channel);
    if (chance(&w->d, 700)) point(w, channel, some_pointer(w));
    if (chance(&w->d, 300)) set(w, channel, SET_IX, below(&w->d, 64));
    if (chance(&w->d, 200)) let_hold(w, channel);
    if (transfers(w, channel)) set(w, channel, SET_PSW, ch->psw & ~(uint32_t)EMU_PSW_XF);
    if (ch->mode != EMU_RUNNING) set(w, channel, SET_MODE, EMU_RUNNING);
    struct program *p = fresh_program(w);
    for (unsigned i = 1 + below(&w->d, 5); i > 0; i--) write_one(p);
    place(w, ch->tp.tag, ch->tp.address, p->byte, p->length);
    w->s.answered = EMU_DONE;
    for (unsigned i = 5; i > 0 && w->s.answered == EMU_DONE; i--) step(w, some_lines(w));
}

/* Lets one channel alone execute, from some place of either space. */
static void execute_at(struct writer *w, uint32_t channel, bool in_io, uint32_t tp)
{
    set(w, channel, SET_PSW, EMU_PSW_TB);
    set(w, channel, SET_MODE, EMU_RUNNING);
    set(w, 3 - channel, SET_MODE, EMU_IDLE);
    set(w, channel, SET_TP_TAG, in_io);
    set(w, channel, SET_TP, tp);
}

/* ---- Pairs and held bytes ---- */

/* A transfer of pairs in the making: whether its stores are asked for or its fetches, the two sides, and CC. */
struct pair {
    uint32_t channel;
    bool stores, moves, odd;
    bool asking_in_io, word_in_io;
    uint32_t asking, word, cc, bc, mc;
};

/* A pair of the next kind of side that asks, somewhere in lent memory or, of I/O space, behind it; no end is on. */
static struct pair new_pair(struct writer *w, unsigned turn)
{
    struct pair p = {.channel = some_channel(w), .stores = turn % 2 != 0, .bc = 4 + below(&w->d, 8)};
    unsigned kind = turn / 2 % EMU_SIDES;
    uint32_t edge = (uint32_t)w->s.memory.io_len, most = edge > 64 ? edge : 64;
    p.moves = (kind & EMU_SIDE_MOVES) != 0;
    p.odd = (kind & EMU_SIDE_ODD) != 0;
    p.asking_in_io = (kind & EMU_SIDE_IO) != 0;
    p.word_in_io = chance(&w->d, 200);
    p.asking = p.asking_in_io && chance(&w->d, 800) ? below(&w->d, most) : 32 + below(&w->d, 16);
    p.word = p.word_in_io && chance(&w->d, 800) ? below(&w->d, most) : 48 + below(&w->d, 30);
    p.cc = (p.stores ? 2u : 1u) << 11 | below(&w->d, 8) << 8;
    p.cc |= (p.moves ? 1u : 0) << (p.stores ? 15 : 14) | below(&w->d, 2) << (p.stores ? 14 : 15);
    return p;
}

/* Puts a channel into a transfer of pairs by its registers, mostly alone, and holding no byte yet. */
static void set_pair(struct writer *w, const struct pair *p)
{
    bool source_is_gb = (p->cc >> 10 & 1u) != 0, asking_is_gb = p->stores != source_is_gb;
    unsigned asking = asking_is_gb ? SET_GB : SET_GA, word = asking_is_gb ? SET_GA : SET_GB;
    uint32_t widths = p->odd ? EMU_PSW_S | EMU_PSW_D : p->stores ? EMU_PSW_S : EMU_PSW_D;
    uint32_t other = 3 - p->channel;
    if (channel_of(w, other)->mode == EMU_RUNNING && chance(&w->d, 900)) set(w, other, SET_MODE, EMU_IDLE);
    set(w, p->channel, SET_MODE, EMU_RUNNING);
    set(w, p->channel, asking, p->odd ? p->asking | 1u : p->asking);
    set(w, p->channel, asking - SET_GA + SET_GA_TAG, p->asking_in_io);
    set(w, p->channel, word, p->word & ~1u);
    set(w, p->channel, word - SET_GA + SET_GA_TAG, p->word_in_io);
    set(w, p->channel, SET_BC, p->bc);
    set(w, p->channel, SET_MC, p->mc);
    set_cc(w, p->channel, p->cc);
    set(w, p->channel, SET_PSW, (below(&w->d, 256) & ~3u) | EMU_PSW_XF | EMU_PSW_TB | widths);
    let_go(w, p->channel);
}

/* The byte at a place as a processor reads it; 0 of system space where none is lent. */
static uint8_t byte_at(const struct writer *w, bool in_io, uint32_t address)
{
    const struct emu_memory *m = &w->s.memory;
    uint32_t at = address & (in_io ? 0xFFFFu : MASK20);
    if (at >= (in_io ? m->io_len : m->sys_len)) return in_io ? 0xFF : 0;
    return (in_io ? m->io : m->sys)[at];
}

/* Lets TMC be met by the byte that the first fetch reads, or by one of two stores, mostly the second, and not by the other. */
static void let_meet(struct writer *w, struct pair *p, bool on_no_match)
{
    uint32_t first_read = p->odd ? p->asking | 1u : p->asking, word = p->word & ~1u;
    uint8_t met = byte_at(w, p->asking_in_io, first_read), other = met ^ 1u;
    if (p->stores) {
        unsigned late = chance(&w->d, 600) ? 1 : 0;
        uint8_t bytes[2] = {(uint8_t)below(&w->d, 256), 0};
        bytes[1] = bytes[0] ^ (uint8_t)(1 + below(&w->d, 255));
        place(w, p->word_in_io, word, bytes, sizeof bytes);
        met = byte_at(w, p->word_in_io, word + late);
        other = byte_at(w, p->word_in_io, word + 1 - late);
    }
    p->mc = 0xFF00u | (on_no_match ? other : met);
}

/* Lets a pair end so. */
static void let_end(struct writer *w, struct pair *p, unsigned ends)
{
    uint32_t none = below(&w->d, 2);
    let_meet(w, p, none != 0);
    if ((ends & EMU_END_TMC) != 0) p->cc |= none << 2 | (1 + below(&w->d, 3));
    if ((ends & EMU_END_TBC) != 0) p->cc |= (1 + below(&w->d, 3)) << 3, p->bc = 2;
    if ((ends & EMU_END_TS) != 0) p->cc |= 1u << 7;
}

/* Calls something between the halves of a pair that lets the held byte be. */
static void interrupt_pair(struct writer *w, uint32_t channel)
{
    unsigned kind = below(&w->d, 6);
    if (kind == 0) step(w, good_lines(w, 0) & ~channel);
    else if (kind == 1) command(w, channel, 0);
    else if (kind == 2) command(w, 3 - channel, below(&w->d, 8));
    else if (kind < 5) {
        command(w, channel, 6);
        if (chance(&w->d, 200)) step(w, good_lines(w, 0));
        command(w, channel, 5);
    } else give_odd_attention(w);
}

/* Makes the halves of one pair, the side that asks and the ends taking turns, at times with something between them. */
static void pair_in_turn(struct writer *w)
{
    unsigned turn = w->pair_turn++;
    struct pair p = new_pair(w, turn);
    let_end(w, &p, turn / 2 % (EMU_END_SETS + 1) % EMU_END_SETS);
    set_pair(w, &p);
    step(w, p.channel);
    if (chance(&w->d, 300)) interrupt_pair(w, p.channel);
    step(w, p.channel);
}

/* Makes one half of a pair of which a byte or two are not lent: of the side that asks, its second or both, or its first
   where the second wraps; of the word side, its second, twice since that wants an odd length, or both; the sides and
   halves take turns. */
static void edge_in_turn(struct writer *w)
{
    enum { ASKING_GONE, ASKING_OVER, ASKING_WRAPS, WORD_GONE, WORD_OVER, WORD_OVER_AGAIN, EDGES };
    unsigned turn = w->edge_turn++, edge = turn / 4 % EDGES;
    bool in_io = chance(&w->d, 300);
    uint32_t length = (uint32_t)(in_io ? w->s.memory.io_len : w->s.memory.sys_len);
    struct pair p = new_pair(w, turn % 2);
    if (edge >= WORD_GONE) p.word_in_io = in_io;
    else p.asking_in_io = in_io;
    if (edge == ASKING_GONE) p.asking = length;
    if (edge == ASKING_OVER) p.asking = length - 1;
    if (edge == ASKING_WRAPS) p.asking = MASK20;
    if (edge == WORD_GONE) p.word = length + 1;
    if (edge >= WORD_OVER) p.word = length - 1;
    p.asking &= MASK20;
    p.word &= MASK20;
    if (edge == ASKING_OVER || edge == ASKING_WRAPS) p.cc |= 1u << (p.stores ? 15 : 14);
    set_pair(w, &p);
    if (turn / 2 % 2 != 0) let_hold(w, p.channel);
    step(w, p.channel);
}

/* Lets a channel take a command that is accepted in this mode, while it holds a byte. */
static void command_holding(struct writer *w, uint32_t channel, enum emu_mode mode, unsigned bits)
{
    set(w, channel, SET_MODE, (uint32_t)mode);
    set(w, channel, SET_PP, 16 + below(&w->d, 32));
    let_hold(w, channel);
    if (bits != 1 && bits != 3) command(w, channel, bits);
    else {
        w->program_in_io[channel - 1] = bits == 1;
        start(w, channel);
    }
}

/* Makes a transfer step that is no half, or one that 5 refuses, by a channel that holds a byte or, refused, by one that
   holds none. */
static void step_holding(struct writer *w, unsigned kind)
{
    enum { UNSYNCHRONISED, NO_WORD, SYNCHRONISED_WORD, LAST_BYTE, SYN_11, TRANSLATION };
    struct pair p = new_pair(w, below(&w->d, 2));
    p.word_in_io = p.asking_in_io = false;
    if (kind == UNSYNCHRONISED) p.cc &= ~(3u << 11);
    if (kind == SYNCHRONISED_WORD) p.cc ^= 3u << 11;
    if (kind == LAST_BYTE) p.cc |= (1 + below(&w->d, 3)) << 3, p.bc = 1;
    if (kind == SYN_11) p.cc |= 3u << 11;
    if (kind == TRANSLATION) p.cc |= 1u << 13;
    set_pair(w, &p);
    if (kind == NO_WORD) set(w, p.channel, SET_PSW, EMU_PSW_XF | EMU_PSW_TB);
    if (kind < SYN_11 || chance(&w->d, 500)) let_hold(w, p.channel);
    step(w, p.channel);
}

/* Lets a held byte meet what drops or keeps it, each in its turn. */
static void hold_in_turn(struct writer *w)
{
    static const enum emu_mode taken[8] = {EMU_IDLE, EMU_SUSPENDED, EMU_IDLE,    EMU_IDLE,
                                           EMU_IDLE, EMU_SUSPENDED, EMU_RUNNING, EMU_RUNNING};
    static const uint8_t nop[] = {0, 0};
    uint32_t channel = some_channel(w), tp = 16 + below(&w->d, 32);
    unsigned kind = w->held_turn++ % 16;
    if (kind == 2) {
        execute_at(w, channel, false, tp);
        place(w, false, tp, nop, sizeof nop);
        let_hold(w, channel);
        step(w, 0);
    } else if (kind == 4) {
        execute_at(w, channel, false, tp);
        set_cc(w, channel, any_cc(w) | 1u << 5);
        set(w, channel, SET_PSW, transfer_psw(w, 0));
        let_hold(w, channel);
        step(w, 4u << (channel - 1) | below(&w->d, 4));
    } else if (kind < 8) command_holding(w, channel, taken[kind], kind);
    else if (kind < 14) step_holding(w, kind - 8);
    else {
        let_hold(w, channel);
        give_command(w);
    }
}

/* ---- Sweeps ---- */

/* A block transfer in the making: its channel, how many bytes, CC and PSW, and of GA and GB the space and the place. */
struct block {
    uint32_t channel, n, cc, psw;
    bool in_io[2];
    uint32_t at[2];
};

/* Some bytes near the start of their spaces, apart from each other; in I/O space where there is enough of it. */
static struct block some_block(struct writer *w)
{
    uint32_t first = below(&w->d, 2), free_bits = below(&w->d, 8) << 8 | below(&w->d, 2) << 2;
    struct block b = {.channel = some_channel(w), .n = 2 + below(&w->d, 8)};
    for (unsigned i = 0; i < 2; i++) {
        b.in_io[i] = w->s.memory.io_len >= 80 && chance(&w->d, 500);
        b.at[i] = (i == first ? 32 : 56) + below(&w->d, 8);
    }
    b.cc = 0xC000u | free_bits | (1 + below(&w->d, 3)) << 3;
    b.psw = below(&w->d, 256) | EMU_PSW_XF;
    return b;
}

/* Points GA or GB at its range, in I/O space with any high bits. */
static void set_range(struct writer *w, const struct block *b, unsigned which)
{
    uint32_t high = b->in_io[which] ? below(&w->d, 16) << 16 : 0;
    set(w, b->channel, SET_GA + which, b->at[which] | high);
    set(w, b->channel, SET_GA_TAG + which, b->in_io[which]);
}

/* Puts a channel into such a transfer by its registers, so that it can be swept; at times armed, or with a byte held. */
static void set_block(struct writer *w, const struct block *b)
{
    uint32_t other = 3 - b->channel;
    enum emu_mode mode = chance(&w->d, 500) ? EMU_IDLE : EMU_SUSPENDED;
    if (channel_of(w, other)->mode == EMU_RUNNING) set(w, other, SET_MODE, (uint32_t)mode);
    set_range(w, b, 0);
    set_range(w, b, 1);
    set(w, b->channel, SET_BC, b->n & 0xFFFFu);
    set_cc(w, b->channel, b->cc);
    set(w, b->channel, SET_PSW, b->psw);
    set(w, b->channel, SET_MODE, EMU_RUNNING);
    if (chance(&w->d, 400)) set(w, b->channel, SET_ARM, 1);
    if (chance(&w->d, 400)) let_hold(w, b->channel);
}

/* Sweeps under a CC that differs in these bits. */
static void sweep_with(struct writer *w, const struct block *b, uint32_t bits)
{
    set_cc(w, b->channel, b->cc ^ bits);
    sweep(w, b->channel, below(&w->d, 4));
    set_cc(w, b->channel, b->cc);
}

/* Sweeps while a channel, this or the other one, has another mode. */
static void sweep_while(struct writer *w, const struct block *b, uint32_t channel, enum emu_mode mode)
{
    enum emu_mode own = channel_of(w, channel)->mode;
    set(w, channel, SET_MODE, (uint32_t)mode);
    sweep(w, b->channel, below(&w->d, 4));
    set(w, channel, SET_MODE, (uint32_t)own);
}

/* Sweeps while XF is clear. */
static void sweep_without_xf(struct writer *w, const struct block *b)
{
    set(w, b->channel, SET_PSW, b->psw & ~(uint32_t)EMU_PSW_XF);
    sweep(w, b->channel, below(&w->d, 4));
    set(w, b->channel, SET_PSW, b->psw);
}

/* Sweeps while GA or GB is at another place, in its space or in the other one's. */
static void sweep_at(struct writer *w, const struct block *b, unsigned which, bool in_io, uint32_t at)
{
    struct block moved = *b;
    moved.in_io[which] = in_io;
    moved.at[which] = at;
    set_range(w, &moved, which);
    sweep(w, b->channel, below(&w->d, 4));
    set_range(w, b, which);
}

/* Sweeps the transfer while this alone bars it. */
static void sweep_barred(struct writer *w, const struct block *b, enum emu_bar bar)
{
    static const unsigned fields[] = {0, 1, 2, 3, 6, 7}; /* from the destination to TX */
    unsigned source = (b->cc >> 10 & 1u) != 0 ? 1 : 0, which = bar == EMU_BAR_SOURCE_NOT_LENT ? source : 1 - source;
    size_t length = b->in_io[which] ? w->s.memory.io_len : w->s.memory.sys_len;
    switch (bar) {
    case EMU_BAR_EXT: sweep(w, b->channel, 4 + below(&w->d, 12)); return;
    case EMU_BAR_OTHER_RUNS: sweep_while(w, b, 3 - b->channel, EMU_RUNNING); return;
    case EMU_BAR_STANDS: sweep_while(w, b, b->channel, chance(&w->d, 500) ? EMU_IDLE : EMU_SUSPENDED); return;
    case EMU_BAR_NO_XF: sweep_without_xf(w, b); return;
    case EMU_BAR_TBC_OFF: sweep_with(w, b, b->cc & 0x0018u); return;
    case EMU_BAR_TMC: sweep_with(w, b, 1 + below(&w->d, 3)); return;
    case EMU_BAR_SOURCE_NOT_LENT:
    case EMU_BAR_DESTINATION_NOT_LENT: sweep_at(w, b, which, b->in_io[which], (uint32_t)length - b->n + 1); return;
    case EMU_BAR_SHARED: sweep_at(w, b, 0, b->in_io[1], b->at[1] + below(&w->d, b->n)); return;
    default: sweep_with(w, b, some_bits(w, fields[bar - EMU_BAR_DESTINATION_STAYS])); return;
    }
}

/* Sweeps a block transfer: barred by three things, each alone and in its turn, at times with a bad argument, then done. */
static void sweep_in_turn(struct writer *w)
{
    struct block b = some_block(w);
    set_block(w, &b);
    for (unsigned i = 0; i < 3; i++) sweep_barred(w, &b, (enum emu_bar)(w->sweep_turn++ % EMU_BARS));
    if (chance(&w->d, 150)) sweep(w, odd_channel(w), below(&w->d, 4));
    if (chance(&w->d, 150)) sweep(w, b.channel, 16 + below(&w->d, 4));
    sweep(w, b.channel, below(&w->d, 4));
}

/* Sweeps 65,536 bytes between all of I/O space and some of system space, where both are lent. */
static void sweep_all(struct writer *w)
{
    struct block b = some_block(w);
    unsigned which = below(&w->d, 2);
    b.n = 65536;
    b.in_io[which] = true;
    b.in_io[1 - which] = false;
    b.at[which] = 0;
    set_block(w, &b);
    sweep(w, b.channel, below(&w->d, 4));
}

/* ---- Empty slots and single instructions ---- */

/* Puts an instruction of which some bytes are cut off at the end of I/O memory, and steps. */
static void execute_into_slots(struct writer *w, uint32_t channel)
{
    static const uint8_t movi_bc[] = {0x71, 0x30, 0x34, 0x12}, jmp[] = {0x88, 0x20, 0x05};
    bool word = chance(&w->d, 500);
    size_t length = word ? sizeof movi_bc : sizeof jmp, there = 1 + below(&w->d, length - 1);
    uint32_t tp = (uint32_t)(w->s.memory.io_len - there) & 0xFFFFu;
    execute_at(w, channel, true, tp);
    place(w, true, tp, word ? movi_bc : jmp, length);
    step(w, 0);
}

/* Points at the end of I/O memory and behind it, and lets instructions read and store there: MOV and MOVB both ways, LPD,
   MOVP both ways, CALL, TSL and INC. */
static void work_in_slots(struct writer *w, uint32_t channel)
{
    static const uint8_t pairs[][2] = {{0x61, 0x80}, {0x60, 0x80}, {0x61, 0x84}, {0x60, 0x84}, {0x41, 0x88},
                                       {0x41, 0x8C}, {0x21, 0x98}, {0x88, 0x9C}, {0x18, 0x94}, {0x01, 0xE8}};
    uint32_t tp = 16 + below(&w->d, 16);
    for (unsigned i = 0; i < 3; i++) {
        set(w, channel, SET_GA + i, (uint32_t)(w->s.memory.io_len - i) & 0xFFFFu);
        set(w, channel, SET_GA_TAG + i, true);
    }
    for (unsigned i = 0; i < 5; i++) {
        const uint8_t *pair = ONE_OF(&w->d, pairs);
        uint8_t code[4] = {pair[0], (uint8_t)(pair[1] | below(&w->d, 3)), 0, 0};
        execute_at(w, channel, false, tp);
        place(w, false, tp, code, sizeof code);
        step(w, 0);
    }
}

/* Makes one transfer step of two bytes, the last of I/O memory or none and the slot behind, out of there or into it. */
static void transfer_over_edge(struct writer *w, uint32_t channel)
{
    bool into = chance(&w->d, 500);
    uint32_t there = chance(&w->d, 700) ? 1 : 0;
    unsigned edge = into ? SET_GB : SET_GA, other = into ? SET_GA : SET_GB;
    execute_at(w, channel, false, 16);
    set(w, channel, edge, (uint32_t)(w->s.memory.io_len - there) & 0xFFFFu);
    set(w, channel, edge - SET_GA + SET_GA_TAG, true);
    set(w, channel, other, 2 * below(&w->d, 32));
    set(w, channel, other - SET_GA + SET_GA_TAG, false);
    set_cc(w, channel, 0xC080);
    set(w, channel, SET_PSW, EMU_PSW_TB | EMU_PSW_XF | EMU_PSW_S | EMU_PSW_D);
    step(w, 0);
}

/* Makes one transfer step of a byte whose entry in the table is in a slot. */
static void translate_in_slots(struct writer *w, uint32_t channel)
{
    execute_at(w, channel, false, 16);
    set(w, channel, SET_GC, (uint32_t)w->s.memory.io_len & 0xFFFFu);
    set(w, channel, SET_GC_TAG, true);
    set_cc(w, channel, 0xE080);
    set(w, channel, SET_PSW, EMU_PSW_TB | EMU_PSW_XF);
    step(w, 0);
}

/* Lets a channel meet empty slots of I/O space, where there are some. */
static void meet_slots(struct writer *w)
{
    unsigned kind = below(&w->d, 1000);
    if (w->s.memory.io_len >= EMU_IO_LIMIT) return;
    if (kind < 400) execute_into_slots(w, some_channel(w));
    else if (kind < 560) transfer_over_edge(w, some_channel(w));
    else if (kind < 660) translate_in_slots(w, some_channel(w));
    else work_in_slots(w, some_channel(w));
}

/* Moves a value to CC, by MOV or MOVI, and transfers as it says. */
static void move_to_cc(struct writer *w)
{
    uint32_t channel = some_channel(w), cc = transfer_cc(&w->d), tp = 16 + below(&w->d, 16);
    uint8_t mov[] = {0xC1, 0x80, 0x60, 0x00, 0x00, 0x00}, value[] = {(uint8_t)cc, (uint8_t)(cc >> 8)};
    uint8_t movi[] = {0xD1, 0x30, value[0], value[1], 0x60, 0x00, 0x00, 0x00};
    bool by_mov = chance(&w->d, 500);
    execute_at(w, channel, false, tp);
    if (by_mov) point(w, channel, SET_GA);
    if (by_mov) place(w, channel_of(w, channel)->ga.tag, channel_of(w, channel)->ga.address, value, sizeof value);
    place(w, false, tp, by_mov ? mov : movi, by_mov ? sizeof mov : sizeof movi);
    for (unsigned i = 3 + below(&w->d, 4); i > 0; i--) step(w, good_lines(w, 250));
}

/* Moves a word from one memory operand to another with an offset byte each, which touches most bytes. */
static void move_widely(struct writer *w)
{
    uint32_t channel = some_channel(w), tp = 16 + below(&w->d, 16), from = below(&w->d, 3), to = below(&w->d, 3);
    uint8_t mov[] = {0x03, (uint8_t)(0x90 | from), (uint8_t)below(&w->d, 16),
                     0x03, (uint8_t)(0xCC | to),   (uint8_t)below(&w->d, 16)};
    execute_at(w, channel, false, tp);
    point(w, channel, SET_GA + from);
    point(w, channel, SET_GA + to);
    place(w, false, tp, mov, sizeof mov);
    step(w, good_lines(w, 250));
}

/* Gives a channel another program, and starts it from whatever mode. */
static void start_again(struct writer *w, uint32_t channel)
{
    give_program(w, channel);
    if (channel_of(w, channel)->mode == EMU_RUNNING) command(w, channel, chance(&w->d, 600) ? 7 : 6);
    start(w, channel);
}

/* Changes what a channel has before it, since a step was refused. */
static void help_on(struct writer *w, uint32_t channel)
{
    const struct emu_channel *ch = channel_of(w, channel);
    if (ch->mode == EMU_SUSPENDED && chance(&w->d, 700)) command(w, channel, 5);
    else if (ch->mode != EMU_RUNNING || chance(&w->d, 200)) start_again(w, channel);
    else if (transfers(w, channel)) set(w, channel, SET_PSW, below(&w->d, 256) & ~(uint32_t)EMU_PSW_XF);
    else if (chance(&w->d, 600)) try_instructions(w, channel);
    else point(w, channel, some_pointer(w));
}

/* Steps a few times with attentions and sets between, until a step is refused. */
static void steps(struct writer *w)
{
    for (unsigned i = 4 + below(&w->d, 16); i > 0; i--) {
        if (chance(&w->d, 60)) give_command(w);
        if (chance(&w->d, 40)) set_any(w);
        step(w, some_lines(w));
        if (w->s.answered == EMU_DONE || w->s.answered == EMU_BAD_ARGUMENT) continue;
        if (chance(&w->d, 800)) help_on(w, 1);
        if (chance(&w->d, 800)) help_on(w, 2);
        return;
    }
}

/* Writes what a board holds for power-up near the end of the megabyte, and the block that it points to, where lent. */
static void place_board(struct writer *w)
{
    uint32_t block = data_place(w, false);
    uint8_t top[6], words[6];
    fill(&w->d, top, sizeof top);
    fill(&w->d, words, sizeof words);
    if (chance(&w->d, 500)) top[0] = (uint8_t)below(&w->d, 256);
    if (chance(&w->d, 500)) words[0] = (uint8_t)below(&w->d, 256);
    as_doubleword(&w->d, block, top + 2);
    as_doubleword(&w->d, choose_cp(&w->d, w->s.memory.sys_len), words + 2);
    place(w, false, 0xFFFF6, top, sizeof top);
    place(w, false, block, words, sizeof words);
}

/* Calls a machine that is not powered up, by a reset or by its mark, and powers it up; mends it where that is refused. */
static void start_over(struct writer *w)
{
    if (chance(&w->d, 700)) say(w, "reset");
    else set(w, 0, SET_UP, 0);
    if (chance(&w->d, 850)) let_hold(w, some_channel(w));
    for (unsigned i = 1 + below(&w->d, 3); i > 0; i--) {
        if (chance(&w->d, 500)) say(w, "ca %u", (unsigned)some_channel(w));
        else step_or_sweep(w);
    }
    if (chance(&w->d, 900)) place_board(w);
    say(w, "power");
    if (!w->s.state.powered) set(w, 0, SET_UP, 1);
    start_again(w, some_channel(w));
    if (chance(&w->d, 200)) say(w, "power");
}

/* Shows bytes of a buffer: anywhere, across its end, or far behind it. */
static void show(struct writer *w)
{
    bool in_io = chance(&w->d, 500);
    size_t length = in_io ? w->s.memory.io_len : w->s.memory.sys_len;
    uint32_t at = chance(&w->d, 600) ? below(&w->d, length) : (uint32_t)length - below(&w->d, 18);
    say(w, "show %d %s", in_io, number(w, chance(&w->d, 30) ? 0xFFFFFFF8u : at).text);
}

/* Puts bytes up to a buffer's end, or one byte too far. */
static void put_at_end(struct writer *w)
{
    uint8_t bytes[24];
    bool in_io = chance(&w->d, 500);
    size_t length = in_io ? w->s.memory.io_len : w->s.memory.sys_len, count = 1 + below(&w->d, sizeof bytes);
    fill(&w->d, bytes, sizeof bytes);
    put(w, in_io, (uint32_t)(length - count) + below(&w->d, 2), bytes, count);
}

/* Lists a part of a buffer: where a channel's program was put, anywhere, up to the buffer's end, or one byte too far. */
static void list(struct writer *w)
{
    uint32_t channel = some_channel(w);
    bool in_io = chance(&w->d, 600) ? w->program_in_io[channel - 1] : chance(&w->d, 500);
    size_t length = in_io ? w->s.memory.io_len : w->s.memory.sys_len;
    uint32_t count = chance(&w->d, 20) ? SCRIPT_LIST_LIMIT + below(&w->d, 2) : 1 + below(&w->d, 48);
    uint32_t at = chance(&w->d, 500) ? w->program[channel - 1] : below(&w->d, length);
    if (chance(&w->d, 200)) at = (uint32_t)length - count + below(&w->d, 2);
    say(w, "list %d %s %s", in_io, number(w, at).text, number(w, count).text);
}

/* The characters of an end record: colon, ten digits, line feed. */
enum { END_RECORD = 12 };

/* The hexadecimal text of bytes at a place for data, at times without its end record. */
static size_t some_image(struct writer *w, char *file)
{
    uint8_t bytes[64];
    fill(&w->d, bytes, sizeof bytes);
    size_t length = hex_image((uint8_t *)file, bytes, 1 + below(&w->d, sizeof bytes), data_place(w, false));
    return chance(&w->d, 100) ? length - END_RECORD : length;
}

/* Loads a file: of a few bytes that mostly fit, or one of the comparison of files, good or damaged. */
static void load(struct writer *w)
{
    static char file[HEX_TEXT_ROOM + 1];
    struct hex_case c = {(uint8_t *)file, 0, 0, NULL};
    size_t length;
    if (chance(&w->d, 300)) length = some_image(w, file);
    else {
        make_hex_case(&c, roll(&w->d), 0);
        length = c.text_len;
    }
    perform_file(w, file, length);
}

/* Writes a line that is no call, or a call that is shut out. */
static void say_no_call(struct writer *w)
{
    static const char *const lines[] = {
        "make", "make 0 0", "make 0 0 0 0", "make 100002 0 0", "make 0 10002 0", "make 000000001 0 0", "make 0 0 0x1",
        "make 0 0 g", "make ffffffff 0 0", "MAKE 10 10 0", "makes 0 0 0", "put 0 0", "put 0 0 1", "put 0 0 123",
        "put 2 0 00", "put 0 fffffffff 00", "put 0 ffffffff 00", "put 0 0 0g", "put 0 0 00 00", "put 0 0 0x00", "put",
        "set 0 ga 0", "set 3 ga 0", "set 1 cp 0", "set 2 last 1", "set 0 last 0", "set 0 last 3", "set 1 mode 3",
        "set 1 arm 2", "set 2 ga.t 2", "set 1 tp.t 10", "set 1 bc 10000", "set 2 mc 10000", "set 1 psw 100",
        "set 1 GA 0", "set 1 zz 0", "set 1 ga", "set 1 ga -1", "set 1 ga 0 0", "set 1 pp.t 0", "set 0 cp.t 0",
        "set 1 g 0", "set 1 gaa 0", "set 1 ga 100000000", "set 0 mode 1", "set 101 ga 0", "ca", "ca 1 1", "ca x",
        "ca 123456789", "ca 1,", "ca1", "step", "step 0 0", "step 0.", "step -1", "stepp 0", "ste 0", "dump 1", "Dump",
        "show", "show 0", "show 2 0", "show 0 0 0", "show 0 123456789", " # no comment", "hello", "?", "0",
        "list", "list 0 0", "list 2 0 1", "list 0 0 0", "list 0 0 401", "list 0 0 1 0", "list 0 ffffffff 1",
        "list 0 0 g", "List 0 0 1", "reset 0", "Reset", "resets", "rese", "power 1", "POWER", "powerup", "power-up",
        "set 1 up 1", "set 0 up 2", "set 0 sysbus 2", "set 2 soc 0", "set 0 grant 10", "set 0 grants 1",
        "set 0 sysbuss 1", "set 0 fields 0", "set 1 fields 10000", "set 2 field 0", "set 1 fieldss 0", "set 1 Fields 0",
        "set 1 fields", "set 2 fields.t 0", "set 0 held 0", "set 1 held", "set 1 held 1", "set 2 held ff",
        "set 1 held 200", "set 2 held ffff", "set 1 held 10000", "set 1 held 15a 0", "set 1 Held 0", "set 2 hel 0",
        "set 1 helds 0", "set 1 held none", "prom 0", "Prom", "proms", "end", "end 0", ":00000001FF",
        "sweep", "sweep 1", "sweep 1 0 0", "Sweep 1 0", "sweeps 1 0", "swee 1 0", "sweep x 0", "sweep 1 g",
        "sweep 1, 0", "sweep 123456789 0", "sweep 1 123456789", "sweep1 0",
        "dump\t", "\tdump", "ca\t1", "dump\r\r", "\rstep 1", "ca\r1", "\r\r", "\t", "ca \xC3\xA9", "a b c d e f g h",
    };
    perform(w, ONE_OF(&w->d, lines));
}

/* Writes a call with one character changed, which may leave it a call, though another one. */
static void say_damaged(struct writer *w)
{
    static const char *const calls[] = {"make 200 80 10", "put 0 0 0011", "put 1 7f 0A", "set 1 ga 12345",
                                        "set 2 tp.t 1",   "set 0 last 1", "set 0 cp 0",  "set 2 psw 44",
                                        "ca 1",           "step 3",       "dump",        "show 0 0",
                                        "reset",          "power",        "set 0 up 1",  "set 0 sysbus 1",
                                        "set 1 cc c028",  "set 2 fields 418", "set 1 held 15a", "set 2 held 0",
                                        "sweep 1 0"};
    char line[32], put_in[] = "0123456789abcdefgABCDEFG xyz#.-\t?";
    size_t length = (size_t)snprintf(line, sizeof line, "%s", ONE_OF(&w->d, calls));
    line[below(&w->d, length)] = put_in[below(&w->d, sizeof put_in - 1)];
    if (line[0] == '#') write_line(w, line);
    else perform(w, line);
    mend_fields(w);
}

/* Writes whatever comes next. */
static void go_on(struct writer *w)
{
    unsigned kind = below(&w->d, 1000);
    if (kind < 240) steps(w);
    else if (kind < 350) give_command(w);
    else if (kind < 380) give_odd_attention(w);
    else if (kind < 470) set_any(w);
    else if (kind < 490) sweep_in_turn(w);
    else if (kind < 515) go_unsound(w);
    else if (kind < 530) go_apart(w);
    else if (kind < 540) move_to_cc(w);
    else if (kind < 600) transfer(w);
    else if (kind < 608) move_widely(w);
    else if (kind < 620) pair_in_turn(w);
    else if (kind < 632) edge_in_turn(w);
    else if (kind < 640) hold_in_turn(w);
    else if (kind < 740) try_instructions(w, some_channel(w));
    else if (kind < 760) show(w);
    else if (kind < 775) put_at_end(w);
    else if (kind < 810) list(w);
    else if (kind < 890) load(w);
    else if (kind < 910) start_over(w);
    else if (kind < 965) meet_slots(w);
    else if (kind < 978) say_damaged(w);
    else say_no_call(w);
}

/* ---- Machines ---- */

/* Both buffers' lengths. */
struct lengths {
    size_t sys, io;
};

/* Lengths for a machine: mostly small; at times nothing, hardly anything, the limits, and one over each of them. */
static struct lengths choose_lengths(struct random *d)
{
    unsigned kind = below(d, 1000), few = below(d, 80), many = below(d, 1800);
    struct lengths small = {400 + many, many / 2}, tiny = {few, 79 - few}, nothing = {0, 0};
    struct lengths no_sys = {0, few}, no_io = {few, 0}, over_sys = {EMU_SYSTEM_LIMIT + 1, few};
    struct lengths over_io = {few, EMU_IO_LIMIT + 1}, whole = {EMU_SYSTEM_LIMIT, EMU_IO_LIMIT};
    struct lengths less = {EMU_SYSTEM_LIMIT / 8 - few % 3, EMU_IO_LIMIT - few % 2};
    if (kind < 15) return nothing;
    if (kind < 30) return no_sys;
    if (kind < 45) return no_io;
    if (kind < 110) return tiny;
    if (kind < 150) return whole;
    if (kind < 180) return less;
    if (kind < 205) return over_sys;
    return kind < 235 ? over_io : small;
}

/* Makes a machine; small buffers are filled. */
static void make(struct writer *w)
{
    static uint8_t bytes[SMALL_BUFFERS];
    struct lengths length = choose_lengths(&w->d);
    uint32_t cp = chance(&w->d, 60) ? unsound_address(w) : choose_cp(&w->d, length.sys);
    struct digits sys = number(w, (uint32_t)length.sys), io = number(w, (uint32_t)length.io);
    say(w, "make %s %s %s", sys.text, io.text, number(w, cp).text);
    if (lent(w) > SMALL_BUFFERS) return;
    fill(&w->d, bytes, length.sys);
    put(w, false, 0, bytes, length.sys);
    fill(&w->d, bytes, length.io);
    put(w, true, 0, bytes, length.io);
}

/* Whether every call is refused. */
static bool stuck(const struct writer *w)
{
    const struct emu_memory *m = &w->s.memory;
    return m->sys_len < 80 || m->sys_len > EMU_SYSTEM_LIMIT || m->io_len > EMU_IO_LIMIT;
}

/* How many calls a machine is worth: few where all of them are refused. */
static unsigned long worth(struct writer *w)
{
    return stuck(w) ? 12 + below(&w->d, 10) : 60 + below(&w->d, 120);
}

/* Makes a machine and calls it, until it has had enough or the script is long enough. */
static void use_machine(struct writer *w)
{
    make(w);
    unsigned long most = worth(w), end = w->left > most ? w->left - most : 0;
    for (uint32_t channel = 1; channel <= 2; channel++) {
        give_program(w, channel);
        if (chance(&w->d, 850)) start(w, channel);
    }
    if (w->s.memory.sys_len > EMU_SYSTEM_LIMIT) load(w);
    if (w->s.memory.sys_len >= EMU_SYSTEM_LIMIT || w->s.memory.io_len > EMU_IO_LIMIT) start_over(w);
    if (chance(&w->d, 300)) let_hold(w, some_channel(w));
    if (!stuck(w)) {
        part_in_turn(w);
        pair_in_turn(w);
        edge_in_turn(w);
        hold_in_turn(w);
    } else if (w->s.memory.sys_len >= 80 || w->s.memory.io_len > EMU_IO_LIMIT) go_apart(w);
    while (w->left > end) go_on(w);
    if (w->s.memory.sys_len > EMU_IO_LIMIT + 80 && w->s.memory.io_len == EMU_IO_LIMIT) sweep_all(w);
    perform(w, "dump");
}

/* Ends the text: with a comment up to its length where one is wanted, otherwise with a line feed or without. */
static void finish(struct writer *w, size_t length)
{
    if (length == 0 && chance(&w->d, 500)) fputc('\n', w->out);
    if (w->written < length) write_line(w, "#");
    for (; w->written < length; w->written++) fputc('-', w->out);
}

bool write_script(uint64_t seed, unsigned long calls, size_t length, FILE *out)
{
    static struct writer w;
    w.nowhere = fopen("/dev/null", "w");
    if (w.nowhere == NULL) return false;
    w.d = seeded(seed, 0);
    w.out = out;
    w.left = calls;
    w.turn = (unsigned)(seed % (2 * EMU_FIELDS)) * 7;
    w.pair_turn = (unsigned)(seed % 144) * 11;
    w.edge_turn = w.held_turn = (unsigned)(seed % 80) * 7;
    w.search_turn = (unsigned)(seed % 36) * 7;
    w.sweep_turn = (unsigned)(seed % EMU_BARS) * 7;
    w.set_turn = (unsigned)(seed % SCRIPT_REGISTERS) * 7;
    session_begin(&w.s);
    while (w.left > 0) use_machine(&w);
    finish(&w, length);
    return true;
}
