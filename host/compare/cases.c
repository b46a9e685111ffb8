/* Makes random cases: lengths, arguments, and images that hold a random program. */
#include "cases.h"

#include <stdbool.h>
#include <string.h>

/* ---- Sizes and arguments ---- */

/* A length of up to most bytes, often a short one. */
static size_t some_length(struct random *d, uint32_t most)
{
    return chance(d, 500) ? below(d, most / 8 + 1) : below(d, most + 1);
}

/* Both buffers' lengths: mostly small, at times any length, the limit, or one under or over it. */
static void choose_lengths(struct random *d, struct run_case *c)
{
    unsigned kind = below(d, 1000);
    c->sys_len = 256 + some_length(d, 3840);
    c->io_len = some_length(d, 2048);
    if (kind < 100) {
        c->sys_len = below(d, 97);
        c->io_len = some_length(d, 64);
    } else if (kind < 400) {
        c->sys_len = 131072;
        c->io_len = 65536 - below(d, 2);
    } else if (kind < 430) {
        c->sys_len = 1048576;
        c->io_len = 65536;
    } else if (kind < 434) {
        c->sys_len = below(d, CASE_SYSTEM_ROOM);
        c->io_len = below(d, CASE_IO_ROOM);
    } else if (kind < 437) {
        c->sys_len = 1048575;
        c->io_len = 65535;
    } else if (kind < 439) {
        c->sys_len = CASE_SYSTEM_ROOM;
    } else if (kind < 442) {
        c->io_len = CASE_IO_ROOM;
    } else if (kind < 470) {
        c->io_len = 0;
    }
}

uint32_t choose_cp(struct random *d, size_t sys_len)
{
    unsigned kind = below(d, 1000);
    uint32_t end = (uint32_t)sys_len;
    if (sys_len >= 1048575 && kind < 500) return MASK20 - below(d, 24);
    if (kind < 650) return 0;
    if (kind < 880) return below(d, 64);
    if (kind < 950) return (end - below(d, 24)) & MASK20;
    if (kind < 975) return MASK20 - below(d, 24);
    if (kind < 990) return below(d, 1048576);
    return chance(d, 500) ? 1048576 + below(d, 16) : (uint32_t)roll(d) | 1048576u;
}

/* Lines for a run; the channel's own EXT, which ends much, is the rarest. */
static uint32_t choose_lines(struct random *d, uint32_t channel)
{
    uint32_t own = channel == 2 ? 1 : 0, lines = below(d, 16) & ~(5u << own);
    if (chance(d, 700)) lines |= 1u << own;
    if (chance(d, 200)) lines |= 4u << own;
    return lines;
}

/* A step limit: 0, 1, few, many, the largest. */
static uint32_t choose_limit(struct random *d)
{
    unsigned kind = below(d, 1000);
    if (kind < 20) return 0;
    if (kind < 50) return 1;
    if (kind < 200) return below(d, 20);
    if (kind < 900) return 20 + below(d, 180);
    if (kind < 995) return 200 + below(d, 1800);
    return chance(d, 500) ? 65535 - below(d, 2) : below(d, 65536);
}

/* Spoils arguments, at times several at once, since their refusals have an order. */
static void spoil(struct random *d, struct run_case *c)
{
    static const uint32_t channels[] = {0, 3, 4, 255, 257, 65537, 65538, 0x80000001, 0xFFFFFFFF};
    static const uint32_t lines[] = {16, 17, 31, 255, 256, 65536, 0x80000000, 0xFFFFFFFF};
    static const uint32_t limits[] = {65536, 65537, 131071, 0x80000000, 0xFFFFFFFF};
    if (chance(d, 300)) c->channel = ONE_OF(d, channels);
    if (chance(d, 300)) c->lines = ONE_OF(d, lines);
    if (chance(d, 300)) c->limit = ONE_OF(d, limits);
    if (chance(d, 300)) c->cp = 1048576 + below(d, 4);
    if (chance(d, 60)) c->io_len = CASE_IO_ROOM;
    if (chance(d, 10)) c->sys_len = CASE_SYSTEM_ROOM;
}

/* All arguments of a case. */
static void choose_arguments(struct random *d, struct run_case *c)
{
    choose_lengths(d, c);
    c->cp = choose_cp(d, c->sys_len);
    c->channel = 1 + below(d, 2);
    c->lines = choose_lines(d, c->channel);
    c->limit = choose_limit(d);
    if (chance(d, 20)) spoil(d, c);
}

/* ---- Bytes ---- */

void fill(struct random *d, uint8_t *bytes, size_t length)
{
    unsigned kind = below(d, 4);
    memset(bytes, kind == 1 ? (int)below(d, 256) : 0, length);
    for (size_t i = 0; kind == 2 && i < length; i += 8) {
        uint64_t random = roll(d);
        memcpy(bytes + i, &random, length - i < 8 ? length - i : 8);
    }
    for (size_t i = below(d, 16); kind == 3 && i < length; i += 1 + below(d, 64)) bytes[i] = (uint8_t)roll(d);
}

/* Puts one byte where a processor would find it, if it is lent. */
static void put(struct run_case *c, bool in_io, uint32_t address, uint8_t byte)
{
    uint32_t at = in_io ? address & 0xFFFFu : address & MASK20;
    if (at < (in_io ? c->io_len : c->sys_len)) (in_io ? c->io : c->sys)[at] = byte;
}

/* Puts bytes in a row. */
static void put_all(struct run_case *c, bool in_io, uint32_t address, const uint8_t *bytes, size_t count)
{
    for (size_t i = 0; i < count; i++) put(c, in_io, address + (uint32_t)i, bytes[i]);
}

/* ---- Images ---- */

/* How an image is put into memory: its program's space, whether it is sure to be started, how much is cut off it. */
struct placing {
    bool in_io, orderly;
    unsigned cut;
};

/* A CCW: a start in the wanted space, at times another command, with any upper bits. */
static uint8_t choose_ccw(struct random *d, struct placing how)
{
    uint32_t command = how.in_io ? 1 : 3;
    return (uint8_t)((!how.orderly && chance(d, 60) ? below(d, 8) : command) | below(d, 32) << 3);
}

/* The parameter block's address: behind the control block, or anywhere in lent memory. */
static uint32_t choose_pb(struct random *d, const struct run_case *c, struct placing how)
{
    uint32_t behind = (c->cp & MASK20) + 16 + below(d, 16);
    bool fits = behind + 64 < c->sys_len;
    return fits && (how.orderly || chance(d, 700)) ? behind : below(d, c->sys_len);
}

/* The program's address: behind the parameter block, or anywhere in its space, at times across its top. */
static uint32_t choose_tp(struct random *d, const struct run_case *c, struct placing how, uint32_t pb, unsigned length)
{
    size_t lent = how.in_io ? c->io_len : c->sys_len;
    bool fits = !how.in_io && pb + 48 + length < lent;
    if (how.cut > 0) return (uint32_t)(lent + how.cut - length) & (how.in_io ? 0xFFFFu : MASK20);
    if (!how.orderly && chance(d, 30)) return (uint32_t)(lent - below(d, 16)) & (how.in_io ? 0xFFFFu : MASK20);
    if (fits && (how.orderly || chance(d, 500))) return pb + 16 + below(d, 32);
    return below(d, lent > length ? lent - length : lent);
}

/* Puts parameter block, program and control block into memory, the first two at these addresses. */
static void place_at(struct random *d, struct run_case *c, struct placing how, const struct program *p, uint32_t pb, uint32_t tp)
{
    uint8_t block[6] = {choose_ccw(d, how), (uint8_t)below(d, 256), 0, 0, 0, 0};
    uint8_t words[4];
    as_doubleword(d, pb, block + 2);
    as_doubleword(d, tp, words);
    if (how.in_io) {
        words[0] = (uint8_t)tp;
        words[1] = (uint8_t)(tp >> 8);
    }
    put_all(c, false, pb, words, how.in_io ? 2 : 4);
    put_all(c, how.in_io, tp, p->byte, p->length);
    put_all(c, false, c->channel == 2 ? c->cp + 8 : c->cp, block, sizeof block);
}

/* Puts them into memory, at addresses of its own choice. */
static void place_image(struct random *d, struct run_case *c, struct placing how, const struct program *p)
{
    uint32_t pb = choose_pb(d, c, how), tp = choose_tp(d, c, how, pb, p->length);
    place_at(d, c, how, p, pb, tp);
}

/* The arguments of a case that is about one pair: memory in which a program runs well. */
static void choose_pair_arguments(struct random *d, struct run_case *c)
{
    c->sys_len = 1024 + below(d, 1024);
    c->io_len = 512 + below(d, 512);
    c->cp = below(d, 32);
    c->channel = 1 + below(d, 2);
    c->lines = choose_lines(d, c->channel);
    c->limit = 12 + below(d, 20);
}

/* Puts a program around one first pair into memory, so that it runs well. */
static void put_pair(struct random *d, struct run_case *c, unsigned pair)
{
    static struct program p;
    new_program(&p, d, c->sys_len, c->io_len);
    struct placing how = {chance(d, 300), true, 0};
    write_pair(&p, pair);
    place_image(d, c, how, &p);
}

void put_program(struct random *d, struct run_case *c)
{
    static struct program p;
    new_program(&p, d, c->sys_len, c->io_len);
    struct placing how = {chance(d, 300), false, 0};
    if (chance(d, 40)) write_noise(&p);
    else if (chance(d, 80)) how.cut = write_cut(&p);
    else write_rich(&p);
    place_image(d, c, how, &p);
}

void make_case(struct run_case *c, uint64_t seed, uint64_t number)
{
    struct random d = seeded(seed, number);
    bool about_pair = number % 3 == 0;
    if (about_pair) choose_pair_arguments(&d, c);
    else choose_arguments(&d, c);
    fill(&d, c->sys, c->sys_len);
    fill(&d, c->io, c->io_len);
    if (about_pair) put_pair(&d, c, (unsigned)(number / 3) & 0xFFFFu);
    else put_program(&d, c);
}

/* ---- The ends of memory ---- */

/* A length of the memory whose end a program is about: just below the limit or at it, or a short one. */
static size_t edge_length(struct random *d, enum edge edge, uint32_t limit, uint32_t least)
{
    if (edge == EDGE_TOP) return limit;
    if (edge == EDGE_BOTH) return limit - 1 - below(d, 6);
    if (edge == EDGE_SHORT) return least == 0 ? 1 + below(d, 7) : least;
    return least + 8 + below(d, 120);
}

/* Where the program begins: within the seven bytes before the end or the top, or behind the end. */
static uint32_t edge_start(struct random *d, enum edge edge, uint32_t limit, size_t length)
{
    if (edge == EDGE_TOP) return limit - 1 - below(d, 7);
    if (edge == EDGE_BOTH) return (uint32_t)length - 1 - below(d, (uint32_t)length + 7 - limit);
    if (edge == EDGE_SHORT) return below(d, (uint32_t)length);
    if (edge == EDGE_BEHIND) return (uint32_t)length + below(d, 9);
    return (uint32_t)length - 1 - below(d, 7);
}

enum edge make_edge_case(struct run_case *c, uint64_t seed, uint64_t number, bool in_io)
{
    struct random d = seeded(seed, number);
    /* A system memory of fewer than eight bytes starts no program. */
    enum edge edge = in_io ? (enum edge)(number % EDGES) : (enum edge[]){EDGE_END, EDGE_TOP, EDGE_BOTH, EDGE_BEHIND}[number % 4];
    uint32_t limit = in_io ? 65536 : 1048576;
    size_t length = edge_length(&d, edge, limit, in_io ? 0 : 96);
    uint32_t start = edge_start(&d, edge, limit, length);
    static struct program p;
    c->sys_len = in_io ? 192 : length;
    c->io_len = in_io ? length : 64;
    c->cp = below(&d, 16);
    c->channel = 1 + below(&d, 2);
    c->lines = choose_lines(&d, c->channel);
    c->limit = 1 + below(&d, 24);
    fill(&d, c->sys, c->sys_len);
    fill(&d, c->io, c->io_len);
    new_program(&p, &d, c->sys_len, c->io_len);
    if (chance(&d, 200)) write_noise(&p);
    else write_rich(&p);
    place_at(&d, c, (struct placing){in_io, true, 0}, &p, c->cp + 32, start);
    return edge;
}

/* ---- Boards ---- */

/* Writes a doubleword pointer to an address at another. */
static void put_far(struct random *d, const struct run_case *c, put_byte put_it, uint32_t at, uint32_t to)
{
    uint8_t bytes[4];
    as_doubleword(d, to & MASK20, bytes);
    for (uint32_t i = 0; i < 4; i++) put_it(c, (at + i) & MASK20, bytes[i]);
}

void put_board(struct random *d, const struct run_case *c, put_byte put_it)
{
    uint32_t block = chance(d, 600) ? 0xFFFF0 - below(d, 64) : choose_cp(d, c->sys_len) & MASK20;
    uint32_t control = chance(d, 800) ? c->cp : choose_cp(d, c->sys_len);
    put_it(c, block, (uint8_t)below(d, 256));
    put_far(d, c, put_it, block + 2, control);
    put_it(c, 0xFFFF6, (uint8_t)below(d, 256));
    put_far(d, c, put_it, 0xFFFF8, block);
}

/* ---- Images for the panel's program ---- */

/* Every so many images one is longer than the program reads, has the next of the commands, is refused by 4 or 5, or
 * searches for a pattern. */
enum { LONG_EVERY = 60, COMMAND_EVERY = 10, REFUSED_EVERY = 15, SEARCH_EVERY = 3 };

/* An image's length: mostly enough for a program, at times hardly anything or exactly the limit. */
static size_t panel_length(struct random *d, uint64_t number)
{
    unsigned kind = below(d, 1000);
    size_t over = kind < 500 ? 1 : 1 + below(d, PANEL_ROOM - PANEL_LIMIT);
    if (number % LONG_EVERY == LONG_EVERY - 1) return PANEL_LIMIT + over;
    if (kind < 60) return below(d, 97);
    return kind < 150 ? PANEL_LIMIT : 256 + below(d, PANEL_LIMIT - 255);
}

size_t make_panel_image(uint8_t sys[PANEL_ROOM], uint64_t seed, uint64_t number)
{
    struct random d = seeded(seed, number);
    static struct program p;
    static uint8_t io[PANEL_IO];
    struct run_case c = {sys, io, panel_length(&d, number), sizeof io, 0, 1, 0, 0};
    struct placing how = {chance(&d, 30), false, 0};
    how.orderly = chance(&d, 800);
    fill(&d, c.sys, c.sys_len);
    new_program(&p, &d, c.sys_len, c.io_len);
    if (number % REFUSED_EVERY == 0) write_refused(&p, number / REFUSED_EVERY % 2 == 1);
    else if (number % SEARCH_EVERY == 1) write_search(&p);
    else if (chance(&d, 40)) write_noise(&p);
    else if (chance(&d, 80)) how.cut = write_cut(&p);
    else if (chance(&d, 350)) write_rich(&p);
    else write_round(&p);
    place_image(&d, &c, how, &p);
    if (number % COMMAND_EVERY == COMMAND_EVERY - 1 && c.sys_len > 0)
        sys[0] = (uint8_t)((sys[0] & 0xF8u) | (number / COMMAND_EVERY & 7u));
    return c.sys_len;
}
