/* A random script in the making: its lines are written and performed, so that the machine is known where it stands. */
#ifndef LINES_H
#define LINES_H

#include "programs.h"
#include "session.h"

/* Buffers of more bytes than this, in both spaces together, are dumped seldom: their digests take long. */
#define SMALL_BUFFERS 4096u

/* A script in the making: the machine, the calls left to write, where each channel's last program was put, and whose turn
   it is: among the fields of CC to disagree with it, the registers to be set, the counts of a search, the kinds of pairs,
   their bytes not to be lent, what meets a held byte, and what bars a sweep. */
struct writer {
    struct random d;
    struct session s;
    FILE *out, *nowhere;
    size_t written;
    unsigned long left;
    unsigned since_dump;
    uint32_t program[2];
    bool program_in_io[2];
    unsigned turn, set_turn, search_turn, pair_turn, edge_turn, held_turn, sweep_turn;
    struct program p;
};

/* Room for one number as text. */
struct digits {
    char text[16];
};

/* Writes a line behind the one before it, which ends here, at times with a carriage return before its line feed; how the
   last ends is decided at the end. */
void write_line(struct writer *w, const char *line);

/* Performs a line and writes it. */
void perform(struct writer *w, const char *line);

/* Performs a `prom` with this file and writes it, with the line that closes it; a file whose last line has no end gets one. */
void perform_file(struct writer *w, char *file, size_t length);

/* How many bytes are lent. */
size_t lent(const struct writer *w);

/* Writes a call; at times with more spaces than it needs, or with something before it that is passed over. */
void say(struct writer *w, const char *form, ...);

/* A number as text: mostly bare, at times with zeros before it or in capitals. */
struct digits number(struct writer *w, uint32_t value);

/* Writes bytes of one space from an index. */
void put(struct writer *w, bool in_io, uint32_t at, const uint8_t *bytes, size_t count);

/* Writes bytes where a processor would find them: each at its reduced address, and only if it is lent. */
void place(struct writer *w, bool in_io, uint32_t address, const uint8_t *bytes, size_t count);

/* Writes a set of a channel's register, or of a shared one. */
void set(struct writer *w, uint32_t channel, unsigned which, uint32_t value);

/* Writes a step with these lines. */
void step(struct writer *w, uint32_t lines);

/* Writes a sweep of a channel with these lines. */
void sweep(struct writer *w, uint32_t channel, uint32_t lines);

#endif
