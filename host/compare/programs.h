/* Random programs of the 8089, and the values that their transfers are set up with. */
#ifndef PROGRAMS_H
#define PROGRAMS_H

#include "random.h"

#include <stdbool.h>

/* Addresses have 20 bits. */
#define MASK20 0xFFFFFu

/* Room in a program, for bytes, for instructions and for jumps whose way is chosen last. */
enum { MOST_BYTES = 640, MOST_STARTS = 160, MOST_JUMPS = 160 };

/* A displacement that waits for its value. */
struct jump {
    unsigned at, size, end, from;
};

/* A program in the making, for memory of these lengths. */
struct program {
    struct random *d;
    size_t sys_len, io_len;
    uint8_t byte[MOST_BYTES];
    unsigned length;
    unsigned start[MOST_STARTS], starts;
    struct jump jump[MOST_JUMPS];
    unsigned jumps;
};

/* Begins an empty program. */
void new_program(struct program *p, struct random *d, size_t sys_len, size_t io_len);

/* A rich program: registers loaded, instructions of all formats, transfers among them, mostly a HLT at the end. */
void write_rich(struct program *p);

/* A program that goes round: registers loaded, then a rich body with a jump back to its start. */
void write_round(struct program *p);

/* A program of transfers that search words for a pattern and store them as bytes. */
void write_search(struct program *p);

/* A program that is refused by 5, for a transfer with SYN 11, or by 4, for INC CC. */
void write_refused(struct program *p, bool by_transfer);

/* Random bytes. */
void write_noise(struct program *p);

/* A program around one first pair, valid or not. */
void write_pair(struct program *p, unsigned pair);

/* A program whose last instruction, often wrong in more than one way, is cut off by so many bytes, which it answers. */
unsigned write_cut(struct program *p);

/* Adds an instruction of any format. */
void write_one(struct program *p);

/* So many bytes that a program may store in, and where they begin. */
enum { ROOM_BYTES = 32 };
struct room {
    bool in_io;
    uint32_t at;
};

/* A program that goes round for ever, instructions of most formats and transfers, and stores in two rooms alone. */
void write_confined(struct program *p, const struct room rooms[2]);

/* What a block transfer is set up with. */
struct block_transfer {
    uint32_t address[2], bc, cc, widths;
    bool in_io[2]; /* GA, GB */
};

/* A program that does up to one such round, sets up a block transfer and starts it; answers at which of its bytes TP is
 * then. */
unsigned write_block(struct program *p, const struct room rooms[2], const struct block_transfer *b);

/* A place for data in one space: inside lent memory, at its end, at the top of the space, or with low bits all 0. */
uint32_t some_place(struct program *p, bool in_io);

/* A CC for a transfer: every field by itself, with an end in sight more often than not. */
uint32_t transfer_cc(struct random *d);

/* A byte count for a transfer: few, 0, or any. */
uint32_t transfer_count(struct random *d);

/* A compare word: few bits compared, so that both answers come. */
uint32_t transfer_mc(struct random *d);

/* A CC for a search: TMC on, TBC often, no other end. */
uint32_t search_cc(struct random *d);

/* A byte count for a search: hardly any or none, mostly the two that end both ways at once. */
uint32_t search_count(struct random *d);

/* A compare word for a search that mostly ends at its first byte. */
uint32_t search_mc(struct random *d, uint32_t cc);

/* A channel set up for pairs: a transfer of two bytes under requests, singly on the side that asks for them. */
struct pairs {
    uint32_t cc, bc, mc, widths;
    uint32_t address[2];
    bool in_io[2]; /* GA, GB */
};

/* Sets up pairs: the side that asks 8 bits wide or odd, the other a word side, in either space, now and then at the end
 * of lent memory, with any ends and few bytes left. */
struct pairs some_pairs(struct program *p);

/* Writes an address as offset and segment, one of the many pairs that mean it. */
void as_doubleword(struct random *d, uint32_t address, uint8_t out[4]);

#endif
