/* Random cases for a run and images for the panel's program, each made from a seed and a number alone. */
#ifndef CASES_H
#define CASES_H

#include "programs.h"

#include <stdbool.h>

/* Room that each buffer of a case needs: its limit and one byte over. */
#define CASE_SYSTEM_ROOM 1048577u
#define CASE_IO_ROOM 65537u

/* What one run is given; the buffers are the caller's. */
struct run_case {
    uint8_t *sys, *io;
    size_t sys_len, io_len;
    uint32_t cp, channel, lines, limit;
};

/* Fills in the case of this seed and number. Of any 196,608 cases in a row a third hold each first pair once. */
void make_case(struct run_case *c, uint64_t seed, uint64_t number);

/* How the eight bytes lie from where a program begins: over the end of its memory; over the top of its space, the memory
 * being whole; over both, the memory ending just below the top; in a memory of fewer than eight; behind the end. */
enum edge { EDGE_END, EDGE_TOP, EDGE_BOTH, EDGE_SHORT, EDGE_BEHIND, EDGES };

/* Fills in the case of this seed and number in which a program begins so, in system or I/O space; answers how it lies. */
enum edge make_edge_case(struct run_case *c, uint64_t seed, uint64_t number, bool in_io);

/* Puts a random program with its parameter block into memory that has bytes already, and the block that starts it where
 * the case's channel has it. */
void put_program(struct random *d, struct run_case *c);

/* The length from which on a memory can have a board: its last byte is at FFFFBh. */
enum { BOARD_LENGTH = 0xFFFFC };

/* How a comparison writes a byte into the system memories of its machines, if it is lent. */
typedef void (*put_byte)(const struct run_case *c, uint32_t address, uint8_t byte);

/* Writes a board's bytes: SYSBUS, the pointer to a configuration block, near the top or anywhere, and there SOC and the
 * pointer to the case's control block, at times to another. */
void put_board(struct random *d, const struct run_case *c, put_byte put_it);

/* The most that the panel's program reads, room for longer images, and its I/O bytes. */
enum { PANEL_LIMIT = 4096, PANEL_ROOM = 6000, PANEL_IO = 256 };

/* Makes the image of this seed and number for the panel's program, and answers its length. */
size_t make_panel_image(uint8_t sys[PANEL_ROOM], uint64_t seed, uint64_t number);

/* Where a control block is: near 0, near the end of lent memory, near the top, anywhere, or no address. */
uint32_t choose_cp(struct random *d, size_t sys_len);

/* Fills a buffer with zeros, one byte, random bytes, or mostly zeros. */
void fill(struct random *d, uint8_t *bytes, size_t length);

#endif
