/* A card bus over the calls that tell what a call touches: cards with handlers for reads and stores, by address range. */
#ifndef CARD_BUS_H
#define CARD_BUS_H

#include "iop89_service.h"

#include <stdbool.h>

/* A card: its addresses, in system space or in I/O space, all of them lent; what it gives for a read and takes of a store,
 * either of them NULL where it does not; and its own data, which both are handed. */
struct card {
    uint32_t from, count;
    bool in_io;
    uint8_t (*read)(void *own, uint32_t address);
    void (*store)(void *own, uint32_t address, uint8_t byte);
    void *own;
};

/* A bus: the memories; the cards, of which the first that has the address and a handler gets an access; and of the last call
 * each place that it touched, in its order, the reads first, with the byte and with what stood there before it. */
struct card_bus {
    uint8_t *sys, *io;
    size_t sys_len, io_len;
    const struct card *card;
    size_t cards;
    unsigned touched, reads;
    uint32_t place[IOP89_PLACES];
    uint8_t byte[IOP89_PLACES], before[IOP89_PLACES];
};

/* A call, and its channel or line number. */
struct bus_call {
    enum { BUS_ATTENTION, BUS_POWER_UP, BUS_STEP } kind;
    uint32_t value;
};

/* The calls of their names. Before one each byte that it is going to read of a card is read from it, in its order and just as
 * often; behind one that was done each byte that it stored to a card is handed over. A call that is refused by a number that
 * its bytes decide has read them; one that is refused before touches no card. */
iop89_answer bus_attention(struct card_bus *bus, uint8_t *state, uint32_t channel);
iop89_answer bus_power_up(struct card_bus *bus, uint8_t *state);
iop89_answer bus_step(struct card_bus *bus, uint8_t *state, uint32_t lines);

/* The same in parts, for who makes the call between them himself, as one of two processors: what it is going to read is read
 * from the cards, and what it stored is handed over to them. */
void bus_fetch(struct card_bus *bus, const uint8_t *state, struct bus_call call);
void bus_hand_over(struct card_bus *bus, iop89_answer answer);

#endif
