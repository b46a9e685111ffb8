/* A card bus: what a call is going to read of cards is put into lent memory before it, and what it stored is handed over. */
#include "card_bus.h"

/* What a call would touch and answer, with memory as it is now. */
static iop89_answer ask(struct card_bus *b, const uint8_t *state, struct bus_call call)
{
    size_t n = IOP89_STATE_LENGTH;
    iop89_answer told;
    if (call.kind == BUS_STEP)
        told = iop89_touches_step(state, n, b->sys, b->sys_len, b->io, b->io_len, call.value, b->place, IOP89_PLACES);
    else if (call.kind == BUS_ATTENTION)
        told = iop89_touches_attention(state, n, b->sys, b->sys_len, b->io, b->io_len, call.value, b->place, IOP89_PLACES);
    else told = iop89_touches_power_up(state, n, b->sys, b->sys_len, b->io, b->io_len, b->place, IOP89_PLACES);
    b->touched = IOP89_ANSWER_COUNT(told);
    return told;
}

/* Makes the call. */
static iop89_answer make(struct card_bus *b, uint8_t *state, struct bus_call call)
{
    size_t n = IOP89_STATE_LENGTH;
    if (call.kind == BUS_STEP) return iop89_step(state, n, b->sys, b->sys_len, b->io, b->io_len, call.value);
    if (call.kind == BUS_ATTENTION) return iop89_attention(state, n, b->sys, b->sys_len, b->io, b->io_len, call.value);
    return iop89_power_up(state, n, b->sys, b->sys_len, b->io, b->io_len);
}

/* The lent byte of a place, or NULL. */
static uint8_t *cell(const struct card_bus *b, uint32_t place)
{
    uint32_t at = IOP89_PLACE_ADDRESS(place);
    if (at >= (IOP89_PLACE_IO(place) ? b->io_len : b->sys_len)) return NULL;
    return (IOP89_PLACE_IO(place) ? b->io : b->sys) + at;
}

/* The card that gets a read of a place, or a store, or NULL. */
static const struct card *card_at(const struct card_bus *b, uint32_t place)
{
    for (size_t i = 0; i < b->cards; i++) {
        const struct card *card = &b->card[i];
        bool has = card->in_io == (IOP89_PLACE_IO(place) != 0) && IOP89_PLACE_ADDRESS(place) - card->from < card->count;
        if (has && (IOP89_PLACE_STORE(place) ? card->store != NULL : card->read != NULL)) return card;
    }
    return NULL;
}

/* Whether a place was read before, by the same call. */
static bool read_before(const struct card_bus *b, unsigned i)
{
    for (unsigned k = 0; k < i; k++)
        if (b->place[k] == b->place[i]) return true;
    return false;
}

/* Reads one byte: of a card, or what memory has. A port that one transfer step reads twice is read twice, and the second byte
 * is kept beside memory, which has room for one. Answers whether memory has another byte now. */
static bool read_one(struct card_bus *b, unsigned i, bool transfer)
{
    const struct card *card = card_at(b, b->place[i]);
    uint8_t *byte = cell(b, b->place[i]);
    bool again = read_before(b, i);
    b->before[i] = b->byte[i] = byte != NULL ? *byte : 0xFF;
    if (byte == NULL || card == NULL || (again && !transfer)) return false;
    b->byte[i] = card->read(card->own, IOP89_PLACE_ADDRESS(b->place[i]));
    if (again || *byte == b->byte[i]) return false;
    *byte = b->byte[i];
    return true;
}

/* One byte after the other: where one is not what memory had, the places behind it may be others, and are asked for anew;
 * those up to it stay, since they do not hang on it. */
void bus_fetch(struct card_bus *b, const uint8_t *state, struct bus_call call)
{
    iop89_answer told = ask(b, state, call);
    for (b->reads = 0; b->reads < b->touched && !IOP89_PLACE_STORE(b->place[b->reads]); b->reads++)
        if (read_one(b, b->reads, IOP89_ANSWER_KIND(told) == IOP89_TRANSFER)) told = ask(b, state, call);
    for (unsigned i = b->reads; i < b->touched; i++) {
        const uint8_t *byte = cell(b, b->place[i]);
        b->before[i] = b->byte[i] = byte != NULL ? *byte : 0xFF;
    }
}

/* Two bytes that a transfer step moves are stored as they were read: of a port that was read twice memory had the first one
 * alone, and of one that was stored to twice it has the second one alone. */
void bus_hand_over(struct card_bus *b, iop89_answer answer)
{
    bool two = IOP89_ANSWER_KIND(answer) == IOP89_TRANSFER && b->reads == 2 && b->touched == 4;
    if (IOP89_ANSWER_NUMBER(answer) != IOP89_DONE) return;
    for (unsigned i = b->reads; i < b->touched; i++) {
        const struct card *card = card_at(b, b->place[i]);
        uint8_t *byte = cell(b, b->place[i]);
        if (two) b->byte[i] = b->byte[i - 2];
        else if (byte != NULL) b->byte[i] = *byte;
        if (byte != NULL) *byte = b->byte[i];
        if (byte != NULL && card != NULL) card->store(card->own, IOP89_PLACE_ADDRESS(b->place[i]), b->byte[i]);
    }
}

/* The three parts of every call. */
static iop89_answer over_bus(struct card_bus *b, uint8_t *state, struct bus_call call)
{
    bus_fetch(b, state, call);
    iop89_answer answer = make(b, state, call);
    bus_hand_over(b, answer);
    return answer;
}

iop89_answer bus_attention(struct card_bus *bus, uint8_t *state, uint32_t channel)
{
    struct bus_call call = {BUS_ATTENTION, channel};
    return over_bus(bus, state, call);
}

iop89_answer bus_power_up(struct card_bus *bus, uint8_t *state)
{
    struct bus_call call = {BUS_POWER_UP, 0};
    return over_bus(bus, state, call);
}

iop89_answer bus_step(struct card_bus *bus, uint8_t *state, uint32_t lines)
{
    struct bus_call call = {BUS_STEP, lines};
    return over_bus(bus, state, call);
}
