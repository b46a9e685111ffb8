/* Prints the coverage of calls: what they met, and what they never met. */
#ifndef COVERAGE_H
#define COVERAGE_H

#include "counts.h"
#include "emulator/state_bytes.h"

/* Every number, as a set of bits. */
#define ALL_NUMBERS ((1u << EMU_NUMBERS) - 1)

/* What answers how many bytes it read and stored: done calls by what they did, and refused ones. */
enum coverage_bytes {
    BYTES_OF_ATTENTION,
    BYTES_OF_POWER_UP,
    BYTES_OF_INSTRUCTION,
    BYTES_OF_TRANSFER,
    BYTES_OF_EXTERNAL_END,
    BYTES_OF_REFUSED,
    BYTES_KINDS
};

/* How many counts an answer has room for. */
enum { BYTES_COUNTS = 16 };

/* What a done step of this kind is among them. */
enum coverage_bytes bytes_of_step(char kind);

/* Prints how often each count was answered that such a call can give, and notes those that it cannot. */
void print_touched(unsigned long met[BYTES_KINDS][BYTES_COUNTS]);

/* Prints how often each number was answered of those in the set. */
void print_numbers(const char *what, const unsigned long counts[EMU_NUMBERS], unsigned set);

/* Prints the same of the service archive's numbers, 0 to 17, each with its words. */
void print_answers(const char *heading, const unsigned long counts[], unsigned set);

/* Prints the states that 17 refused, by what is wrong with their bytes. */
void print_faults(const char *heading, const unsigned long counts[STATE_FAULTS]);

/* Prints counts by both sides of a transfer together: their widths, odd addresses and spaces. */
void print_sides(const char *heading, unsigned long counts[4][4][4]);

/* Prints BC before steps in which the first of two single stores met TMC: whole ones, or first halves of pairs. */
void print_leftovers(const struct emu_coverage *coverage, bool halves);

/* What a comparison's calls can meet of pairs: halves one after the other and nothing else, as in a run, whose lines and
 * registers stay between them; or all, where registers can be set and attentions given there. */
enum coverage_pairs { PAIRS_UNDISTURBED, PAIRS_OF_ANY_KIND };

/* Prints the halves of pairs: their ends and sides, and what of their bytes was not lent. */
void print_pairs(const struct emu_coverage *coverage, enum coverage_pairs what);

/* Prints what met a held byte: calls of its channel and of the other one, and refusals. */
void print_held(const struct emu_coverage *coverage);

/* What makes a state anew. */
enum coverage_anew { ANEW_FRESH, ANEW_RESET, ANEW_POWER_UP, ANEWS };

/* Prints how often a state was made anew in the place of one in which a byte was held. */
void print_anew(const unsigned long met[ANEWS]);

/* Prints how CC and its fields stood to each other in attentions and steps, done and refused by each early number. */
void print_fields(const struct emu_coverage *coverage);

/* Prints what alone barred sweeps that were refused by 15. */
void print_barred(const struct emu_coverage *coverage);

/* Prints the done sweeps by their sides' widths, odd addresses and spaces, and by what their channels held. */
void print_swept(const struct emu_coverage *coverage);

/* Prints the accepted commands of the set, the rows carried out, and the shapes and ends of transfer steps. */
void print_coverage(const struct emu_coverage *coverage, unsigned commands);

#endif
