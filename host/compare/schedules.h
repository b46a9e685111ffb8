/* Random schedules for the cases that single calls are compared on: rows, where they are cut, and what the report has room
 * for. */
#ifndef SCHEDULES_H
#define SCHEDULES_H

#include "cases.h"
#include "iop89_service.h"
#include "emulator/state_bytes.h"

/* The most rows of a schedule, and rows of an unknown kind around them, which nobody may read. */
enum { MOST_ROWS = 200, ROW_FENCE = 8 };

/* The most words of a report, and words around it that nobody may touch. */
enum { MOST_WORDS = 24, WORD_FENCE = 4 };

/* A report with what is around it. */
typedef uint64_t report_words[WORD_FENCE + MOST_WORDS + WORD_FENCE];

/* One schedule: its rows as a slice of an array, where it is cut, the lengths of state and report, and what stands in the
 * report before. */
struct schedule {
    struct iop89_row array[ROW_FENCE + MOST_ROWS + ROW_FENCE];
    size_t start, count, cut, state_len, report_len;
    uint64_t before;
};

/* The rows of a schedule. */
const struct iop89_row *rows_of(const struct schedule *s);

/* Makes a schedule for a case; the first on a state mostly begins with the attention that starts the case's channel. */
void make_schedule(struct random *d, const struct run_case *c, bool first, struct schedule *s);

/* Some rows of a schedule as the emulator has them. */
void rows_for_emulator(const struct schedule *s, size_t from, size_t to, struct emu_row rows[MOST_ROWS]);

/* Makes the words in and around a report what stands there before a call. */
void clear_report(const struct schedule *s, uint64_t *words);

/* Puts the emulator's counts where a report has room for them. */
void put_report(const struct emu_report *r, uint64_t *report, size_t report_len);

/* Whether a row is of a kind that is known. */
bool row_known(struct iop89_row row);

#endif
