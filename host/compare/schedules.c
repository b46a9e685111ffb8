/* Makes random schedules: mostly few rows, mostly steps, now and then a row of unknown kind. */
#include "schedules.h"

#include <string.h>

const struct iop89_row *rows_of(const struct schedule *s)
{
    return s->array + s->start;
}

bool row_known(struct iop89_row row)
{
    return row.kind == IOP89_ROW_ATTENTION || row.kind == IOP89_ROW_STEP;
}

/* How many rows: mostly few, at times none, many, or as many as can be. */
static size_t some_rows(struct random *d)
{
    unsigned kind = below(d, 1000);
    if (kind < 30) return 0;
    if (kind < 90) return 1;
    if (kind < 600) return 2 + below(d, 10);
    if (kind < 940) return 12 + below(d, 20);
    if (kind < 990) return 32 + below(d, 70);
    return kind < 998 ? 102 + below(d, 98) : MOST_ROWS;
}

/* A row: a step under the case's lines or any others, at times an attention; rarely under no lines or to no channel. */
static struct iop89_row some_row(struct random *d, const struct run_case *c)
{
    static const uint32_t channels[] = {0, 3, 4, 255, 257, 65537, 65538, 0x80000001, 0xFFFFFFFF};
    static const uint32_t lines[] = {16, 17, 18, 19, 31, 255, 256, 257, 65536, 0x80000000, 0xFFFFFFFF};
    struct iop89_row step = {IOP89_ROW_STEP, chance(d, 400) ? c->lines & 15u : below(d, 16)};
    struct iop89_row attention = {IOP89_ROW_ATTENTION, 1 + below(d, 2)};
    if (chance(d, 15)) step.value = ONE_OF(d, lines);
    if (chance(d, 60)) attention.value = ONE_OF(d, channels);
    return chance(d, 120) ? attention : step;
}

/* Makes rows of unknown kind: mostly one, the first, the last or any. */
static void spoil_rows(struct random *d, struct schedule *s)
{
    static const uint32_t kinds[] = {0, 3, 4, 5, 17, 255, 257, 258, 65537, 65538, 0x80000001, 0x80000002, 0xFFFFFFFF};
    struct iop89_row *rows = s->array + s->start;
    for (unsigned i = chance(d, 800) ? 1 : 2; i > 0 && s->count > 0; i--) {
        unsigned place = below(d, 3);
        size_t at = place == 0 ? 0 : place == 1 ? s->count - 1 : below(d, s->count);
        rows[at].kind = ONE_OF(d, kinds);
    }
}

/* Where a schedule is cut: before the first row, behind the last, or anywhere. */
static size_t some_cut(struct random *d, size_t count)
{
    unsigned kind = below(d, 1000);
    return kind < 50 ? 0 : kind < 100 ? count : below(d, count + 1);
}

/* How many words a report has: mostly all, fewer, or more. */
static size_t some_words(struct random *d)
{
    unsigned kind = below(d, 1000);
    if (kind < 600) return IOP89_REPORT_LENGTH;
    if (kind < 900) return below(d, IOP89_REPORT_LENGTH);
    return IOP89_REPORT_LENGTH + 1 + below(d, MOST_WORDS - IOP89_REPORT_LENGTH);
}

void make_schedule(struct random *d, const struct run_case *c, bool first, struct schedule *s)
{
    static const size_t lengths[] = {0, 1, STATE_BYTES - 1, STATE_BYTES + 1, 2 * STATE_BYTES};
    memset(s->array, 0xA5, sizeof s->array);
    s->start = below(d, 2 * ROW_FENCE + 1);
    s->count = some_rows(d);
    for (size_t i = 0; i < s->count; i++) s->array[s->start + i] = some_row(d, c);
    if (first && s->count > 0 && chance(d, 800)) {
        struct iop89_row start = {IOP89_ROW_ATTENTION, c->channel};
        s->array[s->start] = start;
    }
    if (chance(d, 60)) spoil_rows(d, s);
    s->cut = some_cut(d, s->count);
    s->state_len = chance(d, 10) ? ONE_OF(d, lengths) : STATE_BYTES;
    s->report_len = some_words(d);
    s->before = roll(d);
}

void rows_for_emulator(const struct schedule *s, size_t from, size_t to, struct emu_row rows[MOST_ROWS])
{
    for (size_t i = from; i < to; i++) {
        rows[i - from].kind = rows_of(s)[i].kind;
        rows[i - from].value = rows_of(s)[i].value;
    }
}

void clear_report(const struct schedule *s, uint64_t *words)
{
    for (size_t i = 0; i < WORD_FENCE + MOST_WORDS + WORD_FENCE; i++) words[i] = s->before + i;
}

void put_report(const struct emu_report *r, uint64_t *report, size_t report_len)
{
    uint64_t all[IOP89_REPORT_LENGTH] = {r->accepted, r->refused};
    for (unsigned i = 0; i < 2; i++) {
        const struct emu_tally *t = &r->channel[i];
        const uint64_t counts[] = {t->attentions_accepted, t->attentions_refused, t->instructions, t->transfer_steps,
                                   t->bytes_stored,        t->external_ends,      t->waiting_rows};
        memcpy(all + 2 + 7 * i, counts, sizeof counts);
    }
    for (size_t i = 0; i < report_len && i < IOP89_REPORT_LENGTH; i++) report[WORD_FENCE + i] = all[i];
}
