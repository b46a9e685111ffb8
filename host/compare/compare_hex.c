/* Compares the proved reader of hexadecimal files with the independent one, on files that other tools wrote and on random texts: the answer and every lent byte. */
#include "counts.h"
#include "emulator/hex.h"
#include "hex_texts.h"
#include "iop89_service.h"
#include "lent.h"

#include <inttypes.h>
#include <stdbool.h>
#include <stdio.h>
#include <stdlib.h>
#include <string.h>

/* How many differences are shown, and texts after which everything must have been met. */
enum { SHOWN_DIFFERENCES = 3, TEXTS_TO_MEET_ALL = 20000 };

/* A file of examples/prom, and what reading it must give. */
struct expected {
    const char *path;
    struct hex_answer answer;
    uint32_t at; /* where its bytes go, if it is good */
};

static const struct expected files[] = {
    {"examples/prom/srecord-low.hex", {0, 0, 0x0FE10}, 0x0FE00},
    {"examples/prom/srecord-segments.hex", {0, 0, 0x0FFA0}, 0x1FF80},
    {"examples/prom/objcopy-segments.hex", {0, 0, 0x2FFD0}, 0x2FFC0},
    {"examples/prom/objcopy-linear.hex", {22, 1, 0}, 0},
};

/* Digits behind a text, which a reader that went on would take for its own. */
enum { DIGITS_BEHIND = 64 };

/* Memory as it is given, and the plain and the proved reader's copy of it; the text, with room for digits behind. */
static uint8_t given[HEX_SYSTEM_ROOM], *plain, *proved;
static uint8_t text[HEX_TEXT_ROOM + DIGITS_BEHIND];
static unsigned long numbers[HEX_NUMBERS], features[HEX_FEATURES];

/* Fills what memory holds before a call. */
static void fill_given(void)
{
    for (size_t i = 0; i < sizeof given; i++) given[i] = (uint8_t)(i * 131u >> 3 ^ i);
}

/* Whether two answers and both memories, fences and all, are the same. */
static bool same(struct hex_answer a, uint64_t b, size_t sys_len)
{
    return a.number == IOP89_LOAD_NUMBER(b) && a.line == IOP89_LOAD_LINE(b) && a.start == IOP89_LOAD_START(b) &&
           (b & UINT64_C(0xF0000000)) == 0 && lent_same(proved, plain, sys_len) && fences_stand(plain, sys_len);
}

/* Reads one text with both; the answers come back. */
static bool agree(size_t text_len, size_t sys_len, struct hex_answer *a, uint64_t *b)
{
    memset(text + text_len, '0', DIGITS_BEHIND);
    lend(plain, given, sys_len);
    lend(proved, given, sys_len);
    *a = hex_load(text, text_len, plain, sys_len);
    *b = iop89_load(text, text_len, proved, sys_len);
    return same(*a, *b, sys_len);
}

/* Shows a text on which they differ. */
static void show(const char *what, size_t text_len, size_t sys_len, struct hex_answer a, uint64_t b)
{
    printf("DIFFERENCE in %s, %zu bytes of memory\n", what, sys_len);
    printf("  plain: number %u, line %" PRIu32 ", start %05" PRIX32 "\n", a.number, a.line, a.start);
    printf("  proved: number %u, line %" PRIu32 ", start %05" PRIX32 "\n", IOP89_LOAD_NUMBER(b), IOP89_LOAD_LINE(b), IOP89_LOAD_START(b));
    fwrite(text, 1, text_len, stdout);
    puts("\n  end of the text");
}

/* ---- Files of other tools ---- */

/* Reads a file whole; answers its length. */
static size_t read_file(const char *path, uint8_t *to, size_t room)
{
    FILE *f = fopen(path, "rb");
    if (f == NULL) {
        fprintf(stderr, "compare_hex: cannot open %s\n", path);
        exit(2);
    }
    size_t length = fread(to, 1, room, f);
    fclose(f);
    return length;
}

/* Whether both readers give what a file must give, every byte of a megabyte included. */
static bool check_file(const struct expected *e)
{
    static uint8_t firmware[4096];
    const size_t sys_len = 1048576;
    size_t length = read_file(e->path, text, HEX_TEXT_ROOM), count = read_file("examples/prom/firmware.bin", firmware, sizeof firmware);
    struct hex_answer a = {0, 0, 0};
    uint64_t b = 0;
    bool right = agree(length, sys_len, &a, &b);
    if (!right) show(e->path, length, sys_len, a, b);
    right = right && a.number == e->answer.number && a.line == e->answer.line && a.start == e->answer.start;
    memcpy(plain, given, sys_len);
    if (e->answer.number == HEX_DONE) memcpy(plain + e->at, firmware, count);
    right = right && lent_same(proved, plain, sys_len);
    printf("%s: number %u, line %" PRIu32 ", start %05" PRIX32 "%s\n", e->path, IOP89_LOAD_NUMBER(b), IOP89_LOAD_LINE(b), IOP89_LOAD_START(b), right ? "" : " WRONG");
    return right;
}

/* ---- Random texts ---- */

/* Compares one random text. */
static bool compare_one(uint64_t seed, uint64_t number, bool shown)
{
    struct hex_case c = {text, 0, 0, features};
    struct hex_answer a = {0, 0, 0};
    uint64_t b = 0;
    make_hex_case(&c, seed, number);
    bool right = agree(c.text_len, c.sys_len, &a, &b);
    numbers[a.number]++;
    if (!right && shown) {
        char what[64];
        snprintf(what, sizeof what, "text %" PRIu64 " of seed %" PRIu64, number, seed);
        show(what, c.text_len, c.sys_len, a, b);
    }
    return right;
}

/* Prints what was met. */
static void print_met(void)
{
    static const unsigned given_numbers[] = {HEX_DONE,      HEX_BEYOND_MEMORY, HEX_BAD_BUFFER, HEX_NO_RECORD,
                                             HEX_BAD_CHECK, HEX_BAD_TYPE,      HEX_NO_END};
    for (size_t i = 0; i < sizeof given_numbers / sizeof given_numbers[0]; i++)
        print_numbered("number %u", &numbers[given_numbers[i]], given_numbers[i], given_numbers[i]);
    for (unsigned i = 0; i < HEX_FEATURES; i++) print_count(hex_feature_name((enum hex_feature)i), features[i]);
}

int main(int words_count, char **words)
{
    uint64_t seed = words_count > 1 ? strtoull(words[1], NULL, 10) : 1;
    uint64_t texts = words_count > 2 ? strtoull(words[2], NULL, 10) : TEXTS_TO_MEET_ALL;
    unsigned long differences = 0;
    plain = fenced(HEX_SYSTEM_ROOM);
    proved = fenced(HEX_SYSTEM_ROOM);
    fill_given();
    for (size_t i = 0; i < sizeof files / sizeof files[0]; i++) differences += !check_file(&files[i]);
    for (uint64_t i = 0; i < texts; i++) differences += !compare_one(seed, i, differences < SHOWN_DIFFERENCES);
    printf("seed %" PRIu64 ", %" PRIu64 " texts\n", seed, texts);
    print_met();
    bool met = all_met(texts, TEXTS_TO_MEET_ALL, "texts");
    printf("%lu differences\n", differences);
    return differences > 0 || !met ? 1 : 0;
}
