/* Compares the library's lister with the independent one: answer, text, and every byte of the buffer beside it. */
#include "counts.h"
#include "random.h"
#include "iop89_service.h"
#include "lent.h"
#include "emulator/listing.h"

#include <ctype.h>
#include <inttypes.h>
#include <stdbool.h>
#include <stdio.h>
#include <stdlib.h>
#include <string.h>

/* What the text's bytes are before a listing. */
#define UNTOUCHED 0xC7

/* The longest part that is listed here, and the most characters that it can have. */
#define CODE_ROOM (LISTING_LIMIT + 16u)
#define TEXT_ROOM ((size_t)LISTING_LIMIT * 28u)

static uint8_t *code, *plain, *proved;
static struct listing_coverage met;
static unsigned long long listings, lines_stopped, resumed, differences;

/* Shows the part and both answers of a difference. */
static void show(size_t length, uint32_t first, size_t text_len, struct listing a, uint64_t b)
{
    if (differences++ >= 3) return;
    printf("difference: first %" PRIX32 ", room %zu, %zu bytes:", first, text_len, length);
    for (size_t i = 0; i < length && i < 16; i++) printf(" %02X", code[i]);
    printf("\nindependent: %" PRIu32 " characters, stop %" PRIu32 "\n%.*s", a.characters, a.stop,
           (int)(a.characters < 200 ? a.characters : 200), (const char *)plain);
    printf("library: %" PRIu32 " characters, stop %" PRIu32 "\n%.*s", IOP89_LIST_CHARACTERS(b), IOP89_LIST_STOP(b),
           (int)(IOP89_LIST_CHARACTERS(b) < 200 ? IOP89_LIST_CHARACTERS(b) : 200), (const char *)proved);
}

/* Lists `length` bytes from `at` on by both, and compares the answers and the whole of both buffers. */
static struct listing both(size_t at, size_t length, uint32_t first, size_t text_len)
{
    memset(plain, UNTOUCHED, text_len);
    memset(proved, UNTOUCHED, text_len);
    fence_behind(plain, text_len);
    fence_behind(proved, text_len);
    struct listing a = list_code(code + at, length, first, plain, text_len, &met);
    uint64_t b = iop89_list(code + at, length, first, proved, text_len);
    listings++;
    if (a.characters != IOP89_LIST_CHARACTERS(b) || a.stop != IOP89_LIST_STOP(b) ||
        !lent_same(proved, plain, text_len) || !fences_stand(plain, text_len))
        show(length, first, text_len, a, b);
    lines_stopped += a.stop < length;
    return a;
}

static void random_bytes(struct random *d, size_t from, size_t to)
{
    for (size_t i = from; i < to; i++) code[i] = (uint8_t)below(d, 256);
}

/* Every first pair with every length of rest from 0 to 8 bytes. */
static void every_pair(uint64_t seed)
{
    for (uint32_t pair = 0; pair < 65536; pair++) {
        struct random d = seeded(seed, pair);
        for (size_t rest = 0; rest <= 8; rest++) {
            code[0] = (uint8_t)(pair & 255u);
            code[1] = (uint8_t)(pair >> 8u);
            random_bytes(&d, 2, 2 + rest);
            /* A second pair is rarely right by chance. */
            if (pair >> 10u == 0x24 && chance(&d, 800)) {
                size_t at = (pair & 6u) == 2 ? 3 : 2;
                if (at + 1 < 2 + rest) {
                    code[at] = (uint8_t)((pair & 1u) + 2u * below(&d, 4));
                    code[at + 1] = (uint8_t)(0xCC + below(&d, 4));
                }
            }
            both(0, 2 + rest, (uint32_t)roll(&d), 28 * (2 + rest));
        }
    }
}

/* Random code: some hundred bytes, listed with room, with every room up to what it takes, and on from where it stopped. */
static void random_code(uint64_t seed, unsigned count)
{
    for (unsigned i = 0; i < count; i++) {
        struct random d = seeded(seed + 1, i);
        size_t length = below(&d, i % 4 == 0 ? 4096 : 40);
        uint32_t first = (uint32_t)roll(&d);
        random_bytes(&d, 0, length);
        /* More instructions than chance gives: no bit set in RRR, dd and W in many first bytes. */
        for (size_t k = 0; k < length; k++)
            if (chance(&d, 300)) code[k] = (uint8_t)(code[k] & 0x06u);
        struct listing whole = both(0, length, first, 28 * length);
        if (length >= 40) continue;
        for (size_t text = 0; text <= whole.characters; text++) {
            struct listing part = both(0, length, first, text);
            struct listing rest = both(part.stop, length - part.stop, first + part.stop, 28 * length);
            resumed++;
            if (part.characters + rest.characters != whole.characters || part.stop + rest.stop != length)
                show(length, first, text, part, 0);
        }
    }
}

/* Parts at the limit and beyond it. */
static void long_parts(uint64_t seed)
{
    struct random d = seeded(seed + 2, 0);
    random_bytes(&d, 0, CODE_ROOM);
    both(0, LISTING_LIMIT, 7, TEXT_ROOM);
    for (size_t more = 1; more <= 3; more++) both(0, LISTING_LIMIT + more, 0xFFFFFFFFu, TEXT_ROOM);
}

/* ---- The file of pairs ---- */

static unsigned digit(char c)
{
    return (unsigned)(isdigit((unsigned char)c) ? c - '0' : c - 'A' + 10);
}

/* One row, "BYTES = LINE / LINE": both listers must write it. */
static void check_row(char *row)
{
    char want[512] = "";
    char *equals = strstr(row, " = ");
    size_t length = 0;
    if (equals == NULL) {
        printf("notation: no row: %s\n", row);
        differences++;
        return;
    }
    for (char *c = row; c < equals; c += 2) code[length++] = (uint8_t)(digit(c[0]) * 16 + digit(c[1]));
    for (char *line = strtok(equals + 3, "/"); line != NULL; line = strtok(NULL, "/")) {
        while (*line == ' ') line++;
        size_t n = strlen(line);
        while (n > 0 && line[n - 1] == ' ') n--;
        snprintf(want + strlen(want), sizeof want - strlen(want), "%.*s\n", (int)n, line);
    }
    struct listing a = both(0, length, 0x1000, sizeof want);
    if (a.characters != strlen(want) || memcmp(plain, want, a.characters) != 0) {
        differences++;
        printf("notation: wanted\n%sfound\n%.*s", want, (int)a.characters, (const char *)plain);
    }
}

/* The file of bytes and their listings. */
static unsigned check_file(const char *path)
{
    char row[512];
    unsigned rows = 0;
    FILE *file = fopen(path, "r");
    if (file == NULL) {
        perror(path);
        exit(2);
    }
    while (fgets(row, sizeof row, file) != NULL) {
        row[strcspn(row, "\n")] = 0;
        if (row[0] == 0 || row[0] == '#') continue;
        check_row(row);
        rows++;
    }
    fclose(file);
    return rows;
}

/* ---- What was met ---- */

static void report(void)
{
    static const char *const reasons[DATA_REASONS] = {"no instruction",       "CC used",
                                                      "one byte left",        "cut off behind the pair",
                                                      "no second pair",       "cut off behind the second pair",
                                                      "CALL with W 0"};
    static const char *const modes[4] = {"base alone", "with an offset", "with IX", "with IX that grows"};
    static const char *const bases[4] = {"base GA", "base GB", "base GC", "base PP"};
    static const char *const names[8] = {"GA", "GB", "GC", "BC", "TP", "IX", "CC", "MC"};
    puts("lines, by format:");
    for (unsigned i = 0; i < LISTING_ROWS; i++) print_count(listing_row_name(i), met.row[i]);
    puts("DB lines, by reason:");
    for (unsigned i = 0; i < DATA_REASONS; i++) print_count(reasons[i], met.data[i]);
    puts("operands:");
    for (unsigned i = 0; i < 4; i++) print_count(modes[i], met.mode[i]);
    for (unsigned i = 0; i < 4; i++) print_count(bases[i], met.base[i]);
    for (unsigned i = 0; i < 8; i++) print_count(names[i], met.registers[i]);
    print_count("long words", met.long_words);
    print_count("byte words", met.byte_words);
    print_count("targets behind the jump", met.backward);
    print_count("lines of 28 characters", met.longest);
    print_count("listings that stopped for want of room, or at the limit", lines_stopped);
    print_count("listings gone on with from their stop", resumed);
}

int main(int argc, char **argv)
{
    uint64_t seed = argc > 1 ? strtoull(argv[1], NULL, 10) : 1;
    unsigned parts = argc > 2 ? (unsigned)strtoul(argv[2], NULL, 10) : 2000;
    const char *path = argc > 3 ? argv[3] : "host/emulator/notation.txt";
    code = fenced(CODE_ROOM);
    plain = fenced(TEXT_ROOM);
    proved = fenced(TEXT_ROOM);
    unsigned rows = check_file(path);
    every_pair(seed);
    random_code(seed, parts);
    long_parts(seed);
    report();
    printf("%u rows of %s, %llu listings compared, %llu differences, %u never met\n", rows, path, listings, differences,
           never_met());
    return differences != 0 || never_met() != 0 || rows == 0;
}
