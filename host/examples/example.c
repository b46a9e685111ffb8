/* A host program: lends an image as system memory to one run, and shows the answer and every byte that changed. */
#include "changes.h"
#include "iop89.h"

#include <errno.h>
#include <stdio.h>
#include <stdlib.h>
#include <string.h>

/* What the command line asks for. */
struct order {
    const char *image;
    uint32_t io_length, cp, channel, lines, limit;
};

/* Says how the program is called, and ends it. */
static _Noreturn void usage(const char *complaint, const char *word)
{
    fprintf(stderr, "example: %s%s%s\n", complaint, word != NULL ? ": " : "", word != NULL ? word : "");
    fputs("usage: example IMAGE [-io N] [-cp N] [-channel N] [-lines N] [-limit N]\n"
          "  IMAGE     a file whose bytes are system memory from address 0\n"
          "  -io       length of I/O memory, all zeros (256)\n"
          "  -cp       address of the control block (0)\n"
          "  -channel  1 or 2 (1)\n"
          "  -lines    sum of DRQ1 = 1, DRQ2 = 2, EXT1 = 4, EXT2 = 8 (0)\n"
          "  -limit    most steps (1000)\n"
          "Numbers are decimal, or hexadecimal behind 0x.\n",
          stderr);
    exit(2);
}

/* Says what the machine could not do, and ends the program. */
static _Noreturn void give_up(const char *what)
{
    fprintf(stderr, "example: %s: %s\n", what, strerror(errno));
    exit(2);
}

/* The number that a word of the command line writes. */
static uint32_t number_of(const char *option, const char *word)
{
    char *end = NULL;
    if (word == NULL) usage("a number is missing behind", option);
    errno = 0;
    unsigned long long value = strtoull(word, &end, 0);
    if (*word < '0' || *word > '9' || *end != '\0') usage("not a number", word);
    if (errno != 0 || value > UINT32_MAX) usage("a number over 4,294,967,295", word);
    return (uint32_t)value;
}

/* The place that an option fills, or NULL for a word that is no option. */
static uint32_t *place_of(struct order *order, const char *option)
{
    if (strcmp(option, "-io") == 0) return &order->io_length;
    if (strcmp(option, "-cp") == 0) return &order->cp;
    if (strcmp(option, "-channel") == 0) return &order->channel;
    if (strcmp(option, "-lines") == 0) return &order->lines;
    if (strcmp(option, "-limit") == 0) return &order->limit;
    return NULL;
}

/* Reads the command line. */
static struct order read_order(int count, char **words)
{
    struct order order = {NULL, 256, 0, 1, 0, 1000};
    for (int i = 1; i < count; i++) {
        uint32_t *place = place_of(&order, words[i]);
        if (place != NULL) {
            *place = number_of(words[i], words[i + 1]);
            i++;
        } else if (words[i][0] == '-') {
            usage("unknown option", words[i]);
        } else if (order.image != NULL) {
            usage("more than one image", words[i]);
        } else {
            order.image = words[i];
        }
    }
    if (order.image == NULL) usage("no image", NULL);
    return order;
}

/* Room for so many bytes, all zeros; never null, also for none. */
static uint8_t *room(size_t length)
{
    uint8_t *bytes = calloc(length + 1, 1);
    if (bytes == NULL) give_up("memory");
    return bytes;
}

/* The whole of a file. */
static uint8_t *load(const char *name, size_t *length)
{
    size_t space = 4096, more = 0;
    uint8_t *bytes = malloc(space);
    FILE *file = fopen(name, "rb");
    if (file == NULL) give_up(name);
    if (bytes == NULL) give_up("memory");
    *length = 0;
    while ((more = fread(bytes + *length, 1, space - *length, file)) > 0) {
        *length += more;
        if (*length < space) continue;
        space *= 2;
        bytes = realloc(bytes, space);
        if (bytes == NULL) give_up("memory");
    }
    if (ferror(file)) give_up(name);
    fclose(file);
    return bytes;
}

/* A buffer ready to be lent, with a copy of what it holds. */
static struct lent lend(uint8_t *bytes, size_t length)
{
    struct lent lent = {room(length), bytes, length};
    if (length > 0) memcpy(lent.before, bytes, length);
    return lent;
}

int main(int count, char **words)
{
    struct order order = read_order(count, words);
    size_t length = 0;
    uint8_t *image = load(order.image, &length);
    struct lent sys = lend(image, length), io = lend(room(order.io_length), order.io_length);
    iop89_run_answer answer = iop89_run(sys.now, sys.length, io.now, io.length, order.cp, order.channel, order.lines,
                                        order.limit);
    printf("number %u: %s\n", IOP89_NUMBER(answer), iop89_words(IOP89_NUMBER(answer)));
    printf("steps done: %u\n", IOP89_STEPS(answer));
    print_changes("system memory", &sys);
    print_changes("I/O memory", &io);
    free(sys.before);
    free(sys.now);
    free(io.before);
    free(io.now);
    return 0;
}
