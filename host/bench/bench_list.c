/* Lists the same code again and again, by the library or by the independent lister, so that instructions can be counted. */
#include "iop89_service.h"
#include "emulator/listing.h"

#include <stdio.h>
#include <stdlib.h>
#include <string.h>

/* The part that is listed: whole loads of the workload. */
enum { PART = 3072, TEXT = PART * 28 };

/* A channel program as firmware has them: pointers loaded, a transfer set up and started, bits tested, a loop closed. */
static const uint8_t program[] = {
    0x31, 0x30, 0x00, 0x02, 0x23, 0x8B, 0x04, 0x91, 0x08, 0x00, 0x20, 0x00, 0x00, 0x71, 0x30, 0x80, 0x00, 0xD1, 0x30,
    0x20, 0x88, 0x0A, 0x4F, 0x0A, 0x00, 0xA0, 0x00, 0x60, 0x00, 0x6A, 0xBE, 0x01, 0x05, 0x02, 0x93, 0x08, 0x02, 0xCE,
    0x01, 0xA2, 0xA1, 0x05, 0x16, 0xE1, 0x00, 0x80, 0x42, 0xF4, 0x06, 0x93, 0x9E, 0x04, 0x00, 0x01, 0x88, 0x20, 0xC6,
    0x20, 0x48,
};

static uint8_t code[PART], text[TEXT];

/* Fills the part with the workload. */
static int fill(const char *workload)
{
    if (strcmp(workload, "program") == 0) {
        for (size_t i = 0; i < PART; i++) code[i] = program[i % sizeof program];
    } else if (strcmp(workload, "zeros") == 0) {
        memset(code, 0, PART);
    } else if (strcmp(workload, "data") == 0) {
        memset(code, 0xFF, PART);
    } else {
        return 0;
    }
    return 1;
}

int main(int argc, char **argv)
{
    if (argc != 4 || !fill(argv[2])) {
        fputs("usage: bench_list proved|plain program|zeros|data TIMES\n", stderr);
        return 2;
    }
    unsigned long times = strtoul(argv[3], NULL, 10);
    unsigned long long characters = 0;
    for (unsigned long i = 0; i < times; i++) {
        if (strcmp(argv[1], "proved") == 0) {
            uint64_t answer = iop89_list(code, PART, 0x1000, text, TEXT);
            characters += IOP89_LIST_CHARACTERS(answer);
        } else {
            characters += list_code(code, PART, 0x1000, text, TEXT, NULL).characters;
        }
    }
    printf("%llu\n", characters);
    return 0;
}
