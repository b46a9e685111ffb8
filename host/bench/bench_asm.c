/* Assembles the same text again and again, by the library or by the independent assembler, so that instructions can be
 * counted; or says how long that text is. */
#include "emulator/assembly.h"
#include "iop89_service.h"
#include "emulator/listing.h"

#include <stdbool.h>
#include <stdio.h>
#include <stdlib.h>
#include <string.h>

/* The code that is listed, how much more the longer texts have, and room for the longest. */
enum { PART = 4096, TENFOLD = 10, FIRST = 0x1000, CODE_ROOM = PART * TENFOLD, TEXT_ROOM = CODE_ROOM * 28 };

/* A channel program as firmware has them: pointers loaded, a transfer started, bits tested, a loop closed. */
static const uint8_t program[] = {
    0x31, 0x30, 0x00, 0x02, 0x23, 0x8B, 0x04, 0x91, 0x08, 0x00, 0x20, 0x00, 0x00, 0x71, 0x30,
    0x80, 0x00, 0xD1, 0x30, 0x20, 0x88, 0x0A, 0x4F, 0x0A, 0x00, 0xA0, 0x00, 0x60, 0x00, 0x6A,
    0xBE, 0x01, 0x05, 0x02, 0x93, 0x08, 0x02, 0xCE, 0x01, 0xA2, 0xA1, 0x05, 0x16, 0xE1, 0x00,
    0x80, 0x42, 0xF4, 0x06, 0x93, 0x9E, 0x04, 0x00, 0x01, 0x88, 0x20, 0xC6, 0x20, 0x48,
};

static uint8_t code[CODE_ROOM], text[TEXT_ROOM];

/* The listing of so many times 4 KiB; answers its length. */
static size_t make_listing(unsigned times)
{
    for (size_t i = 0; i < PART * times; i++) code[i] = program[i % PART % sizeof program];
    return list_code(code, PART * times, FIRST, text, TEXT_ROOM, NULL).characters;
}

/* A source of 64 labels, with comments; so many times as many lines follow each label. */
static size_t make_source(unsigned times)
{
    size_t length = 0;
    for (unsigned label = 0; label < ASSEMBLY_LABELS; label++) {
        for (unsigned i = 0; i < times; i++) {
            char name[16] = "";
            if (i == 0) snprintf(name, sizeof name, "STEP_%02u:", label);
            length += (size_t)snprintf((char *)text + length, TEXT_ROOM - length,
                                       "; the controller's command %u\n"
                                       "%-11s MOVBI   [GC].2+(1-1),0%02XH   ; what it is to do\n"
                                       "            JNBT    [GC].0,7,STEP_%02u  ; until it is ready\n"
                                       "            LJMP    STEP_%02u\n\n",
                                       label, name, label * 3 % 256, label, (label + 1) % ASSEMBLY_LABELS);
        }
    }
    return length;
}

/* The text of a workload; its length, or 0 where there is none of that name. */
static size_t make_text(const char *workload)
{
    if (strcmp(workload, "listing") == 0) return make_listing(1);
    if (strcmp(workload, "listing-tenfold") == 0) return make_listing(TENFOLD);
    if (strcmp(workload, "source") == 0) return make_source(1);
    if (strcmp(workload, "source-tenfold") == 0) return make_source(TENFOLD);
    return 0;
}

/* One turn; whether it was done. */
static bool done(bool proved, size_t length)
{
    if (proved) return IOP89_ASM_NUMBER(iop89_assemble(text, length, FIRST, code, CODE_ROOM)) == 0;
    return assemble(text, length, FIRST, code, CODE_ROOM).number == ASSEMBLY_DONE;
}

int main(int count, char **words)
{
    size_t length = count == 4 ? make_text(words[2]) : 0;
    if (length == 0) {
        fputs("usage: bench_asm proved|plain|length listing|listing-tenfold|source|source-tenfold TIMES\n", stderr);
        return 2;
    }
    if (strcmp(words[1], "length") == 0) return printf("%zu\n", length) < 0;
    for (unsigned long i = strtoul(words[3], NULL, 10); i > 0; i--)
        if (!done(strcmp(words[1], "proved") == 0, length)) return 1;
    return 0;
}
