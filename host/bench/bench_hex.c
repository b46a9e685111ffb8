/* Reads the hexadecimal text of a 64 KiB image so many times with the proved or the plain reader, for its instructions to be counted; or says how long that text is. */
#include "emulator/hex.h"
#include "compare/hex_texts.h"
#include "iop89_service.h"

#include <stdbool.h>
#include <stdio.h>
#include <stdlib.h>
#include <string.h>

enum { IMAGE = 65536, IMAGE_AT = 0x20000, SYSTEM = 1048576 };

static uint8_t image[IMAGE], text[4 * IMAGE], sys[SYSTEM];

/* One reading; whether it was done. */
static bool done(bool proved, size_t length)
{
    return proved ? iop89_load(text, length, sys, SYSTEM) == 0 : hex_load(text, length, sys, SYSTEM).number == HEX_DONE;
}

/* A reading must leave the image in memory, or its count means nothing. */
int main(int count, char **words)
{
    if (count != 3) {
        fputs("usage: bench_hex proved|plain|length TURNS\n", stderr);
        return 2;
    }
    for (size_t i = 0; i < IMAGE; i++) image[i] = (uint8_t)(i * 2654435761u >> 11);
    size_t length = hex_image(text, image, IMAGE, IMAGE_AT);
    if (strcmp(words[1], "length") == 0) return printf("%zu\n", length) < 0;
    for (unsigned long i = strtoul(words[2], NULL, 10); i > 0; i--)
        if (!done(strcmp(words[1], "proved") == 0, length)) return 1;
    return memcmp(sys + IMAGE_AT, image, IMAGE) != 0;
}
