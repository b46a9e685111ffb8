/* Takes answers of the service calls apart by the macros of iop89_service.h. The text is C99 and C++ at once, so that
   the header is compiled as both; it links no archive. */
#include "iop89_service.h"

#include <stdbool.h>
#include <stdio.h>
#include <string.h>

/* How many parts were not as the header has them. */
static unsigned wrong;

/* Holds a part to what it is to be. */
static void expect(const char *what, uint64_t part, uint64_t wanted)
{
    if (part == wanted) return;
    printf("%s is not as the header has it\n", what);
    wrong++;
}

/* An answer with a number of eight bits, one in the 24 bits above it, and one in the high half. */
static uint64_t answer_of(uint32_t number, uint32_t middle, uint32_t high)
{
    uint64_t answer = high;
    return answer << 32 | middle << 8 | number;
}

/* The parts of an answer of iop89_assemble: line or bytes by the number, from 0 to the most that they hold. */
static void assembled(void)
{
    const uint32_t borders[] = {0u, 1u, 65536u, 0x80000000u, 0xFFFFFFFFu};
    for (size_t i = 0; i < sizeof borders / sizeof borders[0]; i++) {
        for (uint32_t number = 0; number < 256; number++) {
            uint64_t answer = answer_of(number, 0, borders[i]);
            expect("IOP89_ASM_NUMBER", IOP89_ASM_NUMBER(answer), number);
            expect("IOP89_ASM_LINE", IOP89_ASM_LINE(answer), number == 0 ? 0 : borders[i]);
            expect("IOP89_ASM_STORED", IOP89_ASM_STORED(answer), number == 0 ? borders[i] : 0);
        }
    }
}

/* The parts of the answers of a step, a sweep, a load and a listing. */
static void others(void)
{
    const uint64_t loaded = answer_of(23, 0xFFFFF, 0xFFFFFFFFu), swept = answer_of(0, 65536, 131072);
    const uint64_t listed = answer_of(0xEF, 0xABCD, 1048576);
    const uint32_t stepped = 17u | 2u << 8 | 3u << 10 | 11u << 12;
    expect("IOP89_ANSWER_NUMBER", IOP89_ANSWER_NUMBER(stepped), 17);
    expect("IOP89_ANSWER_CHANNEL", IOP89_ANSWER_CHANNEL(stepped), 2);
    expect("IOP89_ANSWER_KIND", IOP89_ANSWER_KIND(stepped), IOP89_EXTERNAL_END);
    expect("IOP89_ANSWER_COUNT", IOP89_ANSWER_COUNT(stepped), 11);
    expect("IOP89_SWEEP_NUMBER", IOP89_SWEEP_NUMBER(swept), 0);
    expect("IOP89_SWEEP_STEPS", IOP89_SWEEP_STEPS(swept), 65536);
    expect("IOP89_SWEEP_COUNT", IOP89_SWEEP_COUNT(swept), 131072);
    expect("IOP89_LOAD_NUMBER", IOP89_LOAD_NUMBER(loaded), 23);
    expect("IOP89_LOAD_START", IOP89_LOAD_START(loaded), 0xFFFFF);
    expect("IOP89_LOAD_LINE", IOP89_LOAD_LINE(loaded), 0xFFFFFFFFu);
    expect("IOP89_LIST_CHARACTERS", IOP89_LIST_CHARACTERS(listed), 0xABCDEF);
    expect("IOP89_LIST_STOP", IOP89_LIST_STOP(listed), 1048576);
}

/* Holds two numbers' words to being the same, or not. */
static void expect_same(const char *what, const char *one, const char *other, bool same)
{
    expect(what, strcmp(one, other) == 0, same);
}

/* Each number of a call has words of its own, and the number behind the last has those of no number. */
static void words_of(const char *(*words)(unsigned number), unsigned from, unsigned to)
{
    for (unsigned i = from; i <= to; i++) {
        expect_same("a number's words", words(i), iop89_words(255), false);
        for (unsigned other = from; other < i; other++)
            expect_same("two numbers' words", words(i), words(other), false);
    }
    expect_same("no number's words", words(to + 1), iop89_words(255), true);
}

int main(void)
{
    assembled();
    others();
    words_of(iop89_asm_words, IOP89_UNKNOWN_WORD, IOP89_NO_ROOM);
    words_of(iop89_load_words, IOP89_NO_RECORD, IOP89_NO_END);
    words_of(iop89_service_words, IOP89_DONE, IOP89_NO_STATE);
    printf("answers: %u parts not as the header has them\n", wrong);
    return wrong != 0;
}
