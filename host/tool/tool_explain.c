/* The bench tool's words on a number: what it means, when it is given, and what to look at. */
#include "tool.h"

#include <string.h>

/* A number: which calls give it when, and what to look at. */
static const struct {
    unsigned number;
    const char *when, *look;
} numbers[] = {
    {0, "The call is done; of a run: every step was done, and the limit stopped it.", "More steps: -limit."},
    {1,
     "A step finds no channel that can run. Of a run, three ends: the channel halted; it waits for a request (DRQ) that "
     "is not up; or nothing was started.",
     "BUSY behind the CCW is 00 where it halted and FF where it waits. With 0 steps: the command in the low three bits of "
     "the CCW was 000 or 111; look at the control block's address (-cp, -board), at the channel (-channel) and at where "
     "the file was loaded (-at). Where it waits: -lines 1 for channel 1, 2 for channel 2."},
    {2, "A byte of system space that a call reads or stores lies beyond the memory that was lent. Nothing is changed.",
     "The address that the tool prints: lend more (-system), or look at the pointer that leads there (-regs, -bus). From C, "
     "iop89_touches_step and iop89_beyond name it."},
    {3, "The bytes at TP are no instruction.", "list around TP: is it data, or was TP loaded with something else?"},
    {4, "CC is used by anything but MOV or MOVI.", "The instruction at TP."},
    {5, "A transfer has SYN 11 in CC, or translates with a 16-bit side.", "The MOVI to CC before XFER, and WID."},
    {6, "The command of the CCW is 010 or 100.", "The byte at the control block's address: is it a control block at all?"},
    {7, "The command is resume, and the channel is not suspended; a run starts afresh, so always there.",
     "Start with command 011, or go on from a saved state (-state)."},
    {8, "The command is start, and the channel runs.", "BUSY is FF until the program halts: wait, or halt it first."},
    {9, "The command is suspend, and the channel does not run; in a run always.",
     "-attention N:C:6 suspends before step N."},
    {10, "A pointer, PP or CP has more than 20 bits.",
     "-cp is at most 0xFFFFF; in a state's bytes iop89_cause names the one."},
    {11, "A lent buffer is longer than its limit: 1,048,576 bytes of system memory, 65,536 of I/O memory.",
     "-system and -io."},
    {12,
     "An argument that no machine has: a processor or channel that is neither 1 nor 2, a line number over 15, or a step "
     "limit over 65,535.",
     "The words behind the command; the tool says which, and ends with 2. From C, iop89_wrong_argument does."},
    {13, "An attention, step or sweep before power-up.", "iop89_power_up after iop89_reset, or iop89_fresh with a CP."},
    {14, "The fields of CC that a state keeps beside it are not those of CC.",
     "Who writes CC into a state's bytes does so by iop89_set_cc; iop89_cause names the bits that differ."},
    {15, "A sweep whose conditions are not met.", "docs/SERVICE.md, A sweep in one go, has them; plain steps always do."},
    {16, "A schedule has a row that is neither an attention nor a step. No row is run.", "The line that the tool prints."},
    {17, "The bytes that were lent as a state are none: their length, their version or a field.",
     "iop89_cause names the byte. A state of another version was saved by another library."},
    {20, "A line of a PROM file is no record.", "The line that is printed: a title, blanks, an empty line?"},
    {21, "A record's bytes do not sum to 0 mod 256.", "The line that is printed: a character was changed on the way."},
    {22, "A record's type is none of 00 to 03, or its length does not fit its type.",
     "Types 04 and 05 are linear addresses: write the file with segmented ones, srec_cat .. -address-length=3."},
    {23, "A PROM file has no end record.", "Its last line, :00000001FF: the file was cut off?"},
    {30, "Where a word must stand in a text to be assembled is none.", "The line that is printed."},
    {31, "The operands have no form of the word.", "MOVI and MOVBI take numbers, MOV and MOVB take none."},
    {32, "More than 8 parentheses are open at once.", "The line that is printed."},
    {33, "A label is unknown, twice, a word or a register, over 12 characters, or the 65th.", "The label that is printed."},
    {34, "A target is out of reach, or a number does not fit its place.",
     "Write L in front of a jump: LJMP reaches 32 KiB."},
    {35, "A byte of the line lies beyond the room.", "-room, or the image's own length."},
};

enum tool_status tool_explain(const char *word)
{
    uint32_t number = 0;
    const char *complaint = tool_read_number(word, strlen(word), &number);
    if (complaint != NULL) tool_usage(complaint, word);
    for (size_t i = 0; i < sizeof numbers / sizeof numbers[0]; i++) {
        if (numbers[i].number != number) continue;
        const char *words = number < 20 ? iop89_service_words(number) : number < 30 ? iop89_load_words(number)
                                                                                    : iop89_asm_words(number);
        printf("%u: %s\n%s\nLook at: %s\n", number, words, numbers[i].when, numbers[i].look);
        return TOOL_DONE;
    }
    tool_usage("no such number: 0 to 17, 20 to 23, 30 to 35", word);
}
