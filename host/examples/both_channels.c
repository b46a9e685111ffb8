/* A host that drives both channels by hand: starts them, changes the lines, suspends, resumes, saves and restores. */
#include "iop89_service.h"

#include <stdio.h>
#include <string.h>

/* Control blocks at 0 and 8 start programs at 40h and 60h: channel 1 counts in IX for ever, channel 2 moves four bytes
 * from 80h to I/O space, one for each DRQ, and halts. */
static uint8_t sys[0x90] = {
    [0x00] = 3, [0x02] = 0x10, [0x08] = 3, [0x0A] = 0x20, [0x10] = 0x40, [0x20] = 0x60,
    [0x40] = 0xA0, 0x38, 0x88, 0x20, 0xFB,                              /* INC IX; JMP 40h */
    [0x60] = 0x11, 0x08, 0x80, 0, 0, 0, 0x31, 0x30, 0, 0, 0x71, 0x30, 4, 0, /* LPDI GA,80h,0; MOVI GB,0; MOVI BC,4 */
    0xD1, 0x30, 0x08, 0xD2, 0x60, 0, 0, 0, 0x20, 0x48,                  /* MOVI CC,0D208h; XFER; NOP; HLT */
    [0x80] = 'l', 'i', 'n', 'e'};
static uint8_t io[16], state[IOP89_STATE_LENGTH];

/* Writes a command into a channel's block and gives it attention. */
static void command(unsigned channel, uint8_t code)
{
    sys[8 * (channel - 1)] = code;
    iop89_answer answer = iop89_attention(state, sizeof state, sys, sizeof sys, io, sizeof io, channel);
    printf("command %u to channel %u: %s\n", code, channel, iop89_service_words(IOP89_ANSWER_NUMBER(answer)));
}

/* So many steps with these lines up; then what the channels have come to. */
static void steps(unsigned count, uint32_t lines)
{
    while (count-- > 0) iop89_step(state, sizeof state, sys, sizeof sys, io, sizeof io, lines);
    printf("lines %u: IX of channel 1 is %u, channel 2 has sent \"%.4s\"\n", lines, iop89_get(state, 1, IOP89_IX), io);
}

int main(void)
{
    uint8_t saved[IOP89_STATE_LENGTH], saved_sys[sizeof sys], saved_io[sizeof io], end[IOP89_STATE_LENGTH];
    iop89_fresh(state, sizeof state, 0);
    command(1, 3), command(2, 3);                     /* start both */
    steps(20, 0), steps(2, IOP89_DRQ2), steps(4, 0);  /* two bytes go while DRQ of channel 2 is up */
    command(1, 6), steps(1, IOP89_DRQ2), command(1, 5); /* channel 1 suspended for a step, and resumed */
    memcpy(saved, state, sizeof saved), memcpy(saved_sys, sys, sizeof sys), memcpy(saved_io, io, sizeof io);
    steps(30, IOP89_DRQ2), memcpy(end, state, sizeof end);
    memcpy(state, saved, sizeof saved), memcpy(sys, saved_sys, sizeof sys), memcpy(io, saved_io, sizeof io);
    steps(30, IOP89_DRQ2);                            /* once more from where it was saved, to the same end */
    return memcmp(end, state, sizeof end) == 0 ? 0 : 1;
}
