/*
 * The call by which a host program runs the proved stand-in for the 8089 I/O processor, and what it answers.
 *
 * For C99 and later and C++. The archive, libiop89.a, is for x86-64 Linux (System V calling convention) on a processor that
 * has SSE4.1 (x86-64-v2); it can be linked into position-independent programs, needs nothing of any library and no start-up,
 * nor does libiop89_service.a, and keeps nothing between calls, so that threads may call it at the same time, each with
 * buffers of its own.
 */
#ifndef IOP89_H
#define IOP89_H

#include <stddef.h>
#include <stdint.h>

#ifdef __cplusplus
extern "C" {
#endif

/* The version of headers and archives: major number x 100 + minor number. The same major number only adds: what a program
 * was answered it is answered still. 2.0 answers otherwise than 1.0 where a match ends a transfer at the first of two
 * single stores (BC falls by two), in I/O space beyond lent memory (empty slots, not 2), and where two bytes of a
 * synchronised transfer have a request each (a step each). */
#define IOP89_VERSION 200

/* The most bytes of system memory and of I/O memory that may be lent, and the largest arguments. */
#define IOP89_SYSTEM_LIMIT 1048576u
#define IOP89_IO_LIMIT 65536u
#define IOP89_CP_LIMIT 1048575u
#define IOP89_LINES_LIMIT 15u
#define IOP89_STEPS_LIMIT 65535u

/* The line number is the sum of the lines that are up. */
#define IOP89_DRQ1 1u
#define IOP89_DRQ2 2u
#define IOP89_EXT1 4u
#define IOP89_EXT2 8u

/* The numbers handed back, as a run meets them. */
enum iop89_number {
    IOP89_DONE = 0,             /* the limit stopped the run: every step was done, and more could follow */
    IOP89_NO_CHANNEL = 1,       /* no channel can run: halted or never started, or waiting for a request (DRQ) */
    IOP89_BEYOND_MEMORY = 2,    /* a byte of system space to be read or stored lies beyond lent memory */
    IOP89_NO_INSTRUCTION = 3,   /* the bytes are no instruction */
    IOP89_CC_USED = 4,          /* CC used by anything but MOV or MOVI */
    IOP89_BAD_TRANSFER = 5,     /* transfer with SYN 11, or translation with a 16-bit side */
    IOP89_BAD_COMMAND = 6,      /* the control block has command 010 or 100 */
    IOP89_NOT_SUSPENDED = 7,    /* it has resume, and a run starts with no channel suspended */
    IOP89_ALREADY_RUNNING = 8,  /* start, channel running; never from iop89_run, whose channels start idle */
    IOP89_NOT_RUNNING = 9,      /* it has suspend, and a run starts with no channel running */
    IOP89_BAD_POINTER = 10,     /* cp is over 1,048,575; no register of a run can be */
    IOP89_BAD_BUFFER = 11,      /* sys_len is over 1,048,576, or io_len over 65,536 */
    IOP89_BAD_ARGUMENT = 12,    /* channel neither 1 nor 2, lines over 15, or limit over 65,535 */
    IOP89_NUMBERS = 13          /* how many numbers a run can answer; iop89_service.h has more */
};

/* An answer is one number with parts, and no two kinds of answers have the same parts. So each kind has a type of its own,
 * a struct of one member, which is handed over as that number is: the macro of one kind does not compile on another. A
 * program that wants the bare numbers defines IOP89_PLAIN_ANSWERS before it includes the header. */
#ifdef IOP89_PLAIN_ANSWERS
#define IOP89_ANSWER_TYPE(name, bits) typedef bits name;
#define IOP89_BITS(answer) (answer)
#else
#define IOP89_ANSWER_TYPE(name, bits) \
    typedef struct name { \
        bits packed; \
    } name;
#define IOP89_BITS(answer) ((answer).packed)
#endif

/* The answer of a run, and its two parts. */
IOP89_ANSWER_TYPE(iop89_run_answer, uint32_t)
#define IOP89_NUMBER(answer) iop89_run_number(answer)
#define IOP89_STEPS(answer) iop89_run_steps(answer)

static inline uint32_t iop89_run_number(iop89_run_answer answer)
{
    return IOP89_BITS(answer) / 65536u;
}

static inline uint32_t iop89_run_steps(iop89_run_answer answer)
{
    return IOP89_BITS(answer) % 65536u;
}

/*
 * Makes a fresh state whose control block is at cp, gives the channel one attention and, if that is accepted, steps
 * until a number other than 0 or the limit. Answers number x 65,536 + steps done.
 *
 *   sys, sys_len   system memory from address 0 on: 0 to 1,048,576 bytes, else 11
 *   io, io_len     I/O memory from address 0 on: 0 to 65,536 bytes, else 11
 *   cp             address of channel 1's control block; channel 2's is at cp + 8: 0 to 1,048,575, else 10
 *   channel        the channel that gets the attention: 1 or 2, else 12
 *   lines          the lines that are up, throughout: 0 to 15, else 12
 *   limit          the most steps: 0 to 65,535, else 12; with 0 the attention alone is given
 *
 * Of several refusals 12 comes first, then 11, then 10. Every value of every argument gets an answer, and with these
 * three, as with a refused attention, no byte is changed. Steps before a refused one keep their effect on both buffers.
 * Beyond io_len I/O space has empty card slots: a byte read there is FFh, and one stored there vanishes.
 * What a run leaves in registers is gone when it ends: the next starts from a fresh state.
 *
 * Behind number 1 a host tells three ends apart. No step was done: nothing was started, since the command of the CCW, the
 * low three bits of the byte at cp (channel 2: cp + 8), was 000, nothing more, or 111, halt. Otherwise the byte behind the
 * CCW is BUSY: 00h says that the channel halted, and FFh that it waits for a request (DRQ), unless the program wrote there
 * itself. The calls of iop89_service.h leave a state, in which IOP89_MODE says the same.
 *
 * What no proof can see, and the caller must keep: behind sys are sys_len bytes and behind io io_len bytes that may be
 * read and written, and the two do not overlap. With a length of 0 the pointer may be NULL: no byte of an empty buffer
 * is read or stored, which is proved, so the pointer is never followed. That a null pointer does no harm on its way is
 * not proved: a slice of the proved code has an address. It rests on the compiled code of this archive, and is tested.
 */
iop89_run_answer iop89_run(uint8_t *sys, size_t sys_len, uint8_t *io, size_t io_len, uint32_t cp, uint32_t channel,
                           uint32_t lines, uint32_t limit);

/* The version of the archive libiop89.a; it is IOP89_VERSION where header and archive belong together. */
uint32_t iop89_version(void);

/* What 12 looks at, of the calls of iop89_service.h too. */
enum iop89_argument { IOP89_NO_ARGUMENT = 0, IOP89_PROCESSOR = 1, IOP89_CHANNEL = 2, IOP89_LINES = 3, IOP89_LIMIT = 4 };

/* Which argument refuses a call by 12, the first where several do, or IOP89_NO_ARGUMENT. Of those that a call does not have
 * one that is good stands in: 1 for the processor and the channel, 0 for the lines and the limit. */
static inline enum iop89_argument iop89_wrong_argument(uint32_t processor, uint32_t channel, uint32_t lines, uint32_t limit)
{
    if (processor != 1u && processor != 2u) return IOP89_PROCESSOR;
    if (channel != 1u && channel != 2u) return IOP89_CHANNEL;
    if (lines > IOP89_LINES_LIMIT) return IOP89_LINES;
    return limit > IOP89_STEPS_LIMIT ? IOP89_LIMIT : IOP89_NO_ARGUMENT;
}

/* A number in words, those of the calls of iop89_service.h too. */
static inline const char *iop89_words(unsigned number)
{
    switch (number) {
    case IOP89_DONE: return "stopped at the limit";
    case IOP89_NO_CHANNEL: return "no channel can run: halted, never started, or waiting for a request";
    case IOP89_BEYOND_MEMORY: return "a byte of system space to be read or stored lies beyond lent memory";
    case IOP89_NO_INSTRUCTION: return "the bytes are no instruction";
    case IOP89_CC_USED: return "CC used by anything but MOV or MOVI";
    case IOP89_BAD_TRANSFER: return "transfer with SYN 11, or translation with a 16-bit side";
    case IOP89_BAD_COMMAND: return "command 010 or 100";
    case IOP89_NOT_SUSPENDED: return "resume, channel not suspended";
    case IOP89_ALREADY_RUNNING: return "start, channel running";
    case IOP89_NOT_RUNNING: return "suspend, channel not running";
    case IOP89_BAD_POINTER: return "the control block's address is over 1,048,575";
    case IOP89_BAD_BUFFER: return "a lent buffer longer than its limit";
    case IOP89_BAD_ARGUMENT: return "channel neither 1 nor 2, line number over 15, or step limit over 65,535";
    case 13: return "not powered up";
    case 14: return "CC of a channel and its fields disagree";
    case 15: return "the transfer cannot be swept";
    case 16: return "a row of unknown kind";
    case 17: return "the bytes are no state";
    default: return "no such number";
    }
}

#ifdef __cplusplus
}
#endif

#endif
