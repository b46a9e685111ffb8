/* One run of a known program by the proved library or by the plain emulator, some sweeps, the rows of a schedule, or steps
 * of one of two processors, for tools/bench to count instructions. */
#include "emulator/emulator.h"
#include "iop89_service.h"
#include "sweep_case.h"

#include <stdlib.h>
#include <string.h>

/* Bytes of each buffer in a small run. */
#define SMALL 4096u

/* Where an image has its control block, parameter block and program, and the program where it stands in I/O space. */
enum { CONTROL_BLOCK = 0, PARAMETER_BLOCK = 0x10, PROGRAM = 0x40, IO_PROGRAM = 0x400 };

/* The commands that start a program in either space. */
enum { START_IN_IO = 1, START_IN_SYSTEM = 3 };

/* The high byte of an address behind the end of small I/O memory. */
enum { EMPTY_SLOT_HIGH = 0x20 };

/* Where the mix has the data that GA points at, and the byte there that its masked compare looks for. */
enum { MIX_DATA = 0x400, MIX_MATCH_AT = MIX_DATA + 3, MIX_MATCH = 0x2E };

/* Command start in system space; PB at 10h. */
static const uint8_t control_block[] = {0x03, 0x00, PARAMETER_BLOCK, 0x00, 0x00, 0x00};

/* The program's address, then what the mix reads as [PP].4 and up: 1234h, room for a word, GA again, and a byte. */
static const uint8_t parameter_block[] = {PROGRAM, 0x00, 0x00, 0x00, 0x34, 0x12, 0x00,
                                          0x00,    0x00, 0x00, 0x40, 0x00, 0x5A};

/*
 * The mix: four steps that set it up, then a loop of 50 steps that meets every shape of the decoder but NOP, XFER and
 * HLT. GA and GC are in system space, GB in I/O space. A line jumped over is no step.
 */
static const uint8_t mix[] = {
    0x11, 0x08, 0x00, 0x00, 0x40, 0x00, /*       LPDI  GA,0,40H: 400h, system           */
    0x31, 0x30, 0x00, 0x01,             /*       MOVI  GB,100H: I/O                     */
    0x51, 0x08, 0x00, 0x00, 0x60, 0x00, /*       LPDI  GC,0,60H: 600h, system           */
    0xF1, 0x30, 0x2E, 0xFF,             /*       MOVI  MC,0FF2EH                        */
    0xB1, 0x30, 0x04, 0x00,             /* LOOP: MOVI  IX,4                             */
    0x63, 0x83, 0x04,                   /*       MOV   BC,[PP].4                        */
    0x68, 0x20, 0x10,                   /*       ADDBI BC,10H                           */
    0x71, 0x28, 0xFF, 0x7F,             /*       ANDI  BC,7FFFH                         */
    0x63, 0x87, 0x06,                   /*       MOV   [PP].6,BC                        */
    0x66, 0x80,                         /*       MOVB  BC,[GA+IX+]                      */
    0x66, 0x85,                         /*       MOVB  [GB+IX+],BC                      */
    0x67, 0x80,                         /*       MOV   BC,[GA+IX+]                      */
    0x67, 0x85,                         /*       MOV   [GB+IX+],BC                      */
    0x63, 0xA0, 0x08,                   /*       ADD   BC,[GA].8                        */
    0x62, 0xA4, 0x09,                   /*       ORB   BC,[GA].9                        */
    0x65, 0xA8,                         /*       AND   BC,[GA+IX]                       */
    0x63, 0xD0, 0x10,                   /*       ADD   [GA].16,BC                       */
    0x62, 0xD4, 0x12,                   /*       ORB   [GA].18,BC                       */
    0xA0, 0x00,                         /*       WID   8,16                             */
    0x0A, 0x4D, 0x00, 0x12,             /*       MOVBI [GB].0,12H                       */
    0x8A, 0xB9, 0x00, 0xFC,             /* WAIT: JNBT  [GB].0,4,WAIT: not taken         */
    0x13, 0x4E, 0x04, 0x34, 0x12,       /*       MOVI  [GC].4,1234H                     */
    0x13, 0xC2, 0x04, 0x10, 0x00,       /*       ADDI  [GC].4,10H                       */
    0x0A, 0xCA, 0x04, 0x7F,             /*       ANDBI [GC].4,7FH                       */
    0x0B, 0xE6, 0x04, 0x04,             /*       JZ    [GC].4,+4: not taken             */
    0x02, 0x93, 0x0C, 0x02, 0xCD, 0x01, /*       MOVB  [GB].1,[PP].12                   */
    0x05, 0x90, 0x01, 0xCE,             /*       MOV   [GC],[GA+IX]                     */
    0x62, 0xF6, 0x02,                   /*       SETB  [GC].2,3                         */
    0x6A, 0xBE, 0x02, 0x02,             /*       JBT   [GC].2,3,+2                      */
    0x00, 0x00,                         /*       NOP: jumped over                       */
    0x62, 0xFA, 0x02,                   /*       CLR   [GC].2,3                         */
    0x0A, 0x4E, 0x06, 0x00,             /*       MOVBI [GC].6,0                         */
    0x1A, 0x96, 0x06, 0x55, 0x02,       /*       TSL   [GC].6,55H,+2: not taken         */
    0x03, 0x9A, 0x08,                   /*       MOVP  [GC].8,GA                        */
    0x03, 0x8B, 0x08,                   /*       LPD   GA,[PP].8                        */
    0x8A, 0x9E, 0x0C, 0x37,             /*       CALL  [GC].12,SUB                      */
    0xA0, 0x3C,                         /*       DEC   IX                               */
    0x60, 0x38,                         /*       INC   BC                               */
    0x60, 0x2C,                         /*       NOT   BC                               */
    0xA8, 0x44, 0x04,                   /*       JZ    IX,+4: not taken                 */
    0xA8, 0x40, 0x02,                   /*       JNZ   IX,+2                            */
    0x00, 0x00,                         /*       NOP: jumped over                       */
    0x0A, 0xB0, 0x03, 0x02,             /*       JMCE  [GA].3,+2                        */
    0x00, 0x00,                         /*       NOP: jumped over                       */
    0x0A, 0xB4, 0x03, 0x02,             /*       JMCNE [GA].3,+2: not taken             */
    0x03, 0xEB, 0x0E,                   /*       INC   [PP].14                          */
    0x02, 0xEF, 0x10,                   /*       DECB  [PP].16                          */
    0x0A, 0xE0, 0x03, 0x02,             /*       JNZB  [GA].3,+2                        */
    0x00, 0x00,                         /*       NOP: jumped over                       */
    0x51, 0x08, 0x00, 0x00, 0x60, 0x00, /*       LPDI  GC,0,60H: 600h again             */
    0x68, 0x30, 0x80,                   /*       MOVBI BC,80H                           */
    0x71, 0x24, 0x01, 0x01,             /*       ORI   BC,101H                          */
    0x40, 0x00,                         /*       SINTR                                  */
    0x91, 0x20, 0x5D, 0xFF,             /*       JMP   LOOP                             */
    0xA3, 0x87, 0x12,                   /* SUB:  MOV   [PP].18,IX                       */
    0xA3, 0x83, 0x12,                   /*       MOV   IX,[PP].18                       */
    0x63, 0xAF, 0x04,                   /*       NOT   BC,[PP].4                        */
    0x83, 0x8E, 0x0C,                   /*       MOVP  TP,[GC].12: back to after CALL   */
};

/* A block transfer from 400h to 800h of system space, seven steps before it starts; WID and CC are put in. */
static const uint8_t transfer[] = {
    0x11, 0x08, 0x00, 0x00, 0x40, 0x00, /* LPDI GA,0,40H: 400h                       */
    0x31, 0x08, 0x00, 0x00, 0x80, 0x00, /* LPDI GB,0,80H: 800h                       */
    0x71, 0x30, 0x00, 0x80,             /* MOVI BC,8000H: more than any run moves    */
    0xD1, 0x30, 0x08, 0xC0,             /* MOVI CC,0C008H: another is put in         */
    0x80, 0x00,                         /* WID  8,8: another is put in               */
    0x60, 0x00,                         /* XFER                                      */
    0x00, 0x00,                         /* NOP                                       */
};

/* The same between odd addresses, 401h and 801h: the first step moves one byte, the others two. */
static const uint8_t odd_transfer[] = {
    0x11, 0x08, 0x01, 0x00, 0x40, 0x00, /* LPDI GA,1,40H: 401h                       */
    0x31, 0x08, 0x01, 0x00, 0x80, 0x00, /* LPDI GB,1,80H: 801h                       */
    0x71, 0x30, 0x00, 0x80,             /* MOVI BC,8000H: more than any run moves    */
    0xD1, 0x30, 0x08, 0xC0,             /* MOVI CC,0C008H: another is put in         */
    0x80, 0x00,                         /* WID  8,8: another is put in               */
    0x60, 0x00,                         /* XFER                                      */
    0x00, 0x00,                         /* NOP                                       */
};

/* The same to I/O space; with eight steps before it starts its parts stand where the first has them. */
static const uint8_t to_port[] = {
    0x11, 0x08, 0x00, 0x00, 0x40, 0x00, /* LPDI GA,0,40H: 400h                       */
    0x31, 0x30, 0x00, 0x08,             /* MOVI GB,800H: I/O                         */
    0x00, 0x00,                         /* NOP                                       */
    0x71, 0x30, 0x00, 0x80,             /* MOVI BC,8000H: more than any run moves    */
    0xD1, 0x30, 0x08, 0xC0,             /* MOVI CC,0C008H: another is put in         */
    0x80, 0x00,                         /* WID  8,8: another is put in               */
    0x60, 0x00,                         /* XFER                                      */
    0x00, 0x00,                         /* NOP                                       */
};

/* Where WID and the high byte of the port's address stand in a transfer's program, and CC in its low byte. */
enum { TRANSFER_WID = 20, TRANSFER_GB_HIGH = 9, TRANSFER_CC = 18 };

/* CC of a transfer by what it does; both sides move on and the count ends it unless it says otherwise. */
enum {
    PLAIN_CC = 0xC008,
    TRANSLATED_CC = 0xE008,
    COMPARED_CC = 0xC00D,
    FROM_CC = 0xC808,
    TO_CC = 0xD008,
    PORT_CC = 0x4008,
};

/* Channel 2's block, its parameter block, and its program beside the mix: a loop of INC IX and JNZ IX. */
enum { SECOND_BLOCK = 8, SECOND_PARAMETER_BLOCK = 0x20, SECOND_PROGRAM = 0x300 };
static const uint8_t second_block[] = {0x03, 0x00, SECOND_PARAMETER_BLOCK, 0x00, 0x00, 0x00};
static const uint8_t second_parameter_block[] = {0x00, 0x03, 0x00, 0x00};
static const uint8_t second_program[] = {0xA0, 0x38, 0xA8, 0x40, 0xFB};

/* The two lent buffers. */
static uint8_t sys[IOP89_SYSTEM_LIMIT], io[IOP89_IO_LIMIT];

/* Where code stands: in the middle of a memory, or so that its last byte is the memory's last. */
enum place { IN_SYSTEM, SYSTEM_END, IN_IO, IO_END };

/* A workload by its name: its program; the first byte of its WID, or 0 where it is no transfer; CC, and the lines that
 * are up; and where its code stands. */
struct workload {
    const char *name;
    const uint8_t *program;
    size_t length;
    uint8_t wid;
    uint16_t cc;
    uint8_t lines;
    enum place place;
};

/* The widths of source and destination as WID has them. */
enum { WID_8_8 = 0x80, WID_8_16 = 0xA0, WID_16_8 = 0xC0, WID_16_16 = 0xE0 };

static const struct workload workloads[] = {
    {"mix", mix, sizeof mix, 0, 0, 0, IN_SYSTEM},
    {"both", mix, sizeof mix, 0, 0, 0, IN_SYSTEM},
    {"8/8", transfer, sizeof transfer, WID_8_8, PLAIN_CC, 0, IN_SYSTEM},
    {"16/16", transfer, sizeof transfer, WID_16_16, PLAIN_CC, 0, IN_SYSTEM},
    {"8/16", transfer, sizeof transfer, WID_8_16, PLAIN_CC, 0, IN_SYSTEM},
    {"16/8", transfer, sizeof transfer, WID_16_8, PLAIN_CC, 0, IN_SYSTEM},
    {"wait", transfer, sizeof transfer, WID_8_8, FROM_CC, 0, IN_SYSTEM},
    {"translated", transfer, sizeof transfer, WID_8_8, TRANSLATED_CC, 0, IN_SYSTEM},
    {"compared-8/8", transfer, sizeof transfer, WID_8_8, COMPARED_CC, 0, IN_SYSTEM},
    {"compared-16/16", transfer, sizeof transfer, WID_16_16, COMPARED_CC, 0, IN_SYSTEM},
    {"requested-8/8", transfer, sizeof transfer, WID_8_8, FROM_CC, IOP89_DRQ1, IN_SYSTEM},
    {"requested-16/16", transfer, sizeof transfer, WID_16_16, FROM_CC, IOP89_DRQ1, IN_SYSTEM},
    {"two-fetches", transfer, sizeof transfer, WID_8_16, FROM_CC, IOP89_DRQ1, IN_SYSTEM},
    {"two-stores", transfer, sizeof transfer, WID_16_8, TO_CC, IOP89_DRQ1, IN_SYSTEM},
    {"odd-16/16", odd_transfer, sizeof odd_transfer, WID_16_16, PLAIN_CC, 0, IN_SYSTEM},
    {"port-8/8", to_port, sizeof to_port, WID_8_8, PORT_CC, 0, IN_SYSTEM},
    {"port-16/16", to_port, sizeof to_port, WID_16_16, PORT_CC, 0, IN_SYSTEM},
    {"slot-8/8", to_port, sizeof to_port, WID_8_8, PORT_CC, 0, IN_SYSTEM},
    {"slot-16/16", to_port, sizeof to_port, WID_16_16, PORT_CC, 0, IN_SYSTEM},
    {"mix-in-io", mix, sizeof mix, 0, 0, 0, IN_IO},
    {"mix-at-end", mix, sizeof mix, 0, 0, 0, SYSTEM_END},
    {"two", second_program, sizeof second_program, 0, 0, 0, IN_SYSTEM},
    {"two-at-end", second_program, sizeof second_program, 0, 0, 0, SYSTEM_END},
    {"two-in-io", second_program, sizeof second_program, 0, 0, 0, IN_IO},
    {"two-at-io-end", second_program, sizeof second_program, 0, 0, 0, IO_END},
};

/* The buffers of a run by their name: their lengths. */
struct buffers {
    const char *name;
    size_t sys_len, io_len;
};

/* Small ones, whole memories, memories that end a byte below the top of their space, and I/O memory of one program. */
static const struct buffers lengths[] = {
    {"small", SMALL, SMALL},
    {"full", sizeof sys, sizeof io},
    {"below", sizeof sys - 1, sizeof io - 1},
    {"least", SMALL, sizeof second_program},
};

/* Says how the program is called, and ends it. */
static _Noreturn void usage(void)
{
    fputs("usage: bench proved|plain WORKLOAD small|full|below|least STEPS\n"
          "       bench swept|stepped within|across|one COUNT\n"
          "       bench scheduled|singly|paired-1|paired-2|asked both|8/8|16/16|wait ROWS\n"
          "       bench loop TURNS\n",
          stderr);
    exit(2);
}

/* The workload of a name. */
static const struct workload *workload_of(const char *name)
{
    for (size_t i = 0; i < sizeof workloads / sizeof workloads[0]; i++)
        if (strcmp(workloads[i].name, name) == 0) return &workloads[i];
    usage();
}

/* The buffers of a name. */
static const struct buffers *buffers_of(const char *name)
{
    for (size_t i = 0; i < sizeof lengths / sizeof lengths[0]; i++)
        if (strcmp(lengths[i].name, name) == 0) return &lengths[i];
    usage();
}

/* The number that a word of the command line writes. */
static uint32_t number_of(const char *word)
{
    char *end = NULL;
    unsigned long value = strtoul(word, &end, 10);
    if (end == word || *end != '\0' || value > IOP89_STEPS_LIMIT) usage();
    return (uint32_t)value;
}

/* Where a workload's code begins, in the space that it stands in. */
static size_t code_at(const struct workload *w, size_t sys_len, size_t io_len)
{
    switch (w->place) {
    case SYSTEM_END: return sys_len - w->length;
    case IN_IO: return IO_PROGRAM;
    case IO_END: return io_len - w->length;
    default: return PROGRAM;
    }
}

/* Puts a workload's image into memory: its blocks into system memory, its code where it stands. */
static void make_image(const struct workload *w, size_t sys_len, size_t io_len)
{
    bool ports = w->place == IN_IO || w->place == IO_END;
    size_t at = code_at(w, sys_len, io_len);
    uint8_t *code = (ports ? io : sys) + at;
    memcpy(sys + CONTROL_BLOCK, control_block, sizeof control_block);
    memcpy(sys + PARAMETER_BLOCK, parameter_block, sizeof parameter_block);
    sys[CONTROL_BLOCK] = ports ? START_IN_IO : START_IN_SYSTEM;
    sys[PARAMETER_BLOCK] = (uint8_t)at;
    sys[PARAMETER_BLOCK + 1] = (uint8_t)(at >> 8);
    sys[PARAMETER_BLOCK + 3] = (uint8_t)(at >> 16 << 4);
    memcpy(code, w->program, w->length);
    sys[MIX_MATCH_AT] = MIX_MATCH;
    if (w->wid == 0) return;
    code[TRANSFER_WID] = w->wid;
    code[TRANSFER_CC] = (uint8_t)w->cc;
    code[TRANSFER_CC + 1] = (uint8_t)(w->cc >> 8);
    if (strncmp(w->name, "slot", 4) == 0) code[TRANSFER_GB_HIGH] = EMPTY_SLOT_HIGH;
}

/* The answer of the library or of the emulator. */
static uint32_t run(const char *side, size_t sys_len, size_t io_len, uint32_t lines, uint32_t limit)
{
    struct emu_memory memory = {sys, sys_len, io, io_len};
    if (strcmp(side, "proved") == 0) return iop89_run(sys, sys_len, io, io_len, CONTROL_BLOCK, 1, lines, limit);
    if (strcmp(side, "plain") == 0) return emu_run(&memory, CONTROL_BLOCK, 1, lines, limit);
    usage();
}

/* Puts channel 2's blocks and program beside the first one's. */
static void make_second(void)
{
    memcpy(sys + SECOND_BLOCK, second_block, sizeof second_block);
    memcpy(sys + SECOND_PARAMETER_BLOCK, second_parameter_block, sizeof second_parameter_block);
    memcpy(sys + SECOND_PROGRAM, second_program, sizeof second_program);
}

/* So many steps of both channels by the service calls, or by those of the emulator; answers how many were done. */
static uint32_t step_both(bool proved, size_t sys_len, size_t io_len, uint32_t steps)
{
    struct emu_memory memory = {sys, sys_len, io, io_len};
    struct emu_state plain;
    uint8_t state[IOP89_STATE_LENGTH];
    uint32_t done = 0;
    make_second();
    iop89_fresh(state, sizeof state, CONTROL_BLOCK);
    emu_fresh(CONTROL_BLOCK, &plain);
    for (uint32_t channel = 1; channel <= 2; channel++) {
        if (proved) (void)iop89_attention(state, sizeof state, sys, sys_len, io, io_len, channel);
        else (void)emu_attention(&plain, &memory, channel);
    }
    for (uint32_t i = 0; i < steps; i++) {
        if (proved) done += IOP89_ANSWER_NUMBER(iop89_step(state, sizeof state, sys, sys_len, io, io_len, 0)) == 0;
        else done += emu_step(&plain, &memory, 0).number == 0;
    }
    return done;
}

/* ---- Sweeps ---- */

/* The transfers that are swept, and stepped for comparison. */
static const struct sweep_case sweeps[] = {
    {"within", 0x10000, 0x30000, 65535, false},
    {"across", 0x10000, 0, 65535, true},
    {"one", 0x10000, 0x30000, 1, false},
};

/* The states that they are made on: as many for every count, so that making them falls away between two counts. */
enum { SWEEP_STATES = 9 };
static uint8_t states[SWEEP_STATES][IOP89_STATE_LENGTH];

/* The sweep of a name. */
static const struct sweep_case *sweep_of(const char *name)
{
    for (size_t i = 0; i < sizeof sweeps / sizeof sweeps[0]; i++)
        if (strcmp(sweeps[i].name, name) == 0) return &sweeps[i];
    usage();
}

/* So many sweeps, each on a state of its own; answers how many were done. */
static uint32_t sweep_all(uint32_t count)
{
    uint32_t done = 0;
    for (uint32_t i = 0; i < count; i++) {
        uint64_t answer = iop89_sweep(states[i], IOP89_STATE_LENGTH, sys, sizeof sys, io, sizeof io, 1, 0);
        done += IOP89_SWEEP_NUMBER(answer) == 0;
    }
    return done;
}

/* So many plain steps, all on the first state, or each on a state of its own; answers how many moved bytes. */
static uint32_t step_all(uint32_t count, bool apart)
{
    uint32_t done = 0;
    for (uint32_t i = 0; i < count; i++) {
        uint32_t answer = iop89_step(states[apart ? i : 0], IOP89_STATE_LENGTH, sys, sizeof sys, io, sizeof io, 0);
        done += IOP89_ANSWER_KIND(answer) == IOP89_TRANSFER;
    }
    return done;
}

/* The sweeps or the steps of a case; whether all were done. */
static bool made(const char *how, const struct sweep_case *c, uint32_t count)
{
    bool swept = strcmp(how, "swept") == 0, apart = swept || c->bytes == 1;
    if ((!swept && strcmp(how, "stepped") != 0) || (apart && count > SWEEP_STATES)) usage();
    for (size_t i = 0; i < SWEEP_STATES; i++) sweep_case_state(c, states[i]);
    return (swept ? sweep_all(count) : step_all(count, apart)) == count;
}

/* ---- Schedules ---- */

/* The most rows; they are filled in for every count, so that this falls away between two counts. */
enum { SCHEDULE_ROWS = 400 };
static struct iop89_row rows[SCHEDULE_ROWS];

/* The steps that set a transfer up. */
enum { SETTING_UP = 7 };

/* One step row on a state by its single call. */
static uint32_t step_once(uint8_t *state, uint32_t lines)
{
    return iop89_step(state, IOP89_STATE_LENGTH, sys, SMALL, io, SMALL, lines);
}

/* Makes the state that the rows are run on: both channels on their programs, or channel 1 in its transfer. */
static void make_started(const struct workload *w, uint8_t *state)
{
    bool both = strcmp(w->name, "both") == 0;
    make_image(w, SMALL, SMALL);
    if (both) make_second();
    iop89_fresh(state, IOP89_STATE_LENGTH, CONTROL_BLOCK);
    for (uint32_t channel = 1; channel <= (both ? 2 : 1); channel++)
        (void)iop89_attention(state, IOP89_STATE_LENGTH, sys, SMALL, io, SMALL, channel);
    for (unsigned i = 0; !both && i < SETTING_UP; i++) (void)step_once(state, 0);
}

/* So many step rows by one schedule, or each by a call of its own; whether all were done, or all waited. */
static bool row_all(const char *how, const struct workload *w, uint32_t count)
{
    uint8_t state[IOP89_STATE_LENGTH];
    uint64_t report[IOP89_REPORT_LENGTH] = {0};
    bool singly = strcmp(how, "singly") == 0, waits = strcmp(w->name, "wait") == 0;
    if (count > SCHEDULE_ROWS) usage();
    make_started(w, state);
    for (size_t i = 0; i < SCHEDULE_ROWS; i++) rows[i].kind = IOP89_ROW_STEP;
    for (uint32_t i = 0; singly && i < count; i++)
        report[IOP89_ANSWER_NUMBER(step_once(state, rows[i].value)) == 0 ? IOP89_ROWS_ACCEPTED : IOP89_ROWS_REFUSED]++;
    if (!singly)
        (void)iop89_schedule(state, sizeof state, rows, count, sys, SMALL, io, SMALL, report, IOP89_REPORT_LENGTH);
    return report[waits ? IOP89_ROWS_REFUSED : IOP89_ROWS_ACCEPTED] == count;
}

/* ---- What a step touches, told before it is made ---- */

/* So many steps, what each touches asked before it; whether all were done, or all waited. */
static bool step_asked(const struct workload *w, uint32_t count)
{
    uint8_t state[IOP89_STATE_LENGTH];
    uint32_t places[IOP89_PLACES], met[2] = {0, 0};
    bool waits = strcmp(w->name, "wait") == 0;
    make_started(w, state);
    for (uint32_t i = 0; i < count; i++) {
        uint32_t told = iop89_touches_step(state, IOP89_STATE_LENGTH, sys, SMALL, io, SMALL, 0, places, IOP89_PLACES);
        uint32_t answer = step_once(state, 0);
        if (IOP89_ANSWER_NUMBER(told) != IOP89_ANSWER_NUMBER(answer)) return false;
        met[IOP89_ANSWER_NUMBER(answer) == 0 ? 0 : 1]++;
    }
    return met[waits ? 1 : 0] == count;
}

/* ---- Two processors ---- */

/* I/O memory of the other processor. */
static uint8_t other_io[SMALL];

/* So many steps of one of two processors, the other beside it; whether all were done, or all waited. */
static bool step_paired(uint32_t processor, const struct workload *w, uint32_t count)
{
    uint8_t state[2][IOP89_STATE_LENGTH], *ports[2] = {io, io};
    bool waits = strcmp(w->name, "wait") == 0;
    uint32_t met[2] = {0, 0};
    iop89_fresh(state[2 - processor], IOP89_STATE_LENGTH, CONTROL_BLOCK);
    ports[2 - processor] = other_io;
    make_started(w, state[processor - 1]);
    for (uint32_t i = 0; i < count; i++) {
        uint32_t answer = iop89_pair_step(processor, state[0], IOP89_STATE_LENGTH, state[1], IOP89_STATE_LENGTH, sys,
                                          SMALL, ports[0], SMALL, ports[1], SMALL, 0);
        met[IOP89_ANSWER_NUMBER(answer) == 0 ? 0 : 1]++;
    }
    return met[waits ? 1 : 0] == count;
}

/* ---- The program ---- */

/* So many turns of two instructions each, by which a way of counting is checked. */
static void turn(unsigned long turns)
{
#if !defined __x86_64__
#error "the instructions of x86-64 are counted"
#endif
    if (turns == 0) usage();
    __asm__ volatile("1: dec %0\n\tjnz 1b" : "+r"(turns) : : "cc");
}

/* A run must do all its steps, or its count means nothing. */
int main(int count, char **words)
{
    if (count == 3 && strcmp(words[1], "loop") == 0) {
        turn(number_of(words[2]));
        return 0;
    }
    if (count == 4 && (strcmp(words[1], "paired-1") == 0 || strcmp(words[1], "paired-2") == 0))
        return step_paired(words[1][7] == '1' ? 1 : 2, workload_of(words[2]), number_of(words[3])) ? 0 : 1;
    if (count == 4 && strcmp(words[1], "asked") == 0)
        return step_asked(workload_of(words[2]), number_of(words[3])) ? 0 : 1;
    if (count == 4 && (strcmp(words[1], "scheduled") == 0 || strcmp(words[1], "singly") == 0))
        return row_all(words[1], workload_of(words[2]), number_of(words[3])) ? 0 : 1;
    if (count == 4) return made(words[1], sweep_of(words[2]), number_of(words[3])) ? 0 : 1;
    if (count != 5) usage();
    uint32_t limit = number_of(words[4]);
    const struct workload *w = workload_of(words[2]);
    const struct buffers *b = buffers_of(words[3]);
    make_image(w, b->sys_len, b->io_len);
    bool both = strcmp(words[2], "both") == 0;
    uint32_t answer = both ? step_both(strcmp(words[1], "proved") == 0, b->sys_len, b->io_len, limit)
                           : run(words[1], b->sys_len, b->io_len, w->lines, limit);
    if (answer == limit) return 0;
    fprintf(stderr, "bench: number %u after %u steps\n", IOP89_NUMBER(answer), IOP89_STEPS(answer));
    return 1;
}
