/* How much stack each call of both archives needs: below the caller's frame the stack is painted, and after the call what is
 * not paint any more is counted. All calls are made in a thread whose stack is a block of our own. */
#include "iop89_service.h"
#include "sweep_case.h"

#include <pthread.h>
#include <stdint.h>
#include <stdio.h>
#include <stdlib.h>
#include <string.h>

/* ---- What the calls are made with ---- */

enum { FILE_LIMIT = 65536, TEXT_LIMIT = 4 * FILE_LIMIT, STEPS = 300, ROWS = STEPS + 2, LENGTH = IOP89_STATE_LENGTH };

static uint8_t sys[IOP89_SYSTEM_LIMIT], io[2][IOP89_IO_LIMIT], state[2][LENGTH];
static uint8_t bytes[FILE_LIMIT], text[TEXT_LIMIT], code[FILE_LIMIT];
static size_t sys_length, io_length, byte_count, text_length, row_count;
static uint32_t processor = 1, channel = 1, lines, limit, places[IOP89_PLACES];
static struct iop89_row rows[ROWS];
static uint64_t report[IOP89_REPORT_LENGTH], answer;

/* The arguments that many calls share: the state and memories of the processor at hand, and those of both. */
#define STATE state[processor - 1], LENGTH
#define MEMORIES sys, sys_length, io[processor - 1], io_length
#define STATES processor, state[0], LENGTH, state[1], LENGTH
#define ALL STATES, sys, sys_length, io[0], io_length, io[1], io_length
#define PLACES places, IOP89_PLACES
#define REPORT report, IOP89_REPORT_LENGTH

/* ---- Every call that a host may link ---- */

static void version(void) { answer = iop89_version(); }
static void service_version(void) { answer = iop89_service_version(); }
static void run(void) { answer = iop89_run(MEMORIES, 0, channel, lines, limit); }
static void board(void) { answer = iop89_board(MEMORIES, channel, lines, limit); }
static void fresh(void) { answer = iop89_fresh(STATE, 0); }
static void reset(void) { answer = iop89_reset(STATE); }
static void power_up(void) { answer = iop89_power_up(STATE, MEMORIES); }
static void attention(void) { answer = iop89_attention(STATE, MEMORIES, channel); }
static void step(void) { answer = iop89_step(STATE, MEMORIES, lines); }
static void sweep(void) { answer = iop89_sweep(STATE, MEMORIES, channel, lines); }
static void schedule(void) { answer = iop89_schedule(STATE, rows, row_count, MEMORIES, REPORT); }
static void pair_reset(void) { answer = iop89_pair_reset(STATES); }
static void pair_power_up(void) { answer = iop89_pair_power_up(ALL); }
static void pair_attention(void) { answer = iop89_pair_attention(ALL, channel); }
static void pair_step(void) { answer = iop89_pair_step(ALL, lines); }
static void pair_sweep(void) { answer = iop89_pair_sweep(ALL, channel, lines); }
static void pair_schedule(void) { answer = iop89_pair_schedule(ALL, rows, row_count, REPORT); }
static void touches_power_up(void) { answer = iop89_touches_power_up(STATE, MEMORIES, PLACES); }
static void touches_attention(void) { answer = iop89_touches_attention(STATE, MEMORIES, channel, PLACES); }
static void touches_step(void) { answer = iop89_touches_step(STATE, MEMORIES, lines, PLACES); }
static void touches_sweep(void) { answer = iop89_touches_sweep(STATE, MEMORIES, channel, lines, PLACES); }
static void load(void) { answer = iop89_load(bytes, byte_count, sys, sys_length); }
static void list(void) { answer = iop89_list(bytes, byte_count, 0, text, sizeof text); }
static void assemble(void) { answer = iop89_assemble(text, text_length, 0, code, sizeof code); }

/* A call, what it is in words, the most stack that it took, and how often it was made. */
struct call {
    const char *what, *name;
    void (*make)(void);
    size_t most;
    unsigned long count;
};

/* A row of the table below: the function above has the call's name, but for what all begin with. */
#define CALL(what, function) {what, "iop89_" #function, function, 0, 0}

/* The calls by their places in the table. */
enum which {
    RUN, BOARD, ATTENTION, STEP, SWEEP, SCHEDULE, VERSION, SERVICE_VERSION, FRESH, RESET, POWER_UP, PAIR_RESET, PAIR_POWER_UP,
    PAIR_ATTENTION, PAIR_STEP, PAIR_SWEEP, PAIR_SCHEDULE, TOUCHES_POWER_UP, TOUCHES_ATTENTION, TOUCHES_STEP, TOUCHES_SWEEP,
    LOAD, LIST, ASSEMBLE, CALLS
};

static struct call calls[CALLS] = {
    [RUN] = CALL("a run", run),
    [BOARD] = CALL("a board's run", board),
    [ATTENTION] = CALL("an attention", attention),
    [STEP] = CALL("a step", step),
    [SWEEP] = CALL("a sweep", sweep),
    [SCHEDULE] = CALL("a schedule", schedule),
    [VERSION] = CALL("the run's version", version),
    [SERVICE_VERSION] = CALL("the service's version", service_version),
    [FRESH] = CALL("a fresh state", fresh),
    [RESET] = CALL("a reset", reset),
    [POWER_UP] = CALL("a power-up", power_up),
    [PAIR_RESET] = CALL("a reset of one of two", pair_reset),
    [PAIR_POWER_UP] = CALL("a power-up of one of two", pair_power_up),
    [PAIR_ATTENTION] = CALL("an attention of one of two", pair_attention),
    [PAIR_STEP] = CALL("a step of one of two", pair_step),
    [PAIR_SWEEP] = CALL("a sweep of one of two", pair_sweep),
    [PAIR_SCHEDULE] = CALL("a schedule of one of two", pair_schedule),
    [TOUCHES_POWER_UP] = CALL("what a power-up touches", touches_power_up),
    [TOUCHES_ATTENTION] = CALL("what an attention touches", touches_attention),
    [TOUCHES_STEP] = CALL("what a step touches", touches_step),
    [TOUCHES_SWEEP] = CALL("what a sweep touches", touches_sweep),
    [LOAD] = CALL("loading", load),
    [LIST] = CALL("listing", list),
    [ASSEMBLE] = CALL("assembling", assemble),
};

/* ---- Measuring ---- */

/* The stack's words, and those that are painted; none directly below the caller's frame, where painting keeps its own. */
enum { WORD = 8, STACK = (1 << 20) / WORD, PAINTED = 8192 / WORD, KEPT = 128 / WORD };
static const uint64_t paint = 0xA5A5A5A5A5A5A5A5u;
static volatile uint64_t *stack;

/* Paints the stack below the caller's frame; answers where this frame begins, two words below that one. */
static __attribute__((noinline)) size_t paint_below(void)
{
    size_t here = ((uintptr_t)__builtin_frame_address(0) - (uintptr_t)stack) / WORD;
    for (size_t i = here - KEPT - PAINTED; i < here - KEPT; i++) stack[i] = paint;
    return here;
}

/* Makes a call, and notes how much stack it took below this frame, its return address among it. */
static __attribute__((noinline)) void measure(enum which which)
{
    struct call *call = &calls[which];
    size_t here = paint_below(), low = here - KEPT - PAINTED;
    call->make();
    if (stack[low] != paint) {
        fprintf(stderr, "stack: %s takes all that is painted\n", call->name);
        exit(1);
    }
    while (low < here - KEPT && stack[low] == paint) low++;
    size_t used = (here + 2 - low) * WORD;
    if (used > call->most) call->most = used;
    call->count++;
}

/* ---- Whole programs ---- */

/* What power-up reads: SYSBUS, the configuration block's address, and in that SOC and a CP of 0. */
static const uint8_t sysbus[] = {0x01, 0x00, 0xE0, 0xFF, 0x00, 0xF0}, configuration[] = {0x01, 0x00, 0x00, 0x00, 0x00, 0x00};

/* Makes system memory the file's bytes, and its top a board's. */
static void lay(void)
{
    memset(sys, 0, sizeof sys);
    memset(io, 0, sizeof io);
    memcpy(sys, bytes, byte_count);
    memcpy(sys + 0xFFFF6, sysbus, sizeof sysbus);
    memcpy(sys + 0xFFFE0, configuration, sizeof configuration);
}

/* The calls by which a machine is driven: its own, and those on one of two processors. */
struct calls_of {
    enum which reset, power_up, attention, step, sweep, schedule;
};

static const struct calls_of single = {RESET, POWER_UP, ATTENTION, STEP, SWEEP, SCHEDULE};
static const struct calls_of paired = {PAIR_RESET, PAIR_POWER_UP, PAIR_ATTENTION, PAIR_STEP, PAIR_SWEEP, PAIR_SCHEDULE};

/* Makes the machine anew; where memory has no top that powers it up it is a fresh one. */
static void begin(const struct calls_of *by)
{
    lay();
    measure(by->reset);
    measure(TOUCHES_POWER_UP);
    measure(by->power_up);
    if (IOP89_ANSWER_NUMBER((uint32_t)answer) != IOP89_DONE) measure(FRESH);
}

/* Drives the program by single calls up to its end; where no line is up, what can be swept is. */
static void drive(const struct calls_of *by)
{
    begin(by);
    for (channel = 2; channel >= 1; channel--) {
        measure(TOUCHES_ATTENTION);
        measure(by->attention);
    }
    channel = 1;
    for (unsigned i = 0; i < STEPS && (i == 0 || IOP89_ANSWER_NUMBER((uint32_t)answer) == IOP89_DONE); i++) {
        if (lines == 0) {
            measure(TOUCHES_SWEEP);
            measure(by->sweep);
        }
        measure(TOUCHES_STEP);
        measure(by->step);
    }
}

/* Drives it by the rows of one schedule. */
static void drive_by_rows(const struct calls_of *by)
{
    begin(by);
    row_count = ROWS;
    for (size_t i = 0; i < ROWS; i++) {
        rows[i].kind = i < 2 ? IOP89_ROW_ATTENTION : IOP89_ROW_STEP;
        rows[i].value = i < 2 ? (uint32_t)i + 1 : lines;
    }
    measure(by->schedule);
}

/* Every way to run the file's bytes, with so much memory, under line numbers in which each line is up and down. */
static void run_program(size_t system_bytes, size_t io_bytes)
{
    sys_length = system_bytes;
    io_length = io_bytes;
    limit = 1000;
    for (lines = 0; lines <= IOP89_LINES_LIMIT; lines += 3) {
        processor = 1;
        for (channel = 1; channel <= 2; channel++) {
            lay();
            measure(RUN);
            lay();
            measure(BOARD);
        }
        drive(&single);
        drive_by_rows(&single);
        processor = 1 + lines % 2;
        drive(&paired);
        drive_by_rows(&paired);
    }
    processor = 1;
    lines = 0;
}

/* ---- Every instruction and every transfer ---- */

/* A start of channel 1 at 20h, its parameter block at 10h. */
static const uint8_t start[] = {0x03, 0, 0x10, 0, 0, 0, 0, 0, 0, 0, 0, 0, 0, 0, 0, 0, 0x20, 0, 0, 0};
enum { PROGRAM = 0x20 };

/* One step of a state by each call that makes it. */
static void step_by_all(const uint8_t *before)
{
    static const enum which makers[] = {TOUCHES_STEP, STEP, PAIR_STEP, SCHEDULE, PAIR_SCHEDULE};
    row_count = 1;
    rows[0].kind = IOP89_ROW_STEP;
    rows[0].value = lines;
    for (size_t i = 0; i < sizeof makers / sizeof makers[0]; i++) {
        memcpy(state[0], before, LENGTH);
        measure(makers[i]);
    }
}

/* An instruction with each first pair of bytes: stepped, run, listed, and assembled again. */
static void try_instructions(void)
{
    uint8_t started[LENGTH];
    memcpy(sys, start, sizeof start);
    (void)iop89_fresh(started, LENGTH, 0);
    (void)iop89_attention(started, LENGTH, sys, sys_length, io[0], io_length, 1);
    limit = 2;
    for (uint32_t pair = 0; pair < 65536; pair++) {
        const uint8_t instruction[] = {(uint8_t)pair, (uint8_t)(pair >> 8), 0x02, 0x02, 0xCD, 0x01};
        memcpy(sys + PROGRAM, instruction, sizeof instruction);
        step_by_all(started);
        memcpy(sys, start, sizeof start);
        memcpy(sys + PROGRAM, instruction, sizeof instruction);
        measure(RUN);
        memcpy(bytes, instruction, byte_count = sizeof instruction);
        measure(LIST);
        text_length = IOP89_LIST_CHARACTERS(answer);
        measure(ASSEMBLE);
    }
}

/* A transfer with each CC, but for the bit of no field and chaining, and with all widths, from an even to an odd address:
 * a sweep, and three steps. */
static void try_transfers(void)
{
    static const struct sweep_case transfer = {"", 0x400, 0x801, 3, false};
    uint8_t before[LENGTH];
    for (uint32_t i = 0; i < 65536; i++) {
        sweep_case_state(&transfer, before);
        iop89_set_cc(before, 1, (i & 0x3F00u) << 2 | (i & 0xFFu));
        iop89_set(before, 1, IOP89_PSW, (SWEEP_CASE_PSW & 0xFCu) | i >> 14);
        memcpy(state[0], before, LENGTH);
        measure(SWEEP);
        lines = IOP89_DRQ1;
        for (unsigned n = 0; n < 3; n++) {
            step_by_all(before);
            memcpy(before, state[0], LENGTH);
        }
        lines = 0;
    }
}

/* Sweeps within a memory and across, of one byte, of some, of all that can be counted, and one that is refused. */
static void try_sweeps(void)
{
    static const struct sweep_case cases[] = {
        {"within", 0x10000, 0x30000, 65535, false}, {"within, all", 0x10001, 0x30000, 0, false},
        {"across", 0x10000, 0, 65535, true},        {"across, all", 0x10001, 0, 0, true},
        {"one", 0x10000, 0x30000, 1, false},        {"some", 0x10003, 0x30001, 77, false},
        {"over itself", 0x10000, 0x10001, 9, false}};
    static const enum which makers[] = {TOUCHES_SWEEP, SWEEP, PAIR_SWEEP};
    for (size_t i = 0; i < sizeof cases / sizeof cases[0]; i++)
        for (size_t m = 0; m < sizeof makers / sizeof makers[0]; m++) {
            sweep_case_state(&cases[i], state[0]);
            measure(makers[m]);
        }
}

/* ---- Texts ---- */

/* Texts with parentheses as deep as may be, and one deeper. */
static const char *const deep[] = {"X: TSL [GA].((((((((X)))))))),((((((((1)))))))),((((((((X))))))))\n",
                                   "X: DB 1-(2-(3-(4-(5-(6-(7-(8-(X-9))))))))\n", "X: DB 1-(((((((((X)))))))))\n"};

/* Assembles each of them. */
static void try_deep_texts(void)
{
    for (size_t i = 0; i < sizeof deep / sizeof deep[0]; i++) {
        memcpy(text, deep[i], text_length = strlen(deep[i]));
        measure(ASSEMBLE);
    }
}

/* Takes the file's bytes as a PROM file, as a text, and as code that is listed and assembled again. */
static void try_texts(void)
{
    sys_length = IOP89_SYSTEM_LIMIT;
    measure(LOAD);
    memcpy(text, bytes, text_length = byte_count);
    measure(ASSEMBLE);
    measure(LIST);
    text_length = IOP89_LIST_CHARACTERS(answer);
    measure(ASSEMBLE);
}

/* ---- The program ---- */

/* Reads a file's first bytes. */
static void read_file(const char *name)
{
    FILE *file = fopen(name, "rb");
    if (file == NULL) {
        perror(name);
        exit(2);
    }
    byte_count = fread(bytes, 1, sizeof bytes, file);
    fclose(file);
}

/* Whether a file is an image, by the end of its name. */
static bool is_image(const char *name)
{
    size_t length = strlen(name);
    return length > 4 && strcmp(name + length - 4, ".bin") == 0;
}

/* Makes all calls. */
static void *measure_all(void *names)
{
    for (char **name = names; *name != NULL; name++) {
        read_file(*name);
        try_texts();
        if (!is_image(*name)) continue;
        run_program(byte_count, 256);
        run_program(IOP89_SYSTEM_LIMIT, IOP89_IO_LIMIT);
    }
    sys_length = IOP89_SYSTEM_LIMIT;
    io_length = IOP89_IO_LIMIT;
    try_instructions();
    try_transfers();
    try_sweeps();
    try_deep_texts();
    measure(VERSION);
    measure(SERVICE_VERSION);
    return NULL;
}

int main(int count, char **words)
{
    pthread_attr_t attributes;
    pthread_t thread;
    void *block;
    (void)count;
    if (posix_memalign(&block, 4096, STACK * WORD) != 0) return 2;
    stack = block;
    pthread_attr_init(&attributes);
    if (pthread_attr_setstack(&attributes, block, STACK * WORD) != 0 ||
        pthread_create(&thread, &attributes, measure_all, words + 1) != 0)
        return 2;
    pthread_join(thread, NULL);
    for (struct call *call = calls; call < calls + CALLS; call++)
        printf("stack of %s: %zu bytes at most, over %lu call%s of %s\n", call->what, call->most, call->count,
               call->count == 1 ? "" : "s", call->name);
    return 0;
}
