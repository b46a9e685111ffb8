/* Holds iop89_run to its header at the borders of every argument, NULL for a buffer of no bytes among them. The text is
   C99 and C++ at once, so that the header is compiled as both. */
#include "iop89.h"

#include <stdio.h>
#include <string.h>

#ifdef __cplusplus
#define NO_BUFFER nullptr
#else
#define NO_BUFFER NULL
#endif

/* One byte more than each space may have. */
static uint8_t sys[IOP89_SYSTEM_LIMIT + 1u], io[IOP89_IO_LIMIT + 1u];

/* How many answers were not as the header has them. */
static unsigned wrong;

/* Holds an answer to number and steps. */
static void expect(const char *what, uint32_t answer, unsigned number, unsigned steps)
{
    if (IOP89_NUMBER(answer) == number && IOP89_STEPS(answer) == steps) return;
    printf("%s: number %u (%s) after %u steps, not %u after %u\n", what, IOP89_NUMBER(answer),
           iop89_words(IOP89_NUMBER(answer)), IOP89_STEPS(answer), number, steps);
    wrong++;
}

/* Makes channel 1's control block at 0 with a command, its parameter block at 10h, and a program at 20h of either
   space: ten NOPs and HLT. */
static void prepare(uint8_t command, uint8_t *space)
{
    static const uint8_t halt[2] = {0x20, 0x48};
    memset(sys, 0, sizeof sys);
    memset(io, 0, sizeof io);
    sys[0x00] = command;
    sys[0x02] = 0x10;
    sys[0x10] = 0x20;
    memcpy(space + 0x34, halt, sizeof halt);
}

/* Every argument at its last good value and past it, and the order of the refusals. */
static void test_ranges(void)
{
    const size_t most = IOP89_SYSTEM_LIMIT, most_io = IOP89_IO_LIMIT;
    prepare(3, sys);
    expect("all at their limits", iop89_run(sys, most, io, most_io, 0, 1, 15, IOP89_STEPS_LIMIT), IOP89_NO_CHANNEL, 11);
    prepare(3, sys);
    expect("limit 0", iop89_run(sys, most, io, most_io, 0, 1, 0, 0), IOP89_DONE, 0);
    if (sys[1] != 0xFF) {
        puts("limit 0: the attention was not given");
        wrong++;
    }
    prepare(3, sys);
    expect("limit 10", iop89_run(sys, most, io, most_io, 0, 1, 0, 10), IOP89_DONE, 10);
    expect("cp 1,048,575", iop89_run(sys, 64, io, 64, IOP89_CP_LIMIT, 1, 0, 1), IOP89_BEYOND_MEMORY, 0);
    expect("cp 1,048,576", iop89_run(sys, most, io, most_io, IOP89_CP_LIMIT + 1, 1, 0, 1), IOP89_BAD_POINTER, 0);
    expect("sys_len", iop89_run(sys, most + 1, io, most_io, IOP89_CP_LIMIT + 1, 1, 0, 1), IOP89_BAD_BUFFER, 0);
    expect("io_len", iop89_run(sys, most, io, most_io + 1, 0, 1, 0, 1), IOP89_BAD_BUFFER, 0);
    expect("channel 0", iop89_run(sys, most + 1, io, most_io, 0, 0, 0, 1), IOP89_BAD_ARGUMENT, 0);
    expect("channel 3", iop89_run(sys, most, io, most_io, 0, 3, 0, 1), IOP89_BAD_ARGUMENT, 0);
    expect("lines 16", iop89_run(sys, most, io, most_io, 0, 1, 16, 1), IOP89_BAD_ARGUMENT, 0);
    expect("limit 65,536", iop89_run(sys, most, io, most_io, 0, 1, 0, IOP89_STEPS_LIMIT + 1), IOP89_BAD_ARGUMENT, 0);
}

/* Buffers of no bytes, by NULL: alone, together, where a program is fetched from one, and with bad arguments. */
static void test_empty(void)
{
    expect("both NULL", iop89_run(NO_BUFFER, 0, NO_BUFFER, 0, 0, 1, 0, 10), IOP89_BEYOND_MEMORY, 0);
    expect("both NULL, channel 2", iop89_run(NO_BUFFER, 0, NO_BUFFER, 0, 0, 2, 15, 65535), IOP89_BEYOND_MEMORY, 0);
    expect("both NULL, channel 3", iop89_run(NO_BUFFER, 0, NO_BUFFER, 0, 0, 3, 0, 10), IOP89_BAD_ARGUMENT, 0);
    expect("both NULL, bad cp", iop89_run(NO_BUFFER, 0, NO_BUFFER, 0, 0xFFFFFFFFu, 1, 0, 10), IOP89_BAD_POINTER, 0);
    expect("sys NULL", iop89_run(NO_BUFFER, 0, io, 64, 0, 1, 0, 10), IOP89_BEYOND_MEMORY, 0);
    prepare(3, sys);
    expect("io NULL, program in sys", iop89_run(sys, 64, NO_BUFFER, 0, 0, 1, 0, 100), IOP89_NO_CHANNEL, 11);
    prepare(1, io);
    expect("program in io", iop89_run(sys, 64, io, 64, 0, 1, 0, 100), IOP89_NO_CHANNEL, 11);
    prepare(1, io);
    expect("io NULL, program in io", iop89_run(sys, 64, NO_BUFFER, 0, 0, 1, 0, 100), IOP89_NO_INSTRUCTION, 0);
}

/* Header and archive belong together. */
static void test_version(void)
{
    if (iop89_version() == IOP89_VERSION) return;
    printf("the archive's version is %u, the header's %d\n", iop89_version(), IOP89_VERSION);
    wrong++;
}

int main(void)
{
    test_ranges();
    test_empty();
    test_version();
    printf("iop89 %d.%d: %u answers not as the header has them\n", IOP89_VERSION / 100, IOP89_VERSION % 100, wrong);
    return wrong == 0 ? 0 : 1;
}
