/* A host that has nothing but the archives: it starts without the C library, makes one run, and ends by its status. */
#include "iop89.h"

#if !defined __x86_64__ || !defined __linux__
#error "it starts and ends as Linux does on x86-64"
#endif

/* Control block at 0, parameter block at 10h, program at 20h: HLT. */
enum { CONTROL_BLOCK = 0, BUSY = 1, LENGTH = 0x22 };
static uint8_t sys[LENGTH] = {
    [0x00] = 0x03, [0x02] = 0x10, /* start in system space; PB at 10h */
    [0x10] = 0x20,                /* the program at 20h               */
    [0x20] = 0x20, [0x21] = 0x48, /* HLT                              */
};

/* Where the program starts. */
void _start(void);

/* Ends the program. */
static _Noreturn void leave(long status)
{
    __asm__ volatile("syscall" : : "a"(60L), "D"(status) : "rcx", "r11", "memory");
    __builtin_unreachable();
}

/* One step halts the channel; then none can run, and BUSY is 0. */
__attribute__((force_align_arg_pointer)) void _start(void)
{
    iop89_run_answer answer = iop89_run(sys, LENGTH, sys, 0, CONTROL_BLOCK, 1, 0, 10);
    leave(IOP89_NUMBER(answer) == IOP89_NO_CHANNEL && IOP89_STEPS(answer) == 1 && sys[BUSY] == 0 ? 0 : 1);
}
