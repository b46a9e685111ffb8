/* Times sweeps by the proved library against memcpy of the same bytes, on an x86-64 machine alone. */
#include "sweep_case.h"

#include <cpuid.h>
#include <stdio.h>
#include <stdlib.h>
#include <string.h>
#include <time.h>

/* How many rounds there are, an odd number, and how often each side moves the bytes in one. */
enum { ROUNDS = 9, TURNS = 400 };

/* The most that a sweep may take, in times of memcpy. */
#define BAR 1.6

static const struct sweep_case sweeps[] = {
    {"within", 0x10000, 0x30000, 65535, false},
    {"within", 0x10000, 0x30000, 65536, false},
    {"across", 0x10000, 0, 65535, true},
    {"across", 0x10000, 0, 65536, true},
};

/* The two lent buffers. */
static uint8_t sys[IOP89_SYSTEM_LIMIT], io[IOP89_IO_LIMIT];

/* The nanoseconds of a clock that only goes forward. */
static double now(void)
{
    struct timespec t;
    if (clock_gettime(CLOCK_MONOTONIC, &t) != 0) {
        perror("bench-sweep: the clock");
        exit(2);
    }
    return (double)t.tv_sec * 1e9 + (double)t.tv_nsec;
}

/* The nanoseconds of one sweep, the copy of the state that it begins with among them. */
static double time_sweep(const struct sweep_case *c)
{
    uint8_t start[IOP89_STATE_LENGTH], state[IOP89_STATE_LENGTH];
    sweep_case_state(c, start);
    double from = now();
    for (unsigned i = 0; i < TURNS; i++) {
        memcpy(state, start, sizeof state);
        uint64_t answer = iop89_sweep(state, sizeof state, sys, sizeof sys, io, sizeof io, 1, 0);
        if (IOP89_SWEEP_NUMBER(answer) != 0 || IOP89_SWEEP_COUNT(answer) != 2 * c->bytes) {
            fprintf(stderr, "bench-sweep: number %u\n", IOP89_SWEEP_NUMBER(answer));
            exit(1);
        }
    }
    return (now() - from) / TURNS;
}

/* The nanoseconds of one memcpy of the same bytes; the empty line of assembly keeps each from being left out. */
static double time_memcpy(const struct sweep_case *c)
{
    uint8_t *target = (c->across ? io : sys) + c->target;
    double from = now();
    for (unsigned i = 0; i < TURNS; i++) {
        memcpy(target, sys + c->source, c->bytes);
        __asm__ volatile("" : : "r"(target) : "memory");
    }
    return (now() - from) / TURNS;
}

/* Which of two numbers is larger, for qsort. */
static int order(const void *a, const void *b)
{
    double x = *(const double *)a, y = *(const double *)b;
    return (x > y) - (x < y);
}

/* The median of the rounds. */
static double median(double *values)
{
    qsort(values, ROUNDS, sizeof values[0], order);
    return values[ROUNDS / 2];
}

/* Times a case in alternating rounds, one of each side that is not counted before them, and prints its row; answers
 * the median of the rounds' ratios. */
static double time_case(const struct sweep_case *c)
{
    double sweep[ROUNDS], plain[ROUNDS], ratio[ROUNDS];
    (void)time_sweep(c), (void)time_memcpy(c);
    for (unsigned i = 0; i < ROUNDS; i++) {
        sweep[i] = time_sweep(c);
        plain[i] = time_memcpy(c);
        ratio[i] = sweep[i] / plain[i];
    }
    double middle = median(ratio);
    printf("| %s | %u | %.0f | %.0f | %.2f | %.2f to %.2f |\n", c->name, (unsigned)c->bytes, median(sweep),
           median(plain), middle, ratio[0], ratio[ROUNDS - 1]);
    return middle;
}

/* Whether the x86-64 at hand is one that qemu makes up, by the name that it gives as a hypervisor. */
static bool made_up(void)
{
    unsigned most, b, c, d;
    char name[12];
    __cpuid(0x40000000, most, b, c, d);
    memcpy(name, &b, 4), memcpy(name + 4, &c, 4), memcpy(name + 8, &d, 4);
    return memcmp(name, "TCGTCGTCGTCG", sizeof name) == 0;
}

int main(void)
{
    bool met = true;
    if (made_up()) {
        fputs("bench-sweep: an emulator makes up this x86-64 machine, and its times say nothing\n", stderr);
        return 2;
    }
    for (size_t i = 0; i < sizeof sys; i++) sys[i] = (uint8_t)(i * 2654435761u >> 11);
    puts("| sweep | bytes | sweep, ns | memcpy, ns | sweep / memcpy | of nine rounds |\n|---|---|---|---|---|---|");
    for (size_t i = 0; i < sizeof sweeps / sizeof sweeps[0]; i++)
        if (time_case(&sweeps[i]) > BAR) met = false;
    printf("the bar of %.1f is %s\n", BAR, met ? "met" : "not met");
    return met ? 0 : 1;
}
