/* What the benchmarks share, and the ten that bench.c runs one after the other. */
#ifndef BENCH_H
#define BENCH_H

#include <stdio.h>
#include <stdlib.h>
#include <time.h>

void bench_lists(void);
void bench_wear(void);
void bench_stripes(void);
void bench_partials(void);
void bench_trays(void);
void bench_updates(void);
void bench_turns(void);
void bench_cards(void);
void bench_likeness(void);
void bench_records(void);

/* ends the program */
static inline void stop(const char *what)
{
    fprintf(stderr, "bench: %s\n", what);
    exit(1);
}

/* seconds */
static inline double now(void)
{
    struct timespec t;
    clock_gettime(CLOCK_MONOTONIC, &t);
    return t.tv_sec + t.tv_nsec / 1e9;
}

static inline double least_of(double a, double b)
{
    return a < b ? a : b;
}

#endif
