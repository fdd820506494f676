#include "measure.h"

#include <stdio.h>
#include <stdlib.h>
#include <time.h>

// Answers go here, so that no call is left out.
static volatile uint64_t sink;

static double now(void)
{
    struct timespec t;
    clock_gettime(CLOCK_MONOTONIC, &t);
    return t.tv_sec * 1e9 + t.tv_nsec;
}

static uint64_t nothing(int input) { return (uint64_t)input; }

static double timed(uint64_t (*call)(int), int input)
{
    double start = now();
    sink += call(input);
    return now() - start;
}

static int rising(const void *a, const void *b)
{
    double x = *(const double *)a, y = *(const double *)b;
    return (x > y) - (x < y);
}

// What a timed call takes that does nothing.
static double empty(void)
{
    uint64_t (*volatile call)(int) = nothing;
    double least = 1e9;
    for (int i = 0; i < 10000; i++) {
        double t = timed(call, i);
        if (t < least)
            least = t;
    }
    return least;
}

void measure(const struct way *ways, int count, int inputs, int rounds, struct took *took)
{
    double *times = malloc(sizeof(double) * count * inputs * rounds);
    if (times == 0)
        abort();
    for (int r = 0; r < rounds; r++)
        for (int w = 0; w < count; w++)
            for (int i = 0; i < inputs; i++) {
                if (ways[w].prepare)
                    ways[w].prepare(i);
                times[((size_t)w * inputs + i) * rounds + r] = timed(ways[w].call, i);
            }
    double off = empty();
    for (int w = 0; w < count; w++) {
        took[w].least = took[w].median = 0;
        for (int i = 0; i < inputs; i++) {
            double *of = times + ((size_t)w * inputs + i) * rounds;
            qsort(of, rounds, sizeof *of, rising);
            took[w].least += (of[0] - off) / inputs;
            took[w].median += (of[rounds / 2] - off) / inputs;
        }
    }
    free(times);
}

void print_head(const struct way *ways, int count)
{
    printf("\n%-46s", "microseconds a call");
    for (int w = 0; w < count; w++)
        printf("%12s    median", ways[w].name);
    if (count == 2)
        printf("   ratio");
    printf("\n");
}

void print_line(const char *what, const struct took *took, int count)
{
    printf("%-46s", what);
    for (int w = 0; w < count; w++)
        printf("%12.3f%10.3f", took[w].least / 1000, took[w].median / 1000);
    if (count == 2)
        printf("%8.2f", took[0].least / took[1].least);
    printf("\n");
    fflush(stdout);
}
