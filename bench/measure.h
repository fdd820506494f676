// Times of calls on a machine that may do other work too. Every call is timed by itself. The ways that are compared take turns, round after round, each over
// all the inputs. Of each input's times the least and the median are taken, and of these the mean over the inputs; what an empty call takes is taken off.
#ifndef MEASURE_H
#define MEASURE_H

#include <stdint.h>

// One way to do a thing: its name, its call on an input, and what is put in place before each call, untimed (0 for nothing).
struct way {
    const char *name;
    uint64_t (*call)(int input);
    void (*prepare)(int input);
};

// In nanoseconds.
struct took {
    double least;
    double median;
};

void measure(const struct way *ways, int count, int inputs, int rounds, struct took *took);

// The head of a table, and a line of it: the least and the median of each way, in microseconds, and the first way's least over the second's.
void print_head(const struct way *ways, int count);
void print_line(const char *what, const struct took *took, int count);

#endif
