// Inputs for the measurements: random tables of ten flags, and sound cells of random rules, drawn in C under the rising order.
#ifndef DRAWING_H
#define DRAWING_H

#include "cells.h"

#include <stdint.h>

enum { FLAGS = 10, ROWS = 1024 };

// The rising order.
extern const uint8_t rising_order[10];

// Sound cells: each cell behind the used records is 0.
struct store {
    uint16_t cells[CELLS];
    uint16_t used;
};

// A random number below `limit`; every run has the same sequence.
unsigned random_below(unsigned limit);

void random_table(uint8_t table[ROWS]);

// The node of a table, with what it needs added to at most `room` records; -1 where they do not hold it.
int draw(struct store *store, unsigned room, const uint8_t table[ROWS]);

// Cells with exactly so many records, those of random rules one after the other: most of the last rule may be missing.
void random_store(struct store *store, unsigned records);

#endif
