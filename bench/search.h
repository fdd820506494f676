// Pack in plain C: the same recursion over all sets in the same workspace, then the diagram by a unique table, each with the same index, in the one sequence.
#ifndef SEARCH_H
#define SEARCH_H

#include <stddef.h>
#include <stdint.h>

// As engine_pack, but that a refusal leaves the order 0.
uint64_t plain_pack(uint8_t n, const uint8_t *table, size_t rows, uint8_t *order, uint16_t *cells, size_t length, uint16_t *workspace, size_t space);

#endif
