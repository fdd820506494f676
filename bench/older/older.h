// The calls of the older commit that bench/run builds beside this one (lib.txt, diagram.txt, values.txt), with old_ before the name. They stay as that commit has
// them, whatever becomes of engine.h.
#ifndef OLDER_H
#define OLDER_H

#include <stddef.h>
#include <stdint.h>

uint64_t old_engine_build(uint8_t n, const uint8_t *table, size_t rows, const uint8_t *order, uint16_t *cells, size_t length);
uint64_t old_engine_check(uint8_t n, const uint8_t *order, const uint16_t *cells, size_t length, uint16_t used, uint16_t root);
uint64_t old_engine_walk(uint8_t n, const uint8_t *order, const uint16_t *cells, size_t length, uint16_t used, uint16_t node, uint16_t row);
uint64_t old_engine_tabulate(uint8_t n, const uint8_t *order, const uint16_t *cells, size_t length, uint16_t used, uint16_t node, uint8_t *bytes,
                             size_t rows);

#endif
