// Walk and tabulate in plain C: the same tests in the same sequence, with the same index, and the same way down the order. The walks of a log have no tests.
#ifndef PLAIN_H
#define PLAIN_H

#include <stddef.h>
#include <stdint.h>

// As engine_walk.
uint64_t plain_walk(uint8_t n, const uint8_t *order, const uint16_t *cells, size_t length, uint16_t used, uint16_t node, uint16_t row);

// As engine_walk_under.
uint64_t plain_walk_under(uint8_t n, const uint8_t *order, const uint16_t *cells, size_t length, uint16_t used, uint16_t node, uint16_t pass,
                          uint16_t row);

// As engine_tabulate.
uint64_t plain_tabulate(uint8_t n, const uint8_t *order, const uint16_t *cells, size_t length, uint16_t used, uint16_t node, uint8_t *bytes,
                        size_t rows);

// The walks of a log's snapshots, without a test: their answers, sets and numbers of flags asked, all summed up.
uint64_t plain_log_walks(const uint16_t *cells, uint16_t node, const uint8_t *log, size_t bytes);

// The same with the tally, as engine_replay hands it back.
uint64_t plain_replay(const uint16_t *cells, uint16_t node, const uint8_t *log, size_t bytes, uint16_t *asked);

#endif
