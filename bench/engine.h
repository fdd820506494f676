// The calls of crates/exports as C sees them. A slice is a pointer and the number of its elements, an order its ten bytes.
#ifndef ENGINE_H
#define ENGINE_H

#include <stddef.h>
#include <stdint.h>

uint64_t engine_build(uint8_t n, const uint8_t *table, size_t rows, const uint8_t *order, uint16_t *cells, size_t length);
uint64_t engine_check(uint8_t n, const uint8_t *order, const uint16_t *cells, size_t length, uint16_t used, uint16_t root);
// Walk: the answer, the set of the flags asked, and their number.
uint64_t engine_walk(uint8_t n, const uint8_t *order, const uint16_t *cells, size_t length, uint16_t used, uint16_t node, uint16_t row);
// The same under a pass rule's node.
uint64_t engine_walk_under(uint8_t n, const uint8_t *order, const uint16_t *cells, size_t length, uint16_t used, uint16_t node, uint16_t pass,
                           uint16_t row);
uint64_t engine_tabulate(uint8_t n, const uint8_t *order, const uint16_t *cells, size_t length, uint16_t used, uint16_t node, uint8_t *bytes,
                         size_t rows);
// Provoke: the row.
uint64_t engine_provoke(uint8_t n, const uint8_t *order, const uint16_t *cells, size_t length, uint16_t used, uint16_t node, uint16_t wanted,
                        uint16_t pass, uint16_t fixed, uint16_t ones);

// The store's join: used records, then the node. It is weak while crates/exports has none: the programs that measure it test whether it is there.
uint64_t engine_join(uint8_t n, const uint8_t *order, uint16_t *cells, size_t length, uint16_t used, uint8_t code, uint16_t first,
                     uint16_t second) __attribute__((weak));

// Pack: the order goes into ten lent bytes, which stay as they are where it is refused.
uint64_t engine_pack(uint8_t n, const uint8_t *table, size_t rows, uint8_t *order, uint16_t *cells, size_t length, uint16_t *workspace,
                     size_t space);

// Read: n, the record count and the root; the order as pack's.
uint64_t engine_read(const uint8_t *file, size_t bytes, uint8_t *order, uint16_t *cells, size_t length);

// Replay without a pass rule: snapshots played, yes answers and changes; how often each flag was asked goes into ten lent cells.
uint64_t engine_replay(uint8_t n, const uint8_t *order, const uint16_t *cells, size_t length, uint16_t used, uint16_t node, const uint8_t *log,
                       size_t bytes, uint16_t *asked);

// The parts of an answer.
static inline unsigned refusal(uint64_t answer) { return answer & 0xff; }
static inline unsigned first_value(uint64_t answer) { return answer >> 8 & 0xffff; }
static inline unsigned second_value(uint64_t answer) { return answer >> 24 & 0xffff; }

#endif
