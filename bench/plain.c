#include "plain.h"

#include "cells.h"

#include <string.h>

enum { MOST_FLAGS = 10, HEADS = 4096 };

// The hash of the engine's record index.
enum { FLAG_FACTOR = 349, HIGH_FACTOR = 633 };

static unsigned hash(unsigned flag, unsigned low, unsigned high) { return (flag * FLAG_FACTOR + low + high * HIGH_FACTOR) % HEADS; }

// The level of each flag, where the order names each once and has 0 from place n on.
static int turn(unsigned n, const uint8_t *order, uint8_t *level)
{
    unsigned seen = 0;
    for (unsigned i = 0; i < n; i++) {
        unsigned flag = order[i];
        if (flag >= n || (seen >> flag & 1))
            return 0;
        seen |= 1u << flag;
        level[flag] = i;
    }
    for (unsigned i = n; i < MOST_FLAGS; i++)
        if (order[i] != 0)
            return 0;
    return 1;
}

// Whether node m is an end node or asks a flag behind the level.
static int asks_later(const uint8_t *level, const uint16_t *cells, unsigned at, unsigned m)
{
    return m < 2 || at < level[cells[WIDTH * (m - 2)]];
}

// Whether one of the records that are entered has this flag and these children.
static int known(const uint16_t *cells, const uint16_t *links, unsigned at, unsigned flag, unsigned low, unsigned high)
{
    while (at != 0) {
        const uint16_t *record = cells + WIDTH * (at - 1);
        if (record[0] == flag && record[1] == low && record[2] == high)
            return 1;
        at = links[at - 1];
    }
    return 0;
}

static int sound(unsigned n, const uint8_t *level, const uint16_t *cells, size_t length, unsigned used)
{
    uint16_t heads[HEADS];
    uint16_t links[RECORDS];
    memset(heads, 0, sizeof heads);
    memset(links, 0, sizeof links);
    if (length / WIDTH < used)
        return 0;
    for (unsigned k = 0; k < used; k++) {
        unsigned flag = cells[WIDTH * k], low = cells[WIDTH * k + 1], high = cells[WIDTH * k + 2];
        if (flag >= n || low == high || low >= k + 2 || high >= k + 2)
            return 0;
        if (!asks_later(level, cells, level[flag], low) || !asks_later(level, cells, level[flag], high))
            return 0;
        unsigned h = hash(flag, low, high);
        if (known(cells, links, heads[h], flag, low, high))
            return 0;
        links[k] = heads[h];
        heads[h] = k + 1;
    }
    for (size_t i = WIDTH * used; i < length; i++)
        if (cells[i] != 0)
            return 0;
    return 1;
}

// The refusal of an order and cells, 0 for none: 1, 4, 5, then 6.
static unsigned unfit(unsigned n, const uint8_t *order, const uint16_t *cells, size_t length, unsigned used)
{
    uint8_t level[MOST_FLAGS];
    if (n > MOST_FLAGS)
        return 1;
    if (!turn(n, order, level))
        return 4;
    if (length % WIDTH != 0 || length > WIDTH * RECORDS)
        return 5;
    if (!sound(n, level, cells, length, used))
        return 6;
    return 0;
}

// The walk from node m: its answer, the set of the flags asked, and their number. The child is taken by its place, as no processor foresees the branches of
// random rows.
static uint64_t descend(const uint16_t *cells, unsigned m, unsigned row)
{
    unsigned asked = 0, count = 0;
    while (m >= 2) {
        const uint16_t *record = cells + WIDTH * (m - 2);
        m = record[1 + (row >> record[0] & 1)];
        asked |= 1u << record[0];
        count++;
    }
    return (uint64_t)m << 8 | (uint64_t)asked << 24 | (uint64_t)count << 40;
}

uint64_t plain_walk(uint8_t n, const uint8_t *order, const uint16_t *cells, size_t length, uint16_t used, uint16_t node, uint16_t row)
{
    return plain_walk_under(n, order, cells, length, used, node, 1, row);
}

uint64_t plain_walk_under(uint8_t n, const uint8_t *order, const uint16_t *cells, size_t length, uint16_t used, uint16_t node, uint16_t pass,
                          uint16_t row)
{
    unsigned refused = unfit(n, order, cells, length, used);
    if (refused != 0)
        return refused;
    if (node > used + 1 || pass > used + 1)
        return 7;
    if (row >= 1u << n)
        return 9;
    if ((descend(cells, pass, row) >> 8 & 1) == 0)
        return 14;
    return descend(cells, node, row);
}

// The answers of node m in the rows that have the row's values of the flags before level `at`, those from it on being 0 in the row.
static void fill(unsigned n, const uint8_t *order, unsigned at, unsigned row, const uint16_t *cells, unsigned m, uint8_t *bytes)
{
    if (at == n) {
        bytes[row] = m;
        return;
    }
    unsigned flag = order[at], low = m, high = m;
    if (m >= 2 && cells[WIDTH * (m - 2)] == flag) {
        low = cells[WIDTH * (m - 2) + 1];
        high = cells[WIDTH * (m - 2) + 2];
    }
    fill(n, order, at + 1, row, cells, low, bytes);
    fill(n, order, at + 1, row | 1u << flag, cells, high, bytes);
}

uint64_t plain_tabulate(uint8_t n, const uint8_t *order, const uint16_t *cells, size_t length, uint16_t used, uint16_t node, uint8_t *bytes,
                        size_t rows)
{
    if (n > MOST_FLAGS)
        return 1;
    if (rows != (size_t)1 << n)
        return 2;
    unsigned refused = unfit(n, order, cells, length, used);
    if (refused != 0)
        return refused;
    if (node > used + 1)
        return 7;
    fill(n, order, 0, 0, cells, node, bytes);
    return 0;
}

static unsigned snapshot(const uint8_t *log, size_t at) { return log[at] | log[at + 1] << 8; }

uint64_t plain_log_walks(const uint16_t *cells, uint16_t node, const uint8_t *log, size_t bytes)
{
    uint64_t sum = 0;
    for (size_t at = 0; at < bytes; at += 2)
        sum += descend(cells, node, snapshot(log, at));
    return sum;
}

uint64_t plain_replay(const uint16_t *cells, uint16_t node, const uint8_t *log, size_t bytes, uint16_t *asked)
{
    unsigned yes = 0, changes = 0, last = 0;
    memset(asked, 0, MOST_FLAGS * sizeof *asked);
    for (size_t at = 0; at < bytes; at += 2) {
        uint64_t walked = descend(cells, node, snapshot(log, at));
        unsigned answer = walked >> 8 & 0xffff, flags = walked >> 24 & 0xffff;
        yes += answer;
        changes += at > 0 && answer != last;
        last = answer;
        for (unsigned flag = 0; flag < MOST_FLAGS; flag++)
            asked[flag] += flags >> flag & 1;
    }
    return (uint64_t)(bytes / 2) << 8 | (uint64_t)yes << 24 | (uint64_t)changes << 40;
}
