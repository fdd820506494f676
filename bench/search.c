#include "search.h"

#include "cells.h"

#include <string.h>

enum { MOST_FLAGS = 10, SET_COUNT = 1 << MOST_FLAGS, MOST_WAYS = SET_COUNT / 2, WAY_HEADS = 1024, HEADS = 4096 };

// What the engine's hashes of ways and of records multiply by.
enum { FLAG_FACTOR = 349, HIGH_FACTOR = 633 };

// What a node weighs in the cost of an order: more than all flags that walks can ask.
enum { NODE_WEIGHT = 16384 };

// More numbers than nodes have, by which the engine's words of records are made.
enum { NUMBERS = 2048 };

// Way i with one flag more, at place p, fixed to 0; fixed to 1 it is 2^p on.
static unsigned widen(unsigned i, unsigned p) { return i + (i >> p << p); }

// The place of flag v among the flags outside a set.
static unsigned place_of(unsigned set, unsigned v) { return v - __builtin_popcount(set & ((1u << v) - 1)); }

// The codes of a set's ways: of each the first way that has the same code in both halves of the source.
static void fold(const uint16_t *source, unsigned p, uint16_t *codes, unsigned ways)
{
    uint16_t heads[WAY_HEADS];
    uint16_t links[MOST_WAYS];
    memset(heads, 0, sizeof heads);
    for (unsigned i = 0; i < ways; i++) {
        const uint16_t *pair = source + widen(i, p);
        unsigned low = pair[0], high = pair[1u << p];
        uint16_t *head = &heads[(low + high * HIGH_FACTOR) % WAY_HEADS];
        unsigned at = *head;
        while (at != 0) {
            const uint16_t *other = source + widen(at - 1, p);
            if (other[0] == low && other[1u << p] == high)
                break;
            at = links[at - 1];
        }
        if (at == 0) {
            links[i] = *head;
            *head = i + 1;
            codes[i] = i;
        } else {
            codes[i] = at - 1;
        }
    }
}

// What asking a flag costs while a set of so many flags is still to be asked: the rows of the ways whose halves differ, and the nodes, which are those of these
// ways that are the first with their code.
static unsigned cost_of(const uint16_t *source, unsigned p, const uint16_t *codes, unsigned ways, unsigned flags)
{
    unsigned nodes = 0, differing = 0;
    for (unsigned i = 0; i < ways; i++) {
        const uint16_t *pair = source + widen(i, p);
        unsigned differs = pair[0] != pair[1u << p];
        differing += differs;
        nodes += codes[i] == i && differs;
    }
    return nodes * NODE_WEIGHT + (differing << flags);
}

// The order with the fewest nodes, of several the one whose walks ask the fewest flags, and of these the first by dictionary comparison: sets by rising number,
// so that every subset of a set is solved before it.
static void search(unsigned n, const uint8_t *table, uint8_t *order, uint16_t *workspace)
{
    uint32_t starts[SET_COUNT], least[SET_COUNT];
    uint8_t first[SET_COUNT];
    unsigned all = (1u << n) - 1;
    for (unsigned r = 0; r <= all; r++)
        workspace[r] = table[r];
    starts[0] = 0;
    least[0] = 0;
    unsigned end = all + 1;
    for (unsigned set = 1; set <= all; set++) {
        unsigned flags = __builtin_popcount(set);
        unsigned ways = 1u << (n - flags);
        uint16_t *codes = workspace + end;
        starts[set] = end;
        end += ways;
        unsigned v = __builtin_ctz(set);
        fold(workspace + starts[set & ~(1u << v)], place_of(set, v), codes, ways);
        least[set] = UINT32_MAX;
        for (; v < n; v++) {
            if (!(set >> v & 1))
                continue;
            unsigned rest = set & ~(1u << v);
            unsigned cost = least[rest] + cost_of(workspace + starts[rest], place_of(set, v), codes, ways, flags);
            if (cost < least[set]) {
                least[set] = cost;
                first[set] = v;
            }
        }
    }
    memset(order, 0, MOST_FLAGS);
    for (unsigned set = all, i = 0; set != 0; i++) {
        order[i] = first[set];
        set &= ~(1u << order[i]);
    }
}

// A diagram that is drawn: its records, of which there is room for so many, and the index beside them.
struct drawing {
    unsigned n, room, used;
    const uint8_t *table, *order;
    uint16_t cells[WIDTH * RECORDS], heads[HEADS], links[RECORDS];
};

// The node of a flag and two children; -1 where there is no room for it.
static int node(struct drawing *of, unsigned flag, unsigned low, unsigned high)
{
    if (low == high)
        return low;
    uint16_t *head = &of->heads[(flag * FLAG_FACTOR + low + high * HIGH_FACTOR) % HEADS];
    for (unsigned at = *head; at != 0; at = of->links[at - 1]) {
        const uint16_t *record = of->cells + WIDTH * (at - 1);
        if (record[0] == flag && record[1] == low && record[2] == high)
            return at + 1;
    }
    if (of->used == of->room)
        return -1;
    uint16_t *record = of->cells + WIDTH * of->used;
    record[0] = flag;
    record[1] = low;
    record[2] = high;
    of->links[of->used] = *head;
    *head = ++of->used;
    return of->used + 1;
}

static int draw(struct drawing *of, unsigned at, unsigned row)
{
    if (at == of->n)
        return of->table[row];
    unsigned flag = of->order[at];
    int low = draw(of, at + 1, row);
    if (low < 0)
        return -1;
    int high = draw(of, at + 1, row | 1u << flag);
    if (high < 0)
        return -1;
    return node(of, flag, low, high);
}

// Lays the records in sequence, and 0 past them: level by level from the last, and in a level by the numbers that the children have by then.
static void lay(const struct drawing *of, uint16_t *cells, size_t length)
{
    uint16_t moved[RECORDS + 2] = {0, 1};
    uint32_t words[RECORDS];
    unsigned next = 2;
    for (unsigned at = of->n; at-- > 0;) {
        unsigned count = 0;
        for (unsigned k = 0; k < of->used; k++) {
            const uint16_t *record = of->cells + WIDTH * k;
            if (record[0] != of->order[at])
                continue;
            uint32_t word = ((uint32_t)moved[record[1]] * NUMBERS + moved[record[2]]) * RECORDS + k;
            unsigned i = count++;
            for (; i > 0 && word < words[i - 1]; i--)
                words[i] = words[i - 1];
            words[i] = word;
        }
        for (unsigned i = 0; i < count; i++)
            moved[words[i] % RECORDS + 2] = next++;
    }
    for (unsigned k = 0; k < of->used; k++) {
        const uint16_t *record = of->cells + WIDTH * k;
        uint16_t *laid = cells + WIDTH * (moved[k + 2] - 2);
        laid[0] = record[0];
        laid[1] = moved[record[1]];
        laid[2] = moved[record[2]];
    }
    memset(cells + WIDTH * of->used, 0, (length - WIDTH * of->used) * sizeof *cells);
}

uint64_t plain_pack(uint8_t n, const uint8_t *table, size_t rows, uint8_t *order, uint16_t *cells, size_t length, uint16_t *workspace, size_t space)
{
    struct drawing of;
    size_t needed = 1;
    memset(order, 0, MOST_FLAGS);
    if (n > MOST_FLAGS)
        return 1;
    if (rows != 1u << n)
        return 2;
    for (size_t r = 0; r < rows; r++)
        if (table[r] > 1)
            return 3;
    if (length % WIDTH != 0 || length > WIDTH * RECORDS)
        return 5;
    for (unsigned i = 0; i < n; i++)
        needed *= 3;
    if (space < needed)
        return 8;

    search(n, table, order, workspace);
    memset(workspace, 0, space * sizeof *workspace);

    of.n = n;
    of.room = length / WIDTH;
    of.used = 0;
    of.table = table;
    of.order = order;
    memset(of.heads, 0, sizeof of.heads);
    int root = draw(&of, 0, 0);
    if (root < 0) {
        memset(order, 0, MOST_FLAGS);
        return 10;
    }
    lay(&of, cells, length);
    return (uint64_t)of.used << 8 | (uint64_t)root << 24;
}
