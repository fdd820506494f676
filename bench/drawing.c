#include "drawing.h"

#include <string.h>

const uint8_t rising_order[10] = {0, 1, 2, 3, 4, 5, 6, 7, 8, 9};

unsigned random_below(unsigned limit)
{
    static uint64_t state = 88172645463325252;
    state ^= state << 13;
    state ^= state >> 7;
    state ^= state << 17;
    return (state >> 32) % limit;
}

void random_table(uint8_t table[ROWS])
{
    for (int r = 0; r < ROWS; r++)
        table[r] = random_below(2);
}

// The node of a flag and two children, found among the records by looking at each.
static int node(struct store *store, unsigned room, unsigned flag, unsigned low, unsigned high)
{
    if (low == high)
        return low;
    for (unsigned k = 0; k < store->used; k++) {
        const uint16_t *record = store->cells + WIDTH * k;
        if (record[0] == flag && record[1] == low && record[2] == high)
            return k + 2;
    }
    if (store->used == room)
        return -1;
    uint16_t *record = store->cells + WIDTH * store->used++;
    record[0] = flag;
    record[1] = low;
    record[2] = high;
    return store->used + 1;
}

static int draw_from(struct store *store, unsigned room, const uint8_t table[ROWS], unsigned flag, unsigned row)
{
    if (flag == FLAGS)
        return table[row];
    int low = draw_from(store, room, table, flag + 1, row);
    if (low < 0)
        return -1;
    int high = draw_from(store, room, table, flag + 1, row | 1u << flag);
    if (high < 0)
        return -1;
    return node(store, room, flag, low, high);
}

int draw(struct store *store, unsigned room, const uint8_t table[ROWS]) { return draw_from(store, room, table, 0, 0); }

void random_store(struct store *store, unsigned records)
{
    uint8_t table[ROWS];
    memset(store, 0, sizeof *store);
    while (store->used < records) {
        random_table(table);
        draw(store, records, table);
    }
}
