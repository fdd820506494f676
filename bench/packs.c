// Pack of random tables of ten flags, by the engine and by the same search in plain C.
#include "drawing.h"
#include "engine.h"
#include "measure.h"
#include "search.h"

#include <stdio.h>
#include <stdlib.h>
#include <string.h>

// SPACE is 3^10.
enum { TABLES = 20, ROUNDS = 20, SPACE = 59049 };

static uint8_t tables[TABLES][ROWS];

// What each way is lent.
static struct lent {
    uint8_t order[10];
    uint16_t cells[CELLS];
    uint16_t workspace[SPACE];
} by_engine, by_c;

#define PACK(name, call, lent)                                                                                            \
    static uint64_t name(int i)                                                                                           \
    {                                                                                                                     \
        return call(FLAGS, tables[i], ROWS, lent.order, lent.cells, CELLS, lent.workspace, SPACE);                        \
    }
PACK(engine, engine_pack, by_engine)
PACK(plain, plain_pack, by_c)

static void must(int holds, const char *what)
{
    if (!holds) {
        printf("%s\n", what);
        exit(1);
    }
}

// A table that fewer nodes draw under some orders than under others: a random rule of random sums.
static void uneven_table(uint8_t table[ROWS])
{
    unsigned masks[4];
    uint8_t of[16];
    for (int k = 0; k < 4; k++)
        masks[k] = random_below(ROWS);
    for (int k = 0; k < 16; k++)
        of[k] = random_below(2);
    for (unsigned r = 0; r < ROWS; r++) {
        unsigned k = 0;
        for (int m = 0; m < 4; m++)
            k |= ((r & masks[m]) == masks[m]) << m;
        table[r] = of[k];
    }
}

static void compare(int i)
{
    uint64_t answer = engine(i);
    must(refusal(answer) == 0, "a table is refused");
    must(answer == plain(i), "the packs differ in count or root");
    must(memcmp(by_engine.order, by_c.order, 10) == 0, "the packs differ in their orders");
    must(memcmp(by_engine.cells, by_c.cells, sizeof by_c.cells) == 0, "the packs differ in their diagrams");
    must(memcmp(by_engine.workspace, by_c.workspace, sizeof by_c.workspace) == 0, "the packs leave other workspaces");
}

int main(void)
{
    static const struct way ways[2] = {{"engine", engine, 0}, {"plain C", plain, 0}};
    struct took took[2];
    double sum = 0;

    // of both kinds, with what an earlier caller left in the workspace
    for (int i = 0; i < TABLES; i++) {
        uneven_table(tables[i]);
        for (int k = 0; k < SPACE; k++)
            by_engine.workspace[k] = by_c.workspace[k] = random_below(65536);
        compare(i);
    }
    for (int i = 0; i < TABLES; i++) {
        random_table(tables[i]);
        compare(i);
        sum += first_value(engine(i));
    }
    printf("\n%d packs answer alike; %d random tables of ten flags pack to %.1f records each\n", 2 * TABLES, TABLES, sum / TABLES);

    measure(ways, 2, TABLES, ROUNDS, took);
    print_head(ways, 2);
    print_line("pack of a table", took, 2);
    return 0;
}
