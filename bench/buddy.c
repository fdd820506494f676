// The AND of two random rules of ten flags, by the store's join and by BuDDy. Each call does the whole work: before it, untimed, the engine's cells are put back
// and BuDDy is given the two rules anew, its caches empty and all other nodes free.
#include "drawing.h"
#include "engine.h"
#include "measure.h"

#include <bdd.h>
#include <stdio.h>
#include <stdlib.h>
#include <string.h>

enum { PAIRS = 100, ROUNDS = 50, AND = 1 };

static uint8_t tables[PAIRS][3][ROWS];

// Both rules in a store, and the cells that are lent to join.
static struct store stores[PAIRS];
static uint16_t nodes[PAIRS][2];
static uint16_t lent[CELLS];

static void put_back(int i) { memcpy(lent, stores[i].cells, sizeof lent); }

static uint64_t engine_and(int i)
{
    return engine_join(FLAGS, rising_order, lent, CELLS, stores[i].used, AND, nodes[i][0], nodes[i][1]);
}

static BDD rules[2];

// The rule of a table under the rising order.
static BDD rule(const uint8_t *table, int flag, unsigned row)
{
    if (flag == FLAGS)
        return table[row] ? bddtrue : bddfalse;
    BDD low = bdd_addref(rule(table, flag + 1, row));
    BDD high = bdd_addref(rule(table, flag + 1, row | 1u << flag));
    BDD whole = bdd_ite(bdd_ithvar(flag), high, low);
    bdd_delref(low);
    bdd_delref(high);
    return whole;
}

static void give(int i)
{
    for (int k = 0; k < 2; k++) {
        bdd_delref(rules[k]);
        rules[k] = bdd_addref(rule(tables[i][k], 0, 0));
    }
    bdd_gbc();
}

static uint64_t buddy_and(int i)
{
    (void)i;
    return bdd_apply(rules[0], rules[1], bddop_and);
}

static void must(int holds, const char *what)
{
    if (!holds) {
        printf("%s\n", what);
        exit(1);
    }
}

static void make_pairs(void)
{
    double held = 0, added = 0;
    for (int i = 0; i < PAIRS; i++) {
        random_table(tables[i][0]);
        random_table(tables[i][1]);
        for (int r = 0; r < ROWS; r++)
            tables[i][2][r] = tables[i][0][r] & tables[i][1][r];
        for (int k = 0; k < 2; k++)
            nodes[i][k] = draw(&stores[i], RECORDS, tables[i][k]);
        struct store joined = stores[i];
        int node = draw(&joined, RECORDS, tables[i][2]);
        held += stores[i].used;
        added += joined.used - stores[i].used;

        give(i);
        must(buddy_and(i) == (uint64_t)rule(tables[i][2], 0, 0), "BuDDy's AND is another rule");
        if (engine_join) {
            put_back(i);
            uint64_t answer = engine_and(i);
            must(refusal(answer) == 0 && first_value(answer) == joined.used, "the engine's AND needs other records");
            must(second_value(answer) == (unsigned)node, "the engine's AND is another node");
        }
    }
    printf("\n%d pairs of random rules of ten flags: %.1f records in the store, the AND adds %.1f\n", PAIRS, held / PAIRS, added / PAIRS);
}

int main(void)
{
    static const struct way ways[2] = {{"engine", engine_and, put_back}, {"BuDDy", buddy_and, give}};
    struct took took[2];

    bdd_init(8000, 2000);
    bdd_setvarnum(FLAGS);
    bdd_gbc_hook(0);
    make_pairs();

    // BuDDy alone while crates/exports has no join
    int from = engine_join ? 0 : 1;
    measure(ways + from, 2 - from, PAIRS, ROUNDS, took);
    print_head(ways + from, 2 - from);
    print_line("AND of two rules", took, 2 - from);
    bdd_done();
    return 0;
}
