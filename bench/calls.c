// The calls on single diagrams: those of the older commit beside this one's, walk and tabulate beside the same in plain C, read of records in sequence beside
// others, provoke beside tabulate, and replay beside walks in plain C.
#include "drawing.h"
#include "engine.h"
#include "older/older.h"
#include "measure.h"
#include "plain.h"

#include <stdio.h>
#include <stdlib.h>
#include <string.h>

// So many stores are walked in turn that a processor can't learn their branches by heart, as it does those of one store that is walked again and again.
enum { STORES = 256, TABLES = 200 };

// What the calls are given: the first `kinds` of the stores, of which `length` cells are lent, and diagrams of tables.
static struct store stores[STORES];
static uint16_t nodes[STORES], passes[STORES], rows[STORES];
static int kinds;
static size_t length;
static uint8_t tables[TABLES][ROWS];
static struct store diagrams[TABLES];
static uint16_t roots[TABLES];
static uint16_t lent[CELLS];
static uint8_t bytes[ROWS];

#define WALK(name, call)                                                                                                  \
    static uint64_t name(int input)                                                                                       \
    {                                                                                                                     \
        int i = input % kinds;                                                                                            \
        return call(FLAGS, rising_order, stores[i].cells, length, stores[i].used, nodes[i], rows[i]);                     \
    }
WALK(new_walk, engine_walk)
WALK(old_walk, old_engine_walk)
WALK(c_walk, plain_walk)

#define WALK_UNDER(name, call)                                                                                            \
    static uint64_t name(int input)                                                                                       \
    {                                                                                                                     \
        int i = input % kinds;                                                                                            \
        return call(FLAGS, rising_order, stores[i].cells, length, stores[i].used, nodes[i], passes[i], rows[i]);          \
    }
WALK_UNDER(new_walk_under, engine_walk_under)
WALK_UNDER(c_walk_under, plain_walk_under)

// The same refusal and the same first value: the older walk hands back no more.
static int alike(uint64_t one, uint64_t other) { return refusal(one) == refusal(other) && first_value(one) == first_value(other); }

#define CHECK(name, call)                                                                                                 \
    static uint64_t name(int i)                                                                                           \
    {                                                                                                                     \
        return call(FLAGS, rising_order, diagrams[i].cells, WIDTH * diagrams[i].used, diagrams[i].used, roots[i]);        \
    }
CHECK(new_check, engine_check)
CHECK(old_check, old_engine_check)

#define TABULATE(name, call)                                                                                              \
    static uint64_t name(int i)                                                                                           \
    {                                                                                                                     \
        struct store *of = &diagrams[i];                                                                                  \
        return call(FLAGS, rising_order, of->cells, WIDTH * of->used, of->used, roots[i], bytes, ROWS);                   \
    }
TABULATE(new_tabulate, engine_tabulate)
TABULATE(old_tabulate, old_engine_tabulate)
TABULATE(c_tabulate, plain_tabulate)

#define BUILD(name, call)                                                                                                 \
    static uint64_t name(int i) { return call(FLAGS, tables[i], ROWS, rising_order, lent, CELLS); }
BUILD(new_build, engine_build)
BUILD(old_build, old_engine_build)

// The files of those diagrams, with their records in sequence and as they are drawn in C.
enum { HEAD = 2 + FLAGS + 2, RECORD = 5 };
static uint8_t settled[TABLES][HEAD + RECORD * RECORDS], drawn[TABLES][HEAD + RECORD * RECORDS];

#define READ(name, files)                                                                                                 \
    static uint64_t name(int i)                                                                                           \
    {                                                                                                                     \
        uint8_t order[10];                                                                                                \
        return engine_read(files[i], HEAD + RECORD * diagrams[i].used, order, lent, CELLS);                               \
    }
READ(read_settled, settled)
READ(read_drawn, drawn)

// Random rules of ten flags, each with another as its pass rule, in one store: the rule's lowest yes row under it, and under the rule's opposite, where there
// is none.
static struct store pairs[TABLES];
static uint16_t rules[TABLES], others[TABLES], opposites[TABLES];

static uint64_t provoke(int i, uint16_t wanted, uint16_t pass, uint16_t fixed, uint16_t ones)
{
    return engine_provoke(FLAGS, rising_order, pairs[i].cells, CELLS, pairs[i].used, rules[i], wanted, pass, fixed, ones);
}

static uint64_t provoke_none(int i) { return provoke(i, 1, opposites[i], 0, 0); }

static uint64_t provoke_lowest(int i) { return provoke(i, 1, others[i], 0, 0); }

static uint64_t tabulate_pair(int i)
{
    return engine_tabulate(FLAGS, rising_order, pairs[i].cells, CELLS, pairs[i].used, rules[i], bytes, ROWS);
}

// A log as long as one may be, of random rows, and how often each flag was asked.
enum { SNAPSHOTS = 32767, LOGS = 20 };
static uint8_t log_bytes[2 * SNAPSHOTS];
static uint16_t asked[10];

static uint64_t engine_log(int i)
{
    struct store *of = &diagrams[i];
    return engine_replay(FLAGS, rising_order, of->cells, WIDTH * of->used, of->used, roots[i], log_bytes, sizeof log_bytes, asked);
}

static uint64_t c_log_walks(int i) { return plain_log_walks(diagrams[i].cells, roots[i], log_bytes, sizeof log_bytes); }

static uint64_t c_log(int i) { return plain_replay(diagrams[i].cells, roots[i], log_bytes, sizeof log_bytes, asked); }

static void must(int holds, const char *what)
{
    if (!holds) {
        printf("%s\n", what);
        exit(1);
    }
}

// Stores of so many records, in cells that hold these and no more, or all that may be lent.
static void make_stores(unsigned records, int whole)
{
    kinds = STORES;
    length = whole ? CELLS : WIDTH * records;
    for (int i = 0; i < STORES; i++) {
        random_store(&stores[i], records);
        nodes[i] = records + 1 - random_below(records / 4);
        rows[i] = random_below(ROWS);
        must(refusal(new_walk(i)) == 0, "a store of random rules is refused");
        // a pass rule that allows the row, with the walk's answer as without it
        do
            passes[i] = random_below(records + 2);
        while (refusal(new_walk_under(i)) == 14);
        must(new_walk_under(i) == new_walk(i), "a pass rule changes an answer");
    }
}

static void must_tabulate(uint64_t (*call)(int), int i)
{
    memset(bytes, 2, ROWS);
    must(call(i) == 0 && memcmp(bytes, tables[i], ROWS) == 0, "a diagram tabulates to another table");
}

// Random tables, and their diagrams by the engine.
static void make_diagrams(void)
{
    double sum = 0;
    for (int i = 0; i < TABLES; i++) {
        random_table(tables[i]);
        uint64_t answer = new_build(i);
        memcpy(diagrams[i].cells, lent, sizeof lent);
        diagrams[i].used = first_value(answer);
        roots[i] = second_value(answer);
        must(refusal(answer) == 0 && answer == old_build(i), "the builds differ");
        must(new_check(i) == (uint64_t)diagrams[i].used << 8 && new_check(i) == old_check(i), "the checks differ");
        must_tabulate(new_tabulate, i);
        must_tabulate(c_tabulate, i);
        sum += diagrams[i].used;
    }
    printf("%d random tables of ten flags have %.1f records each\n", TABLES, sum / TABLES);
}

// A rule file with n, the rising order and records.
static void write_file(uint8_t *file, const struct store *of)
{
    *file++ = 11;
    *file++ = FLAGS;
    for (int i = 0; i < FLAGS; i++)
        *file++ = rising_order[i];
    *file++ = of->used % 256;
    *file++ = of->used / 256;
    for (const uint16_t *record = of->cells; record < of->cells + WIDTH * of->used; record += WIDTH) {
        *file++ = record[0];
        for (int child = 1; child < WIDTH; child++) {
            *file++ = record[child] % 256;
            *file++ = record[child] / 256;
        }
    }
}

// Both files of a table are read to the cells that build left.
static void make_files(void)
{
    for (int i = 0; i < TABLES; i++) {
        struct store other = {.used = 0};
        draw(&other, RECORDS, tables[i]);
        write_file(settled[i], &diagrams[i]);
        write_file(drawn[i], &other);
        must(refusal(read_settled(i)) == 0 && memcmp(lent, diagrams[i].cells, sizeof lent) == 0, "a file is read to other cells");
        memset(lent, 7, sizeof lent);
        must(refusal(read_drawn(i)) == 0 && memcmp(lent, diagrams[i].cells, sizeof lent) == 0, "a file in another sequence is read to other cells");
    }
}

// The node of two rules joined in a pair's store, which has room for it.
static uint16_t joined(int i, uint8_t code, uint16_t first, uint16_t second)
{
    uint64_t answer = engine_join(FLAGS, rising_order, pairs[i].cells, CELLS, pairs[i].used, code, first, second);
    must(refusal(answer) == 0, "a join is refused");
    pairs[i].used = first_value(answer);
    return second_value(answer);
}

// The lowest row by a scan of both tables, or 15.
static uint64_t scanned(const uint8_t *rule, unsigned wanted, const uint8_t *pass, unsigned fixed, unsigned ones)
{
    for (unsigned row = 0; row < ROWS; row++)
        if (pass[row] && rule[row] == wanted && (row & fixed) == ones)
            return row << 8;
    return 15;
}

// Provokes of each pair answer as a scan does, with no flag fixed and with random ones; each finds no row under the rule's opposite.
static void make_pairs(void)
{
    int found = 0, tried = 0;
    for (int i = 0; i < TABLES; i++) {
        const uint8_t *rule = tables[i], *pass = tables[(i + 1) % TABLES];
        pairs[i].used = 0;
        rules[i] = draw(&pairs[i], RECORDS, rule);
        others[i] = draw(&pairs[i], RECORDS, pass);
        opposites[i] = joined(i, 12, rules[i], 0);
        must(refusal(provoke_none(i)) == 15, "a row is found that the pass rule forbids");
        for (int t = 0; t < 100; t++) {
            unsigned fixed = t ? random_below(ROWS) | random_below(ROWS) : 0, ones = fixed & random_below(ROWS), wanted = t % 2;
            uint64_t answer = provoke(i, wanted, others[i], fixed, ones);
            must(answer == scanned(rule, wanted, pass, fixed, ones), "a provoke differs from the scan");
            tried++;
            found += refusal(answer) == 0;
        }
    }
    printf("%d provokes answer as a scan of the tables, %d find a row\n", tried, found);
}

// A random log, which tallies in plain C as in the engine, through every diagram.
static void make_log(void)
{
    for (int i = 0; i < SNAPSHOTS; i++) {
        unsigned row = random_below(ROWS);
        log_bytes[2 * i] = row % 256;
        log_bytes[2 * i + 1] = row / 256;
    }
    for (int i = 0; i < TABLES; i++) {
        uint16_t counts[10];
        memset(asked, 7, sizeof asked);
        uint64_t answer = engine_log(i);
        memcpy(counts, asked, sizeof counts);
        must(refusal(answer) == 0 && answer == c_log(i) && memcmp(counts, asked, sizeof counts) == 0, "the tallies differ");
    }
    printf("a log of %d snapshots tallies alike through %d diagrams\n", SNAPSHOTS, TABLES);
}

// All three walks answer alike, of stores with one cell changed; this one's and that in plain C with the same flags asked, and alike under pass rules.
static void compare(void)
{
    static const unsigned sizes[] = {4, 64, 256, 1024};
    int tried = 0, refused = 0;
    for (int s = 0; s < 4; s++) {
        make_stores(sizes[s], s % 2);
        for (int i = 0; i < STORES; i++)
            for (int t = 0; t < 20; t++) {
                uint16_t *cell = &stores[i].cells[random_below(length)];
                uint16_t kept = *cell;
                *cell = t % 2 ? random_below(stores[i].used + 2) : random_below(FLAGS + 1);
                uint64_t answer = new_walk(i);
                must(alike(answer, old_walk(i)) && answer == c_walk(i), "the walks differ");
                uint16_t pass = passes[i], row = rows[i];
                passes[i] = random_below(stores[i].used + 3);
                rows[i] = random_below(16) ? row : ROWS;
                must(new_walk_under(i) == c_walk_under(i), "the walks under a pass rule differ");
                passes[i] = pass;
                rows[i] = row;
                *cell = kept;
                tried++;
                refused += refusal(answer) != 0;
            }
    }
    printf("%d walks of stores with a changed cell answer alike, %d are refused\n", tried, refused);
}

static const struct way walks[2] = {{"old", old_walk, 0}, {"new", new_walk, 0}};
static const struct way checks[2] = {{"old", old_check, 0}, {"new", new_check, 0}};
static const struct way tabulates[2] = {{"old", old_tabulate, 0}, {"new", new_tabulate, 0}};
static const struct way builds[2] = {{"old", old_build, 0}, {"new", new_build, 0}};
static const struct way reads[2] = {{"in sequence", read_settled, 0}, {"as drawn", read_drawn, 0}};
static const struct way provokes[3] = {{"tabulate", tabulate_pair, 0}, {"no row", provoke_none, 0}, {"a row", provoke_lowest, 0}};
static const struct way plain_walks[2] = {{"engine", new_walk, 0}, {"plain C", c_walk, 0}};
static const struct way passed_walks[2] = {{"engine", new_walk_under, 0}, {"plain C", c_walk_under, 0}};
static const struct way plain_tabulates[2] = {{"engine", new_tabulate, 0}, {"plain C", c_tabulate, 0}};
static const struct way replays[3] = {{"engine", engine_log, 0}, {"walks in C", c_log_walks, 0}, {"with tally", c_log, 0}};

// Walks of stores with 64, 256 and 1,024 records, in turn or always the first; and how the time grows.
static void measure_walks(const struct way *ways, int in_turn, int rounds)
{
    struct took took[3][2];
    char what[64];
    for (int s = 0; s < 3; s++) {
        unsigned records = 64 << 2 * s;
        make_stores(records, 0);
        kinds = in_turn ? STORES : 1;
        measure(ways, 2, STORES, rounds, took[s]);
        snprintf(what, sizeof what, "walk, %u records, %s", records, in_turn ? "many stores in turn" : "one store");
        print_line(what, took[s], 2);
    }
    printf("%-46s", "  1,024 records to 256");
    for (int w = 0; w < 2; w++)
        printf("%12.2f%10.2f", took[2][w].least / took[1][w].least, took[2][w].median / took[1][w].median);
    printf("\n");
}

static void measure_diagrams(const char *what, const struct way *ways)
{
    struct took took[2];
    measure(ways, 2, TABLES, 60, took);
    print_line(what, took, 2);
}

// A log by the engine, as many walks in plain C, and these with a tally; and how the first compares with the second.
static void measure_replays(void)
{
    struct took took[3];
    print_head(replays, 3);
    measure(replays, 3, LOGS, 30, took);
    print_line("replay of 32,767 snapshots", took, 3);
    printf("%-46s%12.2f%10.2f\n", "  engine to walks in C", took[0].least / took[1].least, took[0].median / took[1].median);
}

int main(void)
{
    struct took took[2];

    compare();
    make_diagrams();
    make_files();
    make_pairs();
    make_log();

    print_head(walks, 2);
    measure_walks(walks, 1, 30);
    measure_walks(walks, 0, 30);
    make_stores(64, 1);
    measure(walks, 2, STORES, 60, took);
    print_line("walk, 64 records in all the cells", took, 2);
    measure_diagrams("check of a diagram", checks);
    measure_diagrams("tabulate a diagram", tabulates);
    measure_diagrams("build of a table", builds);

    print_head(plain_walks, 2);
    measure_walks(plain_walks, 1, 200);
    measure_walks(plain_walks, 0, 200);
    measure_diagrams("tabulate a diagram", plain_tabulates);

    printf("\nunder a pass rule\n");
    print_head(passed_walks, 2);
    measure_walks(passed_walks, 1, 200);

    print_head(reads, 2);
    measure_diagrams("read of a file", reads);

    struct took provoked[3];
    print_head(provokes, 3);
    measure(provokes, 3, TABLES, 60, provoked);
    print_line("provoke, all flags free", provoked, 3);

    measure_replays();
    return 0;
}
