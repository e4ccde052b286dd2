/* Time of an add and a remove by the doors and by plain C that lays out every area as they do, in one run: rounds that alternate, over
 * the same keys, and the median round. The areas of all are compared after every round, once with a flow more and once without. */
#include "before.h"
#include "plain_update.h"
#include "results.h"
#include "timing.h"
#include <stdio.h>
#include <stdlib.h>
#include <string.h>

enum { PAIRS = 8, ROUNDS = 101, MOST_FLOWS = 4096 };

/* The flows vary, the settings stay. */
static const uint64_t sizes[] = {250, 500, 1000, 2000, 4000};
enum { AT_1000 = 2, AT_4000 = 4, SIZES = sizeof sizes / sizeof sizes[0] };

static const struct flow_settings set = {12, 3, 4, 15, 4096, 64, WIDTH};
/* the one that the doors make for an update: at 37 by half-byte */
enum { UPDATE_TABLE = WIDE ? HALVES : TABLE };
static uint64_t table[UPDATE_TABLE];
static uint8_t keys[PAIRS][KEY];

/* The C by each compiler that is there: bin/bench adds the compiler's name. */
update plain_update_branching_by_gcc WHERE_LINKED, plain_update_branching_by_clang WHERE_LINKED;
update plain_update_five_by_gcc WHERE_LINKED, plain_update_five_by_clang WHERE_LINKED;
update plain_update_twice_by_gcc WHERE_LINKED, plain_update_twice_by_clang WHERE_LINKED;
update plain_update_kept_by_gcc WHERE_LINKED, plain_update_kept_by_clang WHERE_LINKED;

/* The doors as the C is called; they make their hash table themselves. */
#define DOORS(name, add, remove, WITH_WIDTH)                                                                                             \
    static uint32_t name(const struct flow_settings *s, const uint64_t *no_table, struct flow_areas *at, enum edit edit,                 \
                         const uint8_t *key, size_t key_length, uint32_t class)                                                          \
    {                                                                                                                                    \
        (void)no_table;                                                                                                                  \
        return edit == ADD ? add(SIX_OF(s) WITH_WIDTH, FLOW_AREAS(at), FLOW_WORK(at), key, key_length, class)                            \
                           : remove(SIX_OF(s) WITH_WIDTH, FLOW_AREAS(at), FLOW_WORK(at), key, key_length);                               \
    }
#define NOW_WIDTH , WIDTH
DOORS(doors, flow_add, flow_remove, NOW_WIDTH)
DOORS(before, before_flow_add, before_flow_remove, BEFORE_WIDTH)

/* Every way to make a call, on areas of its own. */
/* clang-format off */
enum {
    NOW, BEFORE, BRANCHING_GCC, BRANCHING_CLANG, FIVE_GCC, FIVE_CLANG, TWICE_GCC, TWICE_CLANG, KEPT_GCC, KEPT_CLANG, CONTESTANTS
};
#define OF_C(update) (function *)plain_update_##update, plain_update_##update
static const struct {
    const char *name;
    function *there;
    update *call;
} contestants[] = {
    [NOW] = {"flow_add, flow_remove", (function *)flow_add, doors},
    [BEFORE] = {"before: flow_add, flow_remove", (function *)before_flow_add, before},
    [BRANCHING_GCC] = {"plain C by gcc, five passes, choice by branches", OF_C(branching_by_gcc)},
    [BRANCHING_CLANG] = {"plain C by clang, five passes, choice by branches", OF_C(branching_by_clang)},
    [FIVE_GCC] = {"plain C by gcc, five passes, choice without branches", OF_C(five_by_gcc)},
    [FIVE_CLANG] = {"plain C by clang, five passes, choice without branches", OF_C(five_by_clang)},
    [TWICE_GCC] = {"plain C by gcc, hashed twice, choices kept", OF_C(twice_by_gcc)},
    [TWICE_CLANG] = {"plain C by clang, hashed twice, choices kept", OF_C(twice_by_clang)},
    [KEPT_GCC] = {"plain C by gcc, hashes kept", OF_C(kept_by_gcc)},
    [KEPT_CLANG] = {"plain C by clang, hashes kept", OF_C(kept_by_clang)},
};
/* clang-format on */
static struct flow_areas areas[CONTESTANTS];
static struct column columns[SIZES];

static uint32_t call(int c, enum edit edit, const uint8_t *key) { return contestants[c].call(&set, table, &areas[c], edit, key, KEY, 7); }

/* One round: microseconds a pair; the answers are added to *sum. */
static double round_of(int c, uint32_t *sum)
{
    double start = now();
    for (int i = 0; i < PAIRS; i++) {
        *sum += call(c, ADD, keys[i]);
        *sum += call(c, REMOVE, keys[i]);
    }
    return (now() - start) / 1e3 / PAIRS;
}

static void random_bytes(uint8_t *to, size_t n)
{
    for (size_t i = 0; i < n; i++) {
        to[i] = (uint8_t)random_number();
    }
}

static int by_key(const void *a, const void *b) { return memcmp(a, b, KEY); }

static int alike(const struct flow_areas *a, const struct flow_areas *b)
{
    return memcmp(a->ledger, b->ledger, a->ledger_length) == 0 &&
           memcmp(a->true_counts, b->true_counts, a->true_counts_length * sizeof a->true_counts[0]) == 0 &&
           memcmp(a->clipped, b->clipped, a->clipped_length) == 0 && memcmp(a->buckets, b->buckets, a->buckets_length) == 0 &&
           memcmp(a->side, b->side, a->side_length) == 0;
}

/* Work is as long as the contestant asks for: the doors of each library say it, the C takes 2 * m numbers. */
static int allocate(int c)
{
    struct flow_areas *at = &areas[c];
    uint64_t lengths[6];
    uint32_t answer = c == BEFORE ? before_flow_area_lengths(SIX_OF(&set) BEFORE_WIDTH, lengths, 6)
                                  : flow_area_lengths(FLOW_SETTINGS(&set), lengths, 6);
    if (answer != 0) {
        return 1;
    }
    if (c != NOW && c != BEFORE) {
        lengths[5] = (uint64_t)2 << set.p;
    }
    at->ledger = malloc(at->ledger_length = lengths[0]);
    at->true_counts = malloc((at->true_counts_length = lengths[1]) * sizeof at->true_counts[0]);
    at->clipped = malloc(at->clipped_length = lengths[2]);
    at->buckets = malloc(at->buckets_length = lengths[3]);
    at->side = malloc(at->side_length = lengths[4]);
    at->work = malloc((at->work_length = lengths[5]) * sizeof at->work[0]);
    return at->ledger == NULL || at->true_counts == NULL || at->clipped == NULL || at->buckets == NULL || at->side == NULL ||
           at->work == NULL;
}

/* A ledger of so many random flows for all; the other areas are random, and the first pair of calls lays them out. */
static void build(size_t flows)
{
    static uint8_t records[MOST_FLOWS][RECORD];
    random_bytes(&records[0][0], RECORD * flows);
    qsort(records, flows, RECORD, by_key);
    for (int c = 0; c < CONTESTANTS; c++) {
        struct flow_areas *at = &areas[c];
        if (contestants[c].there == NULL) {
            continue;
        }
        memset(at->ledger, 0, at->ledger_length);
        at->ledger[0] = (uint8_t)(flows >> 8);
        at->ledger[1] = (uint8_t)flows;
        memcpy(at->ledger + 2, records, RECORD * flows);
        random_bytes((uint8_t *)at->true_counts, at->true_counts_length * sizeof at->true_counts[0]);
        random_bytes(at->clipped, at->clipped_length);
        random_bytes(at->buckets, at->buckets_length);
        random_bytes(at->side, at->side_length);
        random_bytes((uint8_t *)at->work, at->work_length * sizeof at->work[0]);
    }
}

/* Adds, and then removes, one more flow in all; alike after each. */
static int check(void)
{
    uint8_t key[KEY];
    random_bytes(key, KEY);
    for (int edit = ADD; edit <= REMOVE; edit++) {
        for (int c = 0; c < CONTESTANTS; c++) {
            if (contestants[c].there == NULL) {
                continue;
            }
            uint32_t answer = call(c, (enum edit)edit, key);
            if (answer != 0 || !alike(&areas[NOW], &areas[c])) {
                printf("%s: refused with %u, or the areas differ\n", contestants[c].name, answer);
                return 1;
            }
        }
    }
    return 0;
}

static void print_heads(const char *what)
{
    printf("\n| %s%s |", WIDE ? "keys of 37 bytes: " : "", what);
    for (int size = 0; size < SIZES; size++) {
        printf(" %d flows |", (int)sizes[size]);
    }
    printf("\n|---|---|---|---|---|---|\n");
}

static void print_tables(void)
{
    static const char *const heads[] = {"µs an add and a remove", "the doors' time to that of", "to 250 flows"};
    for (int kind = 0; kind < 3; kind++) {
        print_heads(heads[kind]);
        for (int c = kind == 1 ? NOW + 1 : NOW; c < CONTESTANTS; c++) {
            if (contestants[c].there == NULL) {
                continue;
            }
            printf("| %s |", contestants[c].name);
            for (int size = 0; size < SIZES; size++) {
                if (kind == 0) {
                    printf(" %.0f |", time_of(&columns[size], c));
                } else {
                    printf(" %.2f |",
                           kind == 1 ? ratio_of(&columns[size], NOW, c) : time_of(&columns[size], c) / time_of(&columns[0], c));
                }
            }
            printf("\n");
        }
    }
}

/* The aims are beside the faster of the compilers that are there. */
static void print_aims(FILE *to)
{
    static const struct {
        const char *what;
        int size;
        double bound;
    } aims[] = {
        {"flow_add and flow_remove to plain C, hashes kept, by the faster of gcc and clang, 1,000 flows", AT_1000, 2.00},
        {"flow_add and flow_remove to plain C, hashes kept, by the faster of gcc and clang, 4,000 flows", AT_4000, 1.80},
    };
    static const struct {
        const char *what;
        int size;
    } to_before[] = {
        {"flow_add and flow_remove to before, 1,000 flows", AT_1000},
        {"flow_add and flow_remove to before, 4,000 flows", AT_4000},
    };
    for (int i = 0; i < 2; i++) {
        const struct column *column = &columns[aims[i].size];
        int clang = contestants[KEPT_CLANG].there != NULL && time_of(column, KEPT_CLANG) < time_of(column, KEPT_GCC);
        print_aim(to, &(struct aim){aims[i].what, NOW, clang ? KEPT_CLANG : KEPT_GCC, column, 1, {aims[i].bound}},
                  contestants[KEPT_CLANG].there != NULL);
    }
    for (int i = 0; i < 2; i++) {
        print_aim(to, &(struct aim){to_before[i].what, NOW, BEFORE, &columns[to_before[i].size], 1, {1.05}}, contestants[BEFORE].there != NULL);
    }
}

int main(int words, char **word)
{
    FILE *aims = open_aims(words, word);
    int order[CONTESTANTS], count = 0;
    if (aims == NULL || flow_hash_table(WIDTH, table, UPDATE_TABLE) != 0) {
        return 1;
    }
    for (int c = 0; c < CONTESTANTS; c++) {
        if (contestants[c].there == NULL) {
            continue;
        }
        order[count++] = c;
        if (allocate(c) != 0) {
            return 1;
        }
    }
    for (int size = 0; size < SIZES; size++) {
        build(sizes[size]);
        columns[size].rounds = ROUNDS;
        for (int round = 0; round < ROUNDS; round++) {
            uint32_t sum = 0;
            random_bytes(&keys[0][0], sizeof keys);
            shuffle(order, count);
            for (int i = 0; i < count; i++) {
                columns[size].times[order[i]][round] = round_of(order[i], &sum);
            }
            if (sum != 0 || check() != 0) {
                printf("%d flows: refused, or not alike\n", (int)sizes[size]);
                return 1;
            }
        }
    }
    print_tables();
    if (!WIDE) {
        print_aims(aims);
    }
    return fclose(aims) != 0;
}
