/* Time of a search by the doors, by C of the same algorithm and by the tables of others, in one run: rounds that alternate, over the same
 * keys in an order that is random in each round, and the median round. Beside the times, how many buckets or slots a lookup reads. At width 37 the
 * search with a lent table is measured with the table by byte, and with the one by half-byte. */
#include "before.h"
#include "lookups.h"
#include "others.h"
#include "plain.h"
#include "results.h"
#include "timing.h"
#include <inttypes.h>
#include <stdio.h>
#include <string.h>

enum { ROUNDS = 401 };

/* One flow for each bucket, or nearly so; then fewer flows in as many buckets as the largest has. */
static const struct {
    uint64_t flows;
    struct flow_settings settings;
} shapes[] = {
    {256, {8, 3, 4, 15, 256, 64, WIDTH}},
    {1000, {10, 3, 4, 15, 1024, 64, WIDTH}},
    {4000, {12, 3, 4, 15, 4096, 64, WIDTH}},
    {256, {12, 3, 4, 15, 4096, 64, WIDTH}},
    {1000, {12, 3, 4, 15, 4096, 64, WIDTH}},
};
enum { LARGEST = 2, SHAPES = sizeof shapes / sizeof shapes[0] };

/* The C by each compiler that is there: bin/bench adds the compiler's name. */
search_lent plain_search_lent_by_gcc WHERE_LINKED, plain_search_lent_by_clang WHERE_LINKED;
search_lent tuned_search_lent_by_gcc WHERE_LINKED, tuned_search_lent_by_clang WHERE_LINKED;
search_burst tuned_search_burst_by_gcc WHERE_LINKED, tuned_search_burst_by_clang WHERE_LINKED;
search_burst tuned_search_burst_ahead_by_gcc WHERE_LINKED, tuned_search_burst_ahead_by_clang WHERE_LINKED;

/* Every way to look a key up: answer x 2^32 + class. */
static uint64_t lent(const uint8_t *key) { return flow_search_lent(table, TABLE, AREAS, key, KEY); }
static uint64_t no_table(const uint8_t *key) { return flow_search(AREAS, key, KEY); }
static uint64_t lent_halves(const uint8_t *key) { return flow_search_lent(halves, HALVES, AREAS, key, KEY); }
static uint64_t before_lent(const uint8_t *key) { return before_flow_search_lent(table, TABLE, SIX BEFORE_WIDTH, LOOKUP, key, KEY); }
static uint64_t before_no_table(const uint8_t *key) { return before_flow_search(SIX BEFORE_WIDTH, LOOKUP, key, KEY); }
static uint64_t plain_gcc(const uint8_t *key) { return plain_search_lent_by_gcc(table, TABLE, AREAS, key, KEY); }
static uint64_t plain_clang(const uint8_t *key) { return plain_search_lent_by_clang(table, TABLE, AREAS, key, KEY); }
static uint64_t halves_gcc(const uint8_t *key) { return plain_search_lent_by_gcc(halves, HALVES, AREAS, key, KEY); }
static uint64_t halves_clang(const uint8_t *key) { return plain_search_lent_by_clang(halves, HALVES, AREAS, key, KEY); }
static uint64_t tuned_gcc(const uint8_t *key) { return tuned_search_lent_by_gcc(table, TABLE, AREAS, key, KEY); }
static uint64_t tuned_clang(const uint8_t *key) { return tuned_search_lent_by_clang(table, TABLE, AREAS, key, KEY); }
static uint64_t before_plain_gcc(const uint8_t *key) { return before_plain_search_lent_by_gcc(table, TABLE, SIX BEFORE_WIDTH, LOOKUP, key, KEY); }
static uint64_t before_plain_clang(const uint8_t *key) { return before_plain_search_lent_by_clang(table, TABLE, SIX BEFORE_WIDTH, LOOKUP, key, KEY); }
static uint64_t before_tuned_gcc(const uint8_t *key) { return before_tuned_search_lent_by_gcc(table, TABLE, SIX BEFORE_WIDTH, LOOKUP, key, KEY); }
static uint64_t before_tuned_clang(const uint8_t *key) { return before_tuned_search_lent_by_clang(table, TABLE, SIX BEFORE_WIDTH, LOOKUP, key, KEY); }
static uint64_t chained(const uint8_t *key) { return chained_search(table, key); }
static uint64_t hashmap(const uint8_t *key) { return hashmap_search(key); }
static uint64_t rte(const uint8_t *key) { return rte_search(key); }

/* Every way to look n keys up at once: 0, and the answer of each in answers. */
static uint32_t burst(const uint8_t *keys, size_t n, uint64_t *answers)
{
    return flow_search_burst(table, TABLE, AREAS, keys, KEY * n, answers, n);
}
static uint32_t before_burst(const uint8_t *keys, size_t n, uint64_t *answers)
{
    return before_flow_search_burst(table, TABLE, SIX BEFORE_WIDTH, LOOKUP, keys, KEY * n, answers, n);
}
static uint32_t passes_gcc(const uint8_t *keys, size_t n, uint64_t *answers)
{
    return tuned_search_burst_by_gcc(table, TABLE, AREAS, keys, KEY * n, answers, n);
}
static uint32_t passes_clang(const uint8_t *keys, size_t n, uint64_t *answers)
{
    return tuned_search_burst_by_clang(table, TABLE, AREAS, keys, KEY * n, answers, n);
}
static uint32_t before_passes_gcc(const uint8_t *keys, size_t n, uint64_t *answers)
{
    return before_tuned_search_burst_by_gcc(table, TABLE, SIX BEFORE_WIDTH, LOOKUP, keys, KEY * n, answers, n);
}
static uint32_t before_passes_clang(const uint8_t *keys, size_t n, uint64_t *answers)
{
    return before_tuned_search_burst_by_clang(table, TABLE, SIX BEFORE_WIDTH, LOOKUP, keys, KEY * n, answers, n);
}
static uint32_t ahead_gcc(const uint8_t *keys, size_t n, uint64_t *answers)
{
    return tuned_search_burst_ahead_by_gcc(table, TABLE, AREAS, keys, KEY * n, answers, n);
}
static uint32_t ahead_clang(const uint8_t *keys, size_t n, uint64_t *answers)
{
    return tuned_search_burst_ahead_by_clang(table, TABLE, AREAS, keys, KEY * n, answers, n);
}
static uint32_t bulk(const uint8_t *keys, size_t n, uint64_t *answers) { return rte_search_bulk(keys, n, answers); }

/* For each way a function that gives the answers of n keys, and one that measures a round: nanoseconds a lookup; the answers are added to
 * *sum, with no branch on what they are. Written out for each way, so that each is called directly. */
#define SINGLE(way)                                                                                                                      \
    static void all_##way(uint8_t keys[][KEY], size_t n, uint64_t *answers)                                                              \
    {                                                                                                                                    \
        for (size_t i = 0; i < n; i++) {                                                                                                 \
            answers[i] = way(keys[i]);                                                                                                   \
        }                                                                                                                                \
    }                                                                                                                                    \
    static double round_##way(uint64_t *sum)                                                                                             \
    {                                                                                                                                    \
        uint64_t x = 0;                                                                                                                  \
        double before = now();                                                                                                           \
        for (int i = 0; i < LOOKUPS; i++) {                                                                                              \
            x += way(order[i]);                                                                                                          \
        }                                                                                                                                \
        *sum += x;                                                                                                                       \
        return (now() - before) / LOOKUPS;                                                                                               \
    }                                                                                                                                    \
    /* The same with a caller that branches on each answer; the empty line of assembly keeps it a branch. */                             \
    static double branching_##way(uint64_t *sum)                                                                                         \
    {                                                                                                                                    \
        uint64_t x = 0;                                                                                                                  \
        double before = now();                                                                                                           \
        for (int i = 0; i < LOOKUPS; i++) {                                                                                              \
            uint64_t answer = way(order[i]);                                                                                             \
            if (answer >> 32) {                                                                                                          \
                __asm__ volatile("");                                                                                                    \
                x += ABSENT;                                                                                                             \
            } else {                                                                                                                     \
                x += answer;                                                                                                             \
            }                                                                                                                            \
        }                                                                                                                                \
        *sum += x;                                                                                                                       \
        return (now() - before) / LOOKUPS;                                                                                               \
    }

/* The same for a way that takes keys in bursts; a refusal makes the sum wrong. */
#define BURST(way, size)                                                                                                                 \
    static void all_##way##_##size(uint8_t keys[][KEY], size_t n, uint64_t *answers)                                                     \
    {                                                                                                                                    \
        for (size_t i = 0; i < n; i += size) {                                                                                           \
            way(keys[i], n - i < size ? n - i : size, answers + i);                                                                      \
        }                                                                                                                                \
    }                                                                                                                                    \
    static double round_##way##_##size(uint64_t *sum)                                                                                    \
    {                                                                                                                                    \
        uint64_t x = 0, answers[size];                                                                                                   \
        double before = now();                                                                                                           \
        for (int i = 0; i < LOOKUPS; i += size) {                                                                                        \
            x += way(order[i], size, answers);                                                                                           \
            for (int j = 0; j < size; j++) {                                                                                             \
                x += answers[j];                                                                                                         \
            }                                                                                                                            \
        }                                                                                                                                \
        *sum += x;                                                                                                                       \
        return (now() - before) / LOOKUPS;                                                                                               \
    }

SINGLE(lent)
SINGLE(no_table)
SINGLE(lent_halves)
SINGLE(before_lent)
SINGLE(before_no_table)
SINGLE(plain_gcc)
SINGLE(plain_clang)
SINGLE(halves_gcc)
SINGLE(halves_clang)
SINGLE(tuned_gcc)
SINGLE(tuned_clang)
SINGLE(before_plain_gcc)
SINGLE(before_plain_clang)
SINGLE(before_tuned_gcc)
SINGLE(before_tuned_clang)
SINGLE(chained)
SINGLE(hashmap)
SINGLE(rte)
BURST(burst, 1)
BURST(burst, 4)
BURST(burst, 32)
BURST(burst, 256)
BURST(before_burst, 32)
BURST(passes_gcc, 32)
BURST(passes_clang, 32)
BURST(before_passes_gcc, 32)
BURST(before_passes_clang, 32)
BURST(ahead_gcc, 32)
BURST(ahead_clang, 32)
BURST(bulk, 32)

/* clang-format off */
enum {
    LENT, LENT_HALVES, NO_TABLE, BEFORE_LENT, BEFORE_NO_TABLE, PLAIN_GCC, PLAIN_CLANG, HALVES_GCC, HALVES_CLANG, TUNED_GCC, TUNED_CLANG,
    BEFORE_PLAIN_GCC, BEFORE_PLAIN_CLANG, BEFORE_TUNED_GCC, BEFORE_TUNED_CLANG, CHAINED, HASHMAP, RTE, SINGLES,
    BURST_1 = SINGLES, BURST_4, BURST_32, BURST_256, BEFORE_BURST_32, PASSES_GCC, PASSES_CLANG, BEFORE_PASSES_GCC, BEFORE_PASSES_CLANG, AHEAD_GCC,
    AHEAD_CLANG, BULK, CONTESTANTS
};
#define OF_SINGLE(way) all_##way, round_##way, branching_##way
#define OF_BURST(way) all_##way, round_##way, NULL
static const struct {
    const char *name;
    function *there;
    void (*all)(uint8_t keys[][KEY], size_t n, uint64_t *answers);
    double (*round)(uint64_t *sum), (*branching)(uint64_t *sum);
} contestants[] = {
    [LENT] = {WIDE ? "flow_search_lent, by byte" : "flow_search_lent", (function *)flow_search_lent, OF_SINGLE(lent)},
    [LENT_HALVES] = {"flow_search_lent, by half-byte", WHERE_WIDE(flow_search_lent), OF_SINGLE(lent_halves)},
    [NO_TABLE] = {"flow_search (no table)", (function *)flow_search, OF_SINGLE(no_table)},
    [BEFORE_LENT] = {"before: flow_search_lent", (function *)before_flow_search_lent, OF_SINGLE(before_lent)},
    [BEFORE_NO_TABLE] = {"before: flow_search (no table)", (function *)before_flow_search, OF_SINGLE(before_no_table)},
    [PLAIN_GCC] = {WIDE ? "plain C by gcc, by byte" : "plain C by gcc", (function *)plain_search_lent_by_gcc, OF_SINGLE(plain_gcc)},
    [PLAIN_CLANG] = {WIDE ? "plain C by clang, by byte" : "plain C by clang", (function *)plain_search_lent_by_clang, OF_SINGLE(plain_clang)},
    [HALVES_GCC] = {"plain C by gcc, by half-byte", WHERE_WIDE(plain_search_lent_by_gcc), OF_SINGLE(halves_gcc)},
    [HALVES_CLANG] = {"plain C by clang, by half-byte", WHERE_WIDE(plain_search_lent_by_clang), OF_SINGLE(halves_clang)},
    [TUNED_GCC] = {"tuned C by gcc", (function *)tuned_search_lent_by_gcc, OF_SINGLE(tuned_gcc)},
    [TUNED_CLANG] = {"tuned C by clang", (function *)tuned_search_lent_by_clang, OF_SINGLE(tuned_clang)},
    [BEFORE_PLAIN_GCC] = {"before: plain C by gcc", (function *)before_plain_search_lent_by_gcc, OF_SINGLE(before_plain_gcc)},
    [BEFORE_PLAIN_CLANG] = {"before: plain C by clang", (function *)before_plain_search_lent_by_clang, OF_SINGLE(before_plain_clang)},
    [BEFORE_TUNED_GCC] = {"before: tuned C by gcc", (function *)before_tuned_search_lent_by_gcc, OF_SINGLE(before_tuned_gcc)},
    [BEFORE_TUNED_CLANG] = {"before: tuned C by clang", (function *)before_tuned_search_lent_by_clang, OF_SINGLE(before_tuned_clang)},
    [CHAINED] = {"chained table, C by gcc", (function *)chained_search, OF_SINGLE(chained)},
    [HASHMAP] = {"std HashMap, Rust", (function *)hashmap_search, OF_SINGLE(hashmap)},
    [RTE] = {"rte_hash, DPDK", (function *)rte_search, OF_SINGLE(rte)},
    [BURST_1] = {"flow_search_burst of 1", (function *)flow_search_burst, OF_BURST(burst_1)},
    [BURST_4] = {"flow_search_burst of 4", (function *)flow_search_burst, OF_BURST(burst_4)},
    [BURST_32] = {"flow_search_burst of 32", (function *)flow_search_burst, OF_BURST(burst_32)},
    [BURST_256] = {"flow_search_burst of 256", (function *)flow_search_burst, OF_BURST(burst_256)},
    [BEFORE_BURST_32] = {"before: flow_search_burst of 32", (function *)before_flow_search_burst, OF_BURST(before_burst_32)},
    [PASSES_GCC] = {"C burst of 32 by gcc", (function *)tuned_search_burst_by_gcc, OF_BURST(passes_gcc_32)},
    [PASSES_CLANG] = {"C burst of 32 by clang", (function *)tuned_search_burst_by_clang, OF_BURST(passes_clang_32)},
    [BEFORE_PASSES_GCC] = {"before: C burst of 32 by gcc", (function *)before_tuned_search_burst_by_gcc, OF_BURST(before_passes_gcc_32)},
    [BEFORE_PASSES_CLANG] = {"before: C burst of 32 by clang", (function *)before_tuned_search_burst_by_clang, OF_BURST(before_passes_clang_32)},
    [AHEAD_GCC] = {"C burst of 32 by gcc, with prefetch", (function *)tuned_search_burst_ahead_by_gcc, OF_BURST(ahead_gcc_32)},
    [AHEAD_CLANG] = {"C burst of 32 by clang, with prefetch", (function *)tuned_search_burst_ahead_by_clang, OF_BURST(ahead_clang_32)},
    [BULK] = {"rte_hash, DPDK, bulk of 32", (function *)rte_search_bulk, OF_BURST(bulk_32)},
};
/* clang-format on */

/* A door's ratio to C, and the ratio of the earlier library's door to the C that takes what that one takes. */
static const struct change changes[] = {
    {LENT, PLAIN_GCC, BEFORE_LENT, BEFORE_PLAIN_GCC},
    {LENT, PLAIN_CLANG, BEFORE_LENT, BEFORE_PLAIN_CLANG},
    {LENT, TUNED_GCC, BEFORE_LENT, BEFORE_TUNED_GCC},
    {LENT, TUNED_CLANG, BEFORE_LENT, BEFORE_TUNED_CLANG},
    {BURST_32, PASSES_GCC, BEFORE_BURST_32, BEFORE_PASSES_GCC},
    {BURST_32, PASSES_CLANG, BEFORE_BURST_32, BEFORE_PASSES_CLANG},
};
enum { SINGLE_CHANGES = 4, CHANGES = sizeof changes / sizeof changes[0] };
static int is_there(const struct change *change)
{
    return contestants[change->contestant].there != NULL && contestants[change->other].there != NULL &&
           contestants[change->before].there != NULL && contestants[change->before_other].there != NULL;
}

/* What was measured: the bursts at the largest shape alone. */
static struct column columns[SHAPES][MIXES], branching[MIXES];

/* The buckets that a search of the pruned table reads: by its counters alone, 0 or 1. */
static unsigned pruned_reads(const uint8_t *key)
{
    uint64_t h;
    flow_hash_lent(WIDTH, table, TABLE, key, KEY, &h, 1);
    unsigned zero = 0, below = 0;
    for (unsigned j = 0; j < set.k; j++) {
        unsigned b = (unsigned)(h >> 16 * j) & ((1u << set.p) - 1);
        unsigned count = at.clipped[b / 2] >> 4 * (b % 2) & 15;
        zero |= count == 0;
        below |= count < set.top;
    }
    return !zero && below;
}
static unsigned chained_reads_of(const uint8_t *key) { return chained_reads(table, key); }

static const struct {
    const char *name;
    unsigned (*reads)(const uint8_t *key);
} readers[] = {
    {"the pruned table, by doors and C", pruned_reads},
    {"chained table", chained_reads_of},
    {"std HashMap", hashmap_reads},
    {"rte_hash", rte_reads},
};
enum { READERS = sizeof readers / sizeof readers[0] };
static struct {
    unsigned most;
    double mean;
} reads[READERS][SHAPES][MIXES];

static void count_reads(int shape, enum mix mix, uint8_t keys[][KEY])
{
    for (int r = 0; r < READERS; r++) {
        uint64_t sum = 0;
        for (uint64_t i = 0; i < flows && readers[r].reads != NULL; i++) {
            unsigned n = readers[r].reads(keys[i]);
            reads[r][shape][mix].most = n > reads[r][shape][mix].most ? n : reads[r][shape][mix].most;
            sum += n;
        }
        reads[r][shape][mix].mean = (double)sum / (double)flows;
    }
}

/* Every contestant gives these answers, in its bursts where it has some. */
static int check(uint8_t keys[][KEY], size_t n, const uint64_t *right)
{
    static uint64_t answers[LOOKUPS];
    for (int c = 0; c < CONTESTANTS; c++) {
        if (contestants[c].there == NULL) {
            continue;
        }
        memset(answers, 255, sizeof answers);
        contestants[c].all(keys, n, answers);
        if (memcmp(answers, right, n * sizeof answers[0]) != 0) {
            printf("%s, %" PRIu64 " flows: a wrong answer\n", contestants[c].name, flows);
            return 1;
        }
    }
    return 0;
}

/* Three columns, a mix each: the rounds of those that take part. */
static int measure(struct column *of, int branch, int most)
{
    uint64_t sums[CONTESTANTS] = {0}, sum = 0;
    int turns[CONTESTANTS], count = 0;
    for (int c = 0; c < most; c++) {
        if (contestants[c].there != NULL) {
            turns[count++] = c;
        }
    }
    for (int round = 0; round < ROUNDS; round++) {
        for (int mix = 0; mix < MIXES; mix++) {
            sum += draw((enum mix)mix);
            if (round == 0 && check(order, LOOKUPS, wanted) != 0) {
                return 1;
            }
            shuffle(turns, count);
            for (int i = 0; i < count; i++) {
                int c = turns[i];
                of[mix].times[c][round] = (branch ? contestants[c].branching : contestants[c].round)(&sums[c]);
            }
        }
    }
    for (int mix = 0; mix < MIXES; mix++) {
        of[mix].rounds = ROUNDS;
    }
    for (int i = 0; i < count; i++) {
        if (sums[turns[i]] != sum) {
            printf("%s: the answers differ\n", contestants[turns[i]].name);
            return 1;
        }
    }
    return 0;
}

/* A table of so many random flows in every contestant; each held key is found with its class, and each absent one is not. */
static int build(void)
{
    static uint64_t found[MOST_FLOWS], not_found[MOST_FLOWS];
    if (fill_table() != 0) {
        return 1;
    }
    for (uint64_t i = 0; i < flows; i++) {
        found[i] = classes[i];
        not_found[i] = ABSENT;
    }
    chained_build(table, held, classes, flows);
    hashmap_build(&held[0][0], classes, flows);
    if (rte_build != NULL && rte_build(held, classes, flows) != 0) {
        printf("rte_hash: not built\n");
        return 1;
    }
    return check(held, flows, found) != 0 || check(absent, flows, not_found) != 0;
}

static void print_shapes(const char *what)
{
    printf("\n| %s%s |", WIDE ? "keys of 37 bytes: " : "", what);
    for (int shape = 0; shape < SHAPES; shape++) {
        printf(" %" PRIu64 " flows, p %" PRIu64 " |", shapes[shape].flows, shapes[shape].settings.p);
    }
    printf("\n|---|---|---|---|---|---|\n");
}

static void print_tables(void)
{
    print_shapes("ns a search: hits / half / misses");
    for (int c = 0; c < SINGLES; c++) {
        if (contestants[c].there != NULL) {
            printf("| %s |", contestants[c].name);
            for (int shape = 0; shape < SHAPES; shape++) {
                print_times(columns[shape], c);
            }
            printf("\n");
        }
    }
    for (int table = LENT; table <= (WIDE ? LENT_HALVES : LENT); table++) {
        print_shapes(table == LENT_HALVES ? "flow_search_lent's time by half-byte to that of" : "flow_search_lent's time to that of");
        for (int c = LENT; c < SINGLES; c++) {
            if (c != table && contestants[c].there != NULL) {
                printf("| %s |", contestants[c].name);
                for (int shape = 0; shape < SHAPES; shape++) {
                    print_ratios(columns[shape], table, c);
                }
                printf("\n");
            }
        }
    }
    if (is_there(&changes[0])) {
        print_shapes("flow_search_lent's ratio to it, to that ratio before");
        for (int i = 0; i < SINGLE_CHANGES; i++) {
            if (is_there(&changes[i])) {
                printf("| %s |", contestants[changes[i].other].name);
                for (int shape = 0; shape < SHAPES; shape++) {
                    print_changes(columns[shape], &changes[i]);
                }
                printf("\n");
            }
        }
    }
    printf("\n| %s4000 flows, p 12, the caller branches on each answer | ns a search: hits / half / misses | flow_search_lent's time to it "
           "|\n",
           WIDE ? "keys of 37 bytes: " : "");
    printf("|---|---|---|\n");
    for (int c = 0; c < SINGLES; c++) {
        if (contestants[c].there != NULL) {
            printf("| %s |", contestants[c].name);
            print_times(branching, c);
            print_ratios(branching, LENT, c);
            printf("\n");
        }
    }

    /* the bursts beside what searches key by key */
    int clang = contestants[TUNED_CLANG].there != NULL,
        bases[] = {clang ? TUNED_CLANG : TUNED_GCC, clang ? PASSES_CLANG : PASSES_GCC, BULK};
    printf("\n| %s4000 flows, p 12 | ns a key: hits / half / misses |", WIDE ? "keys of 37 bytes: " : "");
    for (int i = 0; i < 3; i++) {
        if (contestants[bases[i]].there != NULL) {
            printf(" to %s |", contestants[bases[i]].name);
        }
    }
    printf("\n|---|---|---|---|%s\n", contestants[BULK].there != NULL ? "---|" : "");
    for (int c = 0; c < CONTESTANTS; c++) {
        if (contestants[c].there == NULL || (c < SINGLES && c != LENT && c != LENT_HALVES && c != TUNED_GCC && c != TUNED_CLANG && c != RTE)) {
            continue;
        }
        printf("| %s |", contestants[c].name);
        print_times(columns[LARGEST], c);
        for (int i = 0; i < 3; i++) {
            if (contestants[bases[i]].there != NULL) {
                print_ratios(columns[LARGEST], c, bases[i]);
            }
        }
        printf("\n");
    }

    print_shapes("reads, most and mean: hits / misses");
    for (int r = 0; r < READERS; r++) {
        if (readers[r].reads != NULL) {
            printf("| %s |", readers[r].name);
            for (int shape = 0; shape < SHAPES; shape++) {
                printf(" %u, %.2f / %u, %.2f |", reads[r][shape][HITS].most, reads[r][shape][HITS].mean, reads[r][shape][MISSES].most,
                       reads[r][shape][MISSES].mean);
            }
            printf("\n");
        }
    }
}

static void print_aims(FILE *to)
{
    const struct aim aims[] = {
        {"flow_search_lent to tuned C by clang, 4,000 flows", LENT, TUNED_CLANG, columns[LARGEST], 3, {1.15, 1.15, 1.15}},
        {"flow_search_lent to rte_hash, 4,000 flows", LENT, RTE, columns[LARGEST], 3, {0.90, 1.00, 1.15}},
        {"flow_search_burst of 32 to tuned C by clang, 4,000 flows", BURST_32, TUNED_CLANG, columns[LARGEST], 3, {0.80, 0.80, 0.80}},
        {"flow_search_burst of 32 to C burst by clang, 4,000 flows", BURST_32, PASSES_CLANG, columns[LARGEST], 3, {1.15, 1.15, 1.15}},
        {"flow_search_burst of 32 to rte_hash in bulk, 4,000 flows", BURST_32, BULK, columns[LARGEST], 3, {1.10, 0.70, 1.50}},
    };
    const struct aim wide_aims[] = {
        {"width 37, by byte: flow_search_lent to plain C by gcc, 4,000 flows", LENT, PLAIN_GCC, columns[LARGEST], 3, {1.30, 1.30, 1.30}},
        {"width 37, by byte: flow_search_lent to plain C by clang, 4,000 flows", LENT, PLAIN_CLANG, columns[LARGEST], 3, {1.30, 1.30, 1.30}},
        {"width 37, by half-byte: flow_search_lent to plain C by gcc, 4,000 flows", LENT_HALVES, HALVES_GCC, columns[LARGEST], 3,
         {1.30, 1.30, 1.30}},
        {"width 37, by half-byte: flow_search_lent to plain C by clang, 4,000 flows", LENT_HALVES, HALVES_CLANG, columns[LARGEST], 3,
         {1.30, 1.30, 1.30}},
    };
    for (size_t i = 0; WIDE && i < sizeof wide_aims / sizeof wide_aims[0]; i++) {
        const struct aim *aim = &wide_aims[i];
        print_aim(to, aim, contestants[aim->contestant].there != NULL && contestants[aim->other].there != NULL);
    }
    for (size_t i = 0; !WIDE && i < sizeof aims / sizeof aims[0]; i++) {
        print_aim(to, &aims[i], contestants[aims[i].contestant].there != NULL && contestants[aims[i].other].there != NULL);
    }
    for (int i = 0; !WIDE && i < CHANGES; i++) {
        char what[200];
        snprintf(what, sizeof what, "%s to %s, 4,000 flows: that ratio to the one before", contestants[changes[i].contestant].name,
                 contestants[changes[i].other].name);
        print_aim_on_change(to, what, &changes[i], columns[LARGEST], 3, 1.05, is_there(&changes[i]));
    }
}

int main(int words, char **word)
{
    FILE *aims = open_aims(words, word);
    if (aims == NULL || fill_hash_tables() != 0 || (rte_start != NULL && rte_start() != 0)) {
        return 1;
    }
    for (int shape = 0; shape < SHAPES; shape++) {
        flows = shapes[shape].flows;
        set = shapes[shape].settings;
        if (build() != 0) {
            return 1;
        }
        count_reads(shape, HITS, held);
        count_reads(shape, MISSES, absent);
        if (measure(columns[shape], 0, shape == LARGEST ? CONTESTANTS : SINGLES) != 0 ||
            (shape == LARGEST && measure(branching, 1, SINGLES) != 0)) {
            return 1;
        }
    }
    print_tables();
    print_aims(aims);
    return fclose(aims) != 0;
}
