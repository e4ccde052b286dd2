/* Time of the two hash doors beside plain C, in one run: rounds that alternate, each over the same random keys, and the median round. At width 37
 * with the table by byte and with the one by half-byte. */
#include "before.h"
#include "plain.h"
#include "results.h"
#include "timing.h"
#include "width.h"
#include <stdio.h>

enum { KEYS = 4096, TURNS = 25, ROUNDS = 41 };

static uint8_t keys[KEYS][KEY];
static uint64_t table[TABLE], halves[HALVES];

/* plain.c by each compiler that is there: bin/bench adds the compiler's name. */
hash_lent plain_hash_lent_by_gcc WHERE_LINKED, plain_hash_lent_by_clang WHERE_LINKED;

/* The ways to hash a key: by byte, by half-byte, with no table. */
static uint32_t lent(const uint8_t *key, uint64_t *h) { return flow_hash_lent(WIDTH, table, TABLE, key, KEY, h, 1); }
static uint32_t lent_halves(const uint8_t *key, uint64_t *h) { return flow_hash_lent(WIDTH, halves, HALVES, key, KEY, h, 1); }
static uint32_t before_lent(const uint8_t *key, uint64_t *h) { return before_flow_hash_lent(BEFORE_FIRST table, TABLE, key, KEY, h, 1); }
static uint32_t plain_gcc(const uint8_t *key, uint64_t *h) { return plain_hash_lent_by_gcc(WIDTH, table, TABLE, key, KEY, h, 1); }
static uint32_t plain_clang(const uint8_t *key, uint64_t *h) { return plain_hash_lent_by_clang(WIDTH, table, TABLE, key, KEY, h, 1); }
static uint32_t before_plain_gcc(const uint8_t *key, uint64_t *h) { return before_plain_hash_lent_by_gcc(BEFORE_FIRST table, TABLE, key, KEY, h, 1); }
static uint32_t before_plain_clang(const uint8_t *key, uint64_t *h) { return before_plain_hash_lent_by_clang(BEFORE_FIRST table, TABLE, key, KEY, h, 1); }
static uint32_t halves_gcc(const uint8_t *key, uint64_t *h) { return plain_hash_lent_by_gcc(WIDTH, halves, HALVES, key, KEY, h, 1); }
static uint32_t halves_clang(const uint8_t *key, uint64_t *h) { return plain_hash_lent_by_clang(WIDTH, halves, HALVES, key, KEY, h, 1); }
static uint32_t no_table(const uint8_t *key, uint64_t *h) { return flow_hash(WIDTH, key, KEY, h, 1); }
static uint32_t before_no_table(const uint8_t *key, uint64_t *h) { return before_flow_hash(BEFORE_FIRST key, KEY, h, 1); }

/* One round: every key, TURNS times. Nanoseconds a key; the results are xored into *sum. Written out for each way, so that each is called
 * directly. */
#define ROUND(way)                                                                                                                       \
    static double round_##way(uint64_t *sum)                                                                                             \
    {                                                                                                                                    \
        uint64_t x = 0;                                                                                                                  \
        double before = now();                                                                                                           \
        for (int turn = 0; turn < TURNS; turn++) {                                                                                       \
            for (int i = 0; i < KEYS; i++) {                                                                                             \
                uint64_t h = 0;                                                                                                          \
                uint32_t answer = way(keys[i], &h);                                                                                      \
                x ^= h + (uint64_t)turn * answer + ((uint64_t)turn << 32 ^ h);                                                           \
            }                                                                                                                            \
        }                                                                                                                                \
        *sum ^= x;                                                                                                                       \
        return (now() - before) / ((double)TURNS * KEYS);                                                                                \
    }

ROUND(lent)
ROUND(lent_halves)
ROUND(before_lent)
ROUND(plain_gcc)
ROUND(plain_clang)
ROUND(before_plain_gcc)
ROUND(before_plain_clang)
ROUND(halves_gcc)
ROUND(halves_clang)
ROUND(no_table)
ROUND(before_no_table)

/* clang-format off */
enum {
    LENT, LENT_HALVES, BEFORE_LENT, PLAIN_GCC, PLAIN_CLANG, BEFORE_PLAIN_GCC, BEFORE_PLAIN_CLANG, HALVES_GCC, HALVES_CLANG, NO_TABLE, BEFORE_NO_TABLE,
    CONTESTANTS
};
/* clang-format on */
#define OF(way) way, round_##way
static const struct {
    const char *name;
    function *there;
    uint32_t (*way)(const uint8_t *, uint64_t *);
    double (*round)(uint64_t *);
} contestants[] = {
    [LENT] = {WIDE ? "flow_hash_lent, by byte" : "flow_hash_lent", (function *)flow_hash_lent, OF(lent)},
    [LENT_HALVES] = {"flow_hash_lent, by half-byte", WHERE_WIDE(flow_hash_lent), OF(lent_halves)},
    [BEFORE_LENT] = {"before: flow_hash_lent", (function *)before_flow_hash_lent, OF(before_lent)},
    [PLAIN_GCC] = {WIDE ? "plain C by gcc, by byte" : "plain C by gcc", (function *)plain_hash_lent_by_gcc, OF(plain_gcc)},
    [PLAIN_CLANG] = {WIDE ? "plain C by clang, by byte" : "plain C by clang", (function *)plain_hash_lent_by_clang, OF(plain_clang)},
    [BEFORE_PLAIN_GCC] = {"before: plain C by gcc", (function *)before_plain_hash_lent_by_gcc, OF(before_plain_gcc)},
    [BEFORE_PLAIN_CLANG] = {"before: plain C by clang", (function *)before_plain_hash_lent_by_clang, OF(before_plain_clang)},
    [HALVES_GCC] = {"plain C by gcc, by half-byte", WHERE_WIDE(plain_hash_lent_by_gcc), OF(halves_gcc)},
    [HALVES_CLANG] = {"plain C by clang, by half-byte", WHERE_WIDE(plain_hash_lent_by_clang), OF(halves_clang)},
    [NO_TABLE] = {"flow_hash (no table)", (function *)flow_hash, OF(no_table)},
    [BEFORE_NO_TABLE] = {"before: flow_hash (no table)", (function *)before_flow_hash, OF(before_no_table)},
};

/* At width 13, of the door and of the earlier library's, each to the C that takes what it takes. */
static void print_aims(FILE *to, const struct column *column)
{
    static const struct change changes[] = {
        {LENT, PLAIN_GCC, BEFORE_LENT, BEFORE_PLAIN_GCC},
        {LENT, PLAIN_CLANG, BEFORE_LENT, BEFORE_PLAIN_CLANG},
    };
    for (size_t i = 0; !WIDE && i < sizeof changes / sizeof changes[0]; i++) {
        char what[100];
        snprintf(what, sizeof what, "flow_hash_lent to %s: that ratio to the one before", contestants[changes[i].other].name);
        print_aim_on_change(to, what, &changes[i], column, 1, 1.05,
                            contestants[changes[i].other].there != NULL && contestants[changes[i].before_other].there != NULL);
    }
}

int main(int words, char **word)
{
    FILE *aims = open_aims(words, word);
    static struct column column = {.rounds = ROUNDS};
    uint64_t sums[CONTESTANTS] = {0};
    int order[CONTESTANTS], count = 0;
    for (int i = 0; i < KEYS; i++) {
        for (int a = 0; a < KEY; a++) {
            keys[i][a] = (uint8_t)random_number();
        }
    }
    if (aims == NULL || flow_hash_table(WIDTH, table, TABLE) != 0 || (WIDE && flow_hash_table(WIDTH, halves, HALVES) != 0)) {
        return 1;
    }
    for (int c = 0; c < CONTESTANTS; c++) {
        if (contestants[c].there != NULL) {
            order[count++] = c;
        }
    }
    for (int i = 0; i < count; i++) {
        for (int j = 0; j < KEYS; j++) {
            uint64_t x = 0, y = 0;
            if (lent(keys[j], &x) != 0 || contestants[order[i]].way(keys[j], &y) != 0 || x != y) {
                printf("%s, key %d: the hashes differ\n", contestants[order[i]].name, j);
                return 1;
            }
        }
    }
    for (int round = 0; round < ROUNDS; round++) {
        shuffle(order, count);
        for (int i = 0; i < count; i++) {
            column.times[order[i]][round] = contestants[order[i]].round(&sums[order[i]]);
        }
    }
    printf("| hash of a %d-byte key | ns a key | flow_hash_lent's time to it |%s\n|---|---|---|%s\n", KEY,
           WIDE ? " its time by half-byte to it |" : "", WIDE ? "---|" : "");
    for (int c = 0; c < CONTESTANTS; c++) {
        if (contestants[c].there == NULL) {
            continue;
        }
        if (sums[c] != sums[LENT]) {
            printf("%s: the hashes differ\n", contestants[c].name);
            return 1;
        }
        printf("| %s | %.2f | %.2f |", contestants[c].name, time_of(&column, c), ratio_of(&column, LENT, c));
        if (WIDE) {
            printf(" %.2f |", ratio_of(&column, LENT_HALVES, c));
        }
        printf("\n");
    }
    print_aims(aims, &column);
    return fclose(aims) != 0;
}
