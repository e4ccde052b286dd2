/* Time of a search that gives its counts and of its entry into a window, beside a search without them, in one run: rounds that alternate, over
 * the same keys in an order that is random in each round, and the median round. Each window is full, and after every round it is counted
 * afresh. */
#include "before.h"
#include "lookups.h"
#include "results.h"
#include "timing.h"
#include <stdio.h>
#include <string.h>

enum { ROUNDS = 401 };

/* What the window is given of the keys of a round, beside what they have to answer: the counts of each search. */
static uint32_t given[LOOKUPS][3];

/* What each way does for key i of a round, by the doors of a library, which may have none of a window; the numbers that they return, added up. */
#define WAYS(library, prefix, settings)                                                                                                  \
    static uint64_t library##_lent(int i, uint16_t *window)                                                                              \
    {                                                                                                                                    \
        (void)window;                                                                                                                    \
        return prefix##flow_search_lent(table, TABLE, settings, LOOKUP, order[i], KEY);                                                  \
    }                                                                                                                                    \
    static uint64_t library##_counts_lent(int i, uint16_t *window)                                                                       \
    {                                                                                                                                    \
        uint32_t counts[3];                                                                                                              \
        (void)window;                                                                                                                    \
        return prefix##flow_search_counts_lent(table, TABLE, settings, LOOKUP, order[i], KEY, counts, 3);                                \
    }                                                                                                                                    \
    static uint64_t library##_both(int i, uint16_t *window)                                                                              \
    {                                                                                                                                    \
        uint32_t counts[3];                                                                                                              \
        uint64_t found = prefix##flow_search_counts_lent(table, TABLE, settings, LOOKUP, order[i], KEY, counts, 3);                      \
        return found + prefix##flow_window_enter(window, FLOW_WINDOW_NUMBERS, found, counts, 3);                                         \
    }                                                                                                                                    \
    static uint64_t library##_enter(int i, uint16_t *window)                                                                             \
    {                                                                                                                                    \
        return prefix##flow_window_enter(window, FLOW_WINDOW_NUMBERS, wanted[i], given[i], 3);                                           \
    }                                                                                                                                    \
    static uint64_t library##_counts(int i, uint16_t *window)                                                                            \
    {                                                                                                                                    \
        uint32_t counts[3];                                                                                                              \
        (void)i;                                                                                                                         \
        return prefix##flow_window_counts(window, FLOW_WINDOW_NUMBERS, counts, 3);                                                       \
    }
/* clang-format off */
#define NOW_SETTINGS SIX, WIDTH
#define BEFORE_SETTINGS SIX BEFORE_WIDTH
WAYS(now, , NOW_SETTINGS)
WAYS(before, before_, BEFORE_SETTINGS)
/* clang-format on */

/* For each way a function that measures a round: nanoseconds a call, or a pair of calls, and the sum. Written out, so that each is called
 * directly. */
#define ROUND(way)                                                                                                                       \
    static double round_##way(uint16_t *window, uint64_t *sum)                                                                           \
    {                                                                                                                                    \
        uint64_t x = 0;                                                                                                                  \
        double start = now();                                                                                                            \
        for (int i = 0; i < LOOKUPS; i++) {                                                                                              \
            x += way(i, window);                                                                                                         \
        }                                                                                                                                \
        *sum = x;                                                                                                                        \
        return (now() - start) / LOOKUPS;                                                                                                \
    }
ROUND(now_lent)
ROUND(now_counts_lent)
ROUND(now_both)
ROUND(now_enter)
ROUND(now_counts)
ROUND(before_lent)
ROUND(before_counts_lent)
ROUND(before_both)
ROUND(before_enter)
ROUND(before_counts)

/* clang-format off */
enum {
    LENT, COUNTS_LENT, BOTH, ENTER, COUNTS, BEFORE_LENT, BEFORE_COUNTS_LENT, BEFORE_BOTH, BEFORE_ENTER, BEFORE_COUNTS, CONTESTANTS
};
/* A way that searches has the sum of the answers, any other zero. One that enters fills its window, any other is lent one that is full. */
enum { SEARCHES = 1, ENTERS = 2 };
static const struct {
    const char *name;
    function *there;
    double (*round)(uint16_t *window, uint64_t *sum);
    int does;
} contestants[] = {
    [LENT] = {"flow_search_lent", (function *)flow_search_lent, round_now_lent, SEARCHES},
    [COUNTS_LENT] = {"flow_search_counts_lent", (function *)flow_search_counts_lent, round_now_counts_lent, SEARCHES},
    [BOTH] = {"flow_search_counts_lent and flow_window_enter", (function *)flow_window_enter, round_now_both, SEARCHES | ENTERS},
    [ENTER] = {"flow_window_enter", (function *)flow_window_enter, round_now_enter, ENTERS},
    [COUNTS] = {"flow_window_counts", (function *)flow_window_counts, round_now_counts, 0},
    [BEFORE_LENT] = {"before: flow_search_lent", (function *)before_flow_search_lent, round_before_lent, SEARCHES},
    [BEFORE_COUNTS_LENT] = {"before: flow_search_counts_lent", (function *)before_flow_search_counts_lent, round_before_counts_lent, SEARCHES},
    [BEFORE_BOTH] = {"before: flow_search_counts_lent and flow_window_enter", (function *)before_flow_window_enter, round_before_both,
                     SEARCHES | ENTERS},
    [BEFORE_ENTER] = {"before: flow_window_enter", (function *)before_flow_window_enter, round_before_enter, ENTERS},
    [BEFORE_COUNTS] = {"before: flow_window_counts", (function *)before_flow_window_counts, round_before_counts, 0},
};
/* clang-format on */
static uint16_t windows[CONTESTANTS][FLOW_WINDOW_NUMBERS];
static struct column columns[MIXES];

/* What a window has to count after a round: its last searches, counted afresh. */
static uint32_t fresh[3];

/* The keys of another round, the counts of each, and what the window has to count. The sum of what the keys have to answer. */
static uint64_t draw_with_counts(enum mix mix)
{
    uint64_t sum = draw(mix);
    memset(fresh, 0, sizeof fresh);
    for (int i = 0; i < LOOKUPS; i++) {
        flow_search_counts_lent(table, TABLE, AREAS, order[i], KEY, given[i], 3);
        if (i >= LOOKUPS - FLOW_WINDOW_SEARCHES) {
            fresh[0] += wanted[i] != ABSENT;
            fresh[1] += given[i][2];
            fresh[2] = given[i][1] > fresh[2] ? given[i][1] : fresh[2];
        }
    }
    return sum;
}

/* A round of a contestant, and whether it was right: 0, or 1, which it says. */
static int measure(int c, uint64_t sum, double *time)
{
    uint32_t counts[3];
    uint64_t x;
    if (!(contestants[c].does & ENTERS)) {
        for (int i = LOOKUPS - FLOW_WINDOW_SEARCHES; i < LOOKUPS; i++) {
            flow_window_enter(windows[c], FLOW_WINDOW_NUMBERS, wanted[i], given[i], 3);
        }
    }
    *time = contestants[c].round(windows[c], &x);
    if (x != (contestants[c].does & SEARCHES ? sum : 0)) {
        printf("%s: a wrong answer\n", contestants[c].name);
        return 1;
    }
    if (flow_window_counts(windows[c], FLOW_WINDOW_NUMBERS, counts, 3) != 0 || memcmp(counts, fresh, sizeof fresh) != 0) {
        printf("%s: the window counts something else\n", contestants[c].name);
        return 1;
    }
    return 0;
}

static void print_table(void)
{
    printf("\n| 4000 flows, p 12, full window%s | ns: hits / half / misses | its time to flow_search_lent's |\n|---|---|---|\n",
           WIDE ? ", keys of 37 bytes" : "");
    for (int c = 0; c < CONTESTANTS; c++) {
        if (contestants[c].there != NULL) {
            printf("| %s |", contestants[c].name);
            print_times(columns, c);
            print_ratios(columns, c, LENT);
            printf("\n");
        }
    }
}

int main(int words, char **word)
{
    FILE *aims = open_aims(words, word);
    int turns[CONTESTANTS], count = 0;
    flows = 4000;
    set = (struct flow_settings){12, 3, 4, 15, 4096, 64, WIDTH};
    if (aims == NULL || fill_hash_tables() != 0 || fill_table() != 0) {
        return 1;
    }
    for (int c = 0; c < CONTESTANTS; c++) {
        if (contestants[c].there != NULL) {
            turns[count++] = c;
        }
    }
    /* a round before the first one fills the windows */
    for (int round = -1; round < ROUNDS; round++) {
        for (int mix = 0; mix < MIXES; mix++) {
            uint64_t sum = draw_with_counts((enum mix)mix);
            shuffle(turns, count);
            for (int i = 0; i < count; i++) {
                double time;
                if (measure(turns[i], sum, &time) != 0) {
                    return 1;
                }
                if (round >= 0) {
                    columns[mix].times[turns[i]][round] = time;
                }
            }
            columns[mix].rounds = ROUNDS;
        }
    }
    print_table();
    if (WIDE) {
        return fclose(aims) != 0;
    }
    print_aim(aims,
              &(struct aim){"flow_search_counts_lent and flow_window_enter to flow_search_lent, 4,000 flows", BOTH, LENT, columns, 3,
                            {1.30, 1.30, 1.30}},
              1);
    return fclose(aims) != 0;
}
