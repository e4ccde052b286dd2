/* Time of a search while a table is updated (flow_live.h), beside one on areas that nobody writes, beside a lock and beside RCU, with no writer and beside
 * one that updates without a pause; and the time of a publish beside a memcmp of as many bytes. All in one run: rounds that alternate, over held keys
 * in an order that is random in each round, and the median round. The sum of the answers is checked in every round: the writer adds and removes flows
 * that are not searched. */
#define _XOPEN_SOURCE 700
#include "flow_live.h"
#include "lookups.h"
#include "rcu.h"
#include "results.h"
#include "timing.h"
#include <inttypes.h>
#include <pthread.h>
#include <stdio.h>
#include <stdlib.h>
#include <string.h>

enum { QUIET_ROUNDS = 401, BUSY_ROUNDS = 51, BUSY_REPEATS = 64, PUBLISHES = 401, BURST = 32, COPIES = 3 };

static struct flow_live live;
static struct flow_live_reader reader;

/* The writer's table, and two copies of its lookup areas that RCU guards. */
static struct flow_table own;
static struct flow_lookup own_lookup, copies[2];
static pthread_rwlock_t lock = PTHREAD_RWLOCK_INITIALIZER;

/* What the writer does after an update. RESTS: nothing is updated. */
enum writing { RESTS, KEEPS, PUBLISHES_LIVE, LOCKS, REPLACES };
static _Atomic enum writing asked, done;
static atomic_ulong updates;

static void must(uint32_t answer, const char *what)
{
    if (answer != 0) {
        printf("%s: refused with %" PRIu32 "\n", what, answer);
        exit(1);
    }
}

/* A flow comes, or goes again. */
static void update(void)
{
    static int held_now;
    static uint64_t flow;
    if (held_now) {
        must(flow_table_remove(&own, absent[flow]), "flow_remove");
        flow = (flow + 1) % flows;
    } else {
        must(flow_table_add(&own, absent[flow], 7), "flow_add");
    }
    held_now = !held_now;
}

static void publish(void) { must(flow_live_publish(&live, &own_lookup), "flow_live_publish"); }

/* The writer's areas into a copy: it is const for readers alone. */
static void take_into(const struct flow_lookup *copy)
{
    flow_live_take((uint8_t *)(uintptr_t)copy->clipped, own_lookup.clipped, own_lookup.clipped_length);
    flow_live_take((uint8_t *)(uintptr_t)copy->buckets, own_lookup.buckets, own_lookup.buckets_length);
    flow_live_take((uint8_t *)(uintptr_t)copy->side, own_lookup.side, own_lookup.side_length);
}

static void replace_copy(void)
{
    static int next;
    take_into(&copies[next]);
    rcu_replace(&copies[next]);
    next = !next;
}

static void update_once(enum writing writing)
{
    if (writing == LOCKS) {
        pthread_rwlock_wrlock(&lock);
    }
    update();
    switch (writing) {
    case PUBLISHES_LIVE: publish(); break;
    case LOCKS: pthread_rwlock_unlock(&lock); break;
    case REPLACES: replace_copy(); break;
    default: break;
    }
    atomic_fetch_add_explicit(&updates, 1, memory_order_relaxed);
}

static void *write_on(void *nothing)
{
    (void)nothing;
    for (;;) {
        enum writing writing = atomic_load(&asked);
        atomic_store(&done, writing);
        if (writing != RESTS) {
            update_once(writing);
        }
    }
    return NULL;
}

static void ask(enum writing writing)
{
    atomic_store(&asked, writing);
    while (atomic_load(&done) != writing) {
    }
}

/* Ways to search the keys of a round; the sum of the answers. */
static uint64_t lent_searches(int to_a_section)
{
    uint64_t sum = 0;
    (void)to_a_section;
    for (int i = 0; i < LOOKUPS; i++) {
        sum += flow_search_lent(table, TABLE, AREAS, order[i], KEY);
    }
    return sum;
}

static uint64_t sum_of(const uint64_t *answers)
{
    uint64_t sum = 0;
    for (int i = 0; i < BURST; i++) {
        sum += answers[i];
    }
    return sum;
}

static uint64_t bursts(int to_a_section)
{
    uint64_t sum = 0, answers[BURST];
    (void)to_a_section;
    for (int i = 0; i < LOOKUPS; i += BURST) {
        flow_search_burst(table, TABLE, AREAS, order[i], BURST * KEY, answers, BURST);
        sum += sum_of(answers);
    }
    return sum;
}

static uint64_t live_searches(int to_a_section)
{
    uint64_t sum = 0;
    for (int i = 0; i < LOOKUPS; i += to_a_section) {
        flow_live_enter(&reader);
        for (int j = 0; j < to_a_section; j++) {
            sum += flow_live_search(&reader, table, TABLE, order[i + j]);
        }
        flow_live_leave(&reader);
    }
    return sum;
}

static uint64_t live_bursts(int to_a_section)
{
    uint64_t sum = 0, answers[BURST];
    (void)to_a_section;
    for (int i = 0; i < LOOKUPS; i += BURST) {
        flow_live_enter(&reader);
        flow_live_search_burst(&reader, table, TABLE, order[i], answers, BURST);
        flow_live_leave(&reader);
        sum += sum_of(answers);
    }
    return sum;
}

static uint64_t lock_searches(int to_a_section)
{
    uint64_t sum = 0;
    for (int i = 0; i < LOOKUPS; i += to_a_section) {
        pthread_rwlock_rdlock(&lock);
        for (int j = 0; j < to_a_section; j++) {
            sum += flow_table_search_lent(&own, table, TABLE, order[i + j]);
        }
        pthread_rwlock_unlock(&lock);
    }
    return sum;
}

/* clang-format off */
enum { LENT, LIVE_EACH, LIVE, LOCK_EACH, LOCK, RCU_EACH, RCU, DOOR_BURST, LIVE_BURST, CONTESTANTS };
static const struct {
    const char *name;
    function *there;
    uint64_t (*searches)(int to_a_section);
    int to_a_section;
    enum writing writing; /* beside it */
    int without; /* the same with no protection */
} contestants[CONTESTANTS] = {
    [LENT] = {"flow_search_lent on areas that nobody writes", (function *)flow_search_lent, lent_searches, 1, KEEPS, LENT},
    [LIVE_EACH] = {"flow_live_search, a section each", (function *)flow_search_lent, live_searches, 1, PUBLISHES_LIVE, LENT},
    [LIVE] = {"flow_live_search, sections of 32", (function *)flow_search_lent, live_searches, BURST, PUBLISHES_LIVE, LENT},
    [LOCK_EACH] = {"pthread rwlock, a lock each", (function *)flow_search_lent, lock_searches, 1, LOCKS, LENT},
    [LOCK] = {"pthread rwlock, a lock for 32", (function *)flow_search_lent, lock_searches, BURST, LOCKS, LENT},
    [RCU_EACH] = {"liburcu, a section each", (function *)rcu_searches, rcu_searches, 1, REPLACES, LENT},
    [RCU] = {"liburcu, sections of 32", (function *)rcu_searches, rcu_searches, BURST, REPLACES, LENT},
    [DOOR_BURST] = {"flow_search_burst of 32 on areas that nobody writes", (function *)flow_search_burst, bursts, BURST, KEEPS, DOOR_BURST},
    [LIVE_BURST] = {"flow_live_search_burst of 32, a section each", (function *)flow_search_burst, live_bursts, BURST, PUBLISHES_LIVE, DOOR_BURST},
};
/* clang-format on */

/* The times with no writer and beside one; how many updates a second that one made. */
static struct column quiet, busy;
static double updates_a_second[CONTESTANTS][BUSY_ROUNDS];

static double measure(int c, int repeats, uint64_t sum)
{
    uint64_t x = 0;
    double start = now();
    for (int i = 0; i < repeats; i++) {
        x += contestants[c].searches(contestants[c].to_a_section);
    }
    double time = now() - start;
    if (x != sum * (uint64_t)repeats) {
        printf("%s: a wrong answer\n", contestants[c].name);
        exit(1);
    }
    return time / repeats / LOOKUPS;
}

static void measure_quiet(int round, int *turns, int count)
{
    uint64_t sum = draw(HITS);
    shuffle(turns, count);
    for (int i = 0; i < count; i++) {
        quiet.times[turns[i]][round] = measure(turns[i], 1, sum);
    }
}

static void measure_busy(int round, int *turns, int count)
{
    uint64_t sum = draw(HITS);
    shuffle(turns, count);
    for (int i = 0; i < count; i++) {
        int c = turns[i];
        ask(contestants[c].writing);
        unsigned long before = atomic_load(&updates);
        double start = now();
        busy.times[c][round] = measure(c, BUSY_REPEATS, sum);
        updates_a_second[c][round] = (double)(atomic_load(&updates) - before) / (now() - start) * 1e9;
        ask(RESTS);
    }
}

/* The median of the rounds' differences of two times. */
static double more_than(const struct column *column, int c, int other)
{
    static double more[MOST_ROUNDS];
    for (int round = 0; round < column->rounds; round++) {
        more[round] = column->times[c][round] - column->times[other][round];
    }
    return median(more, (size_t)column->rounds);
}

static void print_searches(void)
{
    printf("\n| held keys, %" PRIu64 " flows, p 12%s | ns, no writer | more than without | ns beside a writer | more than without | "
           "the writer's updates a second |\n|---|---|---|---|---|---|\n",
           flows, WIDE ? ", keys of 37 bytes" : "");
    for (int c = 0; c < CONTESTANTS; c++) {
        if (contestants[c].there == NULL) {
            continue;
        }
        int without = contestants[c].without;
        printf("| %s | %.1f | %.1f | %.1f | %.1f | %.0f |\n", contestants[c].name, time_of(&quiet, c), more_than(&quiet, c, without), time_of(&busy, c),
               more_than(&busy, c, without), median(updates_a_second[c], BUSY_ROUNDS));
    }
}

/* A publish after each update, with no reader inside; one after none; a memcmp of the same bytes, which are alike. */
enum { UPDATE, PUBLISH, PUBLISH_AGAIN, COMPARE };
static struct column publishing;
static double lines_written[PUBLISHES];

static size_t lines_that_differ(const uint8_t *a, const uint8_t *b, size_t length)
{
    size_t lines = 0;
    for (size_t i = 0; i < length; i += FLOW_LIVE_LINE) {
        lines += memcmp(a + i, b + i, length - i < FLOW_LIVE_LINE ? length - i : FLOW_LIVE_LINE) != 0;
    }
    return lines;
}

/* With no reader inside, copies 0 and 1 take turns. */
static struct flow_lookup next_copy(void)
{
    const uint8_t *copy = live.memory + (atomic_load(&live.current) == 0 ? live.copy_bytes : 0);
    struct flow_lookup next = own_lookup;
    next.clipped = copy;
    next.buckets = copy + live.buckets_at;
    next.side = copy + live.side_at;
    return next;
}

static int compare_all(const struct flow_lookup *copy)
{
    return memcmp(copy->clipped, own_lookup.clipped, copy->clipped_length) | memcmp(copy->buckets, own_lookup.buckets, copy->buckets_length)
           | memcmp(copy->side, own_lookup.side, copy->side_length);
}

static double timed(void (*call)(void))
{
    double start = now();
    call();
    return now() - start;
}

static void measure_publishes(void)
{
    for (int round = 0; round < PUBLISHES; round++) {
        publishing.times[UPDATE][round] = timed(update);
        struct flow_lookup copy = next_copy();
        lines_written[round] = (double)(lines_that_differ(copy.clipped, own_lookup.clipped, copy.clipped_length)
                                        + lines_that_differ(copy.buckets, own_lookup.buckets, copy.buckets_length)
                                        + lines_that_differ(copy.side, own_lookup.side, copy.side_length));
        publishing.times[PUBLISH][round] = timed(publish);
        double start = now();
        if (compare_all(&copy) != 0) {
            puts("what was published differs");
            exit(1);
        }
        publishing.times[COMPARE][round] = now() - start;
        publish();
        publishing.times[PUBLISH_AGAIN][round] = timed(publish);
    }
    publishing.rounds = PUBLISHES;
}

static void print_publishes(void)
{
    printf("\n| publishing, %" PRIu64 " flows, p 12%s: %zu bytes compared | us | its time to memcmp's |\n|---|---|---|\n", flows,
           WIDE ? ", keys of 37 bytes" : "", own_lookup.clipped_length + own_lookup.buckets_length + own_lookup.side_length);
    const char *const names[] = {"an update, flow_add or flow_remove", "flow_live_publish after it", "flow_live_publish, nothing altered",
                                 "memcmp of the bytes, which are alike"};
    for (int i = UPDATE; i <= COMPARE; i++) {
        printf("| %s | %.1f | %.2f |\n", names[i], time_of(&publishing, i) / 1000, ratio_of(&publishing, i, COMPARE));
    }
    double median_lines = median(lines_written, PUBLISHES); /* which sorts them: the last is the most */
    printf("\nA publish after an update wrote %.0f lines of 64 bytes (median), %.0f at most.\n", median_lines, lines_written[PUBLISHES - 1]);
}

/* A row of the table of aims that is no ratio. */
static void print_aim_ns(FILE *to, const char *what, double bound, double measured)
{
    fprintf(to, "| %s, ns a search more%s | %.1f | %.1f | %s |\n", what, WIDE ? ", keys of 37 bytes" : "", bound, measured,
            measured <= bound + 0.05 ? "met" : "missed");
}

static void print_aims(FILE *aims)
{
    print_aim_ns(aims, "flow_live_search in sections of 32 than flow_search_lent, no writer", 1, more_than(&quiet, LIVE, LENT));
    print_aim_ns(aims, "flow_live_search in sections of 32 than flow_search_lent, both beside a writer", 5, more_than(&busy, LIVE, LENT));
    print_aim(aims,
              &(struct aim){WIDE ? "flow_live_publish to memcmp of the lookup areas' bytes, keys of 37 bytes"
                                 : "flow_live_publish to memcmp of the lookup areas' bytes",
                            PUBLISH, COMPARE, &publishing, 1, {3.00}},
              1);
}

static void *lent(size_t bytes)
{
    void *memory = aligned_alloc(FLOW_LIVE_LINE, flow_live_lines(bytes));
    if (memory == NULL) {
        puts("no memory");
        exit(1);
    }
    memset(memory, 0, bytes);
    return memory;
}

static struct flow_lookup copy_of_own(void)
{
    struct flow_lookup copy = own_lookup;
    copy.clipped = lent(copy.clipped_length);
    copy.buckets = lent(copy.buckets_length);
    copy.side = lent(copy.side_length);
    take_into(&copy);
    return copy;
}

/* The writer's table: the flows that are held. */
static void fill_own(void)
{
    size_t bytes = flow_live_bytes(&set, COPIES), own_bytes = flow_table_bytes(&set);
    must(flow_table_open(&own, &set, lent(own_bytes), own_bytes), "flow_table_open");
    for (uint64_t i = 0; i < flows; i++) {
        must(flow_table_add(&own, held[i], classes[i]), "flow_table_add");
    }
    own_lookup = flow_lookup_of(&own.areas);
    must(flow_live_open(&live, &set, lent(bytes), bytes, &reader, 1), "flow_live_open");
    publish();
    publish(); /* now both copies that take turns have the table */
    copies[0] = copy_of_own();
    copies[1] = copy_of_own();
}

int main(int words, char **word)
{
    FILE *aims = open_aims(words, word);
    pthread_t writer;
    int turns[CONTESTANTS], count = 0;
    flows = 4000;
    set = (struct flow_settings){12, 3, 4, 15, 4096, 64, WIDTH};
    if (aims == NULL || fill_hash_tables() != 0 || fill_table() != 0) {
        return 1;
    }
    fill_own();
    for (int c = 0; c < CONTESTANTS; c++) {
        if (contestants[c].there != NULL) {
            turns[count++] = c;
        }
    }
    if (contestants[RCU].there != NULL) {
        rcu_start_reader();
        rcu_replace(&copies[1]);
    }
    measure_publishes();
    for (int round = 0; round < QUIET_ROUNDS; round++) {
        measure_quiet(round, turns, count);
    }
    if (pthread_create(&writer, NULL, write_on, NULL) != 0) {
        return 1;
    }
    for (int round = 0; round < BUSY_ROUNDS; round++) {
        measure_busy(round, turns, count);
    }
    quiet.rounds = QUIET_ROUNDS;
    busy.rounds = BUSY_ROUNDS;
    print_searches();
    print_publishes();
    print_aims(aims);
    return fclose(aims) != 0;
}
