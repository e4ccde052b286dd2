/* What flow_live.h promises, by threads: three readers search in sections of 32 while one thread updates and publishes without a pause.
 *   - a held flow that no update touches has its class;
 *   - a toggled flow is absent or has one of its two classes;
 *   - two flows, the pair, that are changed between two publishes read alike, at the start and at the end of a section;
 *   - what a reader sees never goes back;
 *   - a section that starts after a publish returned has it, and no section has what was there before flow_live_settled said so.
 * Some sections pause, so that publishes fall into them.
 *
 *     live_threads FORM SECONDS COPIES [FLOWS]
 *
 * FORM is whole, or one of two broken ones: own-areas, readers search the writer's own areas; asks-nobody, a publish asks no reader. A broken one
 * ends as soon as something was wrong. With FLOWS the table is one of p 12, B 4 that holds so many, and every form runs to its end. The status is 0
 * where nothing was wrong, else 1. -DREADERS=N is for another number of readers, -DANNOTATE for ThreadSanitizer.
 */
#define _POSIX_C_SOURCE 200809L
#include <sched.h>
#define FLOW_LIVE_WAIT() sched_yield()
#include "live_table.h"
#include <pthread.h>
#include <time.h>

#ifndef READERS
#define READERS 3
#endif
enum { SECTION = 32, TOGGLED = 32, PAIR = 2, PAUSES = 256 };

static enum { WHOLE, OWN_AREAS, ASKS_NOBODY, FORMS } form;
static const char *const form_names[FORMS] = {"whole", "own-areas", "asks-nobody"};
static int to_the_end;
static struct flow_live live;
static struct flow_live_reader readers[READERS];
static int held = 150; /* keys 0 .. held - 1; after them the toggled ones, then the pair */
static atomic_int stop;
static atomic_uint published, settled; /* the pair's class whose publish has returned; of which flow_live_settled said so */

/* What a reader counted. */
struct counts {
    unsigned long searches, held_absent, held_refused, held_wrong, toggled_wrong, pair_apart, section_moved, back, late, older_than_settled, versions;
};

/* What a reader keeps. */
struct look {
    struct flow_live_reader *reader;
    struct flow_generator generator;
    uint32_t last;
    struct counts counts;
};

static int random_below(struct look *look, int n)
{
    return (int)((flow_generator_next(&look->generator) >> 20) % (uint64_t)n);
}

static uint64_t search(struct look *look, const uint8_t *key)
{
    if (form == OWN_AREAS) {
        DOOR_READS(lookup.clipped, lookup.clipped_length);
        DOOR_READS(lookup.buckets, lookup.buckets_length);
        DOOR_READS(lookup.side, lookup.side_length);
        return flow_table_search_lent(&table, hashes, HASHES, key);
    }
    DOOR_READS(look->reader->copy, live.copy_bytes);
    return flow_live_search(look->reader, hashes, HASHES, key);
}

static void judge(struct counts *counts, int flow, uint64_t answer)
{
    uint64_t number = answer >> 32;
    if (flow >= held) {
        counts->toggled_wrong += number != 100 && answer != (uint64_t)flow && answer != ((uint64_t)flow | 0x80000000);
    } else if (number == 100) {
        counts->held_absent++;
    } else if (number != 0) {
        counts->held_refused++;
    } else {
        counts->held_wrong += answer != (uint64_t)flow;
    }
}

/* The pair's class; -1 where the two are not alike. */
static int64_t pair_class(struct look *look)
{
    uint64_t a = search(look, keys[held + TOGGLED]), b = search(look, keys[held + TOGGLED + 1]);
    if (a != b || a >> 32 != 0) {
        look->counts.pair_apart++;
        return -1;
    }
    return (int64_t)a;
}

static void pause_section(void)
{
    const struct timespec pause = {.tv_sec = 0, .tv_nsec = 2000000};
    nanosleep(&pause, NULL);
}

/* Flows drawn, a search of each, one by one or as a burst. */
static void search_flows(struct look *look)
{
    int flows[SECTION - 2 * PAIR];
    uint8_t burst[SECTION - 2 * PAIR][KEY];
    uint64_t answers[SECTION - 2 * PAIR];
    for (int i = 0; i < SECTION - 2 * PAIR; i++) {
        flows[i] = random_below(look, held + TOGGLED);
        memcpy(burst[i], keys[flows[i]], KEY);
    }
    if (form != OWN_AREAS && random_below(look, 2) == 0) {
        DOOR_READS(look->reader->copy, live.copy_bytes);
        must("flow_live_search_burst",
             flow_live_search_burst(look->reader, hashes, HASHES, burst[0], answers, SECTION - 2 * PAIR));
    } else {
        for (int i = 0; i < SECTION - 2 * PAIR; i++) {
            answers[i] = search(look, burst[i]);
        }
    }
    for (int i = 0; i < SECTION - 2 * PAIR; i++) {
        judge(&look->counts, flows[i], answers[i]);
    }
}

static void look_once(struct look *look)
{
    struct counts *counts = &look->counts;
    uint32_t returned = atomic_load_explicit(&published, memory_order_acquire);
    flow_live_enter(look->reader);
    int64_t first = pair_class(look);
    search_flows(look);
    if (random_below(look, PAUSES) == 0) {
        pause_section();
    }
    int64_t second = pair_class(look);
    uint32_t oldest = atomic_load_explicit(&settled, memory_order_acquire);
    flow_live_leave(look->reader);
    counts->searches += SECTION;
    if (first >= 0 && second >= 0) {
        uint32_t class = (uint32_t)first;
        counts->section_moved += first != second;
        counts->back += class < look->last;
        counts->late += class < returned;
        counts->older_than_settled += class < oldest;
        counts->versions += class != look->last;
        look->last = class;
    }
}

/* Everything that must not be. */
static unsigned long wrong(const struct counts *c)
{
    return c->held_absent + c->held_refused + c->held_wrong + c->toggled_wrong + c->pair_apart + c->section_moved + c->back + c->late
           + c->older_than_settled;
}

static void *read_on(void *given)
{
    struct look *look = given;
    while (!atomic_load_explicit(&stop, memory_order_relaxed)) {
        look_once(look);
        if (!to_the_end && form != WHOLE && wrong(&look->counts) > 0) {
            atomic_store(&stop, 1);
        }
    }
    return NULL;
}

static double seconds_now(void)
{
    struct timespec now;
    clock_gettime(CLOCK_MONOTONIC, &now);
    return (double)now.tv_sec + (double)now.tv_nsec / 1e9;
}

/* A toggled flow is absent, then held, then held with another class, then absent. */
static void toggle(int flow)
{
    static int states[TOGGLED];
    int *state = &states[flow - held];
    switch ((*state)++) {
    case 0: add(flow, (uint32_t)flow); break;
    case 1: change(flow, (uint32_t)flow | 0x80000000); break;
    default: take_out(flow); *state = 0; break;
    }
}

/* Updates and publishes for so long; how often. */
static uint32_t update_on(double seconds)
{
    double end = seconds_now() + seconds;
    uint32_t class = 0;
    while (seconds_now() < end && !atomic_load_explicit(&stop, memory_order_relaxed)) {
        class++;
        change(held + TOGGLED, class);
        change(held + TOGGLED + 1, class);
        toggle(held + (int)(class % TOGGLED));
        must("flow_live_publish", flow_live_publish(&live, &lookup));
        atomic_store_explicit(&published, class, memory_order_release);
        if (form == WHOLE && flow_live_settled(&live)) {
            atomic_store_explicit(&settled, class, memory_order_release);
        }
    }
    atomic_store(&stop, 1);
    return class;
}

static void fill_table(int flows)
{
    if (flows > 0) {
        settings = (struct flow_settings){.p = 12, .k = 3, .room = 4, .top = 15, .capacity = 4096, .side_places = 64, .width = WIDTH};
        held = flows - TOGGLED - PAIR;
        to_the_end = 1;
    }
    make_table();
    for (int flow = 0; flow < held; flow++) {
        add(flow, (uint32_t)flow);
    }
    add(held + TOGGLED, 0);
    add(held + TOGGLED + 1, 0);
}

/* All readers' counts, added up and printed; whether something was wrong. */
static int tell(const struct look *looks, uint32_t publishes)
{
    struct counts c = {0};
    for (int i = 0; i < READERS; i++) {
        const unsigned long *from = (const unsigned long *)&looks[i].counts;
        for (size_t j = 0; j < sizeof c / sizeof *from; j++) {
            ((unsigned long *)&c)[j] += from[j];
        }
    }
    printf("%s, width %d: %lu searches, %" PRIu32 " publishes, %lu times a new version seen; wrong: held flows absent %lu, refused %lu, of another class %lu; "
           "toggled flows %lu; pairs apart %lu, sections with two versions %lu, back %lu, late %lu, older than settled %lu\n",
           form_names[form], WIDTH, c.searches, publishes, c.versions, c.held_absent, c.held_refused, c.held_wrong, c.toggled_wrong, c.pair_apart,
           c.section_moved, c.back, c.late, c.older_than_settled);
    if (form == WHOLE && c.versions < 20) {
        puts("too few versions were seen for a test");
        return 1;
    }
    return wrong(&c) > 0;
}

int main(int words, char **word)
{
    static struct look looks[READERS];
    pthread_t threads[READERS];
    while (words > 1 && form < FORMS && strcmp(word[1], form_names[form]) != 0) {
        form++;
    }
    if (words < 4 || form == FORMS) {
        puts("live_threads whole|own-areas|asks-nobody SECONDS COPIES [FLOWS]");
        return 2;
    }
    fill_table(words > 4 ? atoi(word[4]) : 0);
    size_t bytes = flow_live_bytes(&settings, (unsigned)atoi(word[3]));
    uint8_t *memory = lent(bytes);
    must("flow_live_open", flow_live_open(&live, &settings, memory, bytes, readers, READERS));
    if (form == ASKS_NOBODY) {
        live.readers_count = 0;
    }
    must("flow_live_publish", flow_live_publish(&live, &lookup));
    for (int i = 0; i < READERS; i++) {
        looks[i] = (struct look){.reader = &readers[i], .generator = {.s = 7 + (uint64_t)i}};
        must("pthread_create", (uint32_t)pthread_create(&threads[i], NULL, read_on, &looks[i]));
    }
    uint32_t publishes = update_on(atof(word[2]));
    for (int i = 0; i < READERS; i++) {
        pthread_join(threads[i], NULL);
    }
    int status = tell(looks, publishes);
    free(memory);
    free(table_memory);
    return status;
}
