/* Traffic that never stops: one thread searches the classes of packets in bursts, while another, control software, adds and removes flows. Leased
 * lines are held throughout, and no burst may miss one; subscribers come and go.
 *
 *     gcc -std=c11 -Iinclude examples/traffic.c target/staticlib/libcard.a -pthread -o traffic && ./traffic
 */
#include <sched.h>
#define FLOW_LIVE_WAIT() sched_yield() /* a publish that waits lets others run */
#include "flow_live.h"
#include <inttypes.h>
#include <pthread.h>
#include <stdio.h>
#include <stdlib.h>

/* 256 buckets, 3 hashes a key, room for 2 records a bucket, top count 4, at most 128 flows, 8 side places, keys of 13 bytes. */
static const struct flow_settings settings = {.p = 8, .k = 3, .room = 2, .top = 4, .capacity = 128, .side_places = 8, .width = FLOW_IPV4_WIDTH};
enum { KEY = FLOW_IPV4_WIDTH, HASHES = FLOW_HASH_TABLE_NUMBERS(KEY) };

/* Control software's own table, which no other thread touches. */
static struct flow_table table;
static struct flow_lookup lookup;

/* What the two threads share: copies for one reader and two more, so that no publish waits; and the numbers for H, which are filled in once. */
enum { READERS = 1, COPIES = READERS + 2, BURST = 32 };
static struct flow_live live;
static struct flow_live_reader reader[READERS];
static uint64_t hashes[HASHES];
static atomic_int stop;
static atomic_ulong bursts; /* that the traffic thread has done */

/* Flows 0 to 23 are leased lines, the others are subscribers', of which 24 are held at a time. */
enum { LINES = 24, FLOWS = 96, HELD = 24, LINE_CLASS = 1, SUBSCRIBER_CLASS = 5, ROUNDS = 5000 };

static void must(const char *what, uint32_t answer)
{
    if (answer != 0) {
        fprintf(stderr, "%s: refused with %" PRIu32 "\n", what, answer);
        exit(1);
    }
}

/* From 10.0.0.`flow` to 10.0.1.1, port 5060 at both ends, protocol 17. */
static void make_key(uint8_t key[KEY], int flow)
{
    const uint8_t bytes[KEY] = {10, 0, 0, (uint8_t)flow, 10, 0, 1, 1, 0x13, 0xc4, 0x13, 0xc4, 17};
    memcpy(key, bytes, KEY);
}

/* What traffic counted. */
struct traffic {
    unsigned long lines_missed, wrong_classes;
};

static void count(struct traffic *traffic, int flow, uint64_t answer)
{
    if (flow < LINES) {
        traffic->lines_missed += flow_answer_of(answer) != FLOW_HELD || flow_class_of(answer) != LINE_CLASS;
    } else if (flow_answer_of(answer) != FLOW_ABSENT) {
        traffic->wrong_classes += flow_answer_of(answer) != FLOW_HELD || flow_class_of(answer) != SUBSCRIBER_CLASS;
    }
}

/* The search loop: a section for each burst. It takes no lock, and does not wait for control software. */
static void *search_on(void *counted)
{
    struct flow_generator generator = {.s = 1, .w = 0};
    uint8_t keys[BURST][KEY];
    int flows[BURST];
    uint64_t answers[BURST];
    while (!atomic_load(&stop)) {
        for (int i = 0; i < BURST; i++) {
            flows[i] = (int)(flow_generator_next(&generator) % FLOWS);
            make_key(keys[i], flows[i]);
        }
        flow_live_enter(reader);
        must("flow_live_search_burst", flow_live_search_burst(reader, hashes, HASHES, keys[0], answers, BURST));
        flow_live_leave(reader);
        for (int i = 0; i < BURST; i++) {
            count(counted, flows[i], answers[i]);
        }
        atomic_fetch_add(&bursts, 1);
    }
    return NULL;
}

static void add(int flow, uint32_t class)
{
    uint8_t key[KEY];
    make_key(key, flow);
    must("flow_table_add", flow_table_add(&table, key, class));
}

static void take_out(int flow)
{
    uint8_t key[KEY];
    make_key(key, flow);
    must("flow_table_remove", flow_table_remove(&table, key));
}

static void publish(void)
{
    must("flow_live_publish", flow_live_publish(&live, &lookup));
}

/* The control loop: a subscriber comes and another goes, and both are published at once. */
static void update_on(void)
{
    const int subscribers = FLOWS - LINES;
    for (int round = 0; round < ROUNDS; round++) {
        add(LINES + (round + HELD) % subscribers, SUBSCRIBER_CLASS);
        take_out(LINES + round % subscribers);
        publish();
    }
    /* a subscriber who is gone may have something of his freed once no burst has a table with him */
    while (!flow_live_settled(&live)) {
        sched_yield();
    }
    unsigned long done = atomic_load(&bursts);
    while (atomic_load(&bursts) < done + 100) {
        sched_yield();
    }
}

int main(void)
{
    size_t table_bytes = flow_table_bytes(&settings), bytes = flow_live_bytes(&settings, COPIES);
    void *own = malloc(table_bytes);
    uint8_t *memory = aligned_alloc(FLOW_LIVE_LINE, bytes);
    if (own == NULL || memory == NULL) {
        fputs("no memory for the table and its copies\n", stderr);
        return 1;
    }
    must("flow_hash_table", flow_hash_table(KEY, hashes, HASHES));
    must("flow_table_open", flow_table_open(&table, &settings, own, table_bytes));
    must("flow_live_open", flow_live_open(&live, &settings, memory, bytes, reader, READERS));
    lookup = flow_lookup_of(&table.areas);
    for (int flow = 0; flow < LINES + HELD; flow++) {
        add(flow, flow < LINES ? LINE_CLASS : SUBSCRIBER_CLASS);
    }
    publish();
    printf("control software has published %d leased lines and %d subscribers, in %d copies of %zu bytes\n", LINES, HELD, COPIES, bytes / COPIES);

    struct traffic traffic = {0, 0};
    pthread_t thread;
    if (pthread_create(&thread, NULL, search_on, &traffic) != 0) {
        fputs("no thread\n", stderr);
        return 1;
    }
    update_on();
    atomic_store(&stop, 1);
    pthread_join(thread, NULL);
    printf("it has published %d times that a subscriber came and another went, while bursts of %d packets were searched\n", ROUNDS, BURST);
    printf("packets of leased lines without their class: %lu\n", traffic.lines_missed);
    printf("packets of subscribers with another class than theirs: %lu\n", traffic.wrong_classes);
    free(memory);
    free(own);
    return traffic.lines_missed + traffic.wrong_classes != 0;
}
