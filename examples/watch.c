/* A driver that lets an operator watch its node: it enters each search into a window, and after each 1,000 it prints what the window counts.
 * After 3,000 searches control software removes flows that subscribers still use, and after 6,000 it adds them again: held answers fall, and
 * come back.
 *
 *     gcc -std=c11 -Iinclude examples/watch.c target/staticlib/libcard.a -o watch && ./watch
 */
#include "flow.h"
#include <inttypes.h>
#include <stdio.h>
#include <stdlib.h>

enum { KEY = FLOW_IPV4_WIDTH, HASHES = FLOW_HASH_TABLE_NUMBERS(KEY) };

/* 32 buckets, 3 hashes a key, room for 2 records a bucket, top count 4, at most 32 flows, 8 side places, keys of 13 bytes: so few buckets that some
 * flows go to the side store. */
static const struct flow_settings settings = {.p = 5, .k = 3, .room = 2, .top = 4, .capacity = 32, .side_places = 8, .width = KEY};
static struct flow_table table;

/* What the driver keeps: the numbers for H, filled in once, and the window. */
static uint64_t hashes[HASHES];
static uint16_t window[FLOW_WINDOW_NUMBERS];

/* Packets come from 40 subscribers. The first 28 have a flow; of these the last 16 lose theirs for a while. */
enum { SUBSCRIBERS = 40, FLOWS = 28, KEPT = 12, CLASS = 5 };
enum { SEARCHES = 8000, EACH = 1000, REMOVED_AFTER = 3000, ADDED_AFTER = 6000 };

/* A door answers 0, or the number of a refusal. */
static void must(const char *what, uint32_t answer)
{
    if (answer != FLOW_DONE) {
        fprintf(stderr, "%s: refused with %" PRIu32 "\n", what, answer);
        exit(1);
    }
}

/* From 10.0.0.`subscriber` to 10.0.1.1, port 5060 at both ends, protocol 17. */
static void make_key(uint8_t key[KEY], uint8_t subscriber)
{
    const uint8_t bytes[KEY] = {10, 0, 0, subscriber, 10, 0, 1, 1, 0x13, 0xc4, 0x13, 0xc4, 17};
    for (int i = 0; i < KEY; i++) {
        key[i] = bytes[i];
    }
}

static void add_flows(int from, int to)
{
    uint8_t key[KEY];
    for (int i = from; i < to; i++) {
        make_key(key, (uint8_t)i);
        must("flow_table_add", flow_table_add(&table, key, CLASS));
    }
    printf("control software adds %d flows\n", to - from);
}

static void remove_flows(int from, int to)
{
    uint8_t key[KEY];
    for (int i = from; i < to; i++) {
        make_key(key, (uint8_t)i);
        must("flow_table_remove", flow_table_remove(&table, key));
    }
    printf("control software removes %d flows\n", to - from);
}

/* What a driver does with each key: the class of its flow, and an entry in the window. */
static void search(uint8_t subscriber)
{
    uint8_t key[KEY];
    uint32_t counts[3];
    make_key(key, subscriber);
    uint64_t found = flow_table_search_counts_lent(&table, hashes, HASHES, key, counts);
    enum flow_answer answer = flow_answer_of(found);
    must("flow_table_search_counts_lent", answer == FLOW_ABSENT ? FLOW_DONE : answer);
    must("flow_window_enter", flow_window_enter(window, FLOW_WINDOW_NUMBERS, found, counts, 3));
}

/* The window holds the latest 1,024 searches, or fewer at the start. */
static void show(int searches)
{
    uint32_t counts[3];
    must("flow_window_counts", flow_window_counts(window, FLOW_WINDOW_NUMBERS, counts, 3));
    printf("searches %d: held %" PRIu32 " of the last %d, side store %" PRIu32 ", greatest records compared %" PRIu32 "\n", searches, counts[0],
           searches < FLOW_WINDOW_SEARCHES ? searches : FLOW_WINDOW_SEARCHES, counts[1], counts[2]);
}

int main(void)
{
    /* subscribers are drawn from it, the same ones everywhere */
    struct flow_generator generator = {.s = 1, .w = 0};

    size_t bytes = flow_table_bytes(&settings);
    void *memory = malloc(bytes);
    if (memory == NULL) {
        fputs("no memory for the table\n", stderr);
        return 1;
    }
    must("flow_hash_table", flow_hash_table(KEY, hashes, HASHES));
    must("flow_table_open", flow_table_open(&table, &settings, memory, bytes));
    must("flow_window_clear", flow_window_clear(window, FLOW_WINDOW_NUMBERS));
    add_flows(0, FLOWS);
    for (int searches = 1; searches <= SEARCHES; searches++) {
        search((uint8_t)(flow_generator_next(&generator) % SUBSCRIBERS));
        if (searches % EACH == 0) {
            show(searches);
        }
        if (searches == REMOVED_AFTER) {
            remove_flows(KEPT, FLOWS);
        }
        if (searches == ADDED_AFTER) {
            add_flows(KEPT, FLOWS);
        }
    }
    free(memory);
    return 0;
}
