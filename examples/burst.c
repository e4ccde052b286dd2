/* A driver that takes packets in bursts: their keys one after the other, one call for all of their classes.
 *
 *     gcc -std=c11 -Iinclude examples/burst.c target/staticlib/libcard.a -o burst && ./burst
 */
#include "flow.h"
#include <inttypes.h>
#include <stdio.h>
#include <stdlib.h>

enum { BURST = 32, KEY = FLOW_IPV4_WIDTH, HASHES = FLOW_HASH_TABLE_NUMBERS(KEY), PACKET = 28 };

/* 64 buckets, 3 hashes a key, room for 2 records a bucket, top count 4, at most 128 flows, 8 side places, keys of 13 bytes. */
static const struct flow_settings settings = {.p = 6, .k = 3, .room = 2, .top = 4, .capacity = 128, .side_places = 8, .width = KEY};

/* What the driver keeps: the table, the numbers for H, filled in once, and places for the keys and the answers of a burst. */
static struct flow_table table;
static uint64_t hashes[HASHES];
static uint8_t keys[BURST * KEY];
static uint64_t answers[BURST];

/* A packet of 28 bytes from 10.0.0.`from` to 10.0.0.`to`, with the same port at both ends. */
static void make_packet(uint8_t packet[PACKET], uint8_t from, uint8_t to, uint16_t port, uint8_t protocol)
{
    const uint8_t bytes[PACKET] = {0x45, 0, 0, PACKET, 0, 0, 0, 0, 64, protocol, 0, 0, 10, 0, 0, from, 10, 0, 0, to,
                                   (uint8_t)(port >> 8), (uint8_t)port, (uint8_t)(port >> 8), (uint8_t)port};
    for (int i = 0; i < PACKET; i++) {
        packet[i] = bytes[i];
    }
}

/* The flow of a packet is added. */
static void add(const char *what, const uint8_t packet[PACKET], uint32_t class)
{
    uint8_t key[KEY];
    flow_packet_key(packet, PACKET, key, KEY);
    printf("add %s: %" PRIu32 "\n", what, flow_table_add(&table, key, class));
}

static void show(size_t n)
{
    for (size_t i = 0; i < n; i++) {
        printf("  key %zu: answer %d, class %" PRIu32 "\n", i, (int)flow_answer_of(answers[i]), flow_class_of(answers[i]));
    }
}

/* A burst of the first n keys. */
static void burst(const char *what, size_t n)
{
    printf("%s: %" PRIu32 "\n", what, flow_table_search_burst(&table, hashes, HASHES, keys, answers, n));
    show(n);
}

/* A number of answers that is not the keys', which only the door itself takes: refused, the answers are as they were. */
static void refused_burst(size_t n)
{
    answers[0] = 42;
    printf("a burst of %zu keys with %zu answers: %" PRIu32 "\n", n, n - 1,
           flow_search_burst(hashes, HASHES, FLOW_SETTINGS(&settings), FLOW_LOOKUP(&table.areas), keys, KEY * n, answers, n - 1));
    show(1);
}

/* The counters of a key become 15, where 4 is the most. */
static void damage(const uint8_t *key)
{
    uint16_t four[4], numbers[5];
    flow_key_buckets(FLOW_SETTINGS(&settings), key, KEY, four, 4, numbers, 5);
    for (int i = 1; i <= numbers[0]; i++) {
        table.areas.clipped[numbers[i] / 2] |= numbers[i] % 2 == 0 ? 0x0f : 0xf0;
    }
}

int main(void)
{
    uint8_t call[PACKET], line[PACKET], other[PACKET], wrong[PACKET];
    make_packet(call, 1, 2, 5060, 17);
    make_packet(line, 3, 4, 443, 6);
    make_packet(other, 5, 6, 8080, 6);
    make_packet(wrong, 7, 8, 80, 6);
    wrong[0] = 0x60; /* version 6 */

    size_t bytes = flow_table_bytes(&settings);
    void *memory = malloc(bytes);
    if (memory == NULL) {
        fputs("no memory for the table\n", stderr);
        return 1;
    }
    printf("hash table: %" PRIu32 "\n", flow_hash_table(KEY, hashes, HASHES));
    /* a table is cleared as it is opened */
    printf("clear: %" PRIu32 "\n", flow_table_open(&table, &settings, memory, bytes));
    add("the call", call, 5);
    add("the line", line, 1);

    /* five packets came; one that has no key is left out of the burst */
    const uint8_t *packets[] = {call, other, wrong, line, call};
    size_t n = 0;
    for (size_t i = 0; i < sizeof packets / sizeof *packets; i++) {
        uint32_t answer = flow_packet_key(packets[i], PACKET, keys + KEY * n, KEY);
        printf("packet %zu: %" PRIu32 "\n", i, answer);
        if (answer == FLOW_DONE) {
            n++;
        }
    }
    burst("a burst of 4 keys", n);
    burst("a burst of no key", 0);
    refused_burst(n);

    /* a key whose counters are damaged is refused by itself */
    damage(keys + KEY * 2);
    burst("with damage to the counters of key 2", n);
    free(memory);
    return 0;
}
