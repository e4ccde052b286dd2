/* A table with one flow, whose areas are laid out by hand, and what search and tally say of it, by the bare doors.
 *
 *     gcc -std=c11 -Iinclude examples/search.c target/staticlib/libcard.a -o search && ./search
 */
#include "flow.h"
#include <inttypes.h>
#include <stdio.h>
#include <string.h>

/* 16 buckets, 2 hashes a key, room for 1 record a bucket, top count 3, at most 2 flows, 1 side place, keys of 13 bytes. */
#define P 4
#define SETTINGS P, 2, 1, 3, 2, 1, KEY

enum { KEY = FLOW_IPV4_WIDTH, RECORD = FLOW_RECORD_BYTES(KEY), TABLE = FLOW_HASH_TABLE_NUMBERS(KEY), BUCKETS = 1 << P, BUCKET = 1 + RECORD };

/* The areas of an empty table are all zeros. */
static uint8_t ledger[2 + RECORD * 2], clipped[BUCKETS / 2], buckets[BUCKETS * BUCKET], side[2 + RECORD * 1];

/* Filled once, kept for every search. */
static uint64_t table[TABLE];

static void show(const char *what, uint64_t found)
{
    printf("%s: answer %" PRIu64 ", class %" PRIu64 "\n", what, found >> 32, found & UINT32_MAX);
}

/* The same search by both doors. */
static void search(const char *what, const uint8_t *key, size_t key_length)
{
    uint64_t found = flow_search(SETTINGS, clipped, sizeof clipped, buckets, sizeof buckets, side, sizeof side, key, key_length);
    uint64_t found_lent = flow_search_lent(table, TABLE, SETTINGS, clipped, sizeof clipped, buckets, sizeof buckets, side,
                                           sizeof side, key, key_length);
    show(what, found);
    if (found_lent != found) {
        show("  but with the lent table", found_lent);
    }
}

/* Where the record lies, read in place: its last four bytes are the class. */
static void search_place(const char *what, const uint8_t *key)
{
    uint64_t place[2];
    uint64_t found = flow_search_place(SETTINGS, clipped, sizeof clipped, buckets, sizeof buckets, side, sizeof side, key,
                                       KEY, place, 2);
    if (found >> 32 != 0) {
        printf("%s: answer %" PRIu64 ", no place\n", what, found >> 32);
        return;
    }
    const uint8_t *record = (place[0] == 1 ? buckets : side) + place[1];
    const uint8_t *class = record + KEY;
    printf("%s: in the %s from byte %" PRIu64 ", class %d %d %d %d\n", what, place[0] == 1 ? "buckets" : "side store", place[1], class[0],
           class[1], class[2], class[3]);
}

static void tally(const char *what)
{
    uint32_t totals[4] = {0, 0, 0, 0};
    uint32_t answer = flow_tally(SETTINGS, ledger, sizeof ledger, clipped, sizeof clipped, buckets, sizeof buckets, side, sizeof side,
                                 totals, 4);
    printf("%s: answer %" PRIu32 ", in buckets %" PRIu32 ", in the side store %" PRIu32 ", marked 255 %" PRIu32 ", fill %" PRIu32 "\n",
           what, answer, totals[0], totals[1], totals[2], totals[3]);
}

/* The layout of the one flow. */
static void place(const uint8_t *key, uint32_t class)
{
    /* a record: the key, then the class, high byte first */
    uint8_t record[RECORD];
    memcpy(record, key, KEY);
    for (int i = 0; i < 4; i++) {
        record[KEY + i] = (uint8_t)(class >> 8 * (3 - i));
    }

    /* the ledger: the count in two bytes, high byte first, then the records in key order */
    ledger[1] = 1;
    memcpy(ledger + 2, record, RECORD);

    /* The flow counts once in each of its buckets: bucket b in byte b / 2, an even b in the low four bits. All these counts are 1, so the
     * flow chooses the lowest of its bucket numbers. */
    uint16_t hashes[4], numbers[5];
    flow_key_buckets(SETTINGS, key, KEY, hashes, 4, numbers, 5);
    uint16_t chosen = numbers[1];
    for (int i = 1; i <= numbers[0]; i++) {
        uint16_t b = numbers[i];
        clipped[b / 2] = (uint8_t)(clipped[b / 2] + (b % 2 == 0 ? 1 : 16));
        chosen = b < chosen ? b : chosen;
    }

    /* the chosen bucket: a mark, which is the number of its records, then these */
    uint8_t *bucket = buckets + chosen * BUCKET;
    bucket[0] = 1;
    memcpy(bucket + 1, record, RECORD);
    printf("placed in bucket %u of %u\n", (unsigned)chosen, (unsigned)BUCKETS);
}

int main(void)
{
    /* source address, destination address, source port, destination port, protocol */
    static const uint8_t key[KEY] = {192, 0, 2, 1, 198, 51, 100, 7, 0xc0, 0x01, 0x01, 0xbb, 6};
    static const uint8_t other[KEY] = {192, 0, 2, 2, 198, 51, 100, 7, 0xc0, 0x01, 0x01, 0xbb, 6};

    printf("hash table: answer %" PRIu32 "\n", flow_hash_table(KEY, table, TABLE));
    search("empty table", key, KEY);
    tally("empty table");

    place(key, 7);
    search("the flow", key, KEY);
    search("another flow", other, KEY);
    search_place("the flow's record", key);
    search_place("another flow's record", other);
    search("a key of 12 bytes", key, 12);
    tally("one flow");

    /* counters above the top count are damage */
    memset(clipped, 0x44, sizeof clipped);
    search("counters of 4 where 3 is the most", key, KEY);
    tally("counters of 4 where 3 is the most");
    return 0;
}
