/* The writer's table that the tests of flow_live.h share: its settings, its areas, and its updates, which must be accepted. */
#ifndef LIVE_TABLE_H
#define LIVE_TABLE_H

#include "flow_live.h"
#include <inttypes.h>
#include <stdio.h>
#include <stdlib.h>

#ifndef WIDTH
#define WIDTH FLOW_IPV4_WIDTH
#endif

enum { KEY = WIDTH, HASHES = FLOW_HASH_TABLE_NUMBERS(KEY), MOST_FLOWS = 4096 };

/* ThreadSanitizer does not see what the doors, which it did not compile, read and write: it is told. */
#ifdef ANNOTATE
void __tsan_read_range(void *address, unsigned long bytes);
void __tsan_write_range(void *address, unsigned long bytes);
#define DOOR_READS(address, bytes) __tsan_read_range((void *)(uintptr_t)(address), bytes)
#define DOOR_WRITES(address, bytes) __tsan_write_range(address, bytes)
#else
#define DOOR_READS(address, bytes) ((void)0)
#define DOOR_WRITES(address, bytes) ((void)0)
#endif

/* The writer's table with its lookup areas, and the numbers for H. */
static struct flow_settings settings = {.p = 8, .k = 3, .room = 2, .top = 4, .capacity = 256, .side_places = 64, .width = WIDTH};
static struct flow_table table;
static struct flow_lookup lookup;
static void *table_memory;
static uint64_t hashes[HASHES];
static uint8_t keys[MOST_FLOWS][KEY]; /* random, and all different as it happens: an update of a held one would be refused */

static void must(const char *what, uint32_t answer)
{
    if (answer != 0) {
        printf("%s: refused with %" PRIu32 "\n", what, answer);
        exit(2);
    }
}

static void *lent(size_t bytes)
{
    void *memory = malloc(bytes);
    if (memory == NULL) {
        puts("no memory");
        exit(2);
    }
    return memory;
}

/* The table, cleared. */
static void make_table(void)
{
    struct flow_generator generator = {.s = 1, .w = 0};
    for (int i = 0; i < MOST_FLOWS; i++) {
        for (int j = 0; j < KEY; j++) {
            keys[i][j] = (uint8_t)(flow_generator_next(&generator) >> 24);
        }
    }
    must("flow_hash_table", flow_hash_table(WIDTH, hashes, HASHES));
    table_memory = lent(flow_table_bytes(&settings));
    must("flow_table_open", flow_table_open(&table, &settings, table_memory, flow_table_bytes(&settings)));
    lookup = flow_lookup_of(&table.areas);
}

static void lookup_is_written(void)
{
    DOOR_WRITES(table.areas.clipped, lookup.clipped_length);
    DOOR_WRITES(table.areas.buckets, lookup.buckets_length);
    DOOR_WRITES(table.areas.side, lookup.side_length);
}

static void add(int flow, uint32_t class)
{
    lookup_is_written();
    must("flow_add", flow_table_add(&table, keys[flow], class));
}

static void change(int flow, uint32_t class)
{
    lookup_is_written();
    must("flow_change", flow_table_change(&table, keys[flow], class));
}

static void take_out(int flow)
{
    lookup_is_written();
    must("flow_remove", flow_table_remove(&table, keys[flow]));
}

#endif
