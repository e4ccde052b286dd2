/* A table that takes flows in, gives one another class, and takes one out again: by the bare doors, with areas that are lent one by one.
 *
 *     gcc -std=c11 -Iinclude examples/update.c target/staticlib/libcard.a -o update && ./update
 */
#include "flow.h"
#include <inttypes.h>
#include <stdio.h>
#include <stdlib.h>

/* 64 buckets, 3 hashes a key, room for 2 records a bucket, top count 4, at most 3 flows, 2 side places, keys of 13 bytes. */
#define SETTINGS 6, 3, 2, 4, 3, 2, FLOW_IPV4_WIDTH

/* The areas, of the lengths that flow_area_lengths gives, in the order of the doors. */
static uint64_t lengths[6];
static uint8_t *ledger, *clipped, *buckets, *side;
static uint16_t *true_counts, *work;

#define AREAS ledger, lengths[0], true_counts, lengths[1], clipped, lengths[2], buckets, lengths[3], side, lengths[4]

static int lend_areas(void)
{
    if (flow_area_lengths(SETTINGS, lengths, 6) != 0) {
        return 0;
    }
    ledger = malloc(lengths[0]);
    true_counts = malloc(lengths[1] * sizeof *true_counts);
    clipped = malloc(lengths[2]);
    buckets = malloc(lengths[3]);
    side = malloc(lengths[4]);
    work = malloc(lengths[5] * sizeof *work);
    return ledger && true_counts && clipped && buckets && side && work;
}

static void free_areas(void)
{
    free(ledger);
    free(true_counts);
    free(clipped);
    free(buckets);
    free(side);
    free(work);
}

static void search(const char *what, const uint8_t key[FLOW_IPV4_WIDTH])
{
    uint64_t found = flow_search(SETTINGS, clipped, lengths[2], buckets, lengths[3], side, lengths[4], key, FLOW_IPV4_WIDTH);
    printf("%s: answer %" PRIu64 ", class %" PRIu64 "\n", what, found >> 32, found & UINT32_MAX);
}

int main(void)
{
    /* addresses 10.0.0.1 and 10.0.0.2, ports 5060 and 5060, protocol 17 */
    uint8_t call[FLOW_IPV4_WIDTH] = {10, 0, 0, 1, 10, 0, 0, 2, 0x13, 0xc4, 0x13, 0xc4, 17};
    uint8_t line[FLOW_IPV4_WIDTH] = {10, 0, 0, 3, 10, 0, 0, 4, 0x01, 0xbb, 0x01, 0xbb, 6};

    if (!lend_areas()) {
        fputs("no memory for the areas\n", stderr);
        return 1;
    }
    /* clear takes areas with any contents, such as malloc's */
    printf("clear: %" PRIu32 "\n", flow_clear(SETTINGS, AREAS));
    printf("add a call: %" PRIu32 "\n", flow_add(SETTINGS, AREAS, work, lengths[5], call, FLOW_IPV4_WIDTH, 5));
    printf("add a line: %" PRIu32 "\n", flow_add(SETTINGS, AREAS, work, lengths[5], line, FLOW_IPV4_WIDTH, 1));
    printf("add the call again: %" PRIu32 "\n", flow_add(SETTINGS, AREAS, work, lengths[5], call, FLOW_IPV4_WIDTH, 6));
    search("the call", call);
    printf("change the call: %" PRIu32 "\n", flow_change(SETTINGS, AREAS, work, lengths[5], call, FLOW_IPV4_WIDTH, 7));
    search("the call", call);
    printf("remove the call: %" PRIu32 "\n", flow_remove(SETTINGS, AREAS, work, lengths[5], call, FLOW_IPV4_WIDTH));
    printf("remove the call again: %" PRIu32 "\n", flow_remove(SETTINGS, AREAS, work, lengths[5], call, FLOW_IPV4_WIDTH));
    search("the call", call);
    search("the line", line);
    free_areas();
    return 0;
}
