/* newcomer.c with the bare doors, which take each setting and each area by itself.
 *
 *     gcc -std=c11 -Iinclude examples/newcomer_doors.c target/staticlib/libcard.a -o newcomer_doors && ./newcomer_doors
 */
#include "flow.h"
#include <stdio.h>
#include <stdlib.h>

/* 64 buckets, 3 hashes a key, room for 2 records a bucket, top count 4, at most 128 flows, 8 side places, keys of 13 bytes. */
#define SETTINGS 6, 3, 2, 4, 128, 8, FLOW_IPV4_WIDTH

/* The areas of a table, of the lengths that flow_area_lengths gives, in the order of the doors. */
struct areas {
    uint64_t lengths[6];
    uint8_t *ledger, *clipped, *buckets, *side;
    uint16_t *true_counts, *work;
};

#define LOOKUP(a) (a)->clipped, (a)->lengths[2], (a)->buckets, (a)->lengths[3], (a)->side, (a)->lengths[4]
#define AREAS(a) (a)->ledger, (a)->lengths[0], (a)->true_counts, (a)->lengths[1], LOOKUP(a)
#define WORK(a) (a)->work, (a)->lengths[5]

/* Ends the program where something is not so. */
#define CHECK(good) ((good) ? (void)0 : (fprintf(stderr, "line %d: not so: %s\n", __LINE__, #good), exit(1)))

static void lend_areas(struct areas *a)
{
    CHECK(flow_area_lengths(SETTINGS, a->lengths, 6) == 0);
    a->ledger = malloc(a->lengths[0]);
    a->true_counts = malloc(a->lengths[1] * sizeof *a->true_counts);
    a->clipped = malloc(a->lengths[2]);
    a->buckets = malloc(a->lengths[3]);
    a->side = malloc(a->lengths[4]);
    a->work = malloc(a->lengths[5] * sizeof *a->work);
    CHECK(a->ledger && a->true_counts && a->clipped && a->buckets && a->side && a->work);
    CHECK(flow_clear(SETTINGS, AREAS(a)) == 0);
}

static void free_areas(struct areas *a)
{
    free(a->ledger);
    free(a->true_counts);
    free(a->clipped);
    free(a->buckets);
    free(a->side);
    free(a->work);
}

int main(void)
{
    /* 10.0.0.1 to 10.0.0.2, port 5060 at both ends, protocol 17; 10.0.0.3 to 10.0.0.4, port 443 at both ends, protocol 6 */
    const uint8_t call[] = {10, 0, 0, 1, 10, 0, 0, 2, 0x13, 0xc4, 0x13, 0xc4, 17}, line[] = {10, 0, 0, 3, 10, 0, 0, 4, 0x01, 0xbb, 0x01, 0xbb, 6};
    struct areas first, second;
    lend_areas(&first);
    lend_areas(&second);
    CHECK(flow_add(SETTINGS, AREAS(&first), WORK(&first), call, FLOW_IPV4_WIDTH, 5) == 0 &&
          flow_add(SETTINGS, AREAS(&first), WORK(&first), line, FLOW_IPV4_WIDTH, 1) == 0);
    uint64_t found = flow_search(SETTINGS, LOOKUP(&first), call, FLOW_IPV4_WIDTH);
    CHECK(found >> 32 == 0);
    printf("the call has class %u\n", (unsigned)(found & UINT32_MAX));
    size_t flows = (size_t)(first.ledger[0] << 8 | first.ledger[1]);
    size_t file_bytes = FLOW_FILE_HEAD_BYTES(FLOW_IPV4_WIDTH) + FLOW_RECORD_BYTES(FLOW_IPV4_WIDTH) * flows;
    uint8_t *file = malloc(file_bytes);
    CHECK(file != NULL && flow_save(SETTINGS, first.ledger, first.lengths[0], WORK(&first), file, file_bytes) == 0);
    uint64_t s[FLOW_SETTINGS_COUNT];
    CHECK(flow_load(file, file_bytes, AREAS(&second), WORK(&second), s, FLOW_SETTINGS_COUNT) == 0);
    CHECK(flow_search(s[0], s[1], s[2], s[3], s[4], s[5], s[6], LOOKUP(&second), call, FLOW_IPV4_WIDTH) == found);
    printf("after a save and a load of %zu bytes it has the same\n", file_bytes);
    free(file);
    free_areas(&second);
    free_areas(&first);
    return 0;
}
