#include "layout.h"
#include "plain_parts.h"
#include <stdlib.h>

enum { MOST_BUCKETS = 4096 };

static int by_key(const void *a, const void *b) { return memcmp(a, b, KEY); }

/* The key's bucket numbers, repeats dropped; how many. */
static size_t numbers_of(const struct flow_settings *set, const uint64_t *table, const uint8_t *key, size_t *numbers)
{
    const uint64_t h = hash_of(table, key);
    size_t n = 0;
    for (size_t j = 0; j < set->k; j++) {
        size_t b = h >> 16 * j & (((size_t)1 << set->p) - 1), i = 0;
        while (i < n && numbers[i] != b) {
            i++;
        }
        if (i == n) {
            numbers[n++] = b;
        }
    }
    return n;
}

int lay_out(const struct flow_settings *set, uint64_t flows, const uint64_t *table, uint8_t keys[][KEY], uint32_t *classes, struct flow_areas *at)
{
    static uint8_t records[MOST_FLOWS][RECORD];
    static size_t true_counts[MOST_BUCKETS], choosers[MOST_BUCKETS], choice[MOST_FLOWS];
    const size_t m = (size_t)1 << set->p, bucket_size = 1 + RECORD * set->room, nowhere = m;
    size_t numbers[4];

    for (size_t i = 0; i < flows; i++) {
        put_record(records[i], keys[i], classes[i]);
    }
    qsort(records, flows, RECORD, by_key);
    memset(true_counts, 0, sizeof true_counts);
    memset(choosers, 0, sizeof choosers);
    for (size_t i = 0; i < flows; i++) {
        const uint8_t *r = records[i];
        memcpy(keys[i], r, KEY);
        classes[i] = class_of(r);
        size_t n = numbers_of(set, table, r, numbers);
        for (size_t j = 0; j < n; j++) {
            true_counts[numbers[j]]++;
        }
    }
    /* the least count below T and, of its buckets, the lowest */
    for (size_t i = 0; i < flows; i++) {
        size_t n = numbers_of(set, table, records[i], numbers), least = set->top, best = nowhere;
        for (size_t j = 0; j < n; j++) {
            size_t b = numbers[j], count = true_counts[b];
            if (count < least || (best != nowhere && count == least && b < best)) {
                least = count;
                best = b;
            }
        }
        choice[i] = best;
        if (best != nowhere) {
            choosers[best]++;
        }
    }

    free(at->clipped);
    free(at->buckets);
    free(at->side);
    at->clipped_length = m / 2;
    at->buckets_length = m * bucket_size;
    at->side_length = 2 + RECORD * set->side_places;
    at->clipped = calloc(at->clipped_length, 1);
    at->buckets = calloc(at->buckets_length, 1);
    at->side = calloc(at->side_length, 1);
    if (at->clipped == NULL || at->buckets == NULL || at->side == NULL) {
        return 1;
    }
    for (size_t b = 0; b < m; b++) {
        size_t count = true_counts[b] < set->top ? true_counts[b] : set->top;
        at->clipped[b / 2] = (uint8_t)(at->clipped[b / 2] | count << 4 * (b % 2));
        at->buckets[b * bucket_size] = choosers[b] > set->room ? 255 : 0;
    }
    size_t on_side = 0;
    for (size_t i = 0; i < flows; i++) {
        uint8_t *bucket = choice[i] == nowhere ? NULL : at->buckets + choice[i] * bucket_size;
        if (bucket != NULL && bucket[0] != 255) {
            memcpy(bucket + 1 + RECORD * bucket[0]++, records[i], RECORD);
        } else if (on_side < set->side_places) {
            memcpy(at->side + 2 + RECORD * on_side++, records[i], RECORD);
        } else {
            return 1;
        }
    }
    at->side[1] = (uint8_t)on_side;
    return 0;
}
