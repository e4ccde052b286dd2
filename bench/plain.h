/* The searches that the doors are measured against: C of the same algorithm on the same areas, with the same judgements, but
 * compiled for one width, and refusing another. */
#ifndef PLAIN_H
#define PLAIN_H

#include <stddef.h>
#include <stdint.h>

/* The width as the doors take it, first of all or last of the settings. bin/bench --before compiles this C a second time, for the interface of the
 * earlier library, so that its doors, too, stand beside C that takes what they take: of interface 1, six settings and no width. */
#if PLAIN_INTERFACE == 1
#define WIDTH_FIRST
#define WIDTH_LAST
#define GIVEN_WIDTH KEY
#else
#define WIDTH_FIRST uint64_t width,
#define WIDTH_LAST , uint64_t width
#define GIVEN_WIDTH width
#endif

/* As flow_hash_lent. */
typedef uint32_t hash_lent(WIDTH_FIRST const uint64_t *table, size_t table_length, const uint8_t *key, size_t key_length, uint64_t *h,
                           size_t h_length);

/* As flow_search_lent. */
typedef uint64_t search_lent(const uint64_t *table, size_t table_length, uint64_t p, uint64_t k, uint64_t room, uint64_t top,
                             uint64_t capacity, uint64_t side_places WIDTH_LAST, const uint8_t *clipped, size_t clipped_length,
                             const uint8_t *buckets, size_t buckets_length, const uint8_t *side, size_t side_length, const uint8_t *key,
                             size_t key_length);

/* As flow_search_burst: a key after the other in keys, the answer of each in answers. */
typedef uint32_t search_burst(const uint64_t *table, size_t table_length, uint64_t p, uint64_t k, uint64_t room, uint64_t top,
                              uint64_t capacity, uint64_t side_places WIDTH_LAST, const uint8_t *clipped, size_t clipped_length,
                              const uint8_t *buckets, size_t buckets_length, const uint8_t *side, size_t side_length, const uint8_t *keys,
                              size_t keys_length, uint64_t *answers, size_t answers_length);

/* plain.c. A bucket's records are compared up to the one with the key. */
hash_lent plain_hash_lent;
search_lent plain_search_lent;

/* tuned.c. Every record of a bucket is compared, with no branch on what is equal. The bursts make three passes over their keys: hashes,
 * counters, buckets; one of them asks for each bucket ahead, in the second pass. */
search_lent tuned_search_lent;
search_burst tuned_search_burst, tuned_search_burst_ahead;

#endif
