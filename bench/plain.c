/* The hash and the search with a lent table in plain C. */
#include "plain.h"
#include "plain_parts.h"

uint32_t plain_hash_lent(WIDTH_FIRST const uint64_t *table, size_t table_length, const uint8_t *key, size_t key_length, uint64_t *h,
                         size_t h_length)
{
    if (GIVEN_WIDTH != KEY) {
        return 1;
    }
    if (!is_table(table_length) || h_length != 1) {
        return 2;
    }
    if (key_length != KEY) {
        return 3;
    }
    h[0] = hash_by(table, table_length, key);
    return 0;
}

uint64_t plain_search_lent(const uint64_t *table, size_t table_length, uint64_t p, uint64_t k, uint64_t room, uint64_t top,
                           uint64_t capacity, uint64_t side_places WIDTH_LAST, const uint8_t *clipped, size_t clipped_length,
                           const uint8_t *buckets, size_t buckets_length, const uint8_t *side, size_t side_length, const uint8_t *key,
                           size_t key_length)
{
    uint32_t refused = judge_search(table_length, p, k, room, top, capacity, side_places, GIVEN_WIDTH, clipped_length, buckets_length, side_length);
    if (refused != 0) {
        return answer(refused, 0);
    }
    if (key_length != KEY) {
        return answer(3, 0);
    }
    const size_t m = (size_t)1 << p;
    uint64_t h = hash_by(table, table_length, key);
    /* the least counter and, of its buckets, the lowest: the least of counter x 65536 + bucket */
    uint32_t best = UINT32_MAX, above = 0;
    for (size_t j = 0; j < k; j++) {
        uint32_t b = (uint32_t)(h >> 16 * j & (m - 1));
        uint32_t count = clipped[b / 2] >> 4 * (b % 2) & 15;
        uint32_t both = count << 16 | b;
        above |= count > top;
        best = both < best ? both : best;
    }
    if (above) {
        return answer(5, 0);
    }
    uint32_t least = best >> 16;
    if (least == 0) {
        return answer(ABSENT, 0);
    }
    if (least == top) {
        return compare_side(side, side_places, key);
    }
    const uint8_t *bucket = buckets + (best & 65535) * (1 + RECORD * room);
    uint8_t mark = bucket[0];
    if (mark == 255) {
        return compare_side(side, side_places, key);
    }
    if (mark > room) {
        return answer(5, 0);
    }
    return compare(bucket + 1, mark, key);
}
