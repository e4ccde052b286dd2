/* The search with a lent table in C that is written for speed, and bursts of it. There is no branch on which record has the key, nor on a
 * hit or a miss in a bucket: a processor cannot foresee these. Masks and a shift stand where gcc or clang made a branch of a choice. */
#include "plain.h"
#include "plain_parts.h"

/* What a key's counters say. */
struct choice {
    uint64_t least;   /* the least counter and, of its buckets, the lowest: the least of counter x 65536 + bucket */
    uint64_t highest; /* the highest counter */
};

INLINED struct choice choose(uint64_t h, uint64_t p, uint64_t k, uint64_t top, const uint8_t *clipped)
{
    const uint64_t m = (uint64_t)1 << p;
    struct choice choice = {top << 16 | m, 0};
    for (uint64_t j = 0; j < k; j++, h >>= 16) {
        uint64_t b = h & (m - 1), byte = clipped[b / 2], count = byte >> 4 * (b & 1) & 15, both = count << 16 | b;
        choice.highest = count > choice.highest ? count : choice.highest;
        choice.least = both < choice.least ? both : choice.least;
    }
    return choice;
}

/* All places are compared, from the last to the first, so that the first with the key stays; the mark is applied after that. */
INLINED uint64_t search_bucket(const uint8_t *bucket, uint64_t room, const uint8_t *side, uint64_t side_places, const uint8_t *key)
{
    uint64_t mark = bucket[0], first = room;
    if (__builtin_expect(mark > room, 0)) {
        return mark == 255 ? compare_side(side, side_places, key) : answer(5, 0);
    }
    for (uint64_t i = room; i-- > 0;) {
        first = same_key(bucket + 1 + RECORD * i, key) ? i : first;
    }
    uint64_t found = -(uint64_t)(first < mark);
    return (class_of(bucket + 1 + RECORD * (first & found)) & found) | (answer(ABSENT, 0) & ~found);
}

INLINED uint64_t search_chosen(struct choice choice, uint64_t room, uint64_t top, const uint8_t *buckets, const uint8_t *side,
                               uint64_t side_places, const uint8_t *key)
{
    uint64_t least = choice.least >> 16;
    if (choice.highest > top) {
        return answer(5, 0);
    }
    if (least == 0) {
        return answer(ABSENT, 0);
    }
    if (least == top) {
        return compare_side(side, side_places, key);
    }
    return search_bucket(buckets + (choice.least & 65535) * (1 + RECORD * room), room, side, side_places, key);
}

uint64_t tuned_search_lent(const uint64_t *table, size_t table_length, uint64_t p, uint64_t k, uint64_t room, uint64_t top,
                           uint64_t capacity, uint64_t side_places WIDTH_LAST, const uint8_t *clipped, size_t clipped_length,
                           const uint8_t *buckets,
                           size_t buckets_length, const uint8_t *side, size_t side_length, const uint8_t *key, size_t key_length)
{
    uint32_t refused = judge_search(table_length, p, k, room, top, capacity, side_places, GIVEN_WIDTH, clipped_length, buckets_length, side_length);
    if (refused != 0 || key_length != KEY) {
        return answer(refused != 0 ? refused : 3, 0);
    }
    return search_chosen(choose(hash_by(table, table_length, key), p, k, top, clipped), room, top, buckets, side, side_places, key);
}

/* answers holds each key's H after the first pass, what its counters say after the second. */
INLINED void three_passes(int ahead, const uint64_t *table, size_t table_length, uint64_t p, uint64_t k, uint64_t room, uint64_t top,
                          uint64_t side_places,
                          const uint8_t *clipped, const uint8_t *buckets, const uint8_t *side, const uint8_t *keys, uint64_t *answers,
                          size_t n)
{
    const size_t m = (size_t)1 << p, bucket_size = 1 + RECORD * room;
    for (size_t i = 0; i < n; i++) {
        answers[i] = hash_by(table, table_length, keys + KEY * i);
    }
    for (size_t i = 0; i < n; i++) {
        struct choice choice = choose(answers[i], p, k, top, clipped);
        answers[i] = choice.highest << 32 | choice.least;
        if (ahead) {
            const uint8_t *bucket = buckets + (choice.least & (m - 1)) * bucket_size;
            __builtin_prefetch(bucket);
            __builtin_prefetch(bucket + bucket_size - 1);
        }
    }
    for (size_t i = 0; i < n; i++) {
        struct choice choice = {answers[i] & UINT32_MAX, answers[i] >> 32};
        answers[i] = search_chosen(choice, room, top, buckets, side, side_places, keys + KEY * i);
    }
}

uint32_t tuned_search_burst(const uint64_t *table, size_t table_length, uint64_t p, uint64_t k, uint64_t room, uint64_t top,
                            uint64_t capacity, uint64_t side_places WIDTH_LAST, const uint8_t *clipped, size_t clipped_length,
                            const uint8_t *buckets, size_t buckets_length, const uint8_t *side, size_t side_length, const uint8_t *keys,
                            size_t keys_length, uint64_t *answers, size_t answers_length)
{
    uint32_t refused = judge_search(table_length, p, k, room, top, capacity, side_places, GIVEN_WIDTH, clipped_length, buckets_length, side_length);
    if (refused != 0 || keys_length != KEY * answers_length) {
        return refused != 0 ? refused : 3;
    }
    three_passes(0, table, table_length, p, k, room, top, side_places, clipped, buckets, side, keys, answers, answers_length);
    return 0;
}

uint32_t tuned_search_burst_ahead(const uint64_t *table, size_t table_length, uint64_t p, uint64_t k, uint64_t room, uint64_t top,
                                  uint64_t capacity, uint64_t side_places WIDTH_LAST, const uint8_t *clipped, size_t clipped_length,
                                  const uint8_t *buckets, size_t buckets_length, const uint8_t *side, size_t side_length,
                                  const uint8_t *keys, size_t keys_length, uint64_t *answers, size_t answers_length)
{
    uint32_t refused = judge_search(table_length, p, k, room, top, capacity, side_places, GIVEN_WIDTH, clipped_length, buckets_length, side_length);
    if (refused != 0 || keys_length != KEY * answers_length) {
        return refused != 0 ? refused : 3;
    }
    three_passes(1, table, table_length, p, k, room, top, side_places, clipped, buckets, side, keys, answers, answers_length);
    return 0;
}
