/* What the C of the benchmark shares: the hash by table, keys compared, records, the judgement of settings. All of it is
 * inlined, so each file that a compiler makes is whole. */
#ifndef PLAIN_PARTS_H
#define PLAIN_PARTS_H

#include "width.h"
#include <stddef.h>
#include <stdint.h>
#include <string.h>

/* Whatever a compiler thinks of the size. */
#define INLINED __attribute__((always_inline)) static inline

enum { MOST_FLOWS = 4096, ABSENT = 100 };

/* What a search answers. */
INLINED uint64_t answer(uint64_t number, uint64_t class) { return number << 32 | class; }

INLINED uint64_t hash_of(const uint64_t *table, const uint8_t *key)
{
    uint64_t h = 0;
    for (size_t a = 0; a < KEY; a++) {
        h ^= table[256 * a + key[a]];
    }
    return h;
}

/* By half-byte: of each byte the low four bits, then the high ones. */
INLINED uint64_t hash_of_halves(const uint64_t *table, const uint8_t *key)
{
    uint64_t h = 0;
    for (size_t a = 0; a < KEY; a++) {
        h ^= table[32 * a + key[a] % 16] ^ table[32 * a + 16 + key[a] / 16];
    }
    return h;
}

/* A table of one of the lengths for the width: by byte, or at 37 by half-byte. */
INLINED int is_table(size_t length) { return length == TABLE || (WIDE && length == HALVES); }
INLINED uint64_t hash_by(const uint64_t *table, size_t length, const uint8_t *key)
{
    return WIDE && length == HALVES ? hash_of_halves(table, key) : hash_of(table, key);
}

INLINED uint64_t load(const uint8_t *at)
{
    uint64_t x;
    memcpy(&x, at, 8);
    return x;
}

/* Loads of 8 bytes, of which the last two overlap: two of 13 bytes, five of 37. */
INLINED int same_key(const uint8_t *a, const uint8_t *b)
{
    uint64_t other = load(a + KEY - 8) ^ load(b + KEY - 8);
    for (size_t i = 0; i + 8 <= KEY; i += 8) {
        other |= load(a + i) ^ load(b + i);
    }
    return other == 0;
}

/* One load. */
INLINED uint32_t class_of(const uint8_t *record)
{
    uint32_t x;
    memcpy(&x, record + KEY, 4);
    return __builtin_bswap32(x);
}

INLINED void put_record(uint8_t *record, const uint8_t *key, uint32_t class)
{
    memcpy(record, key, KEY);
    for (int i = 0; i < 4; i++) {
        record[KEY + i] = (uint8_t)(class >> 8 * (3 - i));
    }
}

INLINED int out_of_range(uint64_t p, uint64_t k, uint64_t room, uint64_t top, uint64_t capacity, uint64_t side_places,
                         uint64_t width)
{
    return p - 4 > 8 || k - 1 > 3 || room - 1 > 3 || top - 2 > 13 || capacity - 1 > 4095 || side_places > 64 || width != KEY;
}

/* What a search with a lent table refuses before it reads a key: 1, 2, or 0 for nothing. */
INLINED uint32_t judge_search(size_t table_length, uint64_t p, uint64_t k, uint64_t room, uint64_t top, uint64_t capacity,
                              uint64_t side_places, uint64_t width, size_t clipped_length, size_t buckets_length, size_t side_length)
{
    if (out_of_range(p, k, room, top, capacity, side_places, width)) {
        return 1;
    }
    const size_t m = (size_t)1 << p;
    return !is_table(table_length) || clipped_length != m / 2 || buckets_length != m * (1 + RECORD * room) ||
                   side_length != 2 + RECORD * side_places
               ? 2
               : 0;
}

/* The first of n records with the key. */
INLINED uint64_t compare(const uint8_t *record, size_t n, const uint8_t *key)
{
    for (size_t i = 0; i < n; i++, record += RECORD) {
        if (same_key(record, key)) {
            return answer(0, class_of(record));
        }
    }
    return answer(ABSENT, 0);
}

INLINED uint64_t compare_side(const uint8_t *side, uint64_t side_places, const uint8_t *key)
{
    size_t n = (size_t)side[0] << 8 | side[1];
    return n > side_places ? answer(5, 0) : compare(side + 2, n, key);
}

#endif
