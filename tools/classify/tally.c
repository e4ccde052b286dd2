#include "tally.h"
#include <stdlib.h>
#include <string.h>

enum { PLACES = 2 * MOST_COUNTED };

bool tally_open(struct tally *tally)
{
    memset(tally, 0, sizeof *tally);
    tally->list = malloc(MOST_COUNTED * sizeof *tally->list);
    tally->places = calloc(PLACES, sizeof *tally->places);
    return tally->list != NULL && tally->places != NULL;
}

void tally_close(struct tally *tally)
{
    free(tally->list);
    free(tally->places);
}

static uint64_t mixed(uint64_t hash, uint64_t part)
{
    hash = (hash ^ part) * UINT64_C(0x9e3779b97f4a7c15);
    return hash ^ hash >> 29;
}

/* Eight bytes at a time; the last part may take bytes of the one before it again. */
static size_t first_place(const uint8_t *key, size_t width)
{
    uint64_t hash = width, part = 0;
    if (width < sizeof part) {
        memcpy(&part, key, width);
        return (size_t)(mixed(hash, part) >> 32) % PLACES;
    }
    for (size_t at = 0; at + sizeof part < width; at += sizeof part) {
        memcpy(&part, key + at, sizeof part);
        hash = mixed(hash, part);
    }
    memcpy(&part, key + width - sizeof part, sizeof part);
    return (size_t)(mixed(hash, part) >> 32) % PLACES;
}

struct counted *tally_of(struct tally *tally, const uint8_t *key, size_t width)
{
    size_t place = first_place(key, width);
    for (; tally->places[place] != 0; place = (place + 1) % PLACES) {
        struct counted *held = &tally->list[tally->places[place] - 1];
        if (held->width == width && memcmp(held->key, key, width) == 0) {
            return held;
        }
    }
    if (tally->count == MOST_COUNTED) {
        return &tally->others;
    }
    struct counted *fresh = &tally->list[tally->count++];
    memset(fresh, 0, sizeof *fresh);
    fresh->width = (uint8_t)width;
    memcpy(fresh->key, key, width);
    tally->places[place] = (uint32_t)tally->count;
    return fresh;
}

static int by_keys(const void *one, const void *other)
{
    const struct counted *a = one, *b = other;
    return a->width != b->width ? (int)a->width - (int)b->width : memcmp(a->key, b->key, a->width);
}

static int by_packets(const void *one, const void *other)
{
    const struct counted *a = one, *b = other;
    if (a->packets != b->packets) {
        return a->packets > b->packets ? -1 : 1;
    }
    if (a->bytes != b->bytes) {
        return a->bytes > b->bytes ? -1 : 1;
    }
    return by_keys(one, other);
}

void tally_sort_by_packets(struct tally *tally) { qsort(tally->list, tally->count, sizeof *tally->list, by_packets); }
void tally_sort_by_keys(struct tally *tally) { qsort(tally->list, tally->count, sizeof *tally->list, by_keys); }
