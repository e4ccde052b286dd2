/* Packets and bytes counted by key, in memory that does not grow with the capture: at most MOST_COUNTED keys, and all others together. */
#ifndef TALLY_H
#define TALLY_H

#include "flow.h"
#include <stdbool.h>

enum { MOST_COUNTED = 65536 };

struct counted {
    uint64_t packets, bytes;
    uint8_t width; /* of its key */
    uint8_t key[FLOW_IPV6_WIDTH];
};

struct tally {
    size_t count;
    struct counted *list; /* in the order in which the keys came */
    uint32_t *places;     /* by hash: the number of a key in the list, and 1; 0 for none */
    struct counted others;
};

/* False: no memory. */
bool tally_open(struct tally *tally);
void tally_close(struct tally *tally);

/* Where packets of a key of up to 37 bytes are counted, by whoever asks: in the list, as a fresh one where it has room, or with the others. */
struct counted *tally_of(struct tally *tally, const uint8_t *key, size_t width);

/* Counts a packet of this many bytes. */
static inline void tally_count(struct counted *counted, uint64_t bytes)
{
    counted->packets++;
    counted->bytes += bytes;
}

/* The list by falling packets, then bytes, then rising keys; or by keys alone. Nothing is counted after it. */
void tally_sort_by_packets(struct tally *tally);
void tally_sort_by_keys(struct tally *tally);

#endif
