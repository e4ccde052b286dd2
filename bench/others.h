/* The tables of others that the doors are measured against. Each is built once for a size, and answers as a search does: class for a held
 * key, 100 x 2^32 for an absent one. The reads of a lookup are counted by a second function, which is not timed. */
#ifndef OTHERS_H
#define OTHERS_H

#include "results.h"
#include "width.h"
#include <stddef.h>
#include <stdint.h>

/* A chained hash table in C: the same H, 4,096 heads, a node for each flow. Reads are of nodes. */
void chained_build(const uint64_t *table, uint8_t keys[][KEY], const uint32_t *classes, size_t flows);
uint64_t chained_search(const uint64_t *table, const uint8_t *key);
unsigned chained_reads(const uint64_t *table, const uint8_t *key);

/* std's HashMap with its own hash (bench/hashmap.rs). Reads are of slots whose key is compared. */
void hashmap_build(const uint8_t *keys, const uint32_t *classes, size_t flows);
uint64_t hashmap_search(const uint8_t *key);
unsigned hashmap_reads(const uint8_t *key);

/* DPDK's rte_hash with its own hash: a single lookup, and one of up to 32 keys at once, with an answer for each. Reads are of slots whose
 * key is compared; a lookup probes up to 2 buckets before. These are NULL where rte.c is compiled without DPDK. */
int rte_start(void) WHERE_LINKED;
int rte_build(uint8_t keys[][KEY], const uint32_t *classes, size_t flows) WHERE_LINKED;
uint64_t rte_search(const uint8_t *key) WHERE_LINKED;
uint32_t rte_search_bulk(const uint8_t *keys, size_t n, uint64_t *answers) WHERE_LINKED;
unsigned rte_reads(const uint8_t *key) WHERE_LINKED;

#endif
