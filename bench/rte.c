/* rte_hash of DPDK, where bin/bench --dpdk compiles this with -DDPDK; else nothing. */
#include "others.h"

#ifdef DPDK

#include <rte_eal.h>
#include <rte_hash.h>
#include <rte_lcore.h>
#include <string.h>

enum { BULK = 32 };
static const uint64_t ABSENT = (uint64_t)100 << 32;

static struct rte_hash *hash, *counted;
static unsigned compared;

static int counting_compare(const void *a, const void *b, size_t length)
{
    compared++;
    return memcmp(a, b, length);
}

int rte_start(void)
{
    char *words[] = {"bench", "--no-huge", "--no-pci", "-m", "256", "--no-telemetry", "--log-level", "error", "-l", "0"};
    return rte_eal_init(sizeof words / sizeof words[0], words) < 0;
}

/* The least power of two that is filled to at most 8/9: a cuckoo table that is fuller may refuse a key. */
static struct rte_hash *create(const char *name, size_t flows)
{
    uint32_t entries = 8;
    while (entries < flows + flows / 8) {
        entries *= 2;
    }
    struct rte_hash_parameters wanted = {
        .name = name,
        .entries = entries,
        .key_len = KEY,
        .socket_id = SOCKET_ID_ANY,
    };
    return rte_hash_create(&wanted);
}

int rte_build(uint8_t keys[][KEY], const uint32_t *classes, size_t flows)
{
    rte_hash_free(hash);
    rte_hash_free(counted);
    hash = create("flows", flows);
    counted = create("counted", flows);
    if (hash == NULL || counted == NULL) {
        return 1;
    }
    for (size_t i = 0; i < flows; i++) {
        void *data = (void *)(uintptr_t)classes[i];
        if (rte_hash_add_key_data(hash, keys[i], data) != 0 || rte_hash_add_key_data(counted, keys[i], data) != 0) {
            return 1;
        }
    }
    rte_hash_set_cmp_func(counted, counting_compare);
    return 0;
}

/* Data on a hit, with no branch on it, as nothing foresees it. */
static uint64_t answer(uint64_t hit, const void *data) { return ((uint64_t)(uintptr_t)data & -hit) | (ABSENT & ~-hit); }

uint64_t rte_search(const uint8_t *key)
{
    void *data = NULL;
    uint64_t hit = rte_hash_lookup_data(hash, key, &data) >= 0;
    return answer(hit, data);
}

uint32_t rte_search_bulk(const uint8_t *keys, size_t n, uint64_t *answers)
{
    static void *data[BULK];
    const void *pointers[BULK];
    uint64_t hits = 0;
    for (size_t i = 0; i < n; i++) {
        pointers[i] = keys + KEY * i;
    }
    if (rte_hash_lookup_bulk_data(hash, pointers, (uint32_t)n, &hits, data) < 0) {
        return 1;
    }
    for (size_t i = 0; i < n; i++) {
        answers[i] = answer(hits >> i & 1, data[i]);
    }
    return 0;
}

unsigned rte_reads(const uint8_t *key)
{
    void *data;
    compared = 0;
    rte_hash_lookup_data(counted, key, &data);
    return compared;
}

#endif
