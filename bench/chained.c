#include "others.h"
#include "plain_parts.h"

enum { HEADS = 4096 };

struct node {
    uint8_t key[KEY];
    uint32_t class;
    const struct node *next;
};

static struct node nodes[MOST_FLOWS];
static const struct node *heads[HEADS];

static size_t head_of(const uint64_t *table, const uint8_t *key) { return hash_of(table, key) % HEADS; }

void chained_build(const uint64_t *table, uint8_t keys[][KEY], const uint32_t *classes, size_t flows)
{
    memset(heads, 0, sizeof heads);
    for (size_t i = 0; i < flows; i++) {
        size_t head = head_of(table, keys[i]);
        memcpy(nodes[i].key, keys[i], KEY);
        nodes[i].class = classes[i];
        nodes[i].next = heads[head];
        heads[head] = &nodes[i];
    }
}

uint64_t chained_search(const uint64_t *table, const uint8_t *key)
{
    for (const struct node *node = heads[head_of(table, key)]; node != NULL; node = node->next) {
        if (same_key(node->key, key)) {
            return node->class;
        }
    }
    return answer(ABSENT, 0);
}

unsigned chained_reads(const uint64_t *table, const uint8_t *key)
{
    unsigned reads = 0;
    for (const struct node *node = heads[head_of(table, key)]; node != NULL; node = node->next) {
        reads++;
        if (same_key(node->key, key)) {
            break;
        }
    }
    return reads;
}
