#include "lookups.h"
#include "timing.h"
#include <inttypes.h>
#include <stdio.h>
#include <string.h>

struct flow_settings set;
struct flow_areas at;
uint64_t flows;
uint64_t table[TABLE], halves[HALVES];
uint8_t held[MOST_FLOWS][KEY], absent[MOST_FLOWS][KEY];
uint32_t classes[MOST_FLOWS];
uint8_t order[LOOKUPS][KEY];
uint64_t wanted[LOOKUPS];

static void random_key(uint8_t *key)
{
    for (int a = 0; a < KEY; a++) {
        key[a] = (uint8_t)random_number();
    }
}

int fill_hash_tables(void) { return flow_hash_table(WIDTH, table, TABLE) != 0 || (WIDE && flow_hash_table(WIDTH, halves, HALVES) != 0); }

int fill_table(void)
{
    for (uint64_t i = 0; i < flows; i++) {
        random_key(held[i]);
        random_key(absent[i]);
        classes[i] = (uint32_t)random_number();
    }
    if (lay_out(&set, flows, table, held, classes, &at) != 0) {
        printf("%" PRIu64 " flows: no layout\n", flows);
        return 1;
    }
    return 0;
}

uint64_t draw(enum mix mix)
{
    uint64_t sum = 0;
    for (int i = 0; i < LOOKUPS; i++) {
        uint64_t x = random_number(), flow = x % flows;
        int hit = mix == HITS || (mix == HALF && x >> 63);
        memcpy(order[i], hit ? held[flow] : absent[flow], KEY);
        sum += wanted[i] = hit ? classes[flow] : ABSENT;
    }
    return sum;
}
