/* A bench that draws its calls by itself: the 10,000 calls of `bin/flowload 1 0 1000 10000`, from a generator that the bench holds, on
 * flowrun's table. It prints how often each call had each answer, which is what `bin/flowload 1 0 1000 10000 | bin/flowrun` gives.
 *
 *     gcc -std=c11 -Iinclude examples/load.c target/staticlib/libcard.a -o load && ./load
 */
#include "flow.h"
#include <inttypes.h>
#include <stdio.h>
#include <stdlib.h>

/* flowrun's settings. */
static const struct flow_settings settings = {.p = 6, .k = 3, .room = 2, .top = 4, .capacity = 128, .side_places = 8, .width = FLOW_IPV4_WIDTH};
static struct flow_table table;
enum { CALLS = 10000, FLOWS = 1000 };

/* The call that two numbers make: its kind is the first modulo 4, its class the low 32 bits of the first, its key the second modulo the flow
 * count in eight bytes, high byte first, then five zero bytes. */
static uint32_t play(uint64_t first, uint64_t second)
{
    uint8_t key[FLOW_IPV4_WIDTH] = {0};
    uint32_t class = (uint32_t)first;
    for (int i = 0; i < 8; i++) {
        key[i] = (uint8_t)(second % FLOWS >> 8 * (7 - i));
    }
    switch (first % 4) {
    case 0:
        return flow_table_add(&table, key, class);
    case 1:
        return flow_table_change(&table, key, class);
    case 2:
        return flow_table_remove(&table, key);
    default:
        return flow_answer_of(flow_table_search(&table, key));
    }
}

int main(void)
{
    struct flow_generator generator = {.s = 1, .w = 0};
    static int counts[4][FLOW_ABSENT + 1];

    size_t bytes = flow_table_bytes(&settings);
    void *memory = malloc(bytes);
    if (memory == NULL || flow_table_open(&table, &settings, memory, bytes) != FLOW_DONE) {
        fputs("no table\n", stderr);
        return 1;
    }
    for (int i = 0; i < CALLS; i++) {
        uint64_t first = flow_generator_next(&generator);
        uint64_t second = flow_generator_next(&generator);
        counts[first % 4][play(first, second)]++;
    }
    for (int kind = 0; kind < 4; kind++) {
        for (int answer = 0; answer <= FLOW_ABSENT; answer++) {
            if (counts[kind][answer] > 0) {
                printf("%c answered %d: %d\n", "ICDS"[kind], answer, counts[kind][answer]);
            }
        }
    }
    printf("generator: s %" PRIu64 ", w %" PRIu64 "\n", generator.s, generator.w);
    free(memory);
    return 0;
}
