/* A packet that came in two fragments: the first one has the ports, the later one has payload in their place.
 *
 *     gcc -std=c11 -Iinclude examples/fragments.c target/staticlib/libcard.a -o fragments && ./fragments
 */
#include "flow.h"
#include <inttypes.h>
#include <stdio.h>
#include <stdlib.h>

enum { KEY = FLOW_IPV4_WIDTH, HEADER = 20, MORE_FRAGMENTS = 0x20, CLASS = 3 };

/* 64 buckets, 3 hashes a key, room for 2 records a bucket, top count 4, at most 128 flows, 8 side places, keys of 13 bytes. */
static const struct flow_settings settings = {.p = 6, .k = 3, .room = 2, .top = 4, .capacity = 128, .side_places = 8, .width = KEY};
static struct flow_table table;

static void add(const char *what, const uint8_t key[KEY])
{
    printf("add %s: %" PRIu32 "\n", what, flow_table_add(&table, key, CLASS));
}

/* What a driver does with each packet: its key, and the class of the flow with that key. */
static void class_of(const char *what, const uint8_t *packet, size_t bytes)
{
    uint8_t key[KEY];
    uint32_t answer = flow_packet_key(packet, bytes, key, KEY);
    if (answer != FLOW_DONE) {
        printf("%s: refused with %" PRIu32 "\n", what, answer);
        return;
    }
    uint64_t found = flow_table_search(&table, key);
    printf("%s: ports %d and %d, answer %d, class %" PRIu32 "\n", what, key[8] * 256 + key[9], key[10] * 256 + key[11],
           (int)flow_answer_of(found), flow_class_of(found));
}

int main(void)
{
    /* video from 10.0.0.1, port 5004, to 10.0.0.2, port 5004, protocol 17: the flow, and the one that its later fragments are found by */
    const uint8_t video[KEY] = {10, 0, 0, 1, 10, 0, 0, 2, 0x13, 0x8c, 0x13, 0x8c, 17};
    const uint8_t later_fragments[KEY] = {10, 0, 0, 1, 10, 0, 0, 2, 0, 0, 0, 0, 17};
    /* a packet with 1,502 bytes after its header: 1,480 in the first fragment, ports first, and 22 of payload in the later one, whose offset
     * counts 8 bytes at a time: 185 * 8 = 1,480 */
    const uint8_t first[HEADER + 1480] = {0x45, 0, 5, 220, 0, 7, MORE_FRAGMENTS, 0, 64, 17, 0, 0, 10, 0, 0, 1, 10, 0, 0, 2,
                                          0x13, 0x8c, 0x13, 0x8c, 5, 222, 0, 0};
    const uint8_t later[HEADER + 22] = {0x45, 0, 0, 42, 0, 7, 0, 185, 64, 17, 0, 0, 10, 0, 0, 1, 10, 0, 0, 2, 0x47, 0x40, 0x11, 0x10};

    size_t bytes = flow_table_bytes(&settings);
    void *memory = malloc(bytes);
    if (memory == NULL) {
        fputs("no memory for the table\n", stderr);
        return 1;
    }
    /* a table is cleared as it is opened */
    printf("clear: %" PRIu32 "\n", flow_table_open(&table, &settings, memory, bytes));
    add("the video", video);
    class_of("first fragment", first, sizeof first);
    class_of("later fragment", later, sizeof later);

    add("its later fragments", later_fragments);
    class_of("first fragment", first, sizeof first);
    class_of("later fragment", later, sizeof later);

    /* ports can be missing only where there are some */
    class_of("first fragment, 3 bytes after the header", first, HEADER + 3);
    class_of("later fragment, 3 bytes after the header", later, HEADER + 3);
    free(memory);
    return 0;
}
