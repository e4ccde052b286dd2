/* A card that restarts: its flows are saved as a file and loaded into another table, and a packet finds its class there.
 *
 *     gcc -std=c11 -Iinclude examples/restart.c target/staticlib/libcard.a -o restart && ./restart
 */
#include "flow.h"
#include <inttypes.h>
#include <stdio.h>
#include <stdlib.h>

enum { KEY = FLOW_IPV4_WIDTH };

/* A table under these settings, cleared, in memory to be freed. */
static void *open_table(struct flow_table *table, const struct flow_settings *settings)
{
    size_t bytes = flow_table_bytes(settings);
    void *memory = bytes > 0 ? malloc(bytes) : NULL;
    if (memory == NULL || flow_table_open(table, settings, memory, bytes) != FLOW_DONE) {
        fputs("a setting is out of range, or there is no memory\n", stderr);
        exit(1);
    }
    return memory;
}

int main(void)
{
    /* 64 buckets, 3 hashes a key, room for 2 records a bucket, top count 4, at most 3 flows, 2 side places, keys of 13 bytes */
    const struct flow_settings settings = {.p = 6, .k = 3, .room = 2, .top = 4, .capacity = 3, .side_places = 2, .width = KEY};
    /* addresses 10.0.0.1 and 10.0.0.2, ports 5060 and 5060, protocol 17 */
    const uint8_t call[KEY] = {10, 0, 0, 1, 10, 0, 0, 2, 0x13, 0xc4, 0x13, 0xc4, 17};
    /* a packet of that call, with four bytes of options: version 4, a header of 24 bytes, protocol 17 */
    const uint8_t packet[32] = {0x46, 0, 0, 32, 0, 0, 0, 0, 64, 17, 0, 0, 10, 0, 0, 1, 10, 0, 0, 2, 1, 1, 1, 0, 0x13, 0xc4, 0x13, 0xc4, 0, 8, 0, 0};
    struct flow_table before, after;
    uint8_t file[FLOW_FILE_HEAD_BYTES(KEY) + FLOW_RECORD_BYTES(KEY) * 1], key[KEY];

    void *memory = open_table(&before, &settings);
    printf("clear: %" PRIu32 "\n", flow_table_clear(&before)); /* as the opening has done already */
    printf("add the call: %" PRIu32 "\n", flow_table_add(&before, call, 5));
    printf("save: %" PRIu32 "\n", flow_table_save(&before, file, sizeof file));
    free(memory);

    /* the card restarts, and has the file alone */
    struct flow_settings of_file;
    printf("settings of the file: %" PRIu32 "\n", flow_settings_of_file(&of_file, file, sizeof file));
    memory = open_table(&after, &of_file);
    printf("load: %" PRIu32 "\n", flow_table_load(&after, file, sizeof file));
    printf("a file cut by a byte: %" PRIu32 "\n", flow_table_load(&after, file, sizeof file - 1));
    printf("key of the packet: %" PRIu32 "\n", flow_packet_key(packet, sizeof packet, key, KEY));
    uint64_t found = flow_table_search(&after, key);
    printf("its flow: answer %d, class %" PRIu32 "\n", (int)flow_answer_of(found), flow_class_of(found));
    free(memory);
    return 0;
}
