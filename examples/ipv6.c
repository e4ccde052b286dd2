/* A node that is turned to IPv6: keys of 37 bytes. Of a packet the flow is added, searched and saved; the card restarts, loads the file and searches
 * again. Beside it comes a packet of the same flow behind an extension header, whose ports are not looked for.
 *
 *     gcc -std=c11 -Iinclude examples/ipv6.c target/staticlib/libcard.a -o ipv6 && ./ipv6
 */
#include "flow.h"
#include <inttypes.h>
#include <stdio.h>
#include <stdlib.h>
#include <string.h>

#if FLOW_INTERFACE != 2
#error "written for another interface of the flow table"
#endif

enum { KEY = FLOW_IPV6_WIDTH, BYTES = FLOW_HASH_TABLE_NUMBERS(KEY), HALF_BYTES = FLOW_HALF_BYTE_TABLE_NUMBERS, HEADER = 40 };

/* 64 buckets, 3 hashes a key, room for 2 records a bucket, top count 4, at most 128 flows, 8 side places, keys of 37 bytes. */
static const struct flow_settings settings = {.p = 6, .k = 3, .room = 2, .top = 4, .capacity = 128, .side_places = 8, .width = KEY};
static struct flow_table table;

/* Tables for the hash: by byte, and by half-byte in an eighth of the memory. A driver keeps one of them. */
static uint64_t by_byte[BYTES], by_half_byte[HALF_BYTES];

/* Next headers: UDP, and the extension header of a fragment. */
enum { UDP = 17, FRAGMENT = 44 };

/* From 2001:db8::1 to 2001:db8::2, version 6, with this next header; what follows the header comes after its 40 bytes. */
static void put_header(uint8_t packet[HEADER], uint8_t next_header, uint8_t payload_length)
{
    static const uint8_t from[16] = {0x20, 0x01, 0x0d, 0xb8, [15] = 1}, to[16] = {0x20, 0x01, 0x0d, 0xb8, [15] = 2};
    const uint8_t start[8] = {0x60, 0, 0, 0, 0, payload_length, next_header, 64};
    memcpy(packet, start, sizeof start);
    memcpy(packet + 8, from, sizeof from);
    memcpy(packet + 24, to, sizeof to);
}

static void show(const char *what, uint64_t found)
{
    printf("%s: answer %d, class %" PRIu32 "\n", what, (int)flow_answer_of(found), flow_class_of(found));
}

/* What a driver does with each packet: its key, and the class of the flow with that key, here by every way to hash. */
static void class_of(const char *what, const uint8_t *packet, size_t bytes)
{
    uint8_t key[KEY];
    uint32_t answer = flow_packet6_key(packet, bytes, key, KEY);
    if (answer != FLOW_DONE) {
        printf("%s: refused with %" PRIu32 "\n", what, answer);
        return;
    }
    printf("%s: ports %d and %d, next header %d\n", what, key[32] * 256 + key[33], key[34] * 256 + key[35], key[36]);
    show("  with no table", flow_table_search(&table, key));
    show("  by byte", flow_table_search_lent(&table, by_byte, BYTES, key));
    show("  by half-byte", flow_table_search_lent(&table, by_half_byte, HALF_BYTES, key));
}

static void add(const char *what, const uint8_t *packet, size_t bytes, uint32_t class)
{
    uint8_t key[KEY];
    flow_packet6_key(packet, bytes, key, KEY);
    printf("add %s: %" PRIu32 "\n", what, flow_table_add(&table, key, class));
}

/* The card restarts: its memory is lost, and a file of first count 7, with the width after the other settings, brings all back. */
static void restart(void *memory, size_t bytes)
{
    uint8_t file[FLOW_FILE_HEAD_BYTES(KEY) + FLOW_RECORD_BYTES(KEY) * 2];
    printf("save: %" PRIu32 "\n", flow_table_save(&table, file, sizeof file));
    printf("the file: %zu bytes, first count %d, width %d\n", sizeof file, file[1], file[15]);
    memset(memory, 0xff, bytes);
    memset(&table.settings, 0xff, sizeof table.settings);
    printf("load: %" PRIu32 ", settings", flow_table_load(&table, file, sizeof file));
    printf(" %" PRIu64 ", %" PRIu64 ", %" PRIu64 ", %" PRIu64 ", %" PRIu64 ", %" PRIu64 ", %" PRIu64 "\n", FLOW_SETTINGS(&table.settings));
}

int main(void)
{
    /* a call between port 5060 and port 5060: the packet, and one that came in fragments, with the UDP header behind the fragment's */
    uint8_t packet[HEADER + 8], behind[HEADER + 16], ipv4_key[FLOW_IPV4_WIDTH] = {0};
    const uint8_t udp[8] = {0x13, 0xc4, 0x13, 0xc4, 0, 8, 0, 0}, fragment[8] = {UDP, 0, 0, 1, 0, 0, 0, 9};
    put_header(packet, UDP, 8);
    memcpy(packet + HEADER, udp, 8);
    put_header(behind, FRAGMENT, 16);
    memcpy(behind + HEADER, fragment, 8);
    memcpy(behind + HEADER + 8, udp, 8);

    size_t bytes = flow_table_bytes(&settings);
    void *memory = malloc(bytes);
    if (memory == NULL) {
        fputs("no memory for the table\n", stderr);
        return 1;
    }
    printf("hash table by byte: %" PRIu32 "\n", flow_hash_table(KEY, by_byte, BYTES));
    printf("hash table by half-byte: %" PRIu32 "\n", flow_hash_table(KEY, by_half_byte, HALF_BYTES));
    /* a table is cleared as it is opened */
    printf("clear: %" PRIu32 "\n", flow_table_open(&table, &settings, memory, bytes));
    add("the call", packet, sizeof packet, 5);
    class_of("the packet", packet, sizeof packet);
    class_of("behind a fragment header", behind, sizeof behind);

    /* it is found by a flow of its own: the same addresses, zero ports, next header 44 */
    add("what comes behind a fragment header", behind, sizeof behind, 6);
    class_of("behind a fragment header", behind, sizeof behind);

    /* what is no IPv6 packet, what has no ports, and a key of another width, which only the door itself takes */
    class_of("the packet cut after its header", packet, HEADER);
    class_of("the packet cut in its header", packet, HEADER - 1);
    packet[0] = 0x45;
    class_of("the packet with version 4", packet, sizeof packet);
    packet[0] = 0x60;
    show("a key of 13 bytes", flow_search(FLOW_SETTINGS(&settings), FLOW_LOOKUP(&table.areas), ipv4_key, FLOW_IPV4_WIDTH));

    restart(memory, bytes);
    class_of("the packet", packet, sizeof packet);
    class_of("behind a fragment header", behind, sizeof behind);
    free(memory);
    return 0;
}
