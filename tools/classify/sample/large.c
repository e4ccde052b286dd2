/* A large capture, or the flows for it, on standard output: see make_large, which compiles and runs this.
 *
 *     large PACKETS
 *     large --flows
 *
 * UDP and TCP over IPv4 over Ethernet, in frames of 60 to 200 bytes, each of a flow that is drawn from 4,000. Every run makes the same bytes.
 * The numbers of the capture's heads are in this machine's byte order, which readers recognize. */
#include <inttypes.h>
#include <stdbool.h>
#include <stdio.h>
#include <stdlib.h>
#include <string.h>

enum { FLOWS = 4000, FLOWS_A_HOST = 4, SERVICES = 4, CLASSES = 8 };
enum { LEAST_FRAME = 60, MOST_FRAME = 200, ETHERNET = 14, IP = 20, UDP_HEAD = 8, TCP_HEAD = 20, UDP = 17, TCP = 6 };
enum { START = 1767225600 }; /* 2026-01-01 00:00:00 UTC; a packet each microsecond */

struct flow {
    uint32_t source, destination;
    uint16_t source_port, destination_port;
    uint8_t protocol;
};

/* splitmix64: the number that is drawn at this step */
static uint64_t draw(uint64_t step)
{
    uint64_t z = step * 0x9e3779b97f4a7c15u;
    z = (z ^ z >> 30) * 0xbf58476d1ce4e5b9u;
    z = (z ^ z >> 27) * 0x94d049bb133111ebu;
    return z ^ z >> 31;
}

/* In 198.18.0.0/15, which RFC 2544 has for measurements. The source port is another in each flow, so that no two are the same. */
static struct flow flow_of(uint32_t number)
{
    static const uint16_t services[SERVICES] = {53, 443, 5060, 16384};
    uint64_t drawn = draw(number + 1);
    return (struct flow){.source = 0xc6120000u + number / FLOWS_A_HOST + 1,
                         .destination = 0xc6130000u + (uint32_t)(drawn % 1000) + 1,
                         .source_port = (uint16_t)(49152 + number),
                         .destination_port = services[number % SERVICES],
                         .protocol = services[number % SERVICES] == 443 ? TCP : UDP};
}

static void put16(uint8_t *at, uint32_t number)
{
    at[0] = (uint8_t)(number >> 8);
    at[1] = (uint8_t)number;
}

static void put32(uint8_t *at, uint32_t number)
{
    put16(at, number >> 16);
    put16(at + 2, number & 0xffff);
}

static uint32_t sum16(const uint8_t *at, size_t length)
{
    uint32_t sum = 0;
    for (size_t i = 0; i < length; i++) {
        sum += i % 2 == 0 ? (uint32_t)at[i] << 8 : at[i];
    }
    return sum;
}

static uint32_t checksum(uint32_t sum)
{
    while (sum >> 16 != 0) {
        sum = (sum & 0xffff) + (sum >> 16);
    }
    return ~sum & 0xffff;
}

static void put_ip(uint8_t *at, const struct flow *flow, size_t length)
{
    memset(at, 0, IP);
    at[0] = 0x45;
    put16(at + 2, (uint32_t)length);
    put16(at + 6, 0x4000); /* not to be fragmented */
    at[8] = 64;
    at[9] = flow->protocol;
    put32(at + 12, flow->source);
    put32(at + 16, flow->destination);
    put16(at + 10, checksum(sum16(at, IP)));
}

/* The packet's transport header and payload, of length bytes, behind its IP header. */
static void put_content(uint8_t *at, const struct flow *flow, uint32_t packet, size_t length)
{
    size_t head = flow->protocol == TCP ? TCP_HEAD : UDP_HEAD;
    size_t place = flow->protocol == TCP ? 16 : 6;
    memset(at, 0, head);
    put16(at, flow->source_port);
    put16(at + 2, flow->destination_port);
    if (flow->protocol == TCP) {
        put32(at + 4, packet);
        at[12] = TCP_HEAD / 4 << 4;
        at[13] = 0x18; /* acknowledgement, push */
        put16(at + 14, 64240);
    } else {
        put16(at + 4, (uint32_t)length);
    }
    for (size_t i = head; i < length; i++) {
        at[i] = (uint8_t)i;
    }
    uint32_t number = checksum(sum16(at - 8, 8 + length) + flow->protocol + (uint32_t)length); /* the addresses stand before the content */
    put16(at + place, number == 0 ? 0xffff : number);
}

/* The frame of a packet. Returns its length. */
static size_t put_frame(uint8_t *at, uint32_t packet)
{
    static const uint8_t link[ETHERNET] = {0, 0, 0x5e, 0, 0x53, 2, 0, 0, 0x5e, 0, 0x53, 1, 8, 0};
    uint64_t drawn = draw((uint64_t)packet + (UINT64_C(1) << 32));
    struct flow flow = flow_of((uint32_t)(drawn % FLOWS));
    size_t length = LEAST_FRAME + (size_t)(drawn >> 32) % (MOST_FRAME - LEAST_FRAME + 1);
    memcpy(at, link, ETHERNET);
    put_ip(at + ETHERNET, &flow, length - ETHERNET);
    put_content(at + ETHERNET + IP, &flow, packet, length - ETHERNET - IP);
    return length;
}

static void write_capture(uint32_t packets)
{
    const uint32_t head[6] = {0xa1b2c3d4, 4 << 16 | 2, 0, 0, 65535, 1}; /* version 2.4, snap length, Ethernet */
    uint8_t frame[MOST_FRAME];
    fwrite(head, sizeof head, 1, stdout);
    for (uint32_t packet = 0; packet < packets; packet++) {
        uint32_t length = (uint32_t)put_frame(frame, packet);
        const uint32_t record[4] = {START + packet / 1000000, packet % 1000000, length, length};
        fwrite(record, sizeof record, 1, stdout);
        fwrite(frame, length, 1, stdout);
    }
}

static void print_address(uint32_t address)
{
    printf("%" PRIu32 ".%" PRIu32 ".%" PRIu32 ".%" PRIu32 " ", address >> 24, address >> 16 & 255, address >> 8 & 255, address & 255);
}

/* One flow of each host is not listed, of another service from host to host, so that 1,000 flows are absent. */
static bool is_listed(uint32_t number) { return (number / FLOWS_A_HOST + number) % FLOWS_A_HOST != 0; }

static void write_flows(void)
{
    puts("p=12 k=3 B=4 T=15 N=4096 S=64");
    for (uint32_t number = 0; number < FLOWS; number++) {
        if (is_listed(number)) {
            struct flow flow = flow_of(number);
            print_address(flow.source);
            print_address(flow.destination);
            printf("%u %u %u %" PRIu64 "\n", flow.source_port, flow.destination_port, flow.protocol, draw(number + 1) / 1000 % CLASSES);
        }
    }
}

int main(int count, char **words)
{
    char *end = NULL;
    if (count == 2 && strcmp(words[1], "--flows") == 0) {
        write_flows();
    } else {
        unsigned long packets = count == 2 ? strtoul(words[1], &end, 10) : 0;
        if (count != 2 || *end != '\0' || packets == 0 || packets > UINT32_MAX) {
            fputs("large: the argument is a number of packets, or --flows\n", stderr);
            return 2;
        }
        write_capture((uint32_t)packets);
    }
    return fflush(stdout) == 0 && ferror(stdout) == 0 ? 0 : 1;
}
