#include "mutate.h"
#include <stdbool.h>
#include <string.h>

enum { MOST_ALTERATIONS = 8, MOST_INSERTED = 64, FRONT = 64 };
enum { PCAP_HEAD = 24, PCAP_RECORD = 16, BLOCK_LEAST = 12, PACKET_BLOCK_HEAD = 28 };
enum { INTERFACE_BLOCK = 1, PACKET_BLOCK = 6 };
enum { LINK_TYPE = 20, SNAP_LENGTH = 16 };                          /* where the head of a pcap file has them */
enum { INTERFACE_LINK_TYPE = 8, INTERFACE_SNAP_LENGTH = 12 };       /* where an interface block has them */

#define PCAP_MICROSECONDS 0xa1b2c3d4u
#define PCAP_NANOSECONDS 0xa1b23c4du
#define PCAPNG_SECTION 0x0a0d0d0au
#define PCAPNG_ORDER 0x1a2b3c4du

/* The copy that is altered, and what the seed has still to draw. */
struct work {
    uint8_t *bytes;
    size_t length, most;
    uint64_t state;
    bool is_pcapng, is_high_first;
};

/* A record of a pcap file or a block of a pcapng file, with its head. */
struct part {
    size_t start, length;
};

/* splitmix64 */
static uint64_t draw(struct work *work)
{
    uint64_t z = work->state += 0x9e3779b97f4a7c15u;
    z = (z ^ z >> 30) * 0xbf58476d1ce4e5b9u;
    z = (z ^ z >> 27) * 0x94d049bb133111ebu;
    return z ^ z >> 31;
}

/* A number below `limit`, which is not 0. */
static size_t draw_below(struct work *work, size_t limit) { return (size_t)(draw(work) % limit); }

static size_t lesser(size_t a, size_t b) { return a < b ? a : b; }

static uint32_t number_at(const struct work *work, size_t at)
{
    const uint8_t *b = work->bytes + at;
    uint32_t high_first = (uint32_t)b[0] << 24 | (uint32_t)b[1] << 16 | (uint32_t)b[2] << 8 | b[3];
    uint32_t low_first = (uint32_t)b[3] << 24 | (uint32_t)b[2] << 16 | (uint32_t)b[1] << 8 | b[0];
    return work->is_high_first ? high_first : low_first;
}

/* The low `count` bytes of a number; what would lie after the end is left out. */
static void set_number(struct work *work, size_t at, size_t count, uint32_t number)
{
    for (size_t i = 0; i < count && at + i < work->length; i++) {
        size_t byte = work->is_high_first ? count - 1 - i : i;
        work->bytes[at + i] = (uint8_t)(number >> 8 * byte);
    }
}

/* Puts `count` bytes of room at `at`, as far as there is space for them. Returns how many. */
static size_t open_gap(struct work *work, size_t at, size_t count)
{
    count = lesser(count, work->most - work->length);
    memmove(work->bytes + at + count, work->bytes + at, work->length - at);
    work->length += count;
    return count;
}

static void drop(struct work *work, size_t at, size_t count)
{
    memmove(work->bytes + at, work->bytes + at + count, work->length - at - count);
    work->length -= count;
}

/* What kind of capture it is, by its first bytes; other bytes are taken for a pcap file with the low byte first. */
static void recognize(struct work *work)
{
    work->is_pcapng = false;
    work->is_high_first = true;
    if (work->length >= BLOCK_LEAST && number_at(work, 0) == PCAPNG_SECTION) {
        work->is_pcapng = true;
        work->is_high_first = number_at(work, 8) == PCAPNG_ORDER;
    } else if (work->length >= 4) {
        work->is_high_first = number_at(work, 0) == PCAP_MICROSECONDS || number_at(work, 0) == PCAP_NANOSECONDS;
    }
}

/* The part that starts at `at`; of length 0 where no whole one does. */
static struct part part_at(const struct work *work, size_t at)
{
    struct part none = {at, 0};
    size_t head = work->is_pcapng ? BLOCK_LEAST : PCAP_RECORD;
    if (at > work->length || work->length - at < head) {
        return none;
    }
    size_t told = number_at(work, at + (work->is_pcapng ? 4 : 8));
    if (told > work->length) {
        return none; /* so that the sum below is no greater than a size_t holds */
    }
    size_t length = work->is_pcapng ? told : told + PCAP_RECORD;
    return length < head || length > work->length - at ? none : (struct part){at, length};
}

static size_t first_part(const struct work *work) { return work->is_pcapng ? 0 : PCAP_HEAD; }

/* A part that is drawn from all that are whole; of length 0 where there is none. */
static struct part draw_part(struct work *work)
{
    size_t count = 0;
    struct part part = part_at(work, first_part(work));
    for (; part.length > 0; part = part_at(work, part.start + part.length)) {
        count++;
    }
    if (count == 0) {
        return part;
    }
    size_t left = draw_below(work, count);
    for (part = part_at(work, first_part(work)); left > 0; left--) {
        part = part_at(work, part.start + part.length);
    }
    return part;
}

/* A part that holds a packet: as draw_part, but of a pcapng file those blocks alone; a few draws suffice. */
static struct part draw_packet(struct work *work)
{
    struct part part = draw_part(work);
    for (int tries = 0; work->is_pcapng && tries < 8; tries++) {
        if (part.length >= PACKET_BLOCK_HEAD + 4 && number_at(work, part.start) == PACKET_BLOCK) {
            return part;
        }
        part = draw_part(work);
    }
    return work->is_pcapng ? (struct part){0, 0} : part;
}

/* The first interface block; of length 0 where there is none. */
static struct part interface_block(const struct work *work)
{
    struct part part = work->is_pcapng ? part_at(work, 0) : (struct part){0, 0};
    while (part.length > 0 && number_at(work, part.start) != INTERFACE_BLOCK) {
        part = part_at(work, part.start + part.length);
    }
    return part;
}

/* A length at which readers change their mind, or any. */
static uint32_t draw_length(struct work *work, uint32_t before)
{
    static const uint32_t edges[] = {0,  1,  13, 14, 16, 20, 33, 34, 37, 38, 53, 54, 57, 58, 255, 256, 65535, 65536, 262144, 262145, 0x7fffffff,
                                     0x80000000, 0xfffffff0, 0xffffffff};
    switch (draw_below(work, 4)) {
    case 0:
        return before + 1;
    case 1:
        return before - 1;
    case 2:
        return (uint32_t)draw(work);
    default:
        return edges[draw_below(work, sizeof edges / sizeof edges[0])];
    }
}

static void alter_bit(struct work *work)
{
    if (work->length > 0) {
        work->bytes[draw_below(work, work->length)] ^= (uint8_t)(1u << draw_below(work, 8));
    }
}

static void alter_bytes(struct work *work)
{
    for (size_t i = draw_below(work, 4) + 1; i > 0 && work->length > 0; i--) {
        work->bytes[draw_below(work, work->length)] = (uint8_t)draw(work);
    }
}

/* A byte of a packet's first ones, where its headers are. */
static void alter_headers(struct work *work)
{
    static const uint8_t values[] = {0x00, 0x01, 0x06, 0x08, 0x11, 0x45, 0x46, 0x4f, 0x60, 0x7f, 0x80, 0x81, 0x86, 0x88, 0xdd, 0xff};
    struct part packet = draw_packet(work);
    size_t head = work->is_pcapng ? PACKET_BLOCK_HEAD : PCAP_RECORD;
    if (packet.length > head) {
        size_t place = packet.start + head + draw_below(work, lesser(packet.length - head, FRONT));
        work->bytes[place] = draw(work) % 2 == 0 ? (uint8_t)draw(work) : values[draw_below(work, sizeof values)];
    }
}

/* A packet cut, with its head as it should then be: the capture stays whole. */
static void cut_packet(struct work *work)
{
    struct part packet = draw_packet(work);
    size_t head = work->is_pcapng ? PACKET_BLOCK_HEAD : PCAP_RECORD;
    if (packet.length == 0) {
        return;
    }
    size_t field = packet.start + (work->is_pcapng ? 20 : 8);
    size_t before = number_at(work, field);
    size_t room = packet.length - head - (work->is_pcapng ? 4 : 0);
    if (before == 0 || before > room || (work->is_pcapng && room % 4 != 0)) {
        return;
    }
    size_t after = draw_below(work, before);
    set_number(work, field, 4, (uint32_t)after);
    if (!work->is_pcapng) {
        drop(work, packet.start + head + after, before - after);
        return;
    }
    size_t kept = (after + 3) / 4 * 4;
    size_t length = PACKET_BLOCK_HEAD + kept + 4; /* options are dropped with the rest */
    drop(work, packet.start + head + kept, packet.length - length);
    set_number(work, packet.start + 4, 4, (uint32_t)length);
    set_number(work, packet.start + length - 4, 4, (uint32_t)length);
}

/* A number of a record's head: a time, a length; of a block also its kind or interface. */
static void alter_record_head(struct work *work)
{
    struct part part = draw_part(work);
    if (part.length > 0) {
        size_t fields = lesser(part.length, work->is_pcapng ? PACKET_BLOCK_HEAD : PCAP_RECORD) / 4;
        size_t field = part.start + 4 * draw_below(work, fields);
        set_number(work, field, 4, draw_length(work, number_at(work, field)));
    }
}

/* The length that a packet had before it was captured: the capture stays whole. */
static void alter_original_length(struct work *work)
{
    struct part packet = draw_packet(work);
    if (packet.length > 0) {
        size_t field = packet.start + (work->is_pcapng ? 24 : 12);
        set_number(work, field, 4, draw_length(work, number_at(work, field)));
    }
}

static void alter_link_type(struct work *work)
{
    static const uint16_t links[] = {0, 1, 6, 9, 12, 14, 50, 101, 104, 105, 108, 113, 127, 141, 192, 228, 229, 249, 276, 65535};
    uint32_t link = draw_below(work, 8) == 0 ? (uint32_t)draw(work) : links[draw_below(work, sizeof links / sizeof links[0])];
    struct part block = interface_block(work);
    if (!work->is_pcapng) {
        set_number(work, LINK_TYPE, 4, link);
    } else if (block.length > 0) {
        set_number(work, block.start + INTERFACE_LINK_TYPE, 2, link);
    }
}

static void alter_snap_length(struct work *work)
{
    struct part block = interface_block(work);
    uint32_t length = draw_length(work, 96);
    if (!work->is_pcapng) {
        set_number(work, SNAP_LENGTH, 4, length);
    } else if (block.length > 0) {
        set_number(work, block.start + INTERFACE_SNAP_LENGTH, 4, length);
    }
}

/* The first bytes, by which a reader knows what it reads. */
static void alter_head(struct work *work)
{
    static const uint32_t firsts[] = {PCAP_MICROSECONDS, PCAP_NANOSECONDS, PCAPNG_SECTION, 0xd4c3b2a1u, 0x4d3cb2a1u, 0xa1b2cd34u};
    if (draw(work) % 2 == 0) {
        set_number(work, 0, 4, firsts[draw_below(work, sizeof firsts / sizeof firsts[0])]);
    } else if (work->length > 0) {
        work->bytes[draw_below(work, lesser(work->length, PCAP_HEAD))] = (uint8_t)draw(work);
    }
}

static void double_one(struct work *work, struct part part)
{
    if (part.length > 0 && part.length <= work->most - work->length) {
        open_gap(work, part.start, part.length);
        memcpy(work->bytes + part.start, work->bytes + part.start + part.length, part.length);
    }
}

static void drop_one(struct work *work, struct part part)
{
    if (part.length > 0) {
        drop(work, part.start, part.length);
    }
}

static void double_packet(struct work *work) { double_one(work, draw_packet(work)); }
static void drop_packet(struct work *work) { drop_one(work, draw_packet(work)); }
static void double_part(struct work *work) { double_one(work, draw_part(work)); }
static void drop_part(struct work *work) { drop_one(work, draw_part(work)); }

static void drop_bytes(struct work *work)
{
    if (work->length > 0) {
        size_t at = draw_below(work, work->length);
        drop(work, at, draw_below(work, lesser(work->length - at, MOST_INSERTED)) + 1);
    }
}

static void insert_bytes(struct work *work)
{
    size_t at = draw_below(work, work->length + 1);
    size_t count = open_gap(work, at, draw_below(work, MOST_INSERTED) + 1);
    for (size_t i = 0; i < count; i++) {
        work->bytes[at + i] = (uint8_t)draw(work);
    }
}

/* The end of the capture, where a disk was full or a copy was broken off. */
static void cut_end(struct work *work) { work->length = draw_below(work, work->length + 1); }

/* The first five leave a whole capture whole. */
enum { HARMLESS = 5 };
static void (*const alterations[])(struct work *) = {
    alter_headers, cut_packet, alter_original_length, double_packet, drop_packet,                                     /* harmless */
    alter_bit, alter_bytes, alter_head, alter_record_head, alter_link_type, alter_snap_length, double_part, drop_part, drop_bytes, insert_bytes,
    cut_end,
};
enum { ALTERATIONS = sizeof alterations / sizeof alterations[0] };

size_t mutate(uint64_t seed, const uint8_t *from, size_t length, uint8_t *to, size_t most)
{
    struct work work = {.bytes = to, .length = lesser(length, most), .most = most, .state = seed};
    if (most == 0) {
        return 0;
    }
    if (work.length > 0) {
        memcpy(to, from, work.length);
    }
    size_t kinds = draw(&work) % 2 == 0 ? HARMLESS : ALTERATIONS;
    for (size_t left = draw_below(&work, MOST_ALTERATIONS) + 1; left > 0; left--) {
        recognize(&work);
        alterations[draw_below(&work, kinds)](&work);
    }
    return work.length;
}
