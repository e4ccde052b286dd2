/* The doors of the flow card's pruned hash table. They are proved: each answers on every input, as its comment says.
 *
 * FLOW_INTERFACE, below, is the number of this interface: it rises whenever a door takes or hands back something else than before under the
 * same name. C compares no types when it links, so a program that was compiled with another header links with this library without a word,
 * and then passes its arguments in the wrong places. The library has no way to tell. A program that goes by this header asserts the number that
 * it was written for, and is compiled anew with every library:
 *     #if FLOW_INTERFACE != 2
 *     #error "written for another interface of the flow table"
 *     #endif
 *   1  six settings (headers up to here had no number). Callers of these doors must be compiled anew, and pass the width: every door that takes
 *      settings takes one more, flow_hash_table, flow_hash and flow_hash_lent take the width first, and flow_load hands back 7 numbers.
 *   2  seven settings: the key width, 13 bytes for IPv4 flows or 37 for IPv6 flows. flow_packet6_key, and refusal 16.
 *
 * A lent area is a pointer and then its length, in numbers of the pointer's type, for which the pointer is aligned. NULL with the length 0 is an
 * empty area: refused by number wherever a length is asked for, and accepted as the keys and the answers of a burst of no keys. An area that a
 * door may write overlaps no other area lent to the same call. A generator is an area that has no length beside its pointer.
 *
 * One call at a time may write an area, and none may read it then: the doors take no locks. Calls that only read may share areas. A search beside
 * an update of the same areas may answer absent for a held flow, or with another flow's class (beside a busy writer up to about one search in four did). For
 * searches while a table is updated there is flow_live.h: readers search copies, which the writer publishes. Its protocol is proved, its C is tested.
 *
 * The settings stand in this order:
 *   p            4 to 12; there are m = 2^p buckets
 *   k            1 to 4 bucket hashes of a key
 *   room         1 to 4 records in a bucket
 *   top          2 to 15, the top count of a counter
 *   capacity     1 to 4096 flows held
 *   side_places  0 to 64 records in the side store
 *   width        13 or 37, the bytes of a key: those of an IPv4 flow's, or of an IPv6 flow's
 * Each is judged on all of its 64 bits.
 *
 * A door answers 0, or the number of a refusal; where several apply, the lowest (flow_file_settings and flow_load have their own order). A search
 * that finds nothing answers 100. A refused call alters no area but work, and flow_file_settings and flow_load set their settings to zeros.
 * flow_generator_next refuses nothing. 14 and 15 are the programs' alone: no door gives them.
 *   1  a setting is out of range
 *   2  a lent area is not of its length
 *   3  a key is not of the width, a buffer for a packet's key is not of 13 bytes, or of 37 for an IPv6 packet; or the keys of a burst have not
 *      the width for each answer
 *   4  the ledger is damaged: its count is above the capacity, its keys do not rise, or a byte after its last record is not zero
 *   5  what is read of the lookup areas is damaged: a clipped count is above the top count, a mark is above the room and not 255, or the
 *      side count is above the side places
 *   6  the key to add is held
 *   7  the key to change or to remove is not held
 *   8  a flow is to be added, and the capacity is reached; or a file has more records than its capacity
 *   9  after the call more flows would belong to the side store than it has places
 *  10  the packet's header is wrong: it has under 20 bytes, its version is not 4, or its header length is under 20 or beyond the packet
 *  11  the packet's protocol is 6 or 17, its fragment offset is zero, and under 4 bytes follow its header; or an IPv6 packet's next header is
 *      6 or 17, and under 4 bytes follow its header
 *  12  a file is cut, overlong, does not start with the count 6 or 7, or starts with 7 and has width 13; or the target of a save is not of the
 *      file's length
 *  13  the keys of a file do not rise
 *  14  program flowrun: a call has an unknown letter, or the input ends within a call
 *  15  program flowload: s is zero, the flow count is outside 1 to 4096, or the input is not of 32 bytes; it then writes nothing
 *  16  the IPv6 packet's header is wrong: it has under 40 bytes, or its version is not 6
 *
 * The areas that hold a table. A record is a key of the width, then its class in 4 bytes, high byte first: 17 bytes at width 13, 41 at 37.
 *                   at width 13                    at width 37
 *   ledger          2 + 17 * capacity bytes        2 + 41 * capacity bytes         a two-byte count, high byte first, records in rising key
 *                                                                                  order, zeros
 *   true counts     m 16-bit numbers               the same                        how many held keys have each bucket's number among theirs
 *   clipped counts  m / 2 bytes                    the same                        bucket b in byte b / 2, an even b in the low four bits
 *   buckets         m * (1 + 17 * room) bytes      m * (1 + 41 * room) bytes       of each bucket a mark, then places for records
 *   side store      2 + 17 * side_places bytes     2 + 41 * side_places bytes      shaped as the ledger
 * The last three are the lookup areas. The layout of a list of flows is these five areas, filled from the list alone. Beside them:
 *   work            2 * m 16-bit numbers           the same                        its contents after a call free
 *   a hash table    3328 64-bit numbers            1184 or 9472 64-bit numbers     as flow_hash_table fills it
 *   a file          16 + 17 * n bytes              18 + 41 * n bytes               as flow_save writes it, of n records
 *
 * What a call needs of the stack at most stands below (bin/stack measures each door). The calls that lay out a list have 8 KB there for the choices
 * of up to 4096 records; the hash tables that they read lie in read-only memory, so that they need far less than the number that stands for them.
 */
#ifndef FLOW_H
#define FLOW_H

#include <stddef.h>
#include <stdint.h>

#ifdef __cplusplus
extern "C" {
#endif

/* The number of this interface. */
#define FLOW_INTERFACE 2

#define FLOW_SETTINGS_COUNT 7
/* The two widths. */
#define FLOW_IPV4_WIDTH 13
#define FLOW_IPV6_WIDTH 37
#define FLOW_CLASS_BYTES 4
#define FLOW_RECORD_BYTES(width) ((width) + FLOW_CLASS_BYTES)
/* The tables that flow_hash_table fills: by byte at either width, and by half-byte at 37. */
#define FLOW_HASH_TABLE_NUMBERS(width) (256 * (width))
#define FLOW_HALF_BYTE_TABLE_NUMBERS (16 * 2 * FLOW_IPV6_WIDTH)
/* A file before its first record: the count of the settings, which leaves width 13 out, these, the count of the records, in two bytes each. */
#define FLOW_FILE_HEAD_BYTES(width) ((width) == FLOW_IPV4_WIDTH ? 16 : 18)

/* Bytes of the stack that a call needs at most, its arguments among them: flow_add, flow_change, flow_remove, flow_save and flow_load;
 * flow_hash_table; any other door. For x86-64, as measured by bin/stack. */
#define FLOW_STACK_LAYOUT 46080
#define FLOW_STACK_HASH_TABLE 10240
#define FLOW_STACK_OTHER 1024

/* What a door answers, by name: the list above has what each number means. */
enum flow_answer {
    FLOW_DONE = 0,
    FLOW_HELD = 0, /* of a search */
    FLOW_BAD_SETTINGS = 1,
    FLOW_BAD_AREA_LENGTH = 2,
    FLOW_BAD_KEY_LENGTH = 3,
    FLOW_DAMAGED_LEDGER = 4,
    FLOW_DAMAGED_LOOKUP = 5,
    FLOW_ALREADY_HELD = 6,
    FLOW_NOT_HELD = 7,
    FLOW_FULL = 8,
    FLOW_SIDE_FULL = 9,
    FLOW_BAD_PACKET_HEADER = 10,
    FLOW_PORTS_MISSING = 11,
    FLOW_BAD_FILE_LENGTH = 12,
    FLOW_BAD_FILE_ORDER = 13,
    FLOW_BAD_INPUT = 14, /* the programs' alone */
    FLOW_BAD_LOAD = 15,  /* the programs' alone */
    FLOW_BAD_PACKET6_HEADER = 16,
    FLOW_ABSENT = 100 /* of a search */
};

/* The settings' verdict: 0, or 1 when one is out of range. */
uint32_t flow_settings_check(uint64_t p, uint64_t k, uint64_t room, uint64_t top, uint64_t capacity, uint64_t side_places, uint64_t width);

/* The lengths of the six areas that the settings ask for. Lent: lengths, of 6 numbers.
 * 0: lengths holds the lengths of ledger, true counts, clipped counts, buckets, side store and work, in this order; true counts and work
 *    in 16-bit numbers, the others in bytes.
 * 1: a setting is out of range. 2: lengths is not of 6 numbers. */
uint32_t flow_area_lengths(uint64_t p, uint64_t k, uint64_t room, uint64_t top, uint64_t capacity, uint64_t side_places, uint64_t width,
                           uint64_t *lengths, size_t lengths_length);

/* Fills a table that flow_hash_lent, flow_search_lent, flow_search_counts_lent and flow_search_burst read for keys of this width. Lent: table, of
 * 3328 numbers at width 13; at 37 of 1184, by half-byte, or of 9472, by byte: the one whose length it is is filled.
 * 0: by byte, number 256 * a + v of the table is what value v of key byte a adds to H. By half-byte, number 16 * i + v is what value v of
 *    half-byte i adds to H, where half-byte 2 * a is the low four bits of key byte a, and half-byte 2 * a + 1 its high four bits.
 * 1: width is not 13 or 37. 2: table is not of a length for the width.
 * A table by half-byte takes an eighth of the memory of one by byte, and two reads for each byte of a key in place of one. */
uint32_t flow_hash_table(uint64_t width, uint64_t *table, size_t table_length);

/* H of a key, with no table. Lent: key, of width bytes, which is only read; h, of 1 number.
 * 0: h[0] is H of the key.
 * 1: width is not 13 or 37. 2: h is not of 1 number. 3: key is not of the width. */
uint32_t flow_hash(uint64_t width, const uint8_t *key, size_t key_length, uint64_t *h, size_t h_length);

/* H of a key, with a lent table: a read for each byte or half-byte of the key. Lent: table, of a length for the width, which flow_hash_table
 * filled, and key, of width bytes, which are only read; h, of 1 number.
 * 0: h[0] is H of the key. On another table of that length h[0] is the xor of the numbers that are read: those that flow_hash_table says of each
 *    byte or half-byte of the key.
 * 1: width is not 13 or 37. 2: table is not of a length for the width, or h not of 1. 3: key is not of the width. */
uint32_t flow_hash_lent(uint64_t width, const uint64_t *table, size_t table_length, const uint8_t *key, size_t key_length,
                        uint64_t *h, size_t h_length);

/* A key's four hashes and its bucket numbers. Lent: key, of width bytes, which is only read; hashes, of 4 numbers; numbers, of 5.
 * 0: hashes holds hash 0 to hash 3 of the key; numbers holds how many bucket numbers the key has (1 to k), then these, then zeros. The bucket
 *    numbers are the first k hashes, repeats dropped.
 * 1: a setting is out of range. 2: hashes is not of 4 numbers, or numbers not of 5. 3: key is not of the width. */
uint32_t flow_key_buckets(uint64_t p, uint64_t k, uint64_t room, uint64_t top, uint64_t capacity, uint64_t side_places, uint64_t width,
                          const uint8_t *key, size_t key_length, uint16_t *hashes, size_t hashes_length, uint16_t *numbers,
                          size_t numbers_length);

/* The class of a flow, for the forwarding driver. It only reads, and reads at most one bucket. Lent: the lookup areas, of their lengths
 * under the settings, with any contents; key, of width bytes.
 * It returns answer * 2^32 + class; the class is zero unless the answer is 0.
 *   0: the flow is held, with this class. 100: it is absent.
 *   1: a setting is out of range. 2: clipped, buckets or side is not of its length. 3: key is not of the width.
 *   5: a counter of the key is above top, the mark of the bucket that is read is above room and not 255, or the side store is compared and
 *      its count is above side_places. */
uint64_t flow_search(uint64_t p, uint64_t k, uint64_t room, uint64_t top, uint64_t capacity, uint64_t side_places, uint64_t width,
                     const uint8_t *clipped, size_t clipped_length, const uint8_t *buckets, size_t buckets_length,
                     const uint8_t *side, size_t side_length, const uint8_t *key, size_t key_length);

/* flow_search with a lent table: faster, for a driver that keeps one. Lent: table, of a length for the width, which flow_hash_table
 * filled (at width 37 by half-byte or by byte); the rest as for flow_search, and so is the answer. On another table of that length it is that of
 * the search which takes what flow_hash_lent gives on that table for H of the key: a held flow may be answered as absent.
 * 2 also: table is not of a length for the width. */
uint64_t flow_search_lent(const uint64_t *table, size_t table_length, uint64_t p, uint64_t k, uint64_t room, uint64_t top,
                          uint64_t capacity, uint64_t side_places, uint64_t width, const uint8_t *clipped, size_t clipped_length,
                          const uint8_t *buckets, size_t buckets_length, const uint8_t *side, size_t side_length,
                          const uint8_t *key, size_t key_length);

/* flow_search_lent for many keys at once: as many as answers has numbers, here n, which may be 0. Drivers take packets in bursts of 32. Lent:
 * table, of a length for the width, which flow_hash_table filled, the lookup areas, of their lengths under the settings, with any contents, and
 * keys, of width * n bytes, one key after the other, which are only read; answers, of n numbers, with any contents.
 * 0: answers[i] is what flow_search_lent returns for key i, on any table of that length: answer * 2^32 + class, where the answer is 0, 100
 *    or, for this key alone, 5.
 * 1: a setting is out of range. 2: table is not of a length for the width, or clipped, buckets or side is not of its length. 3: keys is not of
 *    width * n bytes. These are judged also where n is 0.
 * Refused, answers is as it was. */
uint32_t flow_search_burst(const uint64_t *table, size_t table_length, uint64_t p, uint64_t k, uint64_t room, uint64_t top,
                           uint64_t capacity, uint64_t side_places, uint64_t width, const uint8_t *clipped, size_t clipped_length,
                           const uint8_t *buckets, size_t buckets_length, const uint8_t *side, size_t side_length,
                           const uint8_t *keys, size_t keys_length, uint64_t *answers, size_t answers_length);

/* flow_search that also says where the record lies, for a caller that reads it in place. Lent: place, of 2 numbers, with any contents; the
 * rest as for flow_search. It returns what flow_search does.
 *   0: place[0] is 1 for the buckets or 2 for the side store, and place[1] the byte of that area where the record starts.
 * 100: place is 0, 0.
 *   2 also: place is not of 2 numbers. Refused (1, 2, 3, 5), place is as it was. */
uint64_t flow_search_place(uint64_t p, uint64_t k, uint64_t room, uint64_t top, uint64_t capacity, uint64_t side_places, uint64_t width,
                           const uint8_t *clipped, size_t clipped_length, const uint8_t *buckets, size_t buckets_length,
                           const uint8_t *side, size_t side_length, const uint8_t *key, size_t key_length, uint64_t *place,
                           size_t place_length);

/* flow_search that also gives the search's counts. Lent: counts, of 3 numbers, with any contents; the rest as for flow_search. It returns
 * what flow_search does.
 *   0, 100: counts holds how many buckets were read (0 or 1), how many records were compared (at most 64), and 1 where the side store was the
 *      place compared, also where it holds no record, else 0.
 *   2 also: counts is not of 3 numbers. Refused (1, 2, 3, 5), counts is as it was. */
uint64_t flow_search_counts(uint64_t p, uint64_t k, uint64_t room, uint64_t top, uint64_t capacity, uint64_t side_places, uint64_t width,
                            const uint8_t *clipped, size_t clipped_length, const uint8_t *buckets, size_t buckets_length,
                            const uint8_t *side, size_t side_length, const uint8_t *key, size_t key_length, uint32_t *counts,
                            size_t counts_length);

/* flow_search_counts with a lent table, as flow_search_lent is flow_search with one, on any table of a length for
 * the width. */
uint64_t flow_search_counts_lent(const uint64_t *table, size_t table_length, uint64_t p, uint64_t k, uint64_t room,
                                 uint64_t top, uint64_t capacity, uint64_t side_places, uint64_t width, const uint8_t *clipped,
                                 size_t clipped_length, const uint8_t *buckets, size_t buckets_length, const uint8_t *side,
                                 size_t side_length, const uint8_t *key, size_t key_length, uint32_t *counts,
                                 size_t counts_length);

/* Counts what a table holds. Lent: ledger and the lookup areas, of their lengths under the settings, which are only read; totals, of 4
 * numbers.
 * 0: totals holds how many records are in buckets, how many in the side store, how many buckets are marked 255, and the fill: 100 * the
 *    ledger's count / m, to the nearest whole number; a half goes to the even neighbour (with m 16, 2 flows give 12, 6 give 38).
 * 1: a setting is out of range. 2: ledger, clipped, buckets or side is not of its length, or totals not of 4 numbers.
 * 4: the ledger is damaged. 5: a lookup area is, in any counter, any mark or the side count. */
uint32_t flow_tally(uint64_t p, uint64_t k, uint64_t room, uint64_t top, uint64_t capacity, uint64_t side_places, uint64_t width,
                    const uint8_t *ledger, size_t ledger_length, const uint8_t *clipped, size_t clipped_length,
                    const uint8_t *buckets, size_t buckets_length, const uint8_t *side, size_t side_length, uint32_t *totals,
                    size_t totals_length);

/* Lays out the empty list. Lent: the five areas, of their lengths under the settings, with any contents.
 * 0: every area is zeros.
 * 1: a setting is out of range. 2: an area is not of its length. */
uint32_t flow_clear(uint64_t p, uint64_t k, uint64_t room, uint64_t top, uint64_t capacity, uint64_t side_places, uint64_t width,
                    uint8_t *ledger, size_t ledger_length, uint16_t *true_counts, size_t true_counts_length, uint8_t *clipped,
                    size_t clipped_length, uint8_t *buckets, size_t buckets_length, uint8_t *side, size_t side_length);

/* Adds a flow. Lent: the five areas and work, of their lengths under the settings; key, of width bytes, which is only read. Of the areas only
 * the ledger is read, so the other four and work may hold anything.
 * 0: every area holds the layout of the ledger's list with the flow put in at its key's place.
 * 1: a setting is out of range. 2: an area or work is not of its length. 3: key is not of the width. 4: the ledger is damaged.
 * 6: the key is held. 8: the capacity is reached. 9: the side store would not suffice. */
uint32_t flow_add(uint64_t p, uint64_t k, uint64_t room, uint64_t top, uint64_t capacity, uint64_t side_places, uint64_t width,
                  uint8_t *ledger, size_t ledger_length, uint16_t *true_counts, size_t true_counts_length, uint8_t *clipped,
                  size_t clipped_length, uint8_t *buckets, size_t buckets_length, uint8_t *side, size_t side_length,
                  uint16_t *work, size_t work_length, const uint8_t *key, size_t key_length, uint32_t class_number);

/* Gives a held flow another class. Lent: as for flow_add.
 * 0: every area holds the layout of the ledger's list with that class.
 * 1: a setting is out of range. 2: an area or work is not of its length. 3: key is not of the width. 4: the ledger is damaged.
 * 7: the key is not held. 9: the side store does not suffice, which on areas that hold a layout does not occur. */
uint32_t flow_change(uint64_t p, uint64_t k, uint64_t room, uint64_t top, uint64_t capacity, uint64_t side_places, uint64_t width,
                     uint8_t *ledger, size_t ledger_length, uint16_t *true_counts, size_t true_counts_length, uint8_t *clipped,
                     size_t clipped_length, uint8_t *buckets, size_t buckets_length, uint8_t *side, size_t side_length,
                     uint16_t *work, size_t work_length, const uint8_t *key, size_t key_length, uint32_t class_number);

/* Takes a held flow out. Lent: as for flow_add.
 * 0: every area holds the layout of the ledger's list without the flow.
 * 1: a setting is out of range. 2: an area or work is not of its length. 3: key is not of the width. 4: the ledger is damaged.
 * 7: the key is not held. 9: the side store would not suffice: a removal moves other flows, and some may come to belong to the side. */
uint32_t flow_remove(uint64_t p, uint64_t k, uint64_t room, uint64_t top, uint64_t capacity, uint64_t side_places, uint64_t width,
                     uint8_t *ledger, size_t ledger_length, uint16_t *true_counts, size_t true_counts_length, uint8_t *clipped,
                     size_t clipped_length, uint8_t *buckets, size_t buckets_length, uint8_t *side, size_t side_length,
                     uint16_t *work, size_t work_length, const uint8_t *key, size_t key_length);

/* A window over the latest 1024 accepted searches, for an operator who watches a node. It is an area of 1093 16-bit numbers that belongs to
 * no table: no other door reads or writes it, and searches of several tables may enter one window. Its numbers:
 *   0            the place in the ring of the oldest entry
 *   1            how many entries there are, at most 1024
 *   2            how many of them are held answers
 *   3            how many compared the side store
 *   4 to 68      how many compared 0, 1, .. 64 records
 *   69 to 1092   the ring: an entry is 1 for a held answer, and 2 where it compared the side store, and 4 times the records compared
 * After flow_window_clear, whatever the area held before, and any list of these calls, flow_window_counts gives a fresh count over the entries
 * that the window then holds. An entry that leaves is taken off the counts, and its number stays in the ring until another takes its place.
 * On any other contents each call ends, and goes by these numbers as they stand: the window is full where number 1 is 1024 or more, and empty
 * where it is 0; the ring's places are taken modulo 1024, counts run modulo 2^16, and an entry above 64 records compared is one of 64.
 * Each of the four doors answers 0, or 2 where an area is not of its length, and then alters nothing. A burst of searches gives no counts, so
 * it enters no window (examples/watch.c has a driver's loop). */
#define FLOW_WINDOW_NUMBERS 1093
#define FLOW_WINDOW_SEARCHES 1024

/* Empties a window. Lent: window, of 1093 numbers, with any contents: all are zero after it. */
uint32_t flow_window_clear(uint16_t *window, size_t window_length);

/* Enters a search: found is the number that flow_search_counts or flow_search_counts_lent returned, counts the 3 numbers that it gave, of which
 * the second and the third enter. The oldest entry of a full window is dropped for good. A refused search (found / 2^32 neither 0 nor 100)
 * enters nothing, its counts are not looked at, and the answer is 0. No search compares more than 64 records: a greater number enters as 64,
 * and a third count that is not 0 as 1. Lent: window; counts, of 3 numbers, which is only read. */
uint32_t flow_window_enter(uint16_t *window, size_t window_length, uint64_t found, const uint32_t *counts,
                           size_t counts_length);

/* Removes the oldest entry; an empty window stays as it is. Lent: window. */
uint32_t flow_window_remove(uint16_t *window, size_t window_length);

/* Counts a window. Lent: window, which is only read; counts, of 3 numbers, with any contents: held answers, searches that compared the side
 * store, and the greatest records compared, zero for an empty window. */
uint32_t flow_window_counts(const uint16_t *window, size_t window_length, uint32_t *counts, size_t counts_length);

/* The key of an IPv4 packet (RFC 791). Lent: packet, of any length, which is only read; key, of 13 bytes.
 * 0: key holds source address, destination address, source port, destination port and protocol. The ports are the first four bytes after the
 *    header, options skipped, for protocols 6 and 17 where the fragment offset (low 13 bits of bytes 6 and 7) is zero, and zeros for others.
 * 3: key is not of the width. 10: the packet's header is wrong. 11: its ports are missing.
 *
 * A later fragment of a packet, whose offset is not zero, carries payload where the first one has its ports. Its key is the addresses, zero
 * ports and the protocol, and it is never refused with 11. The flags, 'more fragments' among them, are not read, and no fragments are put
 * together. So the later fragments of a flow are found only if a flow of the same addresses and protocol with zero ports is held: control
 * software adds that flow beside the flow itself, in the class that all later fragments of the protocol between the two addresses are to
 * have (examples/fragments.c). */
uint32_t flow_packet_key(const uint8_t *packet, size_t packet_length, uint8_t *key, size_t key_length);

/* The key of an IPv6 packet (RFC 8200). Lent: packet, of any length, which is only read; key, of 37 bytes.
 * 0: key holds source address, destination address, source port, destination port and next header (byte 6 of the packet). The ports are the four
 *    bytes from byte 40 on where the next header is 6 or 17, and zeros for any other.
 * 3: key is not of 37 bytes. 16: the packet's header is wrong. 11: its ports are missing.
 *
 * The payload length is not read. An extension header (0, 43, 44, 50, 51, 60 and others) is not looked behind: the packets of a flow that come
 * behind one are found only if a flow of the same addresses, zero ports and that extension header's number is held, which control software
 * adds beside the flow itself (examples/ipv6.c). */
uint32_t flow_packet6_key(const uint8_t *packet, size_t packet_length, uint8_t *key, size_t key_length);

/* Saves a table's flows as a file: its settings and its records. Lent: ledger, of its length under the settings, which is only read; work, of its
 * length; target, of 16 + 17 * n bytes at width 13, of 18 + 41 * n at 37, where n is the ledger's count.
 * 0: target holds the snapshot: at width 13 the count 6 and the settings but the width, at 37 the count 7 and the seven settings, in their order,
 *    then the count n, all in two bytes with the high byte first; then the ledger's records.
 * 1: a setting is out of range. 2: ledger or work is not of its length. 4: the ledger is damaged. 9: the side store does not suffice for its
 *    flows, which on areas that hold a layout does not occur. 12: target is not of its length. */
uint32_t flow_save(uint64_t p, uint64_t k, uint64_t room, uint64_t top, uint64_t capacity, uint64_t side_places, uint64_t width,
                   const uint8_t *ledger, size_t ledger_length, uint16_t *work, size_t work_length, uint8_t *target,
                   size_t target_length);

/* The settings of a file that flow_save wrote, now or before there was a width, for a caller that has to size its areas before flow_load: with
 * them it asks flow_area_lengths for the lengths. Lent: file, which is only read; settings, of 7 numbers, with any contents.
 * 0: settings holds the file's seven settings; after a first count of 6 the width is 13.
 * Refused, by the first of these that applies:
 * 12: the file does not start with the count 6 or 7, or ends before its second count does (it is shorter than 16 bytes after a 6, than 18 after a
 *    7). 1: a setting of the file is out of range. 2: settings is not of 7 numbers. 12: the file has a 7 with width 13.
 * The count of the records and what follows it are not judged. Refused, settings is zeros; a settings area of another length is left as it was. */
uint32_t flow_file_settings(const uint8_t *file, size_t file_length, uint64_t *settings, size_t settings_length);

/* Loads a file that flow_save wrote, now or before there was a width. Lent: file, which is only read; the five areas and work, of their lengths
 * under the file's settings, with any contents; settings, of 7 numbers. A caller that does not know the file's settings asks flow_file_settings
 * for them, and flow_area_lengths for the lengths.
 * 0: every area holds the layout of the file's flows, and settings the file's seven settings.
 * 12: the file does not start with the count 6 or 7, or ends before its second count does (it is shorter than 16 bytes after a 6, than 18 after a
 *    7); or, after 1, 2 and 8, it has a 7 with width 13, or is not of 16 + 17 * n bytes after a 6, of 18 + 41 * n after a 7.
 * 1: a setting of the file is out of range. 2: an area or work is not of its length, or settings not of 7 numbers. 8: the file has more
 *    records than its capacity. 13: its keys do not rise. 9: the side store does not suffice for its flows.
 * Of a file without its head (the first case of 12) nothing else is judged; then the lowest number is given, but 9 only where nothing else
 * applies. Refused, the areas are as they were and settings is zeros; a settings area of another length is left as it was. */
uint32_t flow_load(const uint8_t *file, size_t file_length, uint8_t *ledger, size_t ledger_length, uint16_t *true_counts,
                   size_t true_counts_length, uint8_t *clipped, size_t clipped_length, uint8_t *buckets, size_t buckets_length,
                   uint8_t *side, size_t side_length, uint16_t *work, size_t work_length, uint64_t *settings,
                   size_t settings_length);

/* A generator of numbers, held by whoever draws them: s is stepped by xorshift64, w grows by 362437 modulo 2^64. */
struct flow_generator {
    uint64_t s;
    uint64_t w;
};

/* The next number of a generator, which advances where it is held: the one that program flowload makes its calls from, two numbers a call, so
 * that a bench draws the same ones. Lent: generator, with any s and w; an s of zero, which the program refuses, stays zero.
 * It steps both, and returns s + w modulo 2^64, both after the step. */
uint64_t flow_generator_next(struct flow_generator *generator);

/* The same with structs. What follows is no door but a few lines of C over the doors, and is not proved. */

/* The two parts of what a search returns. */
static inline enum flow_answer flow_answer_of(uint64_t found) { return (enum flow_answer)(found >> 32); }
static inline uint32_t flow_class_of(uint64_t found) { return (uint32_t)(found & UINT32_MAX); }

struct flow_settings {
    uint64_t p, k, room, top, capacity, side_places, width;
};

/* The six areas, each with its length. */
struct flow_areas {
    uint8_t *ledger;
    size_t ledger_length;
    uint16_t *true_counts;
    size_t true_counts_length;
    uint8_t *clipped;
    size_t clipped_length;
    uint8_t *buckets;
    size_t buckets_length;
    uint8_t *side;
    size_t side_length;
    uint16_t *work;
    size_t work_length;
};

/* The lookup areas, for who only reads them. */
struct flow_lookup {
    const uint8_t *clipped;
    size_t clipped_length;
    const uint8_t *buckets;
    size_t buckets_length;
    const uint8_t *side;
    size_t side_length;
};

struct flow_table {
    struct flow_settings settings;
    struct flow_areas areas;
};

/* What a struct holds, as the arguments of a door: flow_search(FLOW_SETTINGS(&settings), FLOW_LOOKUP(&lookup), key, key_length). */
#define FLOW_SETTINGS(of) (of)->p, (of)->k, (of)->room, (of)->top, (of)->capacity, (of)->side_places, (of)->width
#define FLOW_LOOKUP(of) (of)->clipped, (of)->clipped_length, (of)->buckets, (of)->buckets_length, (of)->side, (of)->side_length
#define FLOW_AREAS(of) (of)->ledger, (of)->ledger_length, (of)->true_counts, (of)->true_counts_length, FLOW_LOOKUP(of)
#define FLOW_WORK(of) (of)->work, (of)->work_length

static inline struct flow_lookup flow_lookup_of(const struct flow_areas *areas)
{
    struct flow_lookup lookup = {FLOW_LOOKUP(areas)};
    return lookup;
}

/* The bytes of all six areas; 0 where a setting is out of range. */
static inline size_t flow_table_bytes(const struct flow_settings *settings)
{
    uint64_t n[6];
    if (flow_area_lengths(FLOW_SETTINGS(settings), n, 6) != FLOW_DONE) {
        return 0;
    }
    return (size_t)(n[0] + 2 * n[1] + n[2] + n[3] + n[4] + 2 * n[5]);
}

/* A table in lent memory, cleared. Lent for as long as the table is used: memory, of flow_table_bytes bytes, aligned for 16-bit numbers.
 * 0. 1: a setting is out of range. 2: memory is not of its length. Refused, nothing is altered. */
static inline uint32_t flow_table_open(struct flow_table *table, const struct flow_settings *settings, void *memory, size_t memory_length)
{
    uint64_t n[6];
    uint8_t *bytes = (uint8_t *)memory;
    struct flow_areas *areas = &table->areas;
    if (flow_area_lengths(FLOW_SETTINGS(settings), n, 6) != FLOW_DONE) {
        return FLOW_BAD_SETTINGS;
    }
    if (memory_length != flow_table_bytes(settings)) {
        return FLOW_BAD_AREA_LENGTH;
    }
    areas->true_counts = (uint16_t *)memory;
    areas->true_counts_length = (size_t)n[1];
    areas->work = areas->true_counts + n[1];
    areas->work_length = (size_t)n[5];
    areas->ledger = bytes + 2 * (n[1] + n[5]);
    areas->ledger_length = (size_t)n[0];
    areas->clipped = areas->ledger + n[0];
    areas->clipped_length = (size_t)n[2];
    areas->buckets = areas->clipped + n[2];
    areas->buckets_length = (size_t)n[3];
    areas->side = areas->buckets + n[3];
    areas->side_length = (size_t)n[4];
    table->settings = *settings;
    return flow_clear(FLOW_SETTINGS(settings), FLOW_AREAS(areas));
}

/* How many flows a table holds. */
static inline size_t flow_table_count(const struct flow_table *table)
{
    return (size_t)(table->areas.ledger[0] << 8 | table->areas.ledger[1]);
}

/* The doors of a table, whose comments have what each answers. A key is of the table's width. */
static inline uint32_t flow_table_clear(struct flow_table *table)
{
    return flow_clear(FLOW_SETTINGS(&table->settings), FLOW_AREAS(&table->areas));
}

static inline uint32_t flow_table_add(struct flow_table *table, const uint8_t *key, uint32_t class_number)
{
    return flow_add(FLOW_SETTINGS(&table->settings), FLOW_AREAS(&table->areas), FLOW_WORK(&table->areas), key, (size_t)table->settings.width,
                    class_number);
}

static inline uint32_t flow_table_change(struct flow_table *table, const uint8_t *key, uint32_t class_number)
{
    return flow_change(FLOW_SETTINGS(&table->settings), FLOW_AREAS(&table->areas), FLOW_WORK(&table->areas), key, (size_t)table->settings.width,
                       class_number);
}

static inline uint32_t flow_table_remove(struct flow_table *table, const uint8_t *key)
{
    return flow_remove(FLOW_SETTINGS(&table->settings), FLOW_AREAS(&table->areas), FLOW_WORK(&table->areas), key, (size_t)table->settings.width);
}

static inline uint64_t flow_table_search(const struct flow_table *table, const uint8_t *key)
{
    return flow_search(FLOW_SETTINGS(&table->settings), FLOW_LOOKUP(&table->areas), key, (size_t)table->settings.width);
}

/* hashes: the table that flow_hash_table filled. */
static inline uint64_t flow_table_search_lent(const struct flow_table *table, const uint64_t *hashes, size_t hashes_length, const uint8_t *key)
{
    return flow_search_lent(hashes, hashes_length, FLOW_SETTINGS(&table->settings), FLOW_LOOKUP(&table->areas), key,
                            (size_t)table->settings.width);
}

/* n keys, one after the other, and a number for each answer. */
static inline uint32_t flow_table_search_burst(const struct flow_table *table, const uint64_t *hashes, size_t hashes_length, const uint8_t *keys,
                                               uint64_t *answers, size_t n)
{
    return flow_search_burst(hashes, hashes_length, FLOW_SETTINGS(&table->settings), FLOW_LOOKUP(&table->areas), keys,
                             n * (size_t)table->settings.width, answers, n);
}

/* place: of 2 numbers. */
static inline uint64_t flow_table_search_place(const struct flow_table *table, const uint8_t *key, uint64_t *place)
{
    return flow_search_place(FLOW_SETTINGS(&table->settings), FLOW_LOOKUP(&table->areas), key, (size_t)table->settings.width, place, 2);
}

/* counts: of 3 numbers. */
static inline uint64_t flow_table_search_counts(const struct flow_table *table, const uint8_t *key, uint32_t *counts)
{
    return flow_search_counts(FLOW_SETTINGS(&table->settings), FLOW_LOOKUP(&table->areas), key, (size_t)table->settings.width, counts, 3);
}

static inline uint64_t flow_table_search_counts_lent(const struct flow_table *table, const uint64_t *hashes, size_t hashes_length,
                                                     const uint8_t *key, uint32_t *counts)
{
    return flow_search_counts_lent(hashes, hashes_length, FLOW_SETTINGS(&table->settings), FLOW_LOOKUP(&table->areas), key,
                                   (size_t)table->settings.width, counts, 3);
}

/* totals: of 4 numbers. */
static inline uint32_t flow_table_tally(const struct flow_table *table, uint32_t *totals)
{
    return flow_tally(FLOW_SETTINGS(&table->settings), table->areas.ledger, table->areas.ledger_length, FLOW_LOOKUP(&table->areas), totals, 4);
}

/* The bytes of the file that a table is saved in. */
static inline size_t flow_table_file_bytes(const struct flow_table *table)
{
    size_t width = (size_t)table->settings.width;
    return FLOW_FILE_HEAD_BYTES(width) + FLOW_RECORD_BYTES(width) * flow_table_count(table);
}

static inline uint32_t flow_table_save(struct flow_table *table, uint8_t *target, size_t target_length)
{
    return flow_save(FLOW_SETTINGS(&table->settings), table->areas.ledger, table->areas.ledger_length, FLOW_WORK(&table->areas), target,
                     target_length);
}

/* flow_file_settings as a struct: with it a table is opened to load the file into. Refused, settings are zeros. */
static inline uint32_t flow_settings_of_file(struct flow_settings *settings, const uint8_t *file, size_t file_length)
{
    uint64_t n[FLOW_SETTINGS_COUNT];
    uint32_t answer = flow_file_settings(file, file_length, n, FLOW_SETTINGS_COUNT);
    struct flow_settings read = {n[0], n[1], n[2], n[3], n[4], n[5], n[6]};
    *settings = read;
    return answer;
}

/* Into a table whose areas have the lengths that the file's settings ask for. 0: the table has the file's settings and flows. Refused: it is as it
 * was. */
static inline uint32_t flow_table_load(struct flow_table *table, const uint8_t *file, size_t file_length)
{
    uint64_t n[FLOW_SETTINGS_COUNT];
    uint32_t answer = flow_load(file, file_length, FLOW_AREAS(&table->areas), FLOW_WORK(&table->areas), n, FLOW_SETTINGS_COUNT);
    if (answer == FLOW_DONE) {
        struct flow_settings settings = {n[0], n[1], n[2], n[3], n[4], n[5], n[6]};
        table->settings = settings;
    }
    return answer;
}

#ifdef __cplusplus
}
#endif

#endif
