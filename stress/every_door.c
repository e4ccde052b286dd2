/* Every door, at both widths, with areas that malloc has made of exactly their lengths: as malloc leaves them where their contents are free, random
 * bytes where they may be damaged, and of wrong lengths. Under valgrind (bin/memcheck) this shows a read or write outside an area, and an answer or
 * an area afterwards that depends on contents said to be free. What is answered is compared with the model elsewhere; here only where it is
 * plain. */
#include "flow.h"
#include <inttypes.h>
#include <stdio.h>
#include <stdlib.h>
#include <string.h>

enum { TABLES = 2000, CALLS = 60, PACKETS = 20000, GENERATORS = 1000, MOST_KEYS = 40, MOST_ANSWER = FLOW_ABSENT };

/* splitmix64 */
static uint64_t state = 91;

static uint64_t next(void)
{
    uint64_t z = state += 0x9e3779b97f4a7c15;
    z = (z ^ z >> 30) * 0xbf58476d1ce4e5b9;
    z = (z ^ z >> 27) * 0x94d049bb133111eb;
    return z ^ z >> 31;
}

static uint64_t between(uint64_t low, uint64_t high) { return low + next() % (high - low + 1); }

static void fail(const char *what)
{
    fprintf(stderr, "every_door: %s\n", what);
    exit(1);
}

/* How often each answer came. */
static uint64_t answers[MOST_ANSWER + 1];

static uint32_t note(uint32_t answer)
{
    if (answer > MOST_ANSWER) {
        fail("an answer that is none");
    }
    answers[answer]++;
    return answer;
}

/* An area of so many numbers of 1, 2, 4 or 8 bytes. */
struct area {
    void *at;
    size_t length;
    size_t size;
};

static struct area lend(size_t length, size_t size)
{
    struct area area = {malloc(length * size), length, size};
    if (area.at == NULL) {
        fail("no memory");
    }
    return area;
}

static struct area random_area(size_t length, size_t size)
{
    struct area area = lend(length, size);
    for (size_t i = 0; i < length * size; i++) {
        ((uint8_t *)area.at)[i] = (uint8_t)next();
    }
    return area;
}

/* The contents lie in new memory of another length; more of them are as malloc leaves them. */
static void resize(struct area *area, size_t length)
{
    struct area other = lend(length, area->size);
    memcpy(other.at, area->at, area->size * (length < area->length ? length : area->length));
    free(area->at);
    *area = other;
}

static void wrong_length(struct area *area)
{
    size_t n = area->length;
    size_t other[] = {0, n - 1, n + 1, n + 17, 2 * n, between(0, 2 * n + 2)};
    size_t length = other[between(0, 5)];
    resize(area, length == n || length > 4 * n ? n + 1 : length);
}

/* valgrind speaks up where a byte that was never written decides on a branch. */
static void look_at(const void *at, size_t bytes)
{
    static volatile unsigned zeros;
    for (size_t i = 0; i < bytes; i++) {
        if (((const uint8_t *)at)[i] == 0) {
            zeros++;
        }
    }
}

/* A table: settings, and the five areas and work in the order of the doors; the bytes of its keys, which the settings say unless they are spoiled. */
static uint64_t settings[FLOW_SETTINGS_COUNT];
static size_t width;
static struct area areas[6];
/* the hash tables for the width in malloc's memory, at 37 by half-byte and by byte, and beside each one of random numbers */
static struct area right_tables[2], random_tables[2];
static size_t right_count;
static const size_t sizes[6] = {1, 2, 1, 1, 1, 2};

#define SETTINGS settings[0], settings[1], settings[2], settings[3], settings[4], settings[5], settings[6]
#define LENT(area) (area).at, (area).length
#define LOOKUP LENT(areas[2]), LENT(areas[3]), LENT(areas[4])
#define AREAS LENT(areas[0]), LENT(areas[1]), LOOKUP

static void make_areas(void)
{
    uint64_t lengths[6];
    if (flow_area_lengths(SETTINGS, lengths, 6) != FLOW_DONE) {
        fail("settings in range are refused");
    }
    for (int i = 0; i < 6; i++) {
        areas[i] = lend(lengths[i], sizes[i]);
    }
}

static void free_areas(void)
{
    for (int i = 0; i < 6; i++) {
        free(areas[i].at);
    }
}

/* As malloc leaves it: all areas but the ledger, which an update reads. */
static void forget_all_but_ledger(void)
{
    for (int i = 1; i < 6; i++) {
        free(areas[i].at);
        areas[i] = lend(areas[i].length, sizes[i]);
    }
}

static void look_at_areas(void)
{
    for (int i = 0; i < 5; i++) {
        look_at(areas[i].at, areas[i].length * areas[i].size);
    }
}

/* One of a few keys, or any, or one of a wrong length. */
static struct area some_key(void)
{
    struct area key = random_area(width, 1);
    uint64_t way = between(0, 39);
    if (way > 5) {
        memset(key.at, (int)between(1, 30), width);
    }
    if (way == 0) {
        wrong_length(&key);
    }
    if (way == 1) {
        resize(&key, FLOW_IPV4_WIDTH + FLOW_IPV6_WIDTH - width);
    }
    return key;
}

/* A right table. */
static struct area some_table(void) { return right_tables[between(0, right_count - 1)]; }

/* A right table, or now and then one of random numbers. */
static struct area any_table(void) { return between(0, 9) == 0 ? random_tables[between(0, right_count - 1)] : some_table(); }

/* FLOW_DONE when a table with a layout took the call, whose areas then are all written. */
static uint32_t update(void)
{
    struct area key = some_key();
    uint32_t class = (uint32_t)next();
    uint32_t answer = FLOW_DONE;
    switch (between(0, 5)) {
    case 0:
        answer = flow_change(SETTINGS, AREAS, LENT(areas[5]), LENT(key), class);
        break;
    case 1:
        answer = flow_remove(SETTINGS, AREAS, LENT(areas[5]), LENT(key));
        break;
    default:
        answer = flow_add(SETTINGS, AREAS, LENT(areas[5]), LENT(key), class);
    }
    free(key.at);
    return note(answer);
}

static void search(void)
{
    struct area key = some_key(), lent = some_table();
    uint64_t found = flow_search(SETTINGS, LOOKUP, LENT(key));
    if (flow_search_lent(LENT(lent), SETTINGS, LOOKUP, LENT(key)) != found) {
        fail("the two searches differ");
    }
    note(flow_answer_of(found));
    free(key.at);
}

/* Two numbers for the record's place, as malloc leaves them, or another number of them. */
static void search_place(void)
{
    struct area key = some_key(), place = lend(between(0, 9) == 0 ? between(0, 1) : 2, 8);
    uint64_t found = flow_search_place(SETTINGS, LOOKUP, LENT(key), LENT(place));
    uint32_t answer = note(flow_answer_of(found));
    if (place.length == 2 && flow_search(SETTINGS, LOOKUP, LENT(key)) != found) {
        fail("the search with the place differs");
    }
    if (answer == FLOW_HELD) {
        const uint64_t *lies = place.at;
        const struct area *area = lies[0] == 1 ? &areas[3] : &areas[4];
        const uint8_t *record = (const uint8_t *)area->at + lies[1];
        if (lies[0] == 0 || lies[0] > 2 || lies[1] + FLOW_RECORD_BYTES(width) > area->length || memcmp(record, key.at, width) != 0) {
            fail("the record does not lie at its place");
        }
    } else if (answer == FLOW_ABSENT) {
        look_at(place.at, 16);
    }
    free(key.at);
    free(place.at);
}

/* A window: cleared where malloc left it, or random numbers. */
static struct area window;

static int is_accepted(uint64_t found) { return flow_answer_of(found) == FLOW_HELD || flow_answer_of(found) == FLOW_ABSENT; }

/* Three numbers for a search's counts, as malloc leaves them, or another number of them. What the search gives enters the window: if it was
 * refused, its counts are still as malloc left them. */
static void search_counts(void)
{
    size_t length = between(0, 9) == 0 ? between(0, 5) : 3;
    struct area key = some_key(), lent = any_table(), counts = lend(length, 4), counts_lent = lend(length, 4);
    uint64_t found = flow_search_counts(SETTINGS, LOOKUP, LENT(key), LENT(counts));
    uint64_t found_lent = flow_search_counts_lent(LENT(lent), SETTINGS, LOOKUP, LENT(key), LENT(counts_lent));
    note(flow_answer_of(found));
    note(flow_answer_of(found_lent));
    if (length == 3 && (flow_search(SETTINGS, LOOKUP, LENT(key)) != found ||
                        flow_search_lent(LENT(lent), SETTINGS, LOOKUP, LENT(key)) != found_lent)) {
        fail("the search with counts differs");
    }
    if (is_accepted(found)) {
        look_at(counts.at, 12);
    }
    if (is_accepted(found_lent)) {
        look_at(counts_lent.at, 12);
    }
    int right = lent.at == right_tables[0].at || lent.at == right_tables[1].at;
    if (is_accepted(found) && right && memcmp(counts.at, counts_lent.at, 12) != 0) {
        fail("the counts of the two searches differ");
    }
    if (note(flow_window_enter(LENT(window), found, LENT(counts))) != (length == 3 ? FLOW_DONE : FLOW_BAD_AREA_LENGTH)) {
        fail("a window does not take a search");
    }
    look_at(window.at, window.length * window.size);
    free(key.at);
    free(counts.at);
    free(counts_lent.at);
}

/* Each door with another number of a window's numbers, as malloc leaves them. */
static void wrong_window(void)
{
    struct area other = lend(FLOW_WINDOW_NUMBERS, 2), counts = lend(3, 4);
    wrong_length(&other);
    if (note(flow_window_clear(LENT(other))) != FLOW_BAD_AREA_LENGTH ||
        note(flow_window_enter(LENT(other), 0, LENT(counts))) != FLOW_BAD_AREA_LENGTH ||
        note(flow_window_remove(LENT(other))) != FLOW_BAD_AREA_LENGTH ||
        note(flow_window_counts(LENT(other), LENT(counts))) != FLOW_BAD_AREA_LENGTH) {
        fail("a window of a wrong length is taken");
    }
    free(other.at);
    free(counts.at);
}

/* The window is cleared where malloc left it, its oldest are removed, or searches enter it, also such as no search gives. It is counted in
 * three numbers as malloc leaves them, or in another number of them. */
static void window_calls(void)
{
    uint64_t times = between(0, 3) == 0 ? between(0, 1100) : between(0, 3), found = next();
    struct area counts = random_area(between(0, 9) == 0 ? between(0, 5) : 3, 4), told = lend(between(0, 9) == 0 ? between(0, 5) : 3, 4);
    if (between(0, 9) > 0) {
        found = (uint64_t[]){FLOW_HELD, FLOW_ABSENT, FLOW_DAMAGED_LOOKUP}[between(0, 2)] << 32 | between(0, 9);
    }
    switch (between(0, 5)) {
    case 0:
        free(window.at);
        window = lend(FLOW_WINDOW_NUMBERS, 2);
        note(flow_window_clear(LENT(window)));
        break;
    case 1:
        wrong_window();
        break;
    case 2:
        for (; times > 0; times--) {
            note(flow_window_remove(LENT(window)));
        }
        break;
    default:
        for (; times > 0; times--) {
            note(flow_window_enter(LENT(window), found, LENT(counts)));
        }
    }
    look_at(window.at, window.length * window.size);
    if (note(flow_window_counts(LENT(window), LENT(told))) == FLOW_DONE) {
        look_at(told.at, 12);
    }
    free(counts.at);
    free(told.at);
}

/* So many keys, one after the other, or some other number of bytes. */
static struct area some_keys(size_t n)
{
    size_t right = width * n, other[] = {0, n == 0 ? 0 : right - 1, right + 1, right + width, between(0, 2 * right + 2)};
    struct area keys = random_area(between(0, 6) == 0 ? other[between(0, 4)] : right, 1);
    for (size_t at = 0; at + width <= keys.length; at += width) {
        if (between(0, 9) > 0) {
            memset((uint8_t *)keys.at + at, (int)between(1, 30), width);
        }
    }
    return keys;
}

/* As many answers as keys, or some other number of them; the answers as malloc leaves them, or a byte everywhere. */
static void burst(void)
{
    size_t n = between(0, 4) == 0 ? between(0, MOST_KEYS) : between(0, 4);
    struct area keys = some_keys(n), lent = any_table(), shorter = lend(0, 8);
    struct area found = lend(between(0, 19) == 0 ? between(0, MOST_KEYS) : n, 8);
    int marked = between(0, 1) == 0;
    if (between(0, 49) == 0) {
        resize(&shorter, between(0, 1) == 0 ? lent.length - 1 : between(0, lent.length - 1));
        memcpy(shorter.at, lent.at, shorter.length * 8);
        lent = shorter;
    }
    if (marked) {
        memset(found.at, 0xa5, found.length * 8);
    }
    uint32_t answer = note(flow_search_burst(LENT(lent), SETTINGS, LOOKUP, LENT(keys), LENT(found)));
    for (size_t i = 0; i < found.length && (answer == FLOW_DONE || marked); i++) {
        const uint8_t *key = (const uint8_t *)keys.at + width * i;
        uint64_t expected = answer == FLOW_DONE ? flow_search_lent(LENT(lent), SETTINGS, LOOKUP, key, width) : 0xa5a5a5a5a5a5a5a5;
        if (((uint64_t *)found.at)[i] != expected) {
            fail(answer == FLOW_DONE ? "a burst and a search differ" : "a refused burst alters an answer");
        }
        if (answer == FLOW_DONE) {
            note(flow_answer_of(expected));
        }
    }
    free(keys.at);
    free(found.at);
    free(shorter.at);
}

static void tally(void)
{
    struct area totals = lend(between(0, 9) == 0 ? 3 : 4, 4);
    uint32_t answer = flow_tally(SETTINGS, LENT(areas[0]), LOOKUP, LENT(totals));
    if (note(answer) == FLOW_DONE) {
        look_at(totals.at, 16);
    }
    free(totals.at);
}

static void key_buckets(void)
{
    struct area key = some_key(), h = lend(1, 8), h_lent = lend(1, 8), hashes = lend(4, 2), numbers = lend(5, 2), lent = some_table();
    /* at the width of the settings, which may be none */
    if (note(flow_hash(settings[6], LENT(key), LENT(h))) == FLOW_DONE) {
        look_at(h.at, 8);
    }
    if (note(flow_hash_lent(settings[6], LENT(lent), LENT(key), LENT(h_lent))) == FLOW_DONE) {
        look_at(h_lent.at, 8);
        if (memcmp(h.at, h_lent.at, 8) != 0) {
            fail("the two hashes differ");
        }
    }
    if (note(flow_key_buckets(SETTINGS, LENT(key), LENT(hashes), LENT(numbers))) == FLOW_DONE) {
        look_at(hashes.at, 8);
        look_at(numbers.at, 10);
    }
    free(key.at);
    free(h.at);
    free(h_lent.at);
    free(hashes.at);
    free(numbers.at);
}

/* Seven numbers come back, whatever the file. */
static uint32_t load(struct area file)
{
    struct area of_file = lend(FLOW_SETTINGS_COUNT, 8), handed_back = lend(FLOW_SETTINGS_COUNT, 8);
    note(flow_file_settings(LENT(file), LENT(of_file)));
    look_at(of_file.at, 8 * FLOW_SETTINGS_COUNT);
    free(of_file.at);
    uint32_t answer = flow_load(LENT(file), AREAS, LENT(areas[5]), LENT(handed_back));
    look_at(handed_back.at, 8 * FLOW_SETTINGS_COUNT);
    free(handed_back.at);
    return note(answer);
}

/* Cut, extended, or with other bytes. */
static void alter(struct area *file)
{
    struct area longer;
    switch (between(0, 3)) {
    case 0:
        resize(file, between(0, file->length - 1));
        break;
    case 1:
        longer = random_area(file->length + between(1, 20), 1);
        memcpy(longer.at, file->at, file->length);
        free(file->at);
        *file = longer;
        break;
    default:
        for (uint64_t i = between(1, 3); i > 0; i--) {
            ((uint8_t *)file->at)[between(0, file->length - 1)] = (uint8_t)next();
        }
    }
}

/* What is saved loads back as the same ledger; altered it may be refused. */
static void save_and_load(void)
{
    const uint8_t *ledger = areas[0].at;
    size_t records = 256 * (size_t)ledger[0] + ledger[1];
    struct area file = lend(FLOW_FILE_HEAD_BYTES(width) + FLOW_RECORD_BYTES(width) * records, 1), before = lend(areas[0].length, 1);
    memcpy(before.at, areas[0].at, before.length);
    if (between(0, 9) == 0) {
        wrong_length(&file);
    }
    if (note(flow_save(SETTINGS, LENT(areas[0]), LENT(areas[5]), LENT(file))) == FLOW_DONE) {
        look_at(file.at, file.length);
        struct area altered = lend(file.length, 1);
        memcpy(altered.at, file.at, file.length);
        alter(&altered);
        load(altered);
        free(altered.at);
        forget_all_but_ledger();
        memset(areas[0].at, 0xff, areas[0].length);
        if (load(file) == FLOW_DONE && memcmp(before.at, areas[0].at, before.length) != 0) {
            fail("another ledger comes back");
        }
        look_at_areas();
    }
    free(file.at);
    free(before.at);
}

/* Calls on a table: areas with a layout, or as malloc leaves them where an update does not read them. */
static void calls_on_a_table(void)
{
    make_areas();
    if (note(flow_clear(SETTINGS, AREAS)) != FLOW_DONE) {
        fail("clear is refused");
    }
    look_at_areas();
    window = lend(FLOW_WINDOW_NUMBERS, 2);
    if (note(flow_window_clear(LENT(window))) != FLOW_DONE) {
        fail("a window is not cleared");
    }
    for (int i = 0; i < CALLS; i++) {
        switch (between(0, 14)) {
        case 0:
            search();
            break;
        case 1:
            tally();
            break;
        case 2:
            save_and_load();
            break;
        case 3:
            key_buckets();
            break;
        case 4:
            burst();
            break;
        case 5:
            search_place();
            break;
        case 6:
            search_counts();
            break;
        case 7:
            window_calls();
            break;
        default:
            if (update() == FLOW_DONE) {
                look_at_areas();
            }
        }
    }
    /* an accepted update repairs all from the ledger alone */
    forget_all_but_ledger();
    if (update() == FLOW_DONE) {
        look_at_areas();
    }
    free(window.at);
    free_areas();
}

/* Random bytes after a head that may be right. */
static void any_file(void)
{
    struct area file = random_area(between(0, 120), 1), handed_back = lend(FLOW_SETTINGS_COUNT - 1, 8);
    /* mostly the first count of the width: 6 leaves it out */
    int count = between(0, 9) == 0 ? (int)between(5, 8) : width == FLOW_IPV4_WIDTH ? 6 : 7;
    if (file.length >= 2 * (size_t)count + 4 && between(0, 2) != 0) {
        uint8_t *head = file.at;
        for (int i = 0; i < count + 2; i++) {
            uint64_t number = i == 0 ? (uint64_t)count : i == count + 1 || i > FLOW_SETTINGS_COUNT ? between(0, 3) : settings[i - 1];
            head[2 * i] = (uint8_t)(number >> 8);
            head[2 * i + 1] = (uint8_t)number;
        }
    }
    load(file);
    note(flow_file_settings(LENT(file), LENT(handed_back)));
    note(flow_load(LENT(file), AREAS, LENT(areas[5]), LENT(handed_back)));
    free(file.at);
    free(handed_back.at);
}

/* Random bytes in the areas, some of them of wrong lengths, and now and then a setting out of range. */
static void calls_on_any_areas(void)
{
    make_areas();
    for (int i = 0; i < 6; i++) {
        size_t length = areas[i].length;
        free(areas[i].at);
        areas[i] = random_area(length, sizes[i]);
    }
    ((uint8_t *)areas[0].at)[0] = 0;
    ((uint8_t *)areas[4].at)[0] = 0;
    if (between(0, 2) != 0) {
        memset(areas[2].at, 0x11, areas[2].length);
    }
    if (between(0, 2) == 0) {
        wrong_length(&areas[between(0, 5)]);
    }
    if (between(0, 4) == 0) {
        settings[between(0, 6)] = between(0, 1) == 0 ? 100000 : UINT64_MAX;
    }
    window = random_area(FLOW_WINDOW_NUMBERS, 2);
    for (int i = 0; i < CALLS / 4; i++) {
        update();
        search();
        search_place();
        search_counts();
        window_calls();
        burst();
        tally();
        key_buckets();
        any_file();
        struct area target = lend(between(0, 120), 1);
        note(flow_save(SETTINGS, LENT(areas[0]), LENT(areas[5]), LENT(target)));
        free(target.at);
    }
    note(flow_clear(SETTINGS, AREAS));
    free(window.at);
    free_areas();
}

static void packets(void)
{
    static const uint8_t no_ports[4];
    for (int i = 0; i < PACKETS; i++) {
        struct area packet = random_area((size_t)i % 81, 1), key = lend(i % 7 == 0 ? between(0, 40) : FLOW_IPV4_WIDTH, 1);
        uint8_t *bytes = packet.at;
        if (packet.length > 9 && i % 5 != 0) {
            bytes[0] = (uint8_t)(0x40 + between(3, 15));
            bytes[9] = (uint8_t[]){6, 17, 1}[between(0, 2)];
            /* any flags, and a fragment offset of zero, of one bit, or any */
            uint64_t offset = (uint64_t[]){0, 1u << between(0, 12), between(0, 8191)}[between(0, 2)];
            bytes[6] = (uint8_t)(between(0, 7) << 5 | offset >> 8);
            bytes[7] = (uint8_t)offset;
        }
        uint32_t answer = note(flow_packet_key(LENT(packet), LENT(key)));
        if (answer == FLOW_DONE) {
            look_at(key.at, FLOW_IPV4_WIDTH);
        }
        int later = packet.length > 7 && (bytes[6] % 32 != 0 || bytes[7] != 0);
        if (later && (answer == FLOW_PORTS_MISSING || (answer == FLOW_DONE && memcmp((const uint8_t *)key.at + 8, no_ports, 4) != 0))) {
            fail("a later fragment has ports");
        }
        free(packet.at);
        free(key.at);
    }
}

/* IPv6 packets in memory of exactly their bytes; the key is of bytes of the packet, or of zeros. */
static void packets6(void)
{
    static const uint8_t no_ports[4];
    for (int i = 0; i < PACKETS; i++) {
        struct area packet = random_area((size_t)i % 89, 1), key = lend(i % 7 == 0 ? between(0, 40) : FLOW_IPV6_WIDTH, 1);
        uint8_t *bytes = packet.at;
        if (packet.length > 6 && i % 5 != 0) {
            bytes[0] = (uint8_t)(0x60 + between(0, 15));
            bytes[6] = (uint8_t[]){6, 17, 0, 43, 44, 50, 51, 58, 60}[between(0, 8)];
        }
        if (note(flow_packet6_key(LENT(packet), LENT(key))) == FLOW_DONE) {
            const uint8_t *made = key.at, *ports = bytes[6] == 6 || bytes[6] == 17 ? bytes + 40 : no_ports;
            look_at(made, FLOW_IPV6_WIDTH);
            if (memcmp(made, bytes + 8, 32) != 0 || memcmp(made + 32, ports, 4) != 0 || made[36] != bytes[6]) {
                fail("an IPv6 packet's key is of other bytes");
            }
        }
        free(packet.at);
        free(key.at);
    }
}

/* Numbers of a generator in memory of exactly its size: each is the sum of what it then holds, and an s of zero stays zero. */
static void generators(void)
{
    for (int i = 0; i < GENERATORS; i++) {
        struct area held = random_area(1, sizeof(struct flow_generator));
        struct flow_generator *generator = held.at;
        if (i % 5 == 0) {
            generator->s = 0;
        }
        if (i % 7 == 0) {
            generator->w = UINT64_MAX;
        }
        for (int j = 0; j < CALLS; j++) {
            uint64_t w = generator->w, zero = generator->s == 0, number = flow_generator_next(generator);
            if (generator->w != w + 362437 || (generator->s == 0) != zero || number != generator->s + generator->w) {
                fail("a generator's number is not the sum of what it holds");
            }
        }
        free(held.at);
    }
}

/* The tables for the width, filled where malloc left them; a length that is none is refused, and so is a width that is none. */
static void make_tables(void)
{
    const size_t lengths[2] = {width == FLOW_IPV4_WIDTH ? FLOW_HASH_TABLE_NUMBERS(FLOW_IPV4_WIDTH) : FLOW_HALF_BYTE_TABLE_NUMBERS,
                               FLOW_HASH_TABLE_NUMBERS(FLOW_IPV6_WIDTH)};
    right_count = width == FLOW_IPV4_WIDTH ? 1 : 2;
    for (size_t i = 0; i < right_count; i++) {
        struct area shorter = lend(lengths[i] - 1, 8);
        right_tables[i] = lend(lengths[i], 8);
        random_tables[i] = random_area(lengths[i], 8);
        if (note(flow_hash_table(width, LENT(right_tables[i]))) != FLOW_DONE ||
            note(flow_hash_table(width, LENT(shorter))) != FLOW_BAD_AREA_LENGTH ||
            note(flow_hash_table(width + 1, LENT(shorter))) != FLOW_BAD_SETTINGS) {
            fail("a hash table");
        }
        look_at(right_tables[i].at, 8 * lengths[i]);
        free(shorter.at);
    }
}

static void free_tables(void)
{
    for (size_t i = 0; i < right_count; i++) {
        free(right_tables[i].at);
        free(random_tables[i].at);
        right_tables[i].at = NULL;
    }
}

int main(void)
{
    static const uint64_t most[6] = {6, 4, 4, 15, 24, 5}, least[6] = {4, 1, 1, 2, 1, 0};
    static const size_t widths[2] = {FLOW_IPV4_WIDTH, FLOW_IPV6_WIDTH};
    for (int w = 0; w < 2; w++) {
        width = widths[w];
        make_tables();
        for (int i = 0; i < TABLES; i++) {
            for (int j = 0; j < 6; j++) {
                settings[j] = between(least[j], most[j]);
            }
            settings[6] = width;
            if (flow_settings_check(SETTINGS) != FLOW_DONE) {
                fail("settings in range are refused");
            }
            if (i % 2 == 0) {
                calls_on_a_table();
            } else {
                calls_on_any_areas();
            }
        }
        free_tables();
    }
    packets();
    packets6();
    generators();
    for (int i = 0; i <= MOST_ANSWER; i++) {
        if (answers[i] > 0) {
            printf("answer %d: %" PRIu64 "\n", i, answers[i]);
        }
    }
    return 0;
}
