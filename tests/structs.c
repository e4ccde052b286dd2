/* The structs of flow.h: each function of a table beside its door, called by numbers on areas of the same bytes; what an opening and a load do and
 * refuse; and every door with an area that is NULL and of length 0. Its last line is 'width N: M checks, all right'. */
#include "check.h"
#include "flow.h"
#include <string.h>

#ifndef WIDTH
#define WIDTH FLOW_IPV4_WIDTH
#endif

enum { KEY = WIDTH, RECORD = FLOW_RECORD_BYTES(KEY), HEAD = FLOW_FILE_HEAD_BYTES(KEY), HASHES = FLOW_HASH_TABLE_NUMBERS(KEY) };
enum { KEYS = 24, CALLS = 3000, FILES = 2000, BURST = 5, MANY = 300 };

static uint64_t next(void)
{
    static struct flow_generator generator = {.s = 1, .w = 0};
    return flow_generator_next(&generator) >> 16;
}

static void fill(void *bytes, size_t length)
{
    for (size_t i = 0; i < length; i++) {
        ((uint8_t *)bytes)[i] = (uint8_t)next();
    }
}

static void *lend(size_t bytes)
{
    void *lent = malloc(bytes);
    if (lent == NULL) {
        puts("no memory");
        exit(2);
    }
    fill(lent, bytes);
    return lent;
}

static void names(void)
{
    /* clang-format off */
    static const enum flow_answer answers[17] = {
        FLOW_DONE, FLOW_BAD_SETTINGS, FLOW_BAD_AREA_LENGTH, FLOW_BAD_KEY_LENGTH, FLOW_DAMAGED_LEDGER, FLOW_DAMAGED_LOOKUP, FLOW_ALREADY_HELD,
        FLOW_NOT_HELD, FLOW_FULL, FLOW_SIDE_FULL, FLOW_BAD_PACKET_HEADER, FLOW_PORTS_MISSING, FLOW_BAD_FILE_LENGTH, FLOW_BAD_FILE_ORDER,
        FLOW_BAD_INPUT, FLOW_BAD_LOAD, FLOW_BAD_PACKET6_HEADER,
    };
    /* clang-format on */
    for (int i = 0; i < 17; i++) {
        CHECK((int)answers[i] == i);
        CHECK(flow_answer_of((uint64_t)i << 32 | UINT32_MAX) == answers[i] && flow_class_of((uint64_t)i << 32 | UINT32_MAX) == UINT32_MAX);
    }
    CHECK(FLOW_HELD == 0 && FLOW_ABSENT == 100);
    CHECK(flow_answer_of(UINT64_C(100) << 32) == FLOW_ABSENT && flow_class_of(UINT64_C(100) << 32) == 0);
    CHECK(flow_answer_of(0x89abcdef) == FLOW_HELD && flow_class_of(0x89abcdef) == 0x89abcdef);
}

/* The table, and the same by numbers: seven settings, six lengths, and areas that are apart. */
static struct flow_table table;
static void *memory;
static uint64_t s[FLOW_SETTINGS_COUNT] = {4, 2, 1, 3, 14, 5, WIDTH}, n[6];
static uint8_t *ledger, *clipped, *buckets, *side;
static uint16_t *true_counts, *work;
#define SETTINGS s[0], s[1], s[2], s[3], s[4], s[5], s[6]
#define LOOKUP clipped, n[2], buckets, n[3], side, n[4]
#define AREAS ledger, n[0], true_counts, n[1], LOOKUP
#define WORK work, n[5]

static struct flow_settings as_struct(const uint64_t *of)
{
    return (struct flow_settings){.p = of[0], .k = of[1], .room = of[2], .top = of[3], .capacity = of[4], .side_places = of[5], .width = of[6]};
}

/* The numbers for H, at width 37 also those by half-byte; keys that are few, so that many calls have a held one. */
static uint64_t hashes[HASHES], halves[FLOW_HALF_BYTE_TABLE_NUMBERS];
static uint8_t keys[KEYS][KEY], many_keys[MANY][KEY];

static void make_tables(void)
{
    const struct flow_settings settings = as_struct(s);
    CHECK(flow_hash_table(WIDTH, hashes, HASHES) == 0);
    CHECK(WIDTH == FLOW_IPV4_WIDTH || flow_hash_table(WIDTH, halves, FLOW_HALF_BYTE_TABLE_NUMBERS) == 0);
    fill(keys, sizeof keys);
    fill(many_keys, sizeof many_keys);
    CHECK(flow_area_lengths(SETTINGS, n, 6) == 0);
    ledger = lend(n[0]);
    true_counts = lend(2 * n[1]);
    clipped = lend(n[2]);
    buckets = lend(n[3]);
    side = lend(n[4]);
    work = lend(2 * n[5]);
    CHECK(flow_clear(SETTINGS, AREAS) == 0);
    memory = lend(flow_table_bytes(&settings));
    CHECK(flow_table_open(&table, &settings, memory, flow_table_bytes(&settings)) == FLOW_DONE);
}

static void free_tables(void)
{
    free(memory);
    free(ledger);
    free(true_counts);
    free(clipped);
    free(buckets);
    free(side);
    free(work);
}

static void same_areas(void)
{
    const struct flow_areas *a = &table.areas;
    CHECK(memcmp(a->ledger, ledger, n[0]) == 0 && memcmp(a->true_counts, true_counts, 2 * n[1]) == 0);
    CHECK(memcmp(a->clipped, clipped, n[2]) == 0 && memcmp(a->buckets, buckets, n[3]) == 0 && memcmp(a->side, side, n[4]) == 0);
}

static uint32_t update(const uint8_t *key)
{
    uint32_t class = (uint32_t)next(), answer;
    switch (next() % 4) {
    case 0:
        answer = flow_table_change(&table, key, class);
        CHECK(answer == flow_change(SETTINGS, AREAS, WORK, key, KEY, class));
        break;
    case 1:
        answer = flow_table_remove(&table, key);
        CHECK(answer == flow_remove(SETTINGS, AREAS, WORK, key, KEY));
        break;
    default:
        answer = flow_table_add(&table, key, class);
        CHECK(answer == flow_add(SETTINGS, AREAS, WORK, key, KEY, class));
    }
    same_areas();
    return answer;
}

/* What is read of a table: the same answers, and the same numbers written. */
static void search(const uint8_t *key)
{
    uint64_t place[2] = {7, 7}, place_[2] = {7, 7};
    uint32_t counts[3] = {7, 7, 7}, counts_[3] = {7, 7, 7}, totals[4] = {7, 7, 7, 7}, totals_[4] = {7, 7, 7, 7};
    CHECK(flow_table_search(&table, key) == flow_search(SETTINGS, LOOKUP, key, KEY));
    CHECK(flow_table_search_place(&table, key, place) == flow_search_place(SETTINGS, LOOKUP, key, KEY, place_, 2));
    CHECK(place[0] == place_[0] && place[1] == place_[1]);
    CHECK(flow_table_search_counts(&table, key, counts) == flow_search_counts(SETTINGS, LOOKUP, key, KEY, counts_, 3));
    CHECK(memcmp(counts, counts_, sizeof counts) == 0);
    CHECK(flow_table_tally(&table, totals) == flow_tally(SETTINGS, ledger, n[0], LOOKUP, totals_, 4));
    CHECK(memcmp(totals, totals_, sizeof totals) == 0);
}

static void search_lent(const uint64_t *lent, size_t length, const uint8_t *key)
{
    uint32_t counts[3] = {7, 7, 7}, counts_[3] = {7, 7, 7};
    uint64_t answers[BURST] = {7, 7, 7, 7, 7}, answers_[BURST] = {7, 7, 7, 7, 7};
    CHECK(flow_table_search_lent(&table, lent, length, key) == flow_search_lent(lent, length, SETTINGS, LOOKUP, key, KEY));
    CHECK(flow_table_search_counts_lent(&table, lent, length, key, counts) ==
          flow_search_counts_lent(lent, length, SETTINGS, LOOKUP, key, KEY, counts_, 3));
    CHECK(memcmp(counts, counts_, sizeof counts) == 0);
    for (size_t burst = 0; burst <= BURST; burst++) {
        CHECK(flow_table_search_burst(&table, lent, length, keys[3], answers, burst) ==
              flow_search_burst(lent, length, SETTINGS, LOOKUP, keys[3], burst * KEY, answers_, burst));
        CHECK(memcmp(answers, answers_, sizeof answers) == 0);
    }
}

static void search_all(const uint8_t *key)
{
    search(key);
    search_lent(hashes, HASHES, key);
    search_lent(hashes, HASHES - 1, key);
    search_lent(halves, FLOW_HALF_BYTE_TABLE_NUMBERS, key); /* at width 13 of a wrong length */
}

/* Into bytes of the right number, of one fewer and of one more. */
static void save(void)
{
    size_t right = flow_table_file_bytes(&table);
    CHECK(flow_table_count(&table) == (size_t)ledger[0] * 256 + ledger[1]);
    CHECK(right == HEAD + RECORD * flow_table_count(&table));
    for (size_t bytes = right - 1; bytes <= right + 1; bytes++) {
        uint8_t *file = lend(bytes), *file_ = lend(bytes);
        memcpy(file_, file, bytes);
        CHECK(flow_table_save(&table, file, bytes) == flow_save(SETTINGS, ledger, n[0], WORK, file_, bytes));
        CHECK(memcmp(file, file_, bytes) == 0);
        free(file);
        free(file_);
    }
}

/* Every call of a table, beside the doors. */
static void calls(void)
{
    static int seen[FLOW_ABSENT + 1];
    for (int i = 0; i < CALLS; i++) {
        const uint8_t *key = keys[next() % KEYS];
        seen[update(key)]++;
        seen[flow_answer_of(flow_table_search(&table, key))]++;
        search_all(key);
        save();
    }
    CHECK(seen[FLOW_DONE] && seen[FLOW_ALREADY_HELD] && seen[FLOW_NOT_HELD] && seen[FLOW_FULL] && seen[FLOW_SIDE_FULL] && seen[FLOW_ABSENT]);
}

static void every_call(void)
{
    for (int i = 0; i < 12; i++) {
        update(keys[i]);
    }
    search_all(keys[0]);
    CHECK(flow_table_save(&table, NULL, 0) == flow_save(SETTINGS, ledger, n[0], WORK, NULL, 0));
}

/* The same where the doors refuse: each area of a wrong length, each setting out of range. */
static void refusals(void)
{
    struct flow_areas *a = &table.areas;
    size_t *const lengths[6] = {&a->ledger_length, &a->true_counts_length, &a->clipped_length, &a->buckets_length, &a->side_length, &a->work_length};
    for (int i = 0; i < 6; i++) {
        *lengths[i] = (size_t)--n[i];
        CHECK(flow_table_add(&table, keys[0], 1) == FLOW_BAD_AREA_LENGTH);
        CHECK(flow_table_clear(&table) == flow_clear(SETTINGS, AREAS) && flow_table_clear(&table) == (i < 5 ? FLOW_BAD_AREA_LENGTH : FLOW_DONE));
        same_areas();
        every_call();
        *lengths[i] = (size_t)++n[i];
    }
    for (int i = 0; i < FLOW_SETTINGS_COUNT; i++) {
        uint64_t right = s[i];
        s[i] = i % 2 == 0 ? 0 : UINT64_MAX;
        table.settings = as_struct(s);
        CHECK(flow_table_clear(&table) == FLOW_BAD_SETTINGS && flow_table_add(&table, keys[0], 1) == FLOW_BAD_SETTINGS);
        every_call();
        s[i] = right;
    }
    table.settings = as_struct(s);
}

static void damage(void)
{
    table.areas.ledger[n[0] - 1] ^= 1;
    ledger[n[0] - 1] ^= 1;
    CHECK(flow_table_add(&table, keys[0], 1) == FLOW_DAMAGED_LEDGER);
    every_call();
    memset(table.areas.clipped, 0xff, n[2]);
    memset(clipped, 0xff, n[2]);
    CHECK(flow_answer_of(flow_table_search(&table, keys[0])) == FLOW_DAMAGED_LOOKUP);
    every_call();
    CHECK(flow_table_clear(&table) == FLOW_DONE && flow_clear(SETTINGS, AREAS) == FLOW_DONE);
    same_areas();
    CHECK(all_are(table.areas.ledger, n[0], 0) && all_are(table.areas.buckets, n[3], 0));
}

/* Each area lies in the memory, right after another one, and none is left over. */
static void places(const struct flow_table *of, const void *lent, size_t bytes)
{
    const struct flow_areas *a = &of->areas;
    const struct {
        const void *at;
        size_t bytes;
    } areas[6] = {{a->ledger, a->ledger_length},   {a->true_counts, 2 * a->true_counts_length}, {a->clipped, a->clipped_length},
                  {a->buckets, a->buckets_length}, {a->side, a->side_length},                   {a->work, 2 * a->work_length}};
    uint8_t *taken = calloc(bytes, 1);
    CHECK(taken != NULL);
    for (int i = 0; i < 6; i++) {
        CHECK((uintptr_t)areas[i].at >= (uintptr_t)lent && (uintptr_t)areas[i].at + areas[i].bytes <= (uintptr_t)lent + bytes);
        size_t at = (uintptr_t)areas[i].at - (uintptr_t)lent;
        CHECK(all_are(taken + at, areas[i].bytes, 0));
        memset(taken + at, 1, areas[i].bytes);
        CHECK(i == 5 || all_are(areas[i].at, areas[i].bytes, 0));
    }
    CHECK(all_are(taken, bytes, 1));
    CHECK((uintptr_t)a->true_counts % 2 == 0 && (uintptr_t)a->work % 2 == 0);
    free(taken);
}

static void open_one(const uint64_t *of)
{
    const struct flow_settings settings = as_struct(of);
    struct flow_table opened;
    uint64_t l[6];
    CHECK(flow_area_lengths(of[0], of[1], of[2], of[3], of[4], of[5], of[6], l, 6) == 0);
    size_t bytes = flow_table_bytes(&settings);
    CHECK(bytes == l[0] + 2 * l[1] + l[2] + l[3] + l[4] + 2 * l[5]);
    void *lent = lend(bytes);
    CHECK(flow_table_open(&opened, &settings, lent, bytes) == FLOW_DONE);
    const struct flow_areas *a = &opened.areas;
    CHECK(a->ledger_length == l[0] && a->true_counts_length == l[1] && a->clipped_length == l[2] && a->buckets_length == l[3]);
    CHECK(a->side_length == l[4] && a->work_length == l[5]);
    CHECK(memcmp(&opened.settings, &settings, sizeof settings) == 0 && flow_table_count(&opened) == 0);
    places(&opened, lent, bytes);
    struct flow_lookup lookup = flow_lookup_of(a);
    CHECK(lookup.clipped == a->clipped && lookup.buckets == a->buckets && lookup.side == a->side);
    CHECK(lookup.clipped_length == l[2] && lookup.buckets_length == l[3] && lookup.side_length == l[4]);
    free(lent);
}

static void openings(void)
{
    static const uint64_t least[FLOW_SETTINGS_COUNT] = {4, 1, 1, 2, 1, 0, WIDTH}, most[FLOW_SETTINGS_COUNT] = {12, 4, 4, 15, 4096, 64, WIDTH};
    open_one(least);
    open_one(most);
    for (int i = 0; i < 200; i++) {
        uint64_t of[FLOW_SETTINGS_COUNT];
        for (int j = 0; j < FLOW_SETTINGS_COUNT; j++) {
            of[j] = least[j] + next() % ((most[j] - least[j]) / (j == 4 ? 20 : 1) + 1);
        }
        open_one(of);
    }
}

/* Refused, neither the table nor the memory is altered. */
static void refused_openings(void)
{
    struct flow_settings settings = as_struct(s);
    size_t bytes = flow_table_bytes(&settings);
    const size_t wrong[] = {0, 1, bytes - 2, bytes - 1, bytes + 1, bytes + 2, 2 * bytes};
    struct flow_table opened;
    uint8_t *lent = lend(2 * bytes);
    memset(lent, 0xa5, 2 * bytes);
    memset(&opened, 0x5a, sizeof opened);
    for (size_t i = 0; i < sizeof wrong / sizeof wrong[0]; i++) {
        CHECK(flow_table_open(&opened, &settings, lent, wrong[i]) == FLOW_BAD_AREA_LENGTH);
    }
    CHECK(flow_table_open(&opened, &settings, NULL, 0) == FLOW_BAD_AREA_LENGTH);
    for (int i = 0; i < 2 * FLOW_SETTINGS_COUNT; i++) {
        uint64_t of[FLOW_SETTINGS_COUNT];
        memcpy(of, s, sizeof of);
        of[i / 2] = i % 2 == 0 ? UINT64_MAX : 5000;
        settings = as_struct(of);
        CHECK(flow_table_bytes(&settings) == 0);
        CHECK(flow_table_open(&opened, &settings, lent, bytes) == FLOW_BAD_SETTINGS);
        CHECK(flow_table_open(&opened, &settings, lent, 0) == FLOW_BAD_SETTINGS);
    }
    CHECK(all_are(&opened, sizeof opened, 0x5a) && all_are(lent, 2 * bytes, 0xa5));
    free(lent);
}

/* More than 255 flows, so that the count's high byte is not zero; they are saved, and loaded into a table of the same lengths but another k and top:
 * it then has the file's settings. */
static void many_flows(void)
{
    const struct flow_settings settings = {.p = 9, .k = 3, .room = 2, .top = 4, .capacity = MANY, .side_places = 64, .width = WIDTH};
    struct flow_settings others = settings;
    others.k = 2;
    others.top = 7;
    struct flow_table from, to;
    size_t bytes = flow_table_bytes(&settings);
    void *lent = lend(bytes), *lent_to = lend(bytes);
    CHECK(bytes == flow_table_bytes(&others));
    CHECK(flow_table_open(&from, &settings, lent, bytes) == FLOW_DONE && flow_table_open(&to, &others, lent_to, bytes) == FLOW_DONE);
    for (int i = 0; i < MANY; i++) {
        CHECK(flow_table_add(&from, many_keys[i], (uint32_t)i) == FLOW_DONE && flow_table_count(&from) == (size_t)i + 1);
    }
    size_t file_bytes = flow_table_file_bytes(&from);
    CHECK(file_bytes == HEAD + RECORD * MANY);
    uint8_t *file = lend(file_bytes);
    CHECK(flow_table_save(&from, file, file_bytes) == FLOW_DONE);
    CHECK(flow_table_load(&to, file, file_bytes) == FLOW_DONE && flow_table_count(&to) == MANY);
    CHECK(memcmp(&to.settings, &settings, sizeof settings) == 0);
    CHECK(memcmp(to.areas.true_counts, from.areas.true_counts, 2 * from.areas.true_counts_length) == 0);
    CHECK(memcmp(to.areas.ledger, from.areas.ledger, bytes - 2 * (from.areas.true_counts_length + from.areas.work_length)) == 0);
    for (int i = 0; i < MANY; i++) {
        CHECK(flow_table_search(&to, many_keys[i]) == (uint64_t)i);
    }
    free(file);
    free(lent);
    free(lent_to);
}

/* The settings of a file as a struct, beside the door. */
static void settings_of(const uint8_t *file, size_t bytes)
{
    uint64_t told[FLOW_SETTINGS_COUNT];
    struct flow_settings read;
    memset(&read, 0xa5, sizeof read);
    CHECK(flow_settings_of_file(&read, file, bytes) == flow_file_settings(file, bytes, told, FLOW_SETTINGS_COUNT));
    const struct flow_settings expected = as_struct(told);
    CHECK(memcmp(&read, &expected, sizeof read) == 0);
}

/* A load beside the door; refused, the table is as it was, but for work. */
static uint32_t load(const uint8_t *file, size_t bytes)
{
    const struct flow_table before = table;
    uint8_t *areas[5] = {table.areas.ledger, (uint8_t *)table.areas.true_counts, table.areas.clipped, table.areas.buckets, table.areas.side};
    const size_t lengths[5] = {n[0], 2 * n[1], n[2], n[3], n[4]};
    uint8_t *were[5];
    uint64_t told[FLOW_SETTINGS_COUNT];
    for (int i = 0; i < 5; i++) {
        were[i] = lend(lengths[i]);
        memcpy(were[i], areas[i], lengths[i]);
    }
    settings_of(file, bytes);
    uint32_t answer = flow_table_load(&table, file, bytes);
    CHECK(answer == flow_load(file, bytes, AREAS, WORK, told, FLOW_SETTINGS_COUNT));
    same_areas();
    const struct flow_settings loaded = as_struct(told);
    CHECK(memcmp(&table.settings, answer == FLOW_DONE ? &loaded : &before.settings, sizeof loaded) == 0);
    CHECK(memcmp(&table.areas, &before.areas, sizeof table.areas) == 0);
    for (int i = 0; i < 5; i++) {
        CHECK(answer == FLOW_DONE || memcmp(were[i], areas[i], lengths[i]) == 0);
        free(were[i]);
    }
    return answer;
}

/* A file of the table as it is, and altered: cut, longer, with other bytes in its head or its records. */
static void loads(void)
{
    static int seen[FLOW_ABSENT + 1];
    for (int i = 0; i < FILES; i++) {
        for (int j = 0; j < 8; j++) {
            update(keys[next() % KEYS]);
        }
        size_t right = flow_table_file_bytes(&table), bytes = right;
        CHECK(right >= HEAD + RECORD);
        uint8_t *file = lend(right + 2);
        CHECK(flow_table_save(&table, file, right) == FLOW_DONE);
        switch (next() % 5) {
        case 0: bytes = next() % (right + 3); break;
        case 1: file[2 * (next() % 9) + 1] ^= (uint8_t)(1 << next() % 4); break;
        case 2: memset(file + HEAD, 0xff, KEY); break;
        case 3: file[5] = (uint8_t)(1 + next() % 4); break; /* k: the lengths stay */
        default: break; /* as it was saved */
        }
        seen[load(file, bytes)]++;
        /* the first settings and flows again */
        table.settings = as_struct(s);
        CHECK(flow_table_clear(&table) == FLOW_DONE && flow_clear(SETTINGS, AREAS) == FLOW_DONE);
        for (int j = 0; j < 6; j++) {
            CHECK(flow_table_add(&table, keys[j], 1) == flow_add(SETTINGS, AREAS, WORK, keys[j], KEY, 1));
        }
        free(file);
    }
    CHECK(seen[FLOW_DONE] && seen[FLOW_BAD_SETTINGS] && seen[FLOW_BAD_AREA_LENGTH] && seen[FLOW_FULL] && seen[FLOW_SIDE_FULL]);
    CHECK(seen[FLOW_BAD_FILE_LENGTH] && seen[FLOW_BAD_FILE_ORDER]);
}

/* Every area that a door may be lent, right for a call that is accepted: the doors' calls take them from here, so that one may be replaced. */
enum area {
    LEDGER, TRUE_COUNTS, CLIPPED, BUCKETS, SIDE, WORK_AREA, HASH_TABLE, HELD_KEY, NEW_KEY, LENGTHS, H, FOUR_HASHES, NUMBERS, BURST_KEYS, ANSWERS,
    PLACE, COUNTS, TOTALS, WINDOW, PACKET, PACKET_KEY, PACKET6, PACKET6_KEY, FILE_BYTES, TOLD, TARGET, EACH_AREA
};
static struct {
    void *at;
    size_t length, size; /* in numbers; the bytes of a number */
    uint8_t *before;     /* its bytes */
} lent[EACH_AREA];
#define L(area) lent[area].at, lent[area].length
#define L_LOOKUP L(CLIPPED), L(BUCKETS), L(SIDE)
#define L_AREAS L(LEDGER), L(TRUE_COUNTS), L_LOOKUP

static uint64_t area_lengths(void) { return flow_area_lengths(SETTINGS, L(LENGTHS)); }
static uint64_t hash_table(void) { return flow_hash_table(WIDTH, L(HASH_TABLE)); }
static uint64_t hash(void) { return flow_hash(WIDTH, L(HELD_KEY), L(H)); }
static uint64_t hash_lent(void) { return flow_hash_lent(WIDTH, L(HASH_TABLE), L(HELD_KEY), L(H)); }
static uint64_t key_buckets(void) { return flow_key_buckets(SETTINGS, L(HELD_KEY), L(FOUR_HASHES), L(NUMBERS)); }
static uint64_t search_one(void) { return flow_search(SETTINGS, L_LOOKUP, L(HELD_KEY)) >> 32; }
static uint64_t search_one_lent(void) { return flow_search_lent(L(HASH_TABLE), SETTINGS, L_LOOKUP, L(HELD_KEY)) >> 32; }
static uint64_t search_burst(void) { return flow_search_burst(L(HASH_TABLE), SETTINGS, L_LOOKUP, L(BURST_KEYS), L(ANSWERS)); }
static uint64_t search_place(void) { return flow_search_place(SETTINGS, L_LOOKUP, L(HELD_KEY), L(PLACE)) >> 32; }
static uint64_t search_counts(void) { return flow_search_counts(SETTINGS, L_LOOKUP, L(HELD_KEY), L(COUNTS)) >> 32; }
static uint64_t search_counts_lent(void)
{
    return flow_search_counts_lent(L(HASH_TABLE), SETTINGS, L_LOOKUP, L(HELD_KEY), L(COUNTS)) >> 32;
}
static uint64_t tally(void) { return flow_tally(SETTINGS, L(LEDGER), L_LOOKUP, L(TOTALS)); }
static uint64_t clear(void) { return flow_clear(SETTINGS, L_AREAS); }
static uint64_t add(void) { return flow_add(SETTINGS, L_AREAS, L(WORK_AREA), L(NEW_KEY), 1); }
static uint64_t change(void) { return flow_change(SETTINGS, L_AREAS, L(WORK_AREA), L(HELD_KEY), 1); }
static uint64_t take_out(void) { return flow_remove(SETTINGS, L_AREAS, L(WORK_AREA), L(HELD_KEY)); }
static uint64_t window_clear(void) { return flow_window_clear(L(WINDOW)); }
static uint64_t window_enter(void) { return flow_window_enter(L(WINDOW), 0, L(COUNTS)); }
static uint64_t window_remove(void) { return flow_window_remove(L(WINDOW)); }
static uint64_t window_counts(void) { return flow_window_counts(L(WINDOW), L(COUNTS)); }
static uint64_t packet_key(void) { return flow_packet_key(L(PACKET), L(PACKET_KEY)); }
static uint64_t packet6_key(void) { return flow_packet6_key(L(PACKET6), L(PACKET6_KEY)); }
static uint64_t save_file(void) { return flow_save(SETTINGS, L(LEDGER), L(WORK_AREA), L(TARGET)); }
static uint64_t file_settings(void) { return flow_file_settings(L(FILE_BYTES), L(TOLD)); }
static uint64_t load_file(void) { return flow_load(L(FILE_BYTES), L_AREAS, L(WORK_AREA), L(TOLD)); }

/* Each door with its areas, and what it refuses one of length 0 with. */
/* clang-format off */
#define OF_LOOKUP {CLIPPED, 2}, {BUCKETS, 2}, {SIDE, 2}
#define OF_AREAS {LEDGER, 2}, {TRUE_COUNTS, 2}, OF_LOOKUP
static const struct {
    uint64_t (*call)(void);
    int count;
    struct {
        enum area area;
        uint32_t refusal;
    } areas[8];
} doors[] = {
    {area_lengths, 1, {{LENGTHS, 2}}},
    {hash_table, 1, {{HASH_TABLE, 2}}},
    {hash, 2, {{HELD_KEY, 3}, {H, 2}}},
    {hash_lent, 3, {{HASH_TABLE, 2}, {HELD_KEY, 3}, {H, 2}}},
    {key_buckets, 3, {{HELD_KEY, 3}, {FOUR_HASHES, 2}, {NUMBERS, 2}}},
    {search_one, 4, {OF_LOOKUP, {HELD_KEY, 3}}},
    {search_one_lent, 5, {{HASH_TABLE, 2}, OF_LOOKUP, {HELD_KEY, 3}}},
    {search_burst, 6, {{HASH_TABLE, 2}, OF_LOOKUP, {BURST_KEYS, 3}, {ANSWERS, 3}}},
    {search_place, 5, {OF_LOOKUP, {HELD_KEY, 3}, {PLACE, 2}}},
    {search_counts, 5, {OF_LOOKUP, {HELD_KEY, 3}, {COUNTS, 2}}},
    {search_counts_lent, 6, {{HASH_TABLE, 2}, OF_LOOKUP, {HELD_KEY, 3}, {COUNTS, 2}}},
    {tally, 5, {{LEDGER, 2}, OF_LOOKUP, {TOTALS, 2}}},
    {clear, 5, {OF_AREAS}},
    {add, 7, {OF_AREAS, {WORK_AREA, 2}, {NEW_KEY, 3}}},
    {change, 7, {OF_AREAS, {WORK_AREA, 2}, {HELD_KEY, 3}}},
    {take_out, 7, {OF_AREAS, {WORK_AREA, 2}, {HELD_KEY, 3}}},
    {window_clear, 1, {{WINDOW, 2}}},
    {window_enter, 2, {{WINDOW, 2}, {COUNTS, 2}}},
    {window_remove, 1, {{WINDOW, 2}}},
    {window_counts, 2, {{WINDOW, 2}, {COUNTS, 2}}},
    {packet_key, 2, {{PACKET, 10}, {PACKET_KEY, 3}}},
    {packet6_key, 2, {{PACKET6, 16}, {PACKET6_KEY, 3}}},
    {save_file, 3, {{LEDGER, 2}, {WORK_AREA, 2}, {TARGET, 12}}},
    {file_settings, 2, {{FILE_BYTES, 12}, {TOLD, 2}}},
    {load_file, 8, {{FILE_BYTES, 12}, OF_AREAS, {WORK_AREA, 2}, {TOLD, 2}}},
};
/* clang-format on */
enum { DOORS = sizeof doors / sizeof doors[0] };

static void lend_area(enum area area, size_t length, size_t size)
{
    lent[area].at = lend(length * size);
    lent[area].length = length;
    lent[area].size = size;
    lent[area].before = lend(length * size);
}

/* Lends what it is given the bytes of. */
static void lend_bytes(enum area area, const void *bytes, size_t length, size_t size)
{
    lend_area(area, length, size);
    memcpy(lent[area].at, bytes, length * size);
}

static void lend_each(void)
{
    static const uint8_t packet[28] = {0x45, [3] = 28, [8] = 64, [9] = 17}, packet6[48] = {0x60, [5] = 8, [6] = 17};
    static const size_t numbers[][3] = {{LENGTHS, 6, 8}, {H, 1, 8}, {FOUR_HASHES, 4, 2}, {NUMBERS, 5, 2}, {ANSWERS, BURST, 8}, {PLACE, 2, 8},
                                        {COUNTS, 3, 4}, {TOTALS, 4, 4}, {PACKET_KEY, FLOW_IPV4_WIDTH, 1}, {PACKET6_KEY, FLOW_IPV6_WIDTH, 1},
                                        {TOLD, FLOW_SETTINGS_COUNT, 8}};
    lend_bytes(LEDGER, ledger, n[0], 1);
    lend_bytes(TRUE_COUNTS, true_counts, n[1], 2);
    lend_bytes(CLIPPED, clipped, n[2], 1);
    lend_bytes(BUCKETS, buckets, n[3], 1);
    lend_bytes(SIDE, side, n[4], 1);
    lend_bytes(WORK_AREA, work, n[5], 2);
    lend_bytes(HASH_TABLE, hashes, HASHES, 8);
    lend_bytes(HELD_KEY, keys[0], KEY, 1);
    lend_bytes(NEW_KEY, many_keys[0], KEY, 1);
    lend_bytes(BURST_KEYS, keys[0], BURST * KEY, 1);
    lend_bytes(PACKET, packet, sizeof packet, 1);
    lend_bytes(PACKET6, packet6, sizeof packet6, 1);
    lend_area(FILE_BYTES, flow_table_file_bytes(&table), 1);
    lend_area(TARGET, flow_table_file_bytes(&table), 1);
    CHECK(flow_table_save(&table, lent[FILE_BYTES].at, lent[FILE_BYTES].length) == FLOW_DONE);
    for (size_t i = 0; i < sizeof numbers / sizeof numbers[0]; i++) {
        lend_area((enum area)numbers[i][0], numbers[i][1], numbers[i][2]);
    }
    lend_area(WINDOW, FLOW_WINDOW_NUMBERS, 2);
    CHECK(flow_window_clear(L(WINDOW)) == FLOW_DONE);
    for (int i = 0; i < EACH_AREA; i++) {
        memcpy(lent[i].before, lent[i].at, lent[i].length * lent[i].size);
    }
}

/* What an area's bytes are now, beside before. */
static int is_as_before(enum area area) { return memcmp(lent[area].at, lent[area].before, lent[area].length * lent[area].size) == 0; }

/* A door that reads a file judges it first, and sets the settings, its last area, to zeros where it refuses. */
static int reads_file(int door) { return doors[door].call == load_file || doors[door].call == file_settings; }

/* The areas of a door that are in the set, a bit each in the order of its list, are of length 0, at a byte or NULL: the answer is the same, and no
 * area is written but work and, by a door that reads a file, the settings. */
static void with_none(int door, unsigned set, uint64_t refusal)
{
    uint8_t byte = 0xa5;
    void *at[8];
    size_t lengths[8];
    for (int null = 0; null < 2; null++) {
        for (int i = 0; i < doors[door].count; i++) {
            enum area area = doors[door].areas[i].area;
            at[i] = lent[area].at;
            lengths[i] = lent[area].length;
            if (set >> i & 1) {
                lent[area].at = null ? NULL : &byte;
                lent[area].length = 0;
            }
        }
        CHECK(doors[door].call() == refusal);
        for (int i = 0; i < doors[door].count; i++) {
            lent[doors[door].areas[i].area].at = at[i];
            lent[doors[door].areas[i].area].length = lengths[i];
        }
        for (int i = 0; i < EACH_AREA; i++) {
            int zeros = i == TOLD && reads_file(door) && !(set >> (doors[door].count - 1) & 1);
            CHECK(i == WORK_AREA || (zeros ? all_are(lent[i].at, lent[i].length * lent[i].size, 0) : is_as_before((enum area)i)));
            memcpy(lent[i].at, lent[i].before, lent[i].length * lent[i].size);
        }
        CHECK(byte == 0xa5);
    }
}

/* One area after the other, and all of a door's at once, which is refused with the lowest number, but for a door that reads a file. */
static void null_areas(void)
{
    lend_each();
    for (int door = 0; door < DOORS; door++) {
        uint32_t lowest = UINT32_MAX;
        CHECK(doors[door].call() == FLOW_DONE);
        for (int i = 0; i < EACH_AREA; i++) {
            memcpy(lent[i].at, lent[i].before, lent[i].length * lent[i].size);
        }
        for (int i = 0; i < doors[door].count; i++) {
            uint32_t refusal = doors[door].areas[i].refusal;
            with_none(door, 1u << i, refusal);
            lowest = refusal < lowest ? refusal : lowest;
        }
        with_none(door, (1u << doors[door].count) - 1, reads_file(door) ? FLOW_BAD_FILE_LENGTH : lowest);
    }
    CHECK(flow_search_burst(hashes, HASHES, SETTINGS, LOOKUP, NULL, 0, NULL, 0) == FLOW_DONE);
    CHECK(flow_table_search_burst(&table, hashes, HASHES, NULL, NULL, 0) == FLOW_DONE);
    for (int i = 0; i < EACH_AREA; i++) {
        free(lent[i].at);
        free(lent[i].before);
    }
}

int main(void)
{
    names();
    make_tables();
    openings();
    refused_openings();
    calls();
    refusals();
    damage();
    many_flows();
    for (int i = 0; i < 6; i++) {
        CHECK(flow_table_add(&table, keys[i], 1) == FLOW_DONE && flow_add(SETTINGS, AREAS, WORK, keys[i], KEY, 1) == FLOW_DONE);
    }
    loads();
    null_areas();
    free_tables();
    printf("width %d: %d checks, all right\n", WIDTH, checks);
    return 0;
}
