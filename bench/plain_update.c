#include "plain_update.h"
#include "plain_parts.h"

enum { NOWHERE = 4096 };

/* The list that a call would make, while the ledger is not edited yet. */
struct list {
    const uint8_t *records; /* the ledger's */
    const uint8_t *record;  /* the one to add */
    size_t n, at;
    enum edit edit;
};

INLINED uint64_t big(const uint8_t *at) { return __builtin_bswap64(load(at)); }

/* Key order: loads of 8 bytes, of which the last two overlap. */
INLINED int below(const uint8_t *a, const uint8_t *b)
{
    for (size_t i = 0; i + 8 <= KEY; i += 8) {
        uint64_t x = big(a + i), y = big(b + i);
        if (x != y) {
            return x < y;
        }
    }
    return big(a + KEY - 8) < big(b + KEY - 8);
}

/* By the table that the doors make for an update: at 37 the one by half-byte. */
INLINED uint64_t hash_in_update(const uint64_t *table, const uint8_t *key) { return WIDE ? hash_of_halves(table, key) : hash_of(table, key); }

INLINED const uint8_t *record_of(const struct list *list, size_t i)
{
    if (i < list->at) {
        return list->records + RECORD * i;
    }
    if (list->edit == REMOVE) {
        return list->records + RECORD * (i + 1);
    }
    return i == list->at ? list->record : list->records + RECORD * (i - 1);
}

/* One more for each of the key's bucket numbers, repeats dropped. */
INLINED void count(const struct flow_settings *set, uint16_t *counts, uint64_t h)
{
    const size_t mask = ((size_t)1 << set->p) - 1;
    size_t b[4];
    for (size_t j = 0; j < set->k; j++) {
        b[j] = h >> 16 * j & mask;
        int repeat = 0;
        for (size_t i = 0; i < j; i++) {
            repeat |= b[i] == b[j];
        }
        counts[b[j]] = (uint16_t)(counts[b[j]] + !repeat);
    }
}

/* Of the key's numbers with the least count, the lowest; NOWHERE where all counts are T or more. Repeats do no harm. */
INLINED size_t choice_of(const struct flow_settings *set, const uint16_t *counts, uint64_t h)
{
    const size_t mask = ((size_t)1 << set->p) - 1;
    uint32_t least = UINT32_MAX;
    for (size_t j = 0; j < set->k; j++) {
        uint32_t b = (uint32_t)(h >> 16 * j & mask), of_b = (uint32_t)counts[b] << 16 | b;
        least = of_b < least ? of_b : least;
    }
    return least >> 16 < set->top ? least & 0xffff : NOWHERE;
}

/* The same with branches: repeats dropped first, and a branch at each comparison. */
INLINED size_t choice_by_branches(const struct flow_settings *set, const uint16_t *counts, uint64_t h)
{
    const size_t mask = ((size_t)1 << set->p) - 1;
    size_t own[4], n = 0, least = set->top, best = NOWHERE;
    for (size_t j = 0; j < set->k; j++) {
        size_t b = h >> 16 * j & mask, i = 0;
        while (i < n && own[i] != b) {
            i++;
        }
        if (i == n) {
            own[n++] = b;
        }
    }
    for (size_t j = 0; j < n; j++) {
        size_t b = own[j], count_of_b = counts[b];
        if (count_of_b < least) {
            least = count_of_b;
            best = b;
        } else if (count_of_b == least && best != NOWHERE && b < best) {
            best = b;
        }
    }
    return best;
}

/* 1, 2, 3, 4, then 6, 7 or 8; else 0 with the list that the call would make. */
static uint32_t judge(const struct flow_settings *set, const struct flow_areas *at, enum edit edit, const uint8_t *key, size_t key_length,
                      struct list *list)
{
    if (out_of_range(set->p, set->k, set->room, set->top, set->capacity, set->side_places, WIDTH)) {
        return 1;
    }
    const size_t m = (size_t)1 << set->p;
    if (at->ledger_length != 2 + RECORD * set->capacity || at->true_counts_length != m || at->clipped_length != m / 2 ||
        at->buckets_length != m * (1 + RECORD * set->room) || at->side_length != 2 + RECORD * set->side_places ||
        at->work_length != 2 * m) {
        return 2;
    }
    if (key_length != KEY) {
        return 3;
    }
    const size_t n = (size_t)at->ledger[0] << 8 | at->ledger[1];
    const uint8_t *records = at->ledger + 2;
    if (n > set->capacity) {
        return 4;
    }
    for (size_t i = 1; i < n; i++) {
        if (!below(records + RECORD * (i - 1), records + RECORD * i)) {
            return 4;
        }
    }
    uint8_t after = 0;
    for (size_t i = RECORD * n; i < RECORD * set->capacity; i++) {
        after |= records[i];
    }
    if (after != 0) {
        return 4;
    }
    size_t low = 0, high = n;
    while (low < high) {
        size_t middle = (low + high) / 2;
        if (below(records + RECORD * middle, key)) {
            low = middle + 1;
        } else {
            high = middle;
        }
    }
    int held = low < n && memcmp(records + RECORD * low, key, KEY) == 0;
    if (edit == ADD && held) {
        return 6;
    }
    if (edit == REMOVE && !held) {
        return 7;
    }
    if (edit == ADD && n == set->capacity) {
        return 8;
    }
    list->records = records;
    list->n = edit == ADD ? n + 1 : n - 1;
    list->at = low;
    list->edit = edit;
    return 0;
}

static void edit_ledger(const struct list *list, uint8_t *ledger)
{
    uint8_t *place = ledger + 2 + RECORD * list->at;
    if (list->edit == ADD) {
        memmove(place + RECORD, place, RECORD * (list->n - 1 - list->at));
        memcpy(place, list->record, RECORD);
    } else {
        memmove(place, place + RECORD, RECORD * (list->n - list->at));
        memset(ledger + 2 + RECORD * list->n, 0, RECORD);
    }
    ledger[0] = (uint8_t)(list->n >> 8);
    ledger[1] = (uint8_t)list->n;
}

/* Both counts, the marks of crowded buckets, and zeros. */
static void write_counts(const struct flow_settings *set, struct flow_areas *at)
{
    const size_t m = (size_t)1 << set->p, bucket_size = 1 + RECORD * set->room;
    const uint16_t *counts = at->work, *choosers = at->work + m;
    memcpy(at->true_counts, counts, m * sizeof counts[0]);
    for (size_t i = 0; i < m / 2; i++) {
        unsigned low = counts[2 * i] < set->top ? counts[2 * i] : (unsigned)set->top;
        unsigned high = counts[2 * i + 1] < set->top ? counts[2 * i + 1] : (unsigned)set->top;
        at->clipped[i] = (uint8_t)(low | high << 4);
    }
    memset(at->buckets, 0, at->buckets_length);
    for (size_t b = 0; b < m; b++) {
        if (choosers[b] > set->room) {
            at->buckets[b * bucket_size] = 255;
        }
    }
}

INLINED int to_side(const struct flow_settings *set, const uint16_t *choosers, size_t choice)
{
    return choice == NOWHERE || choosers[choice] > set->room;
}

INLINED void put(const struct flow_settings *set, struct flow_areas *at, size_t choice, const uint8_t *record)
{
    uint8_t *bucket = at->buckets + choice * (1 + RECORD * set->room);
    memcpy(bucket + 1 + RECORD * bucket[0]++, record, RECORD);
}

typedef size_t choose(const struct flow_settings *set, const uint16_t *counts, uint64_t h);

/* Five passes over the records, each with the hash of every key. Made once for each way to choose. */
INLINED uint32_t five_passes(choose *choice_by, const struct flow_settings *set, const uint64_t *table, struct flow_areas *at, enum edit edit,
                             const uint8_t *key, size_t key_length, uint32_t class)
{
    struct list list;
    uint32_t answer = judge(set, at, edit, key, key_length, &list);
    if (answer != 0) {
        return answer;
    }
    const size_t m = (size_t)1 << set->p;
    uint8_t record[RECORD];
    put_record(record, key, class);
    list.record = record;

    uint16_t *counts = at->work, *choosers = at->work + m;
    memset(at->work, 0, 2 * m * sizeof at->work[0]);
    for (size_t i = 0; i < list.n; i++) {
        count(set, counts, hash_in_update(table, record_of(&list, i)));
    }
    for (size_t i = 0; i < list.n; i++) {
        size_t choice = choice_by(set, counts, hash_in_update(table, record_of(&list, i)));
        if (choice != NOWHERE) {
            choosers[choice]++;
        }
    }
    size_t need = 0;
    for (size_t i = 0; i < list.n; i++) {
        size_t choice = choice_by(set, counts, hash_in_update(table, record_of(&list, i)));
        need += (size_t)to_side(set, choosers, choice);
    }
    if (need > set->side_places) {
        return 9;
    }

    edit_ledger(&list, at->ledger);
    write_counts(set, at);
    const uint8_t *records = at->ledger + 2;
    for (size_t i = 0; i < list.n; i++) {
        size_t choice = choice_by(set, counts, hash_in_update(table, records + RECORD * i));
        if (!to_side(set, choosers, choice)) {
            put(set, at, choice, records + RECORD * i);
        }
    }
    memset(at->side, 0, at->side_length);
    size_t on_side = 0;
    for (size_t i = 0; i < list.n; i++) {
        size_t choice = choice_by(set, counts, hash_in_update(table, records + RECORD * i));
        if (to_side(set, choosers, choice)) {
            memcpy(at->side + 2 + RECORD * on_side++, records + RECORD * i, RECORD);
        }
    }
    at->side[1] = (uint8_t)on_side;
    return 0;
}

uint32_t plain_update_branching(const struct flow_settings *set, const uint64_t *table, struct flow_areas *at, enum edit edit, const uint8_t *key,
                                size_t key_length, uint32_t class)
{
    return five_passes(choice_by_branches, set, table, at, edit, key, key_length, class);
}

uint32_t plain_update_five(const struct flow_settings *set, const uint64_t *table, struct flow_areas *at, enum edit edit, const uint8_t *key,
                           size_t key_length, uint32_t class)
{
    return five_passes(choice_of, set, table, at, edit, key, key_length, class);
}

/* The choices are kept until the areas are written, so only the first two passes need hashes: the second takes those of the first, or
 * hashes each key again. */
INLINED uint32_t choices_kept(int hashes_kept, const struct flow_settings *set, const uint64_t *table, struct flow_areas *at, enum edit edit,
                              const uint8_t *key, size_t key_length, uint32_t class)
{
    static uint64_t hashes[MOST_FLOWS];
    static uint16_t choices[MOST_FLOWS];
    struct list list;
    uint32_t answer = judge(set, at, edit, key, key_length, &list);
    if (answer != 0) {
        return answer;
    }
    const size_t m = (size_t)1 << set->p;
    uint8_t record[RECORD];
    put_record(record, key, class);
    list.record = record;

    uint16_t *counts = at->work, *choosers = at->work + m;
    memset(at->work, 0, 2 * m * sizeof at->work[0]);
    for (size_t i = 0; i < list.n; i++) {
        uint64_t h = hash_in_update(table, record_of(&list, i));
        if (hashes_kept) {
            hashes[i] = h;
        }
        count(set, counts, h);
    }
    for (size_t i = 0; i < list.n; i++) {
        uint64_t h = hashes_kept ? hashes[i] : hash_in_update(table, record_of(&list, i));
        choices[i] = (uint16_t)choice_of(set, counts, h);
        if (choices[i] != NOWHERE) {
            choosers[choices[i]]++;
        }
    }
    size_t need = 0;
    for (size_t i = 0; i < list.n; i++) {
        need += (size_t)to_side(set, choosers, choices[i]);
    }
    if (need > set->side_places) {
        return 9;
    }

    edit_ledger(&list, at->ledger);
    write_counts(set, at);
    memset(at->side, 0, at->side_length);
    const uint8_t *records = at->ledger + 2;
    size_t on_side = 0;
    for (size_t i = 0; i < list.n; i++) {
        if (to_side(set, choosers, choices[i])) {
            memcpy(at->side + 2 + RECORD * on_side++, records + RECORD * i, RECORD);
        } else {
            put(set, at, choices[i], records + RECORD * i);
        }
    }
    at->side[1] = (uint8_t)on_side;
    return 0;
}

uint32_t plain_update_twice(const struct flow_settings *set, const uint64_t *table, struct flow_areas *at, enum edit edit, const uint8_t *key,
                            size_t key_length, uint32_t class)
{
    return choices_kept(0, set, table, at, edit, key, key_length, class);
}

uint32_t plain_update_kept(const struct flow_settings *set, const uint64_t *table, struct flow_areas *at, enum edit edit, const uint8_t *key,
                           size_t key_length, uint32_t class)
{
    return choices_kept(1, set, table, at, edit, key, key_length, class);
}
