/* Searches while a table is updated: copies of the lookup areas, for one writer and many readers.
 *
 * The doors of flow.h are for areas that nobody writes meanwhile: a search beside an update of the same areas may say absent of a held flow, or
 * give it another flow's class. Here one thread, the writer, updates a table in areas of its own with the doors, and publishes its lookup areas.
 * Other threads, the readers, search copies of them, each within sections: flow_live_enter, searches, flow_live_leave. A reader is sent to the
 * copy that was published last; the writer writes only a copy that no reader is in, and of it only the lines of 64 bytes that differ.
 *
 * What holds. It is proved of the protocol, for any number of readers and copies and every order of their steps: crates/theory/specs/Live.antt has each
 * atomic step of this file as a step of a machine, and says what it assumes of C11; the law in brackets has the proof (LiveLaws). That this file takes
 * these steps and no others is tested, in every order of small runs (tests/live_steps.c). The doors that it calls are proved.
 *   - Every search of a section answers from one published table, whole (sections_whole).
 *   - A section that starts after flow_live_publish returned has that table or a later one. The sections of a reader never go back (sections_whole).
 *   - flow_live_settled says when no section has a table from before the last publish (settled_for_good).
 *   - A reader takes no lock and waits for nobody (reader_goes_on): entering starts over only where a publish falls between two loads of `current`
 *     (other_by_publish); its first load, an acquire, may also give an older copy than the current one, and then it starts over for that.
 *   - With two copies more than there are readers a publish waits for nobody (never_waits); with fewer, from two on, it waits while every copy but the
 *     current one has a reader in it (waits_for_all).
 *   - No byte is written while it is read (no_race). So C sees no race, and the doors are called as their proofs assume.
 *
 * Why. The reader stores which copy it is in, then loads which one is current, and starts over where these differ; the writer stores which one is
 * current, and at its next publish loads which copy each reader is in. All four are sequentially consistent, so they stand in one order. Say that
 * the writer takes copy c for free and writes it. A reader that it did not see in c had left, and what it read stands before its leave; or it had
 * not stored c yet. Then it stored c after the writer's load; before that load the writer had stored another copy as current; so the reader's load,
 * which comes after its store, finds that other copy, and the reader starts over, or finds c published anew, and then what was written is whole.
 *
 * What a caller has to keep to.
 *   - One thread a reader: each thread that searches has a struct flow_live_reader of its own.
 *   - Sections of a reader do not nest: an inner flow_live_enter goes over to the current table, and the inner flow_live_leave ends the section; what
 *     is searched after it is refused with 2.
 *   - A reader that stops inside a section (it sleeps, waits, or its thread ends) keeps its copy from being written: with few copies the next publish
 *     or the one after waits for it for ever, and flow_live_settled stays 0. Leave before anything that may take long.
 *   - One writer at a time: where several threads update, they hold a lock of theirs around updates and publish. The writer is in no section
 *     while it publishes.
 *   - The settings stay as they were opened. A table of others, as one loaded from a file, has a struct flow_live of its own.
 *
 * It is for C11 and later C with <stdatomic.h>. C++ and older C cannot use it: call it in a file of C11, through functions of that file.
 *
 *     uint8_t *memory = aligned_alloc(64, flow_live_bytes(&settings, READERS + 2));
 *     flow_live_open(&live, &settings, memory, flow_live_bytes(&settings, READERS + 2), readers, READERS);
 *   the writer, of a struct flow_table and its flow_lookup_of:           a reader, with its struct flow_live_reader:
 *     flow_table_add(&table, key, class);                                  flow_live_enter(reader);
 *     flow_table_remove(&table, another);                                  found = flow_live_search(reader, hashes, HASHES, key);
 *     flow_live_publish(&live, &lookup);                                   flow_live_leave(reader);
 * examples/traffic.c is such a program.
 */
#ifndef FLOW_LIVE_H
#define FLOW_LIVE_H

#if defined(__cplusplus)
#error "flow_live.h is C11 and cannot be used from C++: call it in a C file"
#elif !defined(__STDC_VERSION__) || __STDC_VERSION__ < 201112L || defined(__STDC_NO_ATOMICS__)
#error "flow_live.h needs C11 with <stdatomic.h>"
#endif

#include "flow.h"
#include <stdatomic.h>
#include <string.h>

/* What a publish does over and over while it waits: sched_yield(), or the processor's pause, where there is one. */
#ifndef FLOW_LIVE_WAIT
#define FLOW_LIVE_WAIT() ((void)0)
#endif

/* FLOW_LIVE_LINE: bytes of a line of the processor's caches; memory that starts at a multiple of them is served best. FLOW_LIVE_BLOCK: bytes that
 * are compared at once. FLOW_LIVE_APART keeps what two threads write out of each other's lines. */
enum { FLOW_LIVE_LEAST_COPIES = 2, FLOW_LIVE_MOST_COPIES = 63, FLOW_LIVE_LINE = 64, FLOW_LIVE_BLOCK = 2048, FLOW_LIVE_APART = 128 };

/* A reader: a thread's own. flow_live_open fills it. */
struct flow_live_reader {
    struct flow_live *live;
    const uint8_t *copy; /* in a section its copy, else NULL */
    atomic_uint inside;  /* in a section 1 + the number of its copy, else 0; only its thread stores it */
    unsigned char apart[FLOW_LIVE_APART];
};

struct flow_live {
    struct flow_settings settings;
    size_t clipped_length, buckets_length, side_length;
    size_t buckets_at, side_at, copy_bytes; /* in a copy, whose clipped counts are at 0 */
    uint8_t *memory;                        /* the copies */
    unsigned copies;
    struct flow_live_reader *readers;
    size_t readers_count;
    unsigned char apart[FLOW_LIVE_APART];
    atomic_uint current; /* the copy that was published last; only the writer stores it */
    unsigned char apart_too[FLOW_LIVE_APART];
};

/* Bytes, up to whole lines. */
static inline size_t flow_live_lines(uint64_t bytes)
{
    return ((size_t)bytes + FLOW_LIVE_LINE - 1) / FLOW_LIVE_LINE * FLOW_LIVE_LINE;
}

/* The bytes of so many copies; 0 where a setting is out of range, or copies is not 2 to 63. */
static inline size_t flow_live_bytes(const struct flow_settings *settings, unsigned copies)
{
    uint64_t n[6];
    if (copies < FLOW_LIVE_LEAST_COPIES || copies > FLOW_LIVE_MOST_COPIES || flow_area_lengths(FLOW_SETTINGS(settings), n, 6) != FLOW_DONE) {
        return 0;
    }
    return copies * (flow_live_lines(n[2]) + flow_live_lines(n[3]) + flow_live_lines(n[4]));
}

/* Publishes the empty table. It is called before any other thread has live or a reader. Lent for as long as live is used: memory, of the bytes of
 * 2 to 63 copies, and readers_count readers, both with any contents.
 * 0. 1: a setting is out of range. 2: memory is not of the bytes of 2 to 63 copies. Refused, nothing is altered. */
static inline uint32_t flow_live_open(struct flow_live *live, const struct flow_settings *settings, uint8_t *memory, size_t memory_length,
                                      struct flow_live_reader *readers, size_t readers_count)
{
    uint64_t n[6];
    if (flow_area_lengths(FLOW_SETTINGS(settings), n, 6) != FLOW_DONE) {
        return FLOW_BAD_SETTINGS;
    }
    size_t buckets_at = flow_live_lines(n[2]), side_at = buckets_at + flow_live_lines(n[3]);
    size_t copy_bytes = side_at + flow_live_lines(n[4]), copies = memory_length / copy_bytes;
    if (copies < FLOW_LIVE_LEAST_COPIES || copies > FLOW_LIVE_MOST_COPIES || copies * copy_bytes != memory_length) {
        return FLOW_BAD_AREA_LENGTH;
    }
    live->settings = *settings;
    live->clipped_length = (size_t)n[2];
    live->buckets_length = (size_t)n[3];
    live->side_length = (size_t)n[4];
    live->buckets_at = buckets_at;
    live->side_at = side_at;
    live->copy_bytes = copy_bytes;
    live->memory = memory;
    live->copies = (unsigned)copies;
    live->readers = readers;
    live->readers_count = readers_count;
    memset(memory, 0, memory_length); /* the layout of the empty list */
    atomic_init(&live->current, 0);
    for (size_t i = 0; i < readers_count; i++) {
        readers[i].live = live;
        readers[i].copy = NULL;
        atomic_init(&readers[i].inside, 0);
    }
    return FLOW_DONE;
}

/* A reader: a section starts, for one search or for many. The machine's loads, stores, then enters or starts_over. */
static inline void flow_live_enter(struct flow_live_reader *reader)
{
    struct flow_live *live = reader->live;
    unsigned copy, current = atomic_load_explicit(&live->current, memory_order_acquire);
    do {
        copy = current;
        atomic_store_explicit(&reader->inside, 1 + copy, memory_order_seq_cst);
        current = atomic_load_explicit(&live->current, memory_order_seq_cst);
    } while (current != copy);
    reader->copy = live->memory + copy * live->copy_bytes;
}

/* A reader: the section ends. The machine's leaves, and clears where the writer comes to see the 0. */
static inline void flow_live_leave(struct flow_live_reader *reader)
{
    reader->copy = NULL;
    atomic_store_explicit(&reader->inside, 0, memory_order_release);
}

/* In a section: its lookup areas, until it ends, for any door that only reads them. Outside: areas of length 0, which a door refuses with 2. */
static inline struct flow_lookup flow_live_lookup(const struct flow_live_reader *reader)
{
    const struct flow_live *live = reader->live;
    const uint8_t *copy = reader->copy;
    if (copy == NULL) {
        return (struct flow_lookup){live->memory, 0, live->memory, 0, live->memory, 0};
    }
    return (struct flow_lookup){copy, live->clipped_length, copy + live->buckets_at, live->buckets_length, copy + live->side_at, live->side_length};
}

/* In a section: flow_search_lent on its table. Lent as there: hashes, which flow_hash_table filled, and key, of the table's width. */
static inline uint64_t flow_live_search(const struct flow_live_reader *reader, const uint64_t *hashes, size_t hashes_length, const uint8_t *key)
{
    const struct flow_settings *settings = &reader->live->settings;
    struct flow_lookup lookup = flow_live_lookup(reader);
    return flow_search_lent(hashes, hashes_length, FLOW_SETTINGS(settings), FLOW_LOOKUP(&lookup), key, (size_t)settings->width);
}

/* In a section: flow_search_burst on its table. Lent as there: hashes, n keys of the table's width, and a number for each answer. */
static inline uint32_t flow_live_search_burst(const struct flow_live_reader *reader, const uint64_t *hashes, size_t hashes_length,
                                              const uint8_t *keys, uint64_t *answers, size_t n)
{
    const struct flow_settings *settings = &reader->live->settings;
    struct flow_lookup lookup = flow_live_lookup(reader);
    return flow_search_burst(hashes, hashes_length, FLOW_SETTINGS(settings), FLOW_LOOKUP(&lookup), keys, n * (size_t)settings->width, answers, n);
}

/* The copies that readers are in, copy c as bit 1 + c. Each reader is asked once. Bit 0: a reader is in no section. */
static inline uint64_t flow_live_copies_in_use(const struct flow_live *live)
{
    uint64_t in_use = 0;
    for (size_t i = 0; i < live->readers_count; i++) {
        in_use |= UINT64_C(1) << atomic_load_explicit(&live->readers[i].inside, memory_order_seq_cst);
    }
    return in_use;
}

/* The current copy, as such a bit. */
static inline uint64_t flow_live_current(struct flow_live *live)
{
    return UINT64_C(2) << atomic_load_explicit(&live->current, memory_order_relaxed);
}

/* The writer: 1 where no section has a table from before the last publish, else 0. It does not wait. */
static inline int flow_live_settled(struct flow_live *live)
{
    return (flow_live_copies_in_use(live) & ~(UINT64_C(1) | flow_live_current(live))) == 0;
}

/* A copy that is not current and that no reader is in. Of two copies more than readers one is always found at once. */
static inline unsigned flow_live_free_copy(struct flow_live *live)
{
    for (;;) {
        uint64_t taken = flow_live_copies_in_use(live) | flow_live_current(live);
        for (unsigned copy = 0; copy < live->copies; copy++) {
            if ((taken >> (1 + copy) & 1) == 0) {
                return copy;
            }
        }
        FLOW_LIVE_WAIT();
    }
}

/* Makes a part of a copy that of the writer. Only the lines that differ are written, so that the readers' caches keep the others. */
static inline void flow_live_take_lines(uint8_t *to, const uint8_t *from, size_t length)
{
    for (size_t at = 0; at < length; at += FLOW_LIVE_LINE) {
        size_t line = length - at < FLOW_LIVE_LINE ? length - at : FLOW_LIVE_LINE;
        if (memcmp(to + at, from + at, line) != 0) {
            memcpy(to + at, from + at, line);
        }
    }
}

/* The same of an area: lines are looked at where a block of them differs. */
static inline void flow_live_take(uint8_t *to, const uint8_t *from, size_t length)
{
    for (size_t at = 0; at < length; at += FLOW_LIVE_BLOCK) {
        size_t block = length - at < FLOW_LIVE_BLOCK ? length - at : FLOW_LIVE_BLOCK;
        if (memcmp(to + at, from + at, block) != 0) {
            flow_live_take_lines(to + at, from + at, block);
        }
    }
}

/* The writer: publishes the table that its lookup areas hold, after any number of updates. Lent: the three areas, which are only read.
 * The machine's begins, looks, picks (drops, where it waits), writes, publishes.
 * 0: sections that start from now on have this table. 2: an area is not of its length under the settings; nothing is published. */
static inline uint32_t flow_live_publish(struct flow_live *live, const struct flow_lookup *lookup)
{
    if (lookup->clipped_length != live->clipped_length || lookup->buckets_length != live->buckets_length
        || lookup->side_length != live->side_length) {
        return FLOW_BAD_AREA_LENGTH;
    }
    unsigned copy = flow_live_free_copy(live);
    uint8_t *to = live->memory + copy * live->copy_bytes;
    flow_live_take(to, lookup->clipped, live->clipped_length);
    flow_live_take(to + live->buckets_at, lookup->buckets, live->buckets_length);
    flow_live_take(to + live->side_at, lookup->side, live->side_length);
    atomic_store_explicit(&live->current, copy, memory_order_seq_cst);
    return FLOW_DONE;
}

#endif
