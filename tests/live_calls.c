/* What each call of flow_live.h answers and writes, in one thread: refusals, sections, which lines a publish writes, when it waits. Its last line is
 * 'N checks, all right'. */
#include <string.h>

/* What flow_live.h writes by memcpy is counted, and a wait tells the test that a publish waits. */
static size_t bytes_written;
static void *counted_copy(void *to, const void *from, size_t bytes)
{
    bytes_written += bytes;
    return memcpy(to, from, bytes);
}
static void while_waiting(void);

#define memcpy counted_copy
#define FLOW_LIVE_WAIT() while_waiting()
#include "live_table.h"
#undef memcpy
#include "check.h"

enum { READERS = 2, COPIES = READERS + 2 };

static struct flow_live live;
static struct flow_live_reader readers[READERS];
static uint8_t *memory;

static size_t lines_of(uint64_t bytes)
{
    return (size_t)(bytes + 63) / 64 * 64;
}

static void open_live(unsigned copies)
{
    size_t bytes = flow_live_bytes(&settings, copies);
    free(memory);
    memory = lent(bytes);
    memset(memory, 0xa5, bytes);
    memset(readers, 0xa5, sizeof readers);
    must("flow_live_open", flow_live_open(&live, &settings, memory, bytes, readers, READERS));
}

static void publish(void)
{
    must("flow_live_publish", flow_live_publish(&live, &lookup));
}

/* The class that a reader finds for a flow; -1 for absent. */
static int64_t class_of(int reader, int flow)
{
    uint64_t answer = flow_live_search(&readers[reader], hashes, HASHES, keys[flow]);
    CHECK(answer >> 32 == 0 || answer == UINT64_C(100) << 32);
    return answer >> 32 == 0 ? (int64_t)answer : -1;
}

static int64_t class_now(int reader, int flow)
{
    flow_live_enter(&readers[reader]);
    int64_t class = class_of(reader, flow);
    flow_live_leave(&readers[reader]);
    return class;
}

static void lengths_and_refusals(void)
{
    size_t copy = lines_of(lookup.clipped_length) + lines_of(lookup.buckets_length) + lines_of(lookup.side_length), most = 63 * copy;
    CHECK(flow_live_bytes(&settings, 2) == 2 * copy);
    CHECK(flow_live_bytes(&settings, 63) == most);
    CHECK(flow_live_bytes(&settings, 0) == 0 && flow_live_bytes(&settings, 1) == 0 && flow_live_bytes(&settings, 64) == 0);
    struct flow_settings wrong_p = settings, wrong_width = settings;
    wrong_p.p = 3;
    wrong_width.width = 14;
    CHECK(flow_live_bytes(&wrong_p, 2) == 0 && flow_live_bytes(&wrong_width, 2) == 0);
    memory = lent(most + copy);
    memset(memory, 0xa5, most + copy);
    struct flow_live before;
    memset(&live, 0x5a, sizeof live);
    memmove(&before, &live, sizeof live);
    CHECK(flow_live_open(&live, &wrong_p, memory, 2 * copy, readers, READERS) == 1);
    const size_t wrong[] = {0, 1, copy, 2 * copy - 1, 2 * copy + 1, most + copy};
    for (size_t i = 0; i < sizeof wrong / sizeof *wrong; i++) {
        CHECK(flow_live_open(&live, &settings, memory, wrong[i], readers, READERS) == 2);
    }
    CHECK(memcmp(&before, &live, sizeof live) == 0);
    CHECK(all_are(memory, most + copy, 0xa5));
    CHECK(flow_live_open(&live, &settings, memory, most, readers, READERS) == 0 && live.copies == 63);
    CHECK(all_are(memory, most, 0) && all_are(memory + most, copy, 0xa5));
}

/* An empty table is published by the opening, and searches outside a section are refused. */
static void sections(void)
{
    open_live(COPIES);
    CHECK(flow_live_search(&readers[0], hashes, HASHES, keys[1]) == UINT64_C(2) << 32);
    CHECK(flow_live_settled(&live) && class_now(0, 1) == -1);
    add(1, 11);
    CHECK(class_now(0, 1) == -1);
    publish();
    CHECK(class_now(0, 1) == 11 && class_now(1, 1) == 11);

    flow_live_enter(&readers[0]);
    change(1, 12);
    publish();
    CHECK(class_of(0, 1) == 11 && class_now(1, 1) == 12);
    CHECK(!flow_live_settled(&live));
    flow_live_leave(&readers[0]);
    CHECK(flow_live_settled(&live) && class_now(0, 1) == 12);
    flow_live_enter(&readers[0]); /* a section of the last table is no older one */
    CHECK(flow_live_settled(&live));
    flow_live_leave(&readers[0]);

    uint64_t answers[2] = {7, 7};
    CHECK(flow_live_search(&readers[0], hashes, HASHES, keys[1]) == UINT64_C(2) << 32);
    CHECK(flow_live_search_burst(&readers[0], hashes, HASHES, keys[1], answers, 2) == 2 && answers[0] == 7 && answers[1] == 7);
    flow_live_enter(&readers[0]);
    flow_live_enter(&readers[0]);
    CHECK(class_of(0, 1) == 12);
    flow_live_leave(&readers[0]);
    CHECK(flow_live_search(&readers[0], hashes, HASHES, keys[1]) == UINT64_C(2) << 32);
}

/* A section's searches are the doors' on the areas that were published. */
static void searches(void)
{
    uint64_t answers[3];
    flow_live_enter(&readers[1]);
    CHECK(flow_live_search_burst(&readers[1], hashes, HASHES, keys[0], answers, 3) == 0);
    for (int i = 0; i < 3; i++) {
        CHECK(answers[i] == flow_table_search_lent(&table, hashes, HASHES, keys[i]));
        CHECK(answers[i] == flow_live_search(&readers[1], hashes, HASHES, keys[i]));
    }
    CHECK(flow_live_search(&readers[1], hashes, HASHES - 1, keys[1]) == UINT64_C(2) << 32);
    CHECK(flow_live_search_burst(&readers[1], hashes, HASHES + 1, keys[1], answers, 3) == 2);
    struct flow_lookup at = flow_live_lookup(&readers[1]);
    CHECK(at.clipped_length == lookup.clipped_length && memcmp(at.clipped, lookup.clipped, at.clipped_length) == 0);
    CHECK(at.buckets_length == lookup.buckets_length && memcmp(at.buckets, lookup.buckets, at.buckets_length) == 0);
    CHECK(at.side_length == lookup.side_length && memcmp(at.side, lookup.side, at.side_length) == 0);
    flow_live_leave(&readers[1]);
}

static void wrong_areas(void)
{
    struct flow_lookup shorter = lookup, longer = lookup, none = lookup;
    shorter.clipped_length--;
    longer.buckets_length++;
    none.side_length = 0;
    add(2, 22);
    CHECK(flow_live_publish(&live, &shorter) == 2 && flow_live_publish(&live, &longer) == 2 && flow_live_publish(&live, &none) == 2);
    CHECK(class_now(0, 2) == -1);
    publish();
    CHECK(class_now(0, 2) == 22);
    take_out(2);
}

/* The lines of an area that differ from a copy's, in bytes. */
static size_t differing(const uint8_t *area, const uint8_t *copy, size_t length)
{
    size_t bytes = 0;
    for (size_t at = 0; at < length; at += 64) {
        size_t line = length - at < 64 ? length - at : 64;
        bytes += memcmp(area + at, copy + at, line) != 0 ? line : 0;
    }
    return bytes;
}

/* Of the copy that it takes, a publish writes just the lines that differ; none where nothing was updated. */
static void lines_written(void)
{
    open_live(COPIES);
    for (int flow = 10; flow < 110; flow++) {
        add(flow, (uint32_t)flow);
        /* no reader is inside: copies 0 and 1 take turns */
        const uint8_t *to = memory + (flow % 2 == 0 ? live.copy_bytes : 0);
        size_t expected = differing(lookup.clipped, to, lookup.clipped_length)
                          + differing(lookup.buckets, to + live.buckets_at, lookup.buckets_length)
                          + differing(lookup.side, to + live.side_at, lookup.side_length);
        bytes_written = 0;
        publish();
        CHECK(bytes_written == expected && expected > 0);
        CHECK(class_now(0, flow) == flow);
    }
    publish();
    bytes_written = 0;
    publish();
    CHECK(bytes_written == 0);
    for (int flow = 10; flow < 110; flow++) {
        take_out(flow);
    }
}

/* An area of two blocks and some lines, with each byte changed alone: its line is written. */
static void each_byte(void)
{
    enum { LENGTH = 2 * FLOW_LIVE_BLOCK + 3 * 64 + 5 };
    uint8_t to[LENGTH] = {0}, from[LENGTH] = {0};
    for (size_t at = 0; at < LENGTH; at++) {
        from[at] = 1;
        bytes_written = 0;
        flow_live_take(to, from, LENGTH);
        CHECK(bytes_written == (at < LENGTH / 64 * 64 ? 64 : LENGTH % 64) && memcmp(to, from, LENGTH) == 0);
    }
}

/* A publish that waits lets the reader go that keeps it. */
static int waits, leaves_at = -1;
static void while_waiting(void)
{
    waits++;
    CHECK(leaves_at >= 0 && waits <= 3);
    if (waits == 3) {
        flow_live_leave(&readers[leaves_at]);
    }
}

/* With two copies the second publish beside a reader that stays inside waits for it; with two more than readers none does. */
static void waiting(void)
{
    open_live(2);
    flow_live_enter(&readers[0]);
    publish();
    leaves_at = 0;
    publish();
    CHECK(waits == 3);
    leaves_at = -1;

    open_live(COPIES);
    flow_live_enter(&readers[0]);
    publish();
    flow_live_enter(&readers[1]);
    for (int i = 0; i < 10; i++) {
        publish();
    }
    CHECK(waits == 3 && !flow_live_settled(&live));
    flow_live_leave(&readers[0]);
    CHECK(!flow_live_settled(&live));
    flow_live_leave(&readers[1]);
    CHECK(flow_live_settled(&live));
}

/* The most copies, each but two with a reader in it: each reader has the table of its enter, and no publish waits. */
static void every_copy(void)
{
    enum { MOST = 63, MANY = MOST - 2 };
    static struct flow_live_reader many[MANY];
    size_t bytes = flow_live_bytes(&settings, MOST);
    free(memory);
    memory = lent(bytes);
    must("flow_live_open", flow_live_open(&live, &settings, memory, bytes, many, MANY));
    add(3, 0);
    for (uint32_t i = 0; i < MANY; i++) {
        change(3, i);
        publish();
        flow_live_enter(&many[i]);
    }
    for (uint32_t i = 0; i < 8; i++) {
        change(3, MANY + i);
        publish();
        if (i == 3) { /* over to the last copy, which is current */
            flow_live_enter(&many[0]);
            CHECK(many[0].copy == memory + (MOST - 1) * live.copy_bytes);
        }
        for (uint32_t j = 0; j < MANY; j++) {
            CHECK(flow_live_search(&many[j], hashes, HASHES, keys[3]) == (j == 0 && i >= 3 ? MANY + 3 : j));
        }
    }
    for (int i = 0; i < MANY; i++) {
        CHECK(!flow_live_settled(&live));
        flow_live_leave(&many[i]);
    }
    CHECK(flow_live_settled(&live) && waits == 3);
}

int main(void)
{
    make_table();
    lengths_and_refusals();
    sections();
    searches();
    wrong_areas();
    lines_written();
    each_byte();
    waiting();
    every_copy();
    free(memory);
    free(table_memory);
    printf("width %d: %d checks, all right\n", WIDTH, checks);
    return 0;
}
