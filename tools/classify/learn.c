#include "learn.h"
#include "packets.h"
#include "sizes.h"
#include "tally.h"
#include <stdlib.h>

static void count_flow(void *to, const struct packet *packet)
{
    if (packet->verdict != REFUSED) {
        tally_count(tally_of(to, packet->key, packet->width), packet->bytes);
    }
}

static void print_flows(const struct tally *flows)
{
    for (size_t i = 0; i < flows->count; i++) {
        print_flow(stdout, flows->list[i].key, flows->list[i].width);
        fputs(" 0\n", stdout);
    }
}

static int version_of(const struct counted *flow) { return flow->width == FLOW_IPV6_WIDTH ? IPV6 : IPV4; }

/* Whether a version has more flows than a table holds, which is told. */
static bool tell_too_many(const struct tally *flows)
{
    size_t counts[VERSIONS] = {0};
    for (size_t i = 0; i < flows->count; i++) {
        counts[version_of(&flows->list[i])]++;
    }
    for (int version = 0; version < VERSIONS; version++) {
        if (counts[version] > MOST_FLOWS) {
            fprintf(stderr, "the capture has %zu IPv%d flows, and a table holds at most %d: take some of them, or a shorter capture\n",
                    counts[version], version == IPV6 ? 6 : 4, MOST_FLOWS);
        }
    }
    return counts[IPV4] > MOST_FLOWS || counts[IPV6] > MOST_FLOWS;
}

/* Of flows that tables hold. */
static void tell_sizes(const struct tally *flows)
{
    struct flow_list *lists = memory_of(VERSIONS * sizeof *lists);
    for (int version = 0; version < VERSIONS; version++) {
        lists[version].width = WIDTH_OF(version);
    }
    for (size_t i = 0; i < flows->count; i++) {
        list_add(&lists[version_of(&flows->list[i])], flows->list[i].key, 0, i);
    }
    for (int version = 0; version < VERSIONS; version++) {
        list_sort_by_keys(&lists[version]);
    }
    print_sizes(lists);
    free(lists);
}

int learn(const char *capture, bool sizes, bool shows_progress)
{
    struct tally flows;
    struct capture read = {.name = capture, .shows_progress = shows_progress, .take = count_flow, .to = &flows};
    if (!tally_open(&flows)) {
        fputs("no memory for the flows\n", stderr);
        return 1;
    }
    int status = capture_read(&read);
    if (status != 0) {
        fprintf(stderr, "%s\n", read.fault);
    }
    if (flows.others.packets > 0) {
        fprintf(stderr, "the capture has over %d flows; those that came after are left out\n", MOST_COUNTED);
        status = 1;
    }
    bool too_many = tell_too_many(&flows);
    if (!sizes) {
        print_flows(&flows);
    } else if (too_many) {
        status = 1;
    } else {
        tell_sizes(&flows);
    }
    tally_close(&flows);
    return status;
}
