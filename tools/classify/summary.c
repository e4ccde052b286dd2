#include "summary.h"
#include "report.h"
#include <inttypes.h>
#include <string.h>

enum { FIRST_FLOWS = 20 };

bool summary_open(struct summary *summary)
{
    memset(summary, 0, sizeof *summary);
    bool has_classes = tally_open(&summary->classes), has_flows = tally_open(&summary->absent_flows);
    return has_classes && has_flows;
}

void summary_close(struct summary *summary)
{
    tally_close(&summary->classes);
    tally_close(&summary->absent_flows);
}

static void count(struct count *count, uint64_t bytes)
{
    count->packets++;
    count->bytes += bytes;
}

static uint32_t class_of(const struct counted *counted)
{
    const uint8_t *key = counted->key;
    return (uint32_t)key[0] << 24 | (uint32_t)key[1] << 16 | (uint32_t)key[2] << 8 | key[3];
}

/* Captures have few classes, and most are found without a search of the tally. */
static struct counted *class_count(struct summary *summary, uint32_t class_number)
{
    struct counted **recent = &summary->recent[class_number % RECENT_CLASSES];
    if (*recent == NULL || class_of(*recent) != class_number) {
        const uint8_t key[FLOW_CLASS_BYTES] = {(uint8_t)(class_number >> 24), (uint8_t)(class_number >> 16), (uint8_t)(class_number >> 8),
                                               (uint8_t)class_number};
        *recent = tally_of(&summary->classes, key, sizeof key);
    }
    return *recent;
}

void summary_count(void *to, const struct packet *packet)
{
    struct summary *summary = to;
    if (summary->all.packets == 0) {
        summary->first = packet->time;
    }
    summary->last = packet->time;
    count(&summary->all, packet->bytes);
    if (packet->verdict == REFUSED) {
        count(&summary->refused, packet->bytes);
        count(&summary->by_reason[packet->reason], packet->bytes);
        return;
    }
    if (packet->is_later_fragment) {
        count(&summary->later_fragments, packet->bytes);
    }
    if (packet->verdict == CLASSED) {
        tally_count(class_count(summary, packet->class_number), packet->bytes);
    } else {
        count(&summary->absent, packet->bytes);
        tally_count(tally_of(&summary->absent_flows, packet->key, packet->width), packet->bytes);
    }
}

/* From the first packet to the last; 0 where time does not rise. */
static double seconds_of(const struct summary *summary)
{
    double seconds = (double)summary->last.tv_sec - (double)summary->first.tv_sec;
    seconds += 1e-6 * ((double)summary->last.tv_usec - (double)summary->first.tv_usec);
    return seconds > 0 ? seconds : 0;
}

/* The last packet has no time after it, so it is left out of the rate. */
static double rate_of(const struct summary *summary)
{
    double seconds = seconds_of(summary);
    return seconds > 0 ? (double)(summary->all.packets - 1) / seconds : 0;
}

static size_t shown_flows(const struct summary *summary, bool shows_all)
{
    size_t count = summary->absent_flows.count;
    return shows_all || count < FIRST_FLOWS ? count : FIRST_FLOWS;
}

static void print_row(const char *name, struct count count)
{
    printf("%-10s %12" PRIu64 " %16" PRIu64 "\n", name, count.packets, count.bytes);
}

static void print_classes(const struct summary *summary)
{
    printf("%-10s %12s %16s\n", "class", "packets", "bytes");
    for (size_t i = 0; i < summary->classes.count; i++) {
        const struct counted *class = &summary->classes.list[i];
        char name[11];
        snprintf(name, sizeof name, "%" PRIu32, class_of(class));
        print_row(name, (struct count){class->packets, class->bytes});
    }
    print_row("absent", summary->absent);
    print_row("refused", summary->refused);
    print_row("all", summary->all);
    if (summary->later_fragments.packets > 0) {
        printf("\nlater fragments, counted above by their keys without ports: %" PRIu64 " packets, %" PRIu64 " bytes\n",
               summary->later_fragments.packets, summary->later_fragments.bytes);
    }
}

static void print_absent(const struct summary *summary, bool shows_all)
{
    const struct tally *flows = &summary->absent_flows;
    size_t shown = shown_flows(summary, shows_all);
    if (flows->count == 0) {
        return;
    }
    printf("\n%12s %16s absent flow\n", "packets", "bytes");
    for (size_t i = 0; i < shown; i++) {
        printf("%12" PRIu64 " %16" PRIu64 " ", flows->list[i].packets, flows->list[i].bytes);
        print_flow(stdout, flows->list[i].key, flows->list[i].width);
        putchar('\n');
    }
    if (shown < flows->count) {
        printf("and %zu flows more, which --all shows\n", flows->count - shown);
    }
    if (flows->others.packets > 0) {
        printf("%12" PRIu64 " %16" PRIu64 " flows that came after the first %d absent ones, which are not told apart\n", flows->others.packets,
               flows->others.bytes, MOST_COUNTED);
    }
}

static void print_refused(const struct summary *summary)
{
    if (summary->refused.packets == 0) {
        return;
    }
    printf("\n%12s %16s refused\n", "packets", "bytes");
    for (int reason = 0; reason < REASONS; reason++) {
        struct count count = summary->by_reason[reason];
        if (count.packets > 0) {
            printf("%12" PRIu64 " %16" PRIu64 " %s\n", count.packets, count.bytes, reason_words((enum reason)reason));
        }
    }
}

void summary_print(struct summary *summary, bool shows_all)
{
    char first[TIME_BYTES], last[TIME_BYTES];
    tally_sort_by_keys(&summary->classes);
    tally_sort_by_packets(&summary->absent_flows);
    if (summary->all.packets > 0) {
        printf("%s to %s, %.1f packets a second\n\n", time_words(&summary->first, first), time_words(&summary->last, last), rate_of(summary));
    }
    print_classes(summary);
    print_absent(summary, shows_all);
    print_refused(summary);
}

static void print_json_count(const char *name, struct count count)
{
    printf("\"%s\":{\"packets\":%" PRIu64 ",\"bytes\":%" PRIu64 "}", name, count.packets, count.bytes);
}

static void print_json_flows(const struct summary *summary, bool shows_all)
{
    const struct tally *flows = &summary->absent_flows;
    size_t shown = shown_flows(summary, shows_all);
    printf(",\"absent_flows\":[");
    for (size_t i = 0; i < shown; i++) {
        printf("%s{", i > 0 ? "," : "");
        print_json_flow(flows->list[i].key, flows->list[i].width);
        printf(",\"packets\":%" PRIu64 ",\"bytes\":%" PRIu64 "}", flows->list[i].packets, flows->list[i].bytes);
    }
    printf("],\"absent_flows_not_shown\":%zu,", flows->count - shown);
    print_json_count("absent_flows_not_told_apart", (struct count){flows->others.packets, flows->others.bytes});
}

static void print_json_classes(const struct summary *summary)
{
    printf(",\"classes\":[");
    for (size_t i = 0; i < summary->classes.count; i++) {
        const struct counted *class = &summary->classes.list[i];
        printf("%s{\"class\":%" PRIu32 ",\"packets\":%" PRIu64 ",\"bytes\":%" PRIu64 "}", i > 0 ? "," : "", class_of(class), class->packets,
               class->bytes);
    }
    putchar(']');
}

static void print_json_reasons(const struct summary *summary)
{
    const char *comma = "";
    printf(",\"refusals\":[");
    for (int reason = 0; reason < REASONS; reason++) {
        struct count count = summary->by_reason[reason];
        if (count.packets > 0) {
            printf("%s{\"reason\":\"%s\",\"packets\":%" PRIu64 ",\"bytes\":%" PRIu64 "}", comma, reason_words((enum reason)reason), count.packets,
                   count.bytes);
            comma = ",";
        }
    }
    putchar(']');
}

void summary_print_json(struct summary *summary, bool shows_all, const char *fault)
{
    char words[TIME_BYTES];
    tally_sort_by_keys(&summary->classes);
    tally_sort_by_packets(&summary->absent_flows);
    putchar('{');
    print_json_count("all", summary->all);
    if (summary->all.packets > 0) {
        printf(",\"first\":\"%s\"", time_words(&summary->first, words));
        printf(",\"last\":\"%s\",\"packets_a_second\":%.1f", time_words(&summary->last, words), rate_of(summary));
    }
    print_json_classes(summary);
    putchar(',');
    print_json_count("absent", summary->absent);
    print_json_flows(summary, shows_all);
    putchar(',');
    print_json_count("refused", summary->refused);
    print_json_reasons(summary);
    putchar(',');
    print_json_count("later_fragments", summary->later_fragments);
    printf(",\"fault\":");
    if (fault[0] == '\0') {
        printf("null");
    } else {
        print_json_string(fault);
    }
    puts("}");
}
