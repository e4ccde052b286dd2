/* Mutated captures, and now and then mutated flows, through every part of bin/classify: see tools/classify/mutations, which compiles this under
 * sanitizers and runs it.
 *
 *     mutated COUNT FLOWS SNAPSHOT CAPTURE..
 *
 * What the program writes goes to /dev/null. A capture must be read to its end, or a fault told. Each packet is judged once more from a copy of its
 * own length, so that a read beyond it is seen, which in libpcap's buffer it is not; the verdicts must be the same. */
#include "../report.h"
#include "../sample/mutate.h"
#include "../summary.h"
#include <inttypes.h>
#include <pcap/pcap.h>
#include <stdlib.h>
#include <string.h>
#include <unistd.h>

enum { MOST_BYTES = 1 << 16, CAPTURES_A_SUMMARY = 100, CAPTURES_A_FLOWS = 20 };

struct file {
    uint8_t bytes[MOST_BYTES];
    size_t length;
};

static FILE *told; /* what this program itself says */

static void must(bool good, const char *what, uint64_t seed)
{
    if (!good) {
        fprintf(told, "seed %" PRIu64 ": not so: %s\n", seed, what);
        exit(1);
    }
}

struct taker {
    struct summary summary;
    uint64_t packets, seed;
    uint64_t verdicts; /* of the capture's packets, as a sum */
};

static uint64_t added_verdict(uint64_t sum, const struct packet *packet)
{
    sum = sum * 31 + (uint64_t)packet->verdict;
    if (packet->verdict == REFUSED) {
        return sum * 31 + (uint64_t)packet->reason;
    }
    for (size_t i = 0; i < packet->width; i++) {
        sum = sum * 31 + packet->key[i];
    }
    sum = sum * 31 + packet->is_later_fragment;
    return packet->verdict == CLASSED ? sum * 31 + packet->class_number : sum;
}

/* Every form of a packet. */
static void take(void *to, const struct packet *packet)
{
    struct taker *taker = to;
    taker->packets++;
    must(packet->number == taker->packets, "packets are numbered from 1", taker->seed);
    must(packet->verdict == REFUSED ? packet->reason < REASONS : packet->width == WIDTH_OF(IPV4) || packet->width == WIDTH_OF(IPV6),
         "a packet has a reason or a key", taker->seed);
    taker->verdicts = added_verdict(taker->verdicts, packet);
    summary_count(&taker->summary, packet);
    print_packet(NULL, packet);
    print_packet_json(NULL, packet);
}

static void print_summary(struct taker *taker)
{
    summary_print(&taker->summary, true);
    summary_print_json(&taker->summary, true, "a \"fault\"");
    summary_close(&taker->summary);
    must(summary_open(&taker->summary), "memory for a summary", taker->seed);
}

/* How mutated captures ended: at their end, with a fault after packets, with a fault before any. */
struct ends {
    uint64_t whole, broken, unread, packets;
};

static FILE *open_bytes(uint8_t *bytes, size_t length, uint64_t seed)
{
    FILE *file = length > 0 ? fmemopen(bytes, length, "rb") : fopen("/dev/null", "rb");
    must(file != NULL, "a capture in memory is opened", seed);
    return file;
}

/* The verdicts on a capture's packets, each from a copy of its own length. */
static uint64_t verdicts_of_copies(uint8_t *bytes, size_t length, const struct tables *tables, uint64_t seed)
{
    char error[PCAP_ERRBUF_SIZE];
    struct pcap_pkthdr *head;
    const u_char *captured;
    uint64_t sum = 0;
    FILE *file = open_bytes(bytes, length, seed);
    pcap_t *pcap = pcap_fopen_offline(file, error);
    if (pcap == NULL) {
        fclose(file);
        return 0;
    }
    while (link_is_known(pcap_datalink(pcap)) && pcap_next_ex(pcap, &head, &captured) == 1) {
        struct packet packet = {.number = 0};
        uint8_t *own = malloc(head->caplen + (head->caplen == 0));
        must(own != NULL, "memory for a packet", seed);
        memcpy(own, captured, head->caplen);
        packet_judge(&packet, pcap_datalink(pcap), own, head->caplen, tables);
        sum = added_verdict(sum, &packet);
        free(own);
    }
    pcap_close(pcap);
    return sum;
}

static void read_mutated(struct taker *taker, const struct tables *tables, const struct file *from, struct ends *ends)
{
    static uint8_t bytes[2 * MOST_BYTES];
    size_t length = mutate(taker->seed, from->bytes, from->length, bytes, sizeof bytes);
    struct capture capture = {.name = "mutated", .tables = tables, .take = take, .to = taker};
    taker->packets = taker->verdicts = 0;
    int status = capture_read_file(&capture, open_bytes(bytes, length, taker->seed));
    must(status == 0 || status == 1, "the status is 0 or 1", taker->seed);
    must((status == 1) == (capture.fault[0] != '\0'), "a fault is told where the status is 1", taker->seed);
    ends->whole += status == 0;
    ends->broken += status == 1 && taker->packets > 0;
    ends->unread += status == 1 && taker->packets == 0;
    must(taker->verdicts == verdicts_of_copies(bytes, length, tables, taker->seed), "copies of the packets have the same verdicts", taker->seed);
    ends->packets += taker->packets;
}

/* A text or a snapshot that is mutated, by a file of this process: read or refused. */
static bool read_flows(const struct file *from, uint64_t seed)
{
    static uint8_t bytes[2 * MOST_BYTES];
    size_t length = mutate(seed, from->bytes, from->length, bytes, sizeof bytes);
    char name[] = "/tmp/classify-flows-XXXXXX";
    int number = mkstemp(name);
    must(number >= 0 && write(number, bytes, length) == (ssize_t)length && close(number) == 0, "a file of flows is written", seed);
    struct tables tables;
    int status = tables_read(&tables, name, NULL);
    must(status == 0 || status == 1, "the status of flows is 0 or 1", seed);
    tables_close(&tables);
    unlink(name);
    return status == 0;
}

static struct file *read_file(const char *name)
{
    struct file *file = memory_of(sizeof *file);
    FILE *from = fopen(name, "rb");
    must(from != NULL, name, 0);
    file->length = fread(file->bytes, 1, MOST_BYTES, from);
    fclose(from);
    return file;
}

/* A text with its lines joined to one, and that twice: longer than a line may be. */
static struct file *long_lines(const char *name)
{
    struct file *file = read_file(name);
    must(2 * file->length <= MOST_BYTES, "a text that is short enough to be doubled", 0);
    for (size_t i = 0; i < file->length; i++) {
        file->bytes[i] = file->bytes[i] == '\n' ? ' ' : file->bytes[i];
    }
    memcpy(file->bytes + file->length, file->bytes, file->length);
    file->length *= 2;
    return file;
}

static void run(uint64_t count, char **names, int captures)
{
    struct tables tables;
    struct taker taker = {.seed = 0};
    struct ends ends = {0, 0, 0, 0};
    struct file *from[16], *flows[3] = {read_file(names[0]), read_file(names[1]), long_lines(names[0])};
    uint64_t flows_read = 0, flows_tried = 0;
    must(tables_read(&tables, names[0], NULL) == 0 && summary_open(&taker.summary) && captures <= 16, "flows and memory", 0);
    for (int i = 0; i < captures; i++) {
        from[i] = read_file(names[2 + i]);
    }
    for (; taker.seed < count; taker.seed++) {
        read_mutated(&taker, &tables, from[taker.seed % (uint64_t)captures], &ends);
        if (taker.seed % CAPTURES_A_SUMMARY == 0) {
            print_summary(&taker);
        }
        if (taker.seed % CAPTURES_A_FLOWS == 0) {
            flows_read += read_flows(flows[flows_tried++ % 3], taker.seed);
        }
    }
    fprintf(told, "%" PRIu64 " mutated captures: %" PRIu64 " read to their end, %" PRIu64 " with a fault after packets, %" PRIu64
            " with a fault before any; %" PRIu64 " packets\n", count, ends.whole, ends.broken, ends.unread, ends.packets);
    fprintf(told, "%" PRIu64 " mutated texts and snapshots: %" PRIu64 " read\nno error\n", flows_tried, flows_read);
    for (int i = 0; i < captures; i++) {
        free(from[i]);
    }
    for (int i = 0; i < 3; i++) {
        free(flows[i]);
    }
    summary_close(&taker.summary);
    tables_close(&tables);
}

int main(int count, char **words)
{
    told = fdopen(dup(STDOUT_FILENO), "w");
    if (count < 5 || told == NULL || freopen("/dev/null", "w", stdout) == NULL) {
        fputs("mutated COUNT FLOWS SNAPSHOT CAPTURE..\n", stderr);
        return 2;
    }
    /* what is said of mutated flows; a sanitizer says what it finds through its own log */
    if (freopen("/dev/null", "w", stderr) == NULL) {
        return 1;
    }
    run(strtoull(words[1], NULL, 10), words + 2, count - 4);
    fclose(told);
    return 0;
}
