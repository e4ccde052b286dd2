#include "packets.h"
#include <errno.h>
#include <inttypes.h>
#include <pcap/pcap.h>
#include <signal.h>
#include <string.h>
#include <time.h>

enum { READ_AHEAD = 1 << 18, PACKETS_A_LOOK = 1 << 14 };

struct reading {
    const struct capture *capture;
    int link;
    time_t looked_at; /* the clock, for the progress */
    bool has_shown;
    struct packet packet;
};

/* What SIGINT stops; NULL while standard input is read. */
static pcap_t *volatile stoppable;

/* A file is read no further. The writer of a pipe has had the same signal, and what it still writes is read to its end. */
static void on_interrupt(int number)
{
    (void)number;
    if (stoppable != NULL) {
        pcap_breakloop(stoppable);
    }
}

/* A second SIGINT ends the program. */
static void catch_interrupt(pcap_t *pcap)
{
    struct sigaction action = {.sa_handler = on_interrupt, .sa_flags = SA_RESTART | (int)SA_RESETHAND};
    stoppable = pcap;
    sigaction(SIGINT, &action, NULL);
}

static void show_progress(struct reading *reading)
{
    time_t now = time(NULL);
    if (now != reading->looked_at) {
        reading->looked_at = now;
        reading->has_shown = true;
        fprintf(stderr, "\r%" PRIu64 " packets", reading->packet.number);
    }
}

/* Whether a packet that has a key is a fragment that does not start at 0. Of IPv6 only a fragment header right after the IP header is seen, as the
 * key sees no other. */
static bool is_later_fragment(const struct frame *frame)
{
    const uint8_t *at = frame->packet;
    if (!frame->is_ipv6) {
        return ((at[6] & 0x1f) | at[7]) != 0;
    }
    return at[6] == 44 && frame->length >= 44 && (at[42] | (at[43] & 0xf8)) != 0;
}

static enum reason reason_of(uint32_t answer)
{
    switch (answer) {
    case FLOW_BAD_PACKET_HEADER:
        return REASON_HEADER;
    case FLOW_BAD_PACKET6_HEADER:
        return REASON_HEADER6;
    default:
        return REASON_PORTS;
    }
}

/* A packet whose key is made. The areas are the program's own, so a search answers held or absent. */
static void search(const struct version_table *table, struct packet *packet)
{
    uint64_t found = flow_table_search_lent(&table->table, table->hashes, table->hashes_length, packet->key);
    if (flow_answer_of(found) == FLOW_HELD) {
        packet->verdict = CLASSED;
        packet->class_number = flow_class_of(found);
    }
}

void packet_judge(struct packet *packet, int link, const uint8_t *bytes, size_t length, const struct tables *tables)
{
    struct frame frame = open_frame(link, bytes, length);
    int version = frame.is_ipv6 ? IPV6 : IPV4;
    packet->verdict = REFUSED;
    packet->reason = frame.reason;
    packet->type = frame.type;
    if (frame.reason != NO_REASON) {
        return;
    }
    packet->width = (uint8_t)WIDTH_OF(version);
    uint32_t answer = frame.is_ipv6 ? flow_packet6_key(frame.packet, frame.length, packet->key, packet->width)
                                    : flow_packet_key(frame.packet, frame.length, packet->key, packet->width);
    if (answer != FLOW_DONE) {
        packet->reason = reason_of(answer);
        return;
    }
    packet->verdict = ABSENT;
    packet->is_later_fragment = is_later_fragment(&frame);
    if (tables != NULL && tables->of[version].is_open) {
        search(&tables->of[version], packet);
    }
}

static void on_packet(u_char *to, const struct pcap_pkthdr *head, const u_char *bytes)
{
    struct reading *reading = (struct reading *)(void *)to;
    struct packet *packet = &reading->packet;
    packet->number++;
    packet->time = head->ts;
    packet->bytes = head->len;
    packet_judge(packet, reading->link, bytes, head->caplen, reading->capture->tables);
    reading->capture->take(reading->capture->to, packet);
    if (reading->capture->shows_progress && packet->number % PACKETS_A_LOOK == 0) {
        show_progress(reading);
    }
}

static int read_packets(pcap_t *pcap, int link, struct capture *capture)
{
    struct reading reading = {.capture = capture, .link = link, .looked_at = time(NULL)};
    int ended = pcap_loop(pcap, -1, on_packet, (u_char *)&reading);
    if (reading.has_shown) {
        fputs("\r\x1b[K", stderr);
    }
    if (ended == 0) {
        return 0;
    }
    snprintf(capture->fault, FAULT_BYTES, "%s: %s, after %" PRIu64 " packets", capture->name,
             ended == PCAP_ERROR_BREAK ? "stopped by hand" : pcap_geterr(pcap), reading.packet.number);
    return 1;
}

static int refuse_link(int link, struct capture *capture)
{
    const char *name = pcap_datalink_val_to_name(link), *described = pcap_datalink_val_to_description(link);
    snprintf(capture->fault, FAULT_BYTES, "%s: its link type is %d, %s (%s); known are Ethernet, raw IP and Linux cooked", capture->name, link,
             name != NULL ? name : "without a name", described != NULL ? described : "without a description");
    return 1;
}

static int read_file(struct capture *capture, FILE *file)
{
    char error[PCAP_ERRBUF_SIZE] = "";
    if (file == stdin) {
        catch_interrupt(NULL); /* before its head is read, which tcpdump may not write until it is stopped */
    }
    pcap_t *pcap = pcap_fopen_offline(file, error);
    if (pcap == NULL) {
        snprintf(capture->fault, FAULT_BYTES, "%s: %s", capture->name, error);
        fclose(file);
        return 1;
    }
    if (file != stdin) {
        catch_interrupt(pcap);
    }
    int link = pcap_datalink(pcap);
    int status = link_is_known(link) ? read_packets(pcap, link, capture) : refuse_link(link, capture);
    stoppable = NULL;
    pcap_close(pcap);
    return status;
}

int capture_read_file(struct capture *capture, FILE *file)
{
    struct sigaction before; /* what is to be done with SIGINT, which is put back */
    sigaction(SIGINT, NULL, &before);
    int status = read_file(capture, file);
    sigaction(SIGINT, &before, NULL);
    return status;
}

int capture_read(struct capture *capture)
{
    bool is_input = strcmp(capture->name, "-") == 0;
    FILE *file = is_input ? stdin : fopen(capture->name, "rb");
    if (file == NULL) {
        snprintf(capture->fault, FAULT_BYTES, "%s: %s", capture->name, strerror(errno));
        return 1;
    }
    if (is_input) {
        capture->name = "standard input";
    }
    static char ahead[READ_AHEAD]; /* without a buffer of one's own, glibc takes no size */
    setvbuf(file, ahead, _IOFBF, sizeof ahead);
    return capture_read_file(capture, file);
}
