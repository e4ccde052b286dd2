#include "frames.h"
#include "flow.h"
#include <pcap/pcap.h>

enum {
    TYPE_IPV4 = 0x0800,
    TYPE_IPV6 = 0x86dd,
    TYPE_TAG = 0x8100,          /* IEEE 802.1Q */
    TYPE_SERVICE_TAG = 0x88a8,  /* IEEE 802.1ad */
    TYPE_OLD_TAG = 0x9100,      /* of switches from before 802.1ad */
    TYPE_PPPOE_SESSION = 0x8864,
    LEAST_TYPE = 0x0600,        /* below it the field is an IEEE 802.3 length */
    PPP_IPV4 = 0x0021,
    PPP_IPV6 = 0x0057
};

enum { ETHERNET_BYTES = 14, TAG_BYTES = 4, MOST_TAGS = 2, PPPOE_BYTES = 6, PPP_BYTES = 2, COOKED_BYTES = 16, COOKED2_BYTES = 20 };

/* Kinds of devices (ARPHRD_..) whose cooked frames have something else than an ethertype in the protocol field. */
enum { DEVICE_FRAD = 770, DEVICE_RADIOTAP = 803, DEVICE_NETLINK = 824 };

static const struct {
    const char *words;
    bool has_type;
    unsigned refusal;
} reasons[REASONS] = {
    [REASON_CUT_FRAME] = {"cut within its link header", false, 0},
    [REASON_TAGS] = {"more than two VLAN tags", false, 0},
    [REASON_ETHERTYPE] = {"no IP by its ethertype", true, 0},
    [REASON_NO_ETHERTYPE] = {"no IP: it has no ethertype", false, 0},
    [REASON_PPP] = {"no IP by its PPP protocol", true, 0},
    [REASON_HEADER] = {"refusal 10: the IPv4 header is wrong", false, FLOW_BAD_PACKET_HEADER},
    [REASON_PORTS] = {"refusal 11: the ports are missing", false, FLOW_PORTS_MISSING},
    [REASON_HEADER6] = {"refusal 16: the IPv6 header is wrong", false, FLOW_BAD_PACKET6_HEADER},
};

const char *reason_words(enum reason reason) { return reasons[reason].words; }
bool reason_has_type(enum reason reason) { return reasons[reason].has_type; }
unsigned reason_refusal(enum reason reason) { return reasons[reason].refusal; }

static uint16_t number_at(const uint8_t *at) { return (uint16_t)(at[0] << 8 | at[1]); }

static struct frame without_ip(enum reason reason, uint16_t type)
{
    return (struct frame){.reason = reason, .type = type};
}

static struct frame with_ip(bool is_ipv6, const uint8_t *packet, size_t length)
{
    return (struct frame){.reason = NO_REASON, .is_ipv6 = is_ipv6, .packet = packet, .length = length};
}

static struct frame open_session(const uint8_t *at, size_t length)
{
    if (length < PPPOE_BYTES + PPP_BYTES) {
        return without_ip(REASON_CUT_FRAME, 0);
    }
    uint16_t protocol = number_at(at + PPPOE_BYTES);
    if (protocol != PPP_IPV4 && protocol != PPP_IPV6) {
        return without_ip(REASON_PPP, protocol);
    }
    return with_ip(protocol == PPP_IPV6, at + PPPOE_BYTES + PPP_BYTES, length - PPPOE_BYTES - PPP_BYTES);
}

static bool is_tag(uint16_t type) { return type == TYPE_TAG || type == TYPE_SERVICE_TAG || type == TYPE_OLD_TAG; }

/* What follows an ethertype. */
static struct frame open_payload(uint16_t type, const uint8_t *at, size_t length)
{
    for (int tags = 0; is_tag(type); tags++) {
        if (tags == MOST_TAGS) {
            return without_ip(REASON_TAGS, type);
        }
        if (length < TAG_BYTES) {
            return without_ip(REASON_CUT_FRAME, 0);
        }
        type = number_at(at + 2);
        at += TAG_BYTES;
        length -= TAG_BYTES;
    }
    if (type == TYPE_IPV4 || type == TYPE_IPV6) {
        return with_ip(type == TYPE_IPV6, at, length);
    }
    if (type == TYPE_PPPOE_SESSION) {
        return open_session(at, length);
    }
    return without_ip(type < LEAST_TYPE ? REASON_NO_ETHERTYPE : REASON_ETHERTYPE, type);
}

static struct frame open_ethernet(const uint8_t *bytes, size_t length)
{
    if (length < ETHERNET_BYTES) {
        return without_ip(REASON_CUT_FRAME, 0);
    }
    return open_payload(number_at(bytes + 12), bytes + ETHERNET_BYTES, length - ETHERNET_BYTES);
}

/* A cooked frame, of either version: `protocol` and `device` are where its header has these. */
static struct frame open_cooked(const uint8_t *bytes, size_t length, size_t head, size_t protocol, size_t device)
{
    if (length < head) {
        return without_ip(REASON_CUT_FRAME, 0);
    }
    uint16_t kind = number_at(bytes + device);
    if (kind == DEVICE_FRAD || kind == DEVICE_RADIOTAP || kind == DEVICE_NETLINK) {
        return without_ip(REASON_NO_ETHERTYPE, 0);
    }
    return open_payload(number_at(bytes + protocol), bytes + head, length - head);
}

bool link_is_known(int link)
{
    return link == DLT_EN10MB || link == DLT_RAW || link == DLT_IPV4 || link == DLT_IPV6 || link == DLT_LINUX_SLL || link == DLT_LINUX_SLL2;
}

struct frame open_frame(int link, const uint8_t *bytes, size_t length)
{
    switch (link) {
    case DLT_EN10MB:
        return open_ethernet(bytes, length);
    case DLT_LINUX_SLL:
        return open_cooked(bytes, length, COOKED_BYTES, 14, 2);
    case DLT_LINUX_SLL2:
        return open_cooked(bytes, length, COOKED2_BYTES, 0, 8);
    case DLT_IPV4:
        return with_ip(false, bytes, length);
    case DLT_IPV6:
        return with_ip(true, bytes, length);
    default: /* raw IP: the version is the packet's own, and a wrong one is refused as of IPv4 */
        return with_ip(length > 0 && bytes[0] >> 4 == 6, bytes, length);
    }
}
