/* From a captured frame to the IP packet in it. */
#ifndef FRAMES_H
#define FRAMES_H

#include <stdbool.h>
#include <stddef.h>
#include <stdint.h>

/* Why a packet has no class: what the link layer has, then what the doors of the packet keys refuse. */
enum reason {
    REASON_CUT_FRAME,
    REASON_TAGS,
    REASON_ETHERTYPE,
    REASON_NO_ETHERTYPE,
    REASON_PPP,
    REASON_HEADER,
    REASON_PORTS,
    REASON_HEADER6,
    REASONS,
    NO_REASON = REASONS
};

struct frame {
    enum reason reason;    /* NO_REASON: what follows is an IP packet */
    uint16_t type;         /* the ethertype or PPP protocol that is no IP's */
    bool is_ipv6;
    const uint8_t *packet; /* from its IP header on, to the end of what was captured */
    size_t length;
};

/* Whether frames of this link type (of pcap_datalink) can be opened. */
bool link_is_known(int link);

/* The IP packet in a frame of a known link type. */
struct frame open_frame(int link, const uint8_t *bytes, size_t length);

/* A reason in words. */
const char *reason_words(enum reason reason);

/* Whether the words are to be followed by the frame's type. */
bool reason_has_type(enum reason reason);

/* The number of the door's refusal; 0 where no door was asked. */
unsigned reason_refusal(enum reason reason);

#endif
