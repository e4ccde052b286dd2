/* The packets of a capture, each with what the tables answer. */
#ifndef PACKETS_H
#define PACKETS_H

#include "frames.h"
#include "tables.h"
#include <sys/time.h>

enum verdict { CLASSED, ABSENT, REFUSED };

struct packet {
    uint64_t number; /* from 1 */
    struct timeval time;
    uint64_t bytes; /* on the wire */
    enum verdict verdict;
    enum reason reason; /* where it is refused, with its type */
    uint16_t type;
    /* where it is not refused: */
    bool is_later_fragment;
    uint8_t width, key[FLOW_IPV6_WIDTH];
    uint32_t class_number; /* of a classed one */
};

/* Fills in the verdict on a packet of a known link type, and what goes with it, from what was captured of it. Without tables (NULL) every flow is
 * absent. */
void packet_judge(struct packet *packet, int link, const uint8_t *bytes, size_t length, const struct tables *tables);

typedef void take_packet(void *to, const struct packet *packet);

enum { FAULT_BYTES = 4096 + 1024 }; /* the longest name of a file, and a reason */

struct capture {
    const char *name;            /* for messages; where it is opened by it, '-' is standard input */
    const struct tables *tables; /* NULL: every flow is absent */
    bool shows_progress;
    take_packet *take;
    void *to;
    char fault[FAULT_BYTES];
};

/* Opens the capture by its name, reads it, and hands each packet on. It returns 0, or 1 where the capture cannot be read to its end: then fault says
 * why, and the packets before it were handed on. */
int capture_read(struct capture *capture);

/* The same from an open file, which is closed. */
int capture_read_file(struct capture *capture, FILE *file);

#endif
