/* A capture in one table: by class, absent flows, refusals. */
#ifndef SUMMARY_H
#define SUMMARY_H

#include "packets.h"
#include "tally.h"

struct count {
    uint64_t packets, bytes;
};

enum { RECENT_CLASSES = 256 };

struct summary {
    struct count all, absent, refused, later_fragments, by_reason[REASONS];
    struct timeval first, last;
    struct tally classes, absent_flows;
    struct counted *recent[RECENT_CLASSES]; /* by its low byte, a class that was counted before */
};

/* False: no memory. */
bool summary_open(struct summary *summary);
void summary_close(struct summary *summary);

/* A taker of packets: `to` is the summary. */
void summary_count(void *to, const struct packet *packet);

/* Writes it to standard output, with the first 20 absent flows or with all. `fault`: why the capture was not read to its end, or "". */
void summary_print(struct summary *summary, bool shows_all);
void summary_print_json(struct summary *summary, bool shows_all, const char *fault);

#endif
