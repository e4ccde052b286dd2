/* A line for each packet, as text or as JSON. */
#ifndef REPORT_H
#define REPORT_H

#include "packets.h"

/* Two takers of packets (take_packet): they write to standard output, and `to` is not used. */
void print_packet(void *to, const struct packet *packet);
void print_packet_json(void *to, const struct packet *packet);

/* A time in UTC, `2026-11-17T09:30:00.000000Z`, or as seconds where no calendar has it. */
enum { TIME_BYTES = 64 };
const char *time_words(const struct timeval *time, char words[TIME_BYTES]);

/* A string of JSON, with its quotes. */
void print_json_string(const char *text);

/* The fields of a flow as members of a JSON object, without its braces. */
void print_json_flow(const uint8_t *key, size_t width);

#endif
