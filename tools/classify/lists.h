/* Flows as lists, one for each version: from a text's lines or a capture's keys, to the bytes of a snapshot. */
#ifndef LISTS_H
#define LISTS_H

#include "flow.h"
#include <stdbool.h>
#include <stdio.h>

enum { IPV4, IPV6, VERSIONS, MOST_FLOWS = 4096 };

#define WIDTH_OF(version) ((size_t)((version) == IPV6 ? FLOW_IPV6_WIDTH : FLOW_IPV4_WIDTH))

/* The bytes of the longest snapshot. */
#define MOST_FILE (FLOW_FILE_HEAD_BYTES(FLOW_IPV6_WIDTH) + FLOW_RECORD_BYTES(FLOW_IPV6_WIDTH) * MOST_FLOWS)

struct flow {
    uint8_t key[FLOW_IPV6_WIDTH];
    uint32_t class_number;
    size_t line; /* of the text */
};

struct flow_list {
    size_t width, count;
    struct flow flows[MOST_FLOWS];
};

/* False: the list is full. */
bool list_add(struct flow_list *list, const uint8_t *key, uint32_t class_number, size_t line);

/* By rising keys, as a snapshot has them; a key that stands twice by lines. By lines alone. */
void list_sort_by_keys(struct flow_list *list);
void list_sort_by_lines(struct flow_list *list);

/* The snapshot of a list in the order of its keys, in a target of MOST_FILE bytes. It returns the snapshot's length. */
size_t list_file(const struct flow_list *list, const struct flow_settings *settings, uint8_t *target);

/* A key's fields as bin/calls writes them: source, destination, their ports, protocol. */
struct fields {
    char source[46], destination[46];
    unsigned source_port, destination_port, protocol;
};
struct fields fields_of(const uint8_t *key, size_t width);
void print_flow(FILE *to, const uint8_t *key, size_t width);

#endif
