#include "lists.h"
#include <arpa/inet.h>
#include <stdlib.h>
#include <string.h>

bool list_add(struct flow_list *list, const uint8_t *key, uint32_t class_number, size_t line)
{
    if (list->count == MOST_FLOWS) {
        return false;
    }
    struct flow *flow = &list->flows[list->count++];
    memset(flow->key, 0, sizeof flow->key); /* so that whole keys can be compared, whatever the width */
    memcpy(flow->key, key, list->width);
    flow->class_number = class_number;
    flow->line = line;
    return true;
}

static int by_lines(const void *one, const void *other)
{
    const struct flow *a = one, *b = other;
    return (a->line > b->line) - (a->line < b->line);
}

static int by_keys(const void *one, const void *other)
{
    const struct flow *a = one, *b = other;
    int order = memcmp(a->key, b->key, sizeof a->key);
    return order != 0 ? order : by_lines(one, other);
}

void list_sort_by_keys(struct flow_list *list) { qsort(list->flows, list->count, sizeof list->flows[0], by_keys); }
void list_sort_by_lines(struct flow_list *list) { qsort(list->flows, list->count, sizeof list->flows[0], by_lines); }

static uint8_t *put_number(uint8_t *at, uint64_t number)
{
    at[0] = (uint8_t)(number >> 8);
    at[1] = (uint8_t)number;
    return at + 2;
}

size_t list_file(const struct flow_list *list, const struct flow_settings *settings, uint8_t *target)
{
    const uint64_t numbers[FLOW_SETTINGS_COUNT] = {FLOW_SETTINGS(settings)};
    /* the width is the last setting, and left out for IPv4 flows */
    size_t settings_written = list->width == FLOW_IPV4_WIDTH ? FLOW_SETTINGS_COUNT - 1 : FLOW_SETTINGS_COUNT;
    uint8_t *at = put_number(target, settings_written);
    for (size_t i = 0; i < settings_written; i++) {
        at = put_number(at, numbers[i]);
    }
    at = put_number(at, list->count);
    for (size_t i = 0; i < list->count; i++) {
        memcpy(at, list->flows[i].key, list->width);
        at = put_number(at + list->width, list->flows[i].class_number >> 16);
        at = put_number(at, list->flows[i].class_number & 0xffff);
    }
    return (size_t)(at - target);
}

struct fields fields_of(const uint8_t *key, size_t width)
{
    struct fields fields;
    int family = width == FLOW_IPV6_WIDTH ? AF_INET6 : AF_INET;
    size_t address = width == FLOW_IPV6_WIDTH ? 16 : 4;
    const uint8_t *ports = key + 2 * address;
    inet_ntop(family, key, fields.source, sizeof fields.source);
    inet_ntop(family, key + address, fields.destination, sizeof fields.destination);
    fields.source_port = (unsigned)(ports[0] << 8 | ports[1]);
    fields.destination_port = (unsigned)(ports[2] << 8 | ports[3]);
    fields.protocol = ports[4];
    return fields;
}

void print_flow(FILE *to, const uint8_t *key, size_t width)
{
    struct fields fields = fields_of(key, width);
    fprintf(to, "%s %s %u %u %u", fields.source, fields.destination, fields.source_port, fields.destination_port, fields.protocol);
}
