/* The layout of a list of flows in plain C, for the benchmark: document 01, 'Placing'. */
#ifndef LAYOUT_H
#define LAYOUT_H

#include "width.h"
#include <stddef.h>
#include <stdint.h>

/* Lays out so many flows, whose keys differ, with the hash table by byte, in the lookup areas alone; sorts keys and classes by key. 0, or 1 when the
 * layout is not defined or memory is short. What an earlier call put there is freed. */
int lay_out(const struct flow_settings *set, uint64_t flows, const uint64_t *table, uint8_t keys[][KEY], uint32_t *classes, struct flow_areas *at);

#endif
