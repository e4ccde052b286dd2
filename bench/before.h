/* The doors of the library that bin/bench --before names, as that library has them, and plain C that takes what they take. Of interface 1 they take six
 * settings: there is no width beside them, which is 13. bin/bench says which interface it is, and links such a library only into programs for keys of 13
 * bytes; where none is linked, the addresses are NULL. */
#ifndef BEFORE_H
#define BEFORE_H

#include "flow.h"
#include "results.h"
#include "width.h"

#ifndef BEFORE_INTERFACE
#define BEFORE_INTERFACE FLOW_INTERFACE
#endif

/* The width where it is taken: last of the settings (with a comma before it), or first of all (with one after it). */
#if BEFORE_INTERFACE == 1
#define BEFORE_WIDTH_TYPE
#define BEFORE_WIDTH
#define BEFORE_FIRST_TYPE
#define BEFORE_FIRST
#else
#define BEFORE_WIDTH_TYPE , uint64_t
#define BEFORE_WIDTH , WIDTH
#define BEFORE_FIRST_TYPE uint64_t,
#define BEFORE_FIRST WIDTH,
#endif

#define BEFORE_SETTINGS_TYPE uint64_t, uint64_t, uint64_t, uint64_t, uint64_t, uint64_t BEFORE_WIDTH_TYPE
#define BEFORE_LOOKUP_TYPE const uint8_t *, size_t, const uint8_t *, size_t, const uint8_t *, size_t
#define BEFORE_AREAS_TYPE uint8_t *, size_t, uint16_t *, size_t, uint8_t *, size_t, uint8_t *, size_t, uint8_t *, size_t, uint16_t *, size_t

typedef uint32_t before_hash_lent(BEFORE_FIRST_TYPE const uint64_t *, size_t, const uint8_t *, size_t, uint64_t *, size_t);
typedef uint64_t before_search_lent(const uint64_t *, size_t, BEFORE_SETTINGS_TYPE, BEFORE_LOOKUP_TYPE, const uint8_t *, size_t);
typedef uint32_t before_search_burst(const uint64_t *, size_t, BEFORE_SETTINGS_TYPE, BEFORE_LOOKUP_TYPE, const uint8_t *, size_t, uint64_t *, size_t);

uint32_t before_flow_hash(BEFORE_FIRST_TYPE const uint8_t *, size_t, uint64_t *, size_t) WHERE_LINKED;
before_hash_lent before_flow_hash_lent WHERE_LINKED;
uint32_t before_flow_area_lengths(BEFORE_SETTINGS_TYPE, uint64_t *, size_t) WHERE_LINKED;
uint64_t before_flow_search(BEFORE_SETTINGS_TYPE, BEFORE_LOOKUP_TYPE, const uint8_t *, size_t) WHERE_LINKED;
before_search_lent before_flow_search_lent WHERE_LINKED;
before_search_burst before_flow_search_burst WHERE_LINKED;
uint64_t before_flow_search_counts_lent(const uint64_t *, size_t, BEFORE_SETTINGS_TYPE, BEFORE_LOOKUP_TYPE, const uint8_t *, size_t, uint32_t *,
                                        size_t) WHERE_LINKED;
uint32_t before_flow_add(BEFORE_SETTINGS_TYPE, BEFORE_AREAS_TYPE, const uint8_t *, size_t, uint32_t) WHERE_LINKED;
uint32_t before_flow_remove(BEFORE_SETTINGS_TYPE, BEFORE_AREAS_TYPE, const uint8_t *, size_t) WHERE_LINKED;
__typeof__(flow_window_enter) before_flow_window_enter WHERE_LINKED;
__typeof__(flow_window_counts) before_flow_window_counts WHERE_LINKED;

before_hash_lent before_plain_hash_lent_by_gcc WHERE_LINKED, before_plain_hash_lent_by_clang WHERE_LINKED;
before_search_lent before_plain_search_lent_by_gcc WHERE_LINKED, before_plain_search_lent_by_clang WHERE_LINKED;
before_search_lent before_tuned_search_lent_by_gcc WHERE_LINKED, before_tuned_search_lent_by_clang WHERE_LINKED;
before_search_burst before_tuned_search_burst_by_gcc WHERE_LINKED, before_tuned_search_burst_by_clang WHERE_LINKED;

#endif
