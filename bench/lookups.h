/* What searches are measured on: a table of random flows, and the keys of a round with what each has to answer. */
#ifndef LOOKUPS_H
#define LOOKUPS_H

#include "layout.h"
#include <stdint.h>

enum { LOOKUPS = 8192, MOST_FLOWS = 4096 };
#define ABSENT ((uint64_t)100 << 32)

/* What is looked up: held keys, held and absent ones in random order, absent ones. */
enum mix { HITS, HALF, MISSES, MIXES };

/* The table: its settings and lookup areas, how many flows it holds, the hash table by byte and at 37 the one by half-byte, its keys and classes,
 * and as many keys that it does not hold. */
extern struct flow_settings set;
extern struct flow_areas at;
extern uint64_t flows;
extern uint64_t table[TABLE], halves[HALVES];
extern uint8_t held[MOST_FLOWS][KEY], absent[MOST_FLOWS][KEY];
extern uint32_t classes[MOST_FLOWS];

/* Settings and areas, as a search takes them. */
#define SIX SIX_OF(&set)
#define LOOKUP FLOW_LOOKUP(&at)
#define AREAS SIX, WIDTH, LOOKUP

/* The keys of a round, and what each contestant has to answer. */
extern uint8_t order[LOOKUPS][KEY];
extern uint64_t wanted[LOOKUPS];

/* Fills the hash tables; 0, or 1 where a door refuses one. */
int fill_hash_tables(void);

/* A table of other random flows, as many as flows says. 0, or 1 where they have no layout, which it says. */
int fill_table(void);

/* The keys of another round. The sum of what they have to answer. */
uint64_t draw(enum mix mix);

#endif
