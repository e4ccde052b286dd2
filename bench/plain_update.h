/* Add and remove in plain C: what flow_add and flow_remove are measured against. As theirs do, each call judges settings, lengths, key
 * and ledger, and lays out every area anew from the ledger. */
#ifndef PLAIN_UPDATE_H
#define PLAIN_UPDATE_H

#include "width.h"
#include <stddef.h>
#include <stdint.h>

enum edit { ADD, REMOVE };

/* The settings' width is not looked at: the C is compiled for one. Work is of 2 * m numbers. */
typedef uint32_t update(const struct flow_settings *set, const uint64_t *table, struct flow_areas *at, enum edit edit, const uint8_t *key,
                        size_t key_length, uint32_t class);

/* Five passes over the records, each with the hash of every key; the choice of a bucket branches. */
update plain_update_branching;

/* The same with a choice that has no branches. */
update plain_update_five;

/* No branches either; each key is hashed in two passes, and its choice is kept beside work until the areas are written. */
update plain_update_twice;

/* Each key is hashed once, and its H is kept too. */
update plain_update_kept;

#endif
