/* Copies of the lookup areas behind a pointer that liburcu guards (its default kind). A reader's thread is started once; a section is a lock and an
 * unlock of its own around the pointer's load. These are NULL where rcu.c is compiled without URCU. */
#ifndef RCU_H
#define RCU_H

#include "flow.h"
#include "results.h"

void rcu_start_reader(void) WHERE_LINKED;

/* The writer: another copy is current from now on; it returns when no section has the one before. */
void rcu_replace(const struct flow_lookup *copy) WHERE_LINKED;

/* Searches of the keys of a round, so many to a section; the sum of the answers. */
uint64_t rcu_searches(int to_a_section) WHERE_LINKED;

#endif
