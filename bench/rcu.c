/* Searches under RCU, where bin/bench --live compiles this with -DURCU; else nothing. */
#include "rcu.h"

#ifdef URCU

#include "lookups.h"
#define URCU_INLINE_SMALL_FUNCTIONS
#include <urcu.h>

static const struct flow_lookup *current;

void rcu_start_reader(void) { rcu_register_thread(); }

void rcu_replace(const struct flow_lookup *copy)
{
    rcu_assign_pointer(current, copy);
    synchronize_rcu();
}

uint64_t rcu_searches(int to_a_section)
{
    uint64_t sum = 0;
    for (int i = 0; i < LOOKUPS; i += to_a_section) {
        rcu_read_lock();
        const struct flow_lookup *copy = rcu_dereference(current);
        for (int j = 0; j < to_a_section; j++) {
            sum += flow_search_lent(table, TABLE, SIX, WIDTH, FLOW_LOOKUP(copy), order[i + j], KEY);
        }
        rcu_read_unlock();
    }
    return sum;
}

#endif
