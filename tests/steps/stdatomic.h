/* Stands in the place of the system's <stdatomic.h> where tests/live_steps.c compiles flow_live.h: each load and each store is a step of its thread. */
#ifndef STEPS_STDATOMIC_H
#define STEPS_STDATOMIC_H

typedef enum { memory_order_relaxed, memory_order_acquire, memory_order_release, memory_order_seq_cst } memory_order;

/* The value is that of the state under trial; an atomic's address tells which one it is. */
typedef struct {
    unsigned first;
} atomic_uint;

unsigned step_load(const atomic_uint *from, memory_order order);
void step_store(atomic_uint *to, unsigned value, memory_order order);

#define atomic_init(to, value) ((void)((to)->first = (value)))
#define atomic_load_explicit(from, order) step_load(from, order)
#define atomic_store_explicit(to, value, order) step_store(to, value, order)

#endif
