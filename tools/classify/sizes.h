/* The settings that hold a list of flows, found by loading it through the doors. */
#ifndef SIZES_H
#define SIZES_H

#include "lists.h"

/* Writes them to standard output for each list that has flows, and for both lists together where both have. Lists are in the order of their keys. */
void print_sizes(const struct flow_list *lists);

#endif
