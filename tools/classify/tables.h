/* FLOWS, a snapshot or a text, as one table or two: one for each version. */
#ifndef TABLES_H
#define TABLES_H

#include "lists.h"

struct version_table {
    bool is_open; /* a version without flows has no table */
    struct flow_table table;
    void *memory;
    uint64_t *hashes; /* as flow_hash_table fills it */
    size_t hashes_length;
};

struct tables {
    struct version_table of[VERSIONS];
};

/* Reads FLOWS. `given`: the settings of --settings, or NULL. It returns the program's exit status: where that is not 0, what is wrong was told on
 * standard error. */
int tables_read(struct tables *tables, const char *name, const struct flow_settings *given);
void tables_close(struct tables *tables);

/* Loads a snapshot into a table of its own. The answer is flow_load's; refused, the table is not open. */
uint32_t table_load(struct version_table *table, const uint8_t *file, size_t length);
void table_close(struct version_table *table);

/* Memory, or the end of the program with status 1. */
void *memory_of(size_t bytes);

#endif
