#include "tables.h"
#include "settings.h"
#include "text.h"
#include <errno.h>
#include <inttypes.h>
#include <stdlib.h>
#include <string.h>

void *memory_of(size_t bytes)
{
    void *memory = calloc(1, bytes);
    if (memory == NULL) {
        fprintf(stderr, "no memory for %zu bytes\n", bytes);
        exit(1);
    }
    return memory;
}

void table_close(struct version_table *table)
{
    free(table->memory);
    free(table->hashes);
    memset(table, 0, sizeof *table);
}

void tables_close(struct tables *tables)
{
    for (int version = 0; version < VERSIONS; version++) {
        table_close(&tables->of[version]);
    }
}

static void open_table(struct version_table *table, const struct flow_settings *settings)
{
    size_t bytes = flow_table_bytes(settings);
    table->memory = memory_of(bytes);
    table->hashes_length = FLOW_HASH_TABLE_NUMBERS((size_t)settings->width);
    table->hashes = memory_of(table->hashes_length * sizeof *table->hashes);
    table->is_open = flow_table_open(&table->table, settings, table->memory, bytes) == FLOW_DONE &&
                     flow_hash_table(settings->width, table->hashes, table->hashes_length) == FLOW_DONE;
}

uint32_t table_load(struct version_table *table, const uint8_t *file, size_t length)
{
    struct flow_settings settings;
    uint32_t answer = flow_settings_of_file(&settings, file, length);
    if (answer != FLOW_DONE) {
        return answer;
    }
    open_table(table, &settings);
    answer = flow_table_load(&table->table, file, length);
    if (answer != FLOW_DONE) {
        table_close(table);
    }
    return answer;
}

static const char *load_refusal(uint32_t answer)
{
    switch (answer) {
    case FLOW_BAD_SETTINGS:
        return "a setting is out of range";
    case FLOW_FULL:
        return "it has more records than its capacity";
    case FLOW_SIDE_FULL:
        return "its side store does not suffice for its flows";
    case FLOW_BAD_FILE_ORDER:
        return "its keys do not rise";
    default:
        return "it is cut, overlong or no snapshot";
    }
}

/* Whether a read failed, which is told. */
static bool tell_unread(const char *name, FILE *from)
{
    if (!ferror(from)) {
        return false;
    }
    fprintf(stderr, "%s: %s\n", name, strerror(errno));
    return true;
}

static int read_snapshot(struct tables *tables, const char *name, FILE *from)
{
    uint8_t *file = memory_of(MOST_FILE + 1); /* a byte more than the longest, which then is refused as overlong */
    size_t length = fread(file, 1, MOST_FILE + 1, from);
    struct version_table table = {.is_open = false};
    if (tell_unread(name, from)) {
        free(file);
        return 1;
    }
    uint32_t answer = table_load(&table, file, length);
    free(file);
    if (answer != FLOW_DONE) {
        fprintf(stderr, "%s: a snapshot that is refused with %" PRIu32 ": %s\n", name, answer, load_refusal(answer));
        return 1;
    }
    tables->of[table.table.settings.width == FLOW_IPV6_WIDTH ? IPV6 : IPV4] = table;
    return 0;
}

static void tell_repeats(struct text *text, const struct flow_list *list)
{
    for (size_t i = 1; i < list->count; i++) {
        const struct flow *before = &list->flows[i - 1], *flow = &list->flows[i];
        if (memcmp(before->key, flow->key, list->width) == 0) {
            text_fault(text, flow->line, "refusal 6: line %zu has the same flow; take one of them out", before->line);
        }
    }
}

/* The line whose flow is refused, when they are added one after the other. */
static void tell_side_full(struct text *text, struct flow_list *list, const struct flow_settings *settings)
{
    struct version_table table = {.is_open = false};
    size_t at = 0;
    list_sort_by_lines(list);
    open_table(&table, settings);
    while (at + 1 < list->count && flow_table_add(&table.table, list->flows[at].key, list->flows[at].class_number) == FLOW_DONE) {
        at++;
    }
    table_close(&table);
    text_fault(text, list->flows[at].line,
               "refusal 9: with this flow more than S=%" PRIu64 " belong to the side store; raise S (at most 64), p (at most 12) or B (at most 4)",
               settings->side_places);
}

static void load_list(struct version_table *table, struct text *text, struct flow_list *list)
{
    struct flow_settings settings = text->settings;
    settings.width = list->width;
    if (list->count > settings.capacity) {
        text_fault(text, list->flows[settings.capacity].line, "refusal 8: the table is full with N=%" PRIu64 " flows, and %zu are given; raise N",
                   settings.capacity, list->count);
        return;
    }
    list_sort_by_keys(list);
    tell_repeats(text, list);
    if (text->faults > 0) {
        return;
    }
    uint8_t *file = memory_of(MOST_FILE);
    uint32_t answer = table_load(table, file, list_file(list, &settings, file));
    free(file);
    if (answer != FLOW_DONE) { /* of a list in order, within its capacity and without repeats: 9 */
        tell_side_full(text, list, &settings);
    }
}

static int read_text(struct tables *tables, const char *name, FILE *from, const struct flow_settings *given)
{
    struct text text = {.name = name, .has_settings = given != NULL};
    if (given != NULL) {
        text.settings = *given;
    }
    text.lists = memory_of(VERSIONS * sizeof *text.lists);
    for (int version = 0; version < VERSIONS; version++) {
        text.lists[version].width = WIDTH_OF(version);
    }
    text_read(&text, from);
    text.faults += tell_unread(name, from);
    if (text.faults == 0 && !text.has_settings) {
        fprintf(stderr, "%s: it has no settings; write them in its first line, as %s, or give them with --settings\n", name, SETTINGS_FORM);
        text.faults++;
    }
    for (int version = 0; version < VERSIONS && text.faults == 0; version++) {
        if (text.lists[version].count > 0) {
            load_list(&tables->of[version], &text, &text.lists[version]);
        }
    }
    free(text.lists);
    return text.faults != 0;
}

static int read_from(struct tables *tables, const char *name, FILE *from, const struct flow_settings *given)
{
    int first = getc(from);
    if (tell_unread(name, from)) {
        return 1;
    }
    ungetc(first, from);
    if (first != 0) { /* the count 6 or 7 starts with a byte of zero, and no text does */
        return read_text(tables, name, from, given);
    }
    if (given != NULL) {
        fprintf(stderr, "--settings: %s is a snapshot, which has its settings\n", name);
        return 2;
    }
    return read_snapshot(tables, name, from);
}

int tables_read(struct tables *tables, const char *name, const struct flow_settings *given)
{
    memset(tables, 0, sizeof *tables);
    FILE *from = fopen(name, "rb");
    if (from == NULL) {
        fprintf(stderr, "%s: %s\n", name, strerror(errno));
        return 1;
    }
    int status = read_from(tables, name, from, given);
    fclose(from);
    return status;
}
