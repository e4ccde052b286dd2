#include "sizes.h"
#include "settings.h"
#include "tables.h"
#include <stdlib.h>

enum { TOP = 15, MOST_SIDE = 64, MOST_TRIES = 9 * 3 * 4, MOST_PRINTED = 10 };

struct size {
    struct flow_settings settings; /* of the last list tried: its width is not looked at */
    size_t bytes;                  /* of all areas, of every table */
    uint32_t side_need;            /* the greatest of the tables */
};

/* Loads a list under settings of its width; whether they hold it. side_need: the records in the side store then. */
static bool holds(const struct flow_list *list, const struct flow_settings *settings, uint32_t *side_need)
{
    struct version_table table = {.is_open = false};
    uint32_t totals[4];
    uint8_t *file = memory_of(MOST_FILE);
    bool held = table_load(&table, file, list_file(list, settings, file)) == FLOW_DONE && flow_table_tally(&table.table, totals) == FLOW_DONE;
    if (held && totals[1] > *side_need) {
        *side_need = totals[1];
    }
    table_close(&table);
    free(file);
    return held;
}

/* Whether the settings, given each list's width, hold every list. */
static bool hold_all(const struct flow_list *const *lists, size_t count, struct size *size)
{
    size->bytes = 0;
    for (size_t i = 0; i < count; i++) {
        size->settings.width = lists[i]->width;
        size->bytes += flow_table_bytes(&size->settings);
        if (!holds(lists[i], &size->settings, &size->side_need)) {
            return false;
        }
    }
    return true;
}

/* One choice of p, k and B: with the most side places it tells the need, and the least S of the choices that is enough for it is tried again. */
static bool try_size(const struct flow_list *const *lists, size_t count, struct size *size)
{
    static const uint64_t side_places[] = {0, 8, 16, 32, MOST_SIDE};
    size_t least = 0;
    size->settings.side_places = MOST_SIDE;
    if (!hold_all(lists, count, size)) {
        return false;
    }
    while (side_places[least] < size->side_need) {
        least++;
    }
    size->settings.side_places = side_places[least];
    return hold_all(lists, count, size);
}

static int by_bytes(const void *one, const void *other)
{
    const struct size *a = one, *b = other;
    if (a->bytes != b->bytes) {
        return a->bytes < b->bytes ? -1 : 1;
    }
    if (a->settings.p != b->settings.p) {
        return a->settings.p < b->settings.p ? -1 : 1;
    }
    return (a->settings.k > b->settings.k) - (a->settings.k < b->settings.k);
}

/* Every p, k and B; what holds the lists, least bytes first. It returns how many do. */
static size_t find_sizes(const struct flow_list *const *lists, size_t count, uint64_t capacity, struct size *sizes)
{
    size_t found = 0;
    for (uint64_t p = 4; p <= 12; p++) {
        for (uint64_t room = 1; room <= 4; room++) {
            for (uint64_t k = 2; k <= 4 && (room << p) + MOST_SIDE >= capacity; k++) {
                sizes[found] = (struct size){.settings = {p, k, room, TOP, capacity, 0, 0}};
                found += try_size(lists, count, &sizes[found]);
            }
        }
    }
    qsort(sizes, found, sizeof *sizes, by_bytes);
    return found;
}

static void print_found(const struct flow_list *const *lists, size_t count, uint64_t capacity)
{
    struct size sizes[MOST_TRIES + 1];
    size_t found = find_sizes(lists, count, capacity, sizes);
    if (found == 0) {
        puts("# none of the settings that were tried holds them");
    }
    for (size_t i = 0; i < found && i < MOST_PRINTED; i++) {
        settings_print(stdout, &sizes[i].settings);
        printf(" # %zu bytes of all areas, %u side places in use\n", sizes[i].bytes, (unsigned)sizes[i].side_need);
    }
}

void print_sizes(const struct flow_list *lists)
{
    const struct flow_list *both[VERSIONS] = {&lists[IPV4], &lists[IPV6]};
    size_t most = lists[IPV4].count > lists[IPV6].count ? lists[IPV4].count : lists[IPV6].count;
    if (most == 0) {
        puts("# no flows");
    }
    if (lists[IPV4].count > 0 && lists[IPV6].count > 0) {
        printf("# one line for both versions, %zu IPv4 flows and %zu IPv6 flows: a table of each width\n", lists[IPV4].count, lists[IPV6].count);
        print_found(both, VERSIONS, most);
    }
    for (int version = 0; version < VERSIONS; version++) {
        if (lists[version].count > 0) {
            printf("# %zu IPv%d flows\n", lists[version].count, version == IPV6 ? 6 : 4);
            print_found(&both[version], 1, lists[version].count);
        }
    }
}
