/* What each door needs of the stack: it is called on a stack of its own whose bytes are known, and the bytes that have altered are counted. Each door is
 * called with settings of the greatest areas, at a key width, so that it goes through (accepted), and with a wrong setting (refused); the greater
 * count is printed, less that of a call of nothing. The status is 1 where a door needs more than flow.h says. bin/stack makes a table of it. */
#define _XOPEN_SOURCE 700
#include "flow.h"
#include <inttypes.h>
#include <stdio.h>
#include <stdlib.h>
#include <string.h>
#include <ucontext.h>

#ifndef WIDTH
#define WIDTH FLOW_IPV4_WIDTH
#endif

enum { KEY = WIDTH, HASHES = FLOW_HASH_TABLE_NUMBERS(KEY), FLOWS = 3000, STACK = 1 << 20, KNOWN = 0xa5, BURST = 32 };

static struct flow_settings right = {12, 3, 4, 15, 4096, 64, WIDTH}, wrong, settings;
static struct flow_table table;
static uint64_t hashes[HASHES], numbers[BURST];
static uint8_t keys[FLOWS + BURST][KEY], packet[60], packet_key[KEY], *file;
static uint16_t small[5], window[FLOW_WINDOW_NUMBERS];
static uint32_t counts[4];
static size_t file_length;
static struct flow_generator generator = {1, 0};
static uint64_t answer;

#define GIVEN FLOW_SETTINGS(&settings)
#define LOOKUP FLOW_LOOKUP(&table.areas)
#define AREAS FLOW_AREAS(&table.areas)
#define WORK FLOW_WORK(&table.areas)

/* The calls; an update that is accepted is taken back outside. */
static void nothing(void) {}
static void settings_check(void) { answer = flow_settings_check(GIVEN); }
static void area_lengths(void) { answer = flow_area_lengths(GIVEN, numbers, 6); }
static void hash_table(void) { answer = flow_hash_table(settings.width, hashes, HASHES); }
static void hash(void) { answer = flow_hash(settings.width, keys[0], KEY, numbers, 1); }
static void hash_lent(void) { answer = flow_hash_lent(settings.width, hashes, HASHES, keys[0], KEY, numbers, 1); }
static void key_buckets(void) { answer = flow_key_buckets(GIVEN, keys[0], KEY, window, 4, small, 5); }
static void search(void) { answer = flow_answer_of(flow_search(GIVEN, LOOKUP, keys[0], KEY)); }
static void search_lent(void) { answer = flow_answer_of(flow_search_lent(hashes, HASHES, GIVEN, LOOKUP, keys[0], KEY)); }
static void search_burst(void) { answer = flow_search_burst(hashes, HASHES, GIVEN, LOOKUP, keys[0], BURST * KEY, numbers, BURST); }
static void search_place(void) { answer = flow_answer_of(flow_search_place(GIVEN, LOOKUP, keys[0], KEY, numbers, 2)); }
static void search_counts(void) { answer = flow_answer_of(flow_search_counts(GIVEN, LOOKUP, keys[0], KEY, counts, 3)); }
static void search_counts_lent(void) { answer = flow_answer_of(flow_search_counts_lent(hashes, HASHES, GIVEN, LOOKUP, keys[0], KEY, counts, 3)); }
static void tally(void) { answer = flow_tally(GIVEN, table.areas.ledger, table.areas.ledger_length, LOOKUP, counts, 4); }
static void clear(void) { answer = flow_clear(GIVEN, AREAS); }
static void add(void) { answer = flow_add(GIVEN, AREAS, WORK, keys[FLOWS], KEY, 7); }
static void change(void) { answer = flow_change(GIVEN, AREAS, WORK, keys[0], KEY, 8); }
static void take_out(void) { answer = flow_remove(GIVEN, AREAS, WORK, keys[0], KEY); }
static void save(void) { answer = flow_save(GIVEN, table.areas.ledger, table.areas.ledger_length, WORK, file, file_length); }
static void file_settings(void) { answer = flow_file_settings(file, settings.p == 0 ? 1 : file_length, numbers, FLOW_SETTINGS_COUNT); }
static void load(void) { answer = flow_load(file, file_length - (settings.p == 0), AREAS, WORK, numbers, FLOW_SETTINGS_COUNT); }
static void window_clear(void) { answer = flow_window_clear(window, FLOW_WINDOW_NUMBERS - (settings.p == 0)); }
static void window_enter(void) { answer = flow_window_enter(window, FLOW_WINDOW_NUMBERS - (settings.p == 0), 0, counts, 3); }
static void window_remove(void) { answer = flow_window_remove(window, FLOW_WINDOW_NUMBERS - (settings.p == 0)); }
static void window_counts(void) { answer = flow_window_counts(window, FLOW_WINDOW_NUMBERS - (settings.p == 0), counts, 3); }
static void generator_next(void) { flow_generator_next(&generator); }

static void packet_keys(void)
{
    size_t length = settings.p == 0 ? 10 : sizeof packet;
    answer = WIDTH == FLOW_IPV4_WIDTH ? flow_packet_key(packet, length, packet_key, KEY) : flow_packet6_key(packet, length, packet_key, KEY);
}

static const struct {
    const char *name;
    void (*call)(void);
    size_t most; /* as flow.h says */
} calls[] = {
    {"flow_settings_check", settings_check, FLOW_STACK_OTHER},
    {"flow_area_lengths", area_lengths, FLOW_STACK_OTHER},
    {"flow_hash_table", hash_table, FLOW_STACK_HASH_TABLE},
    {"flow_hash", hash, FLOW_STACK_OTHER},
    {"flow_hash_lent", hash_lent, FLOW_STACK_OTHER},
    {"flow_key_buckets", key_buckets, FLOW_STACK_OTHER},
    {"flow_search", search, FLOW_STACK_OTHER},
    {"flow_search_lent", search_lent, FLOW_STACK_OTHER},
    {"flow_search_burst", search_burst, FLOW_STACK_OTHER},
    {"flow_search_place", search_place, FLOW_STACK_OTHER},
    {"flow_search_counts", search_counts, FLOW_STACK_OTHER},
    {"flow_search_counts_lent", search_counts_lent, FLOW_STACK_OTHER},
    {"flow_tally", tally, FLOW_STACK_OTHER},
    {"flow_clear", clear, FLOW_STACK_OTHER},
    {"flow_add", add, FLOW_STACK_LAYOUT},
    {"flow_change", change, FLOW_STACK_LAYOUT},
    {"flow_remove", take_out, FLOW_STACK_LAYOUT},
    {"flow_save", save, FLOW_STACK_LAYOUT},
    {"flow_file_settings", file_settings, FLOW_STACK_OTHER},
    {"flow_load", load, FLOW_STACK_LAYOUT},
    {"flow_packet_key, flow_packet6_key", packet_keys, FLOW_STACK_OTHER},
    {"flow_window_clear", window_clear, FLOW_STACK_OTHER},
    {"flow_window_enter", window_enter, FLOW_STACK_OTHER},
    {"flow_window_remove", window_remove, FLOW_STACK_OTHER},
    {"flow_window_counts", window_counts, FLOW_STACK_OTHER},
    {"flow_generator_next", generator_next, FLOW_STACK_OTHER},
};

static ucontext_t here, there;
static _Alignas(64) uint8_t stack[STACK];

/* The bytes of the stack that a call alters, from its deepest one up. */
static size_t used_by(void (*call)(void))
{
    size_t at = 0;
    memset(stack, KNOWN, STACK);
    getcontext(&there);
    there.uc_stack.ss_sp = stack;
    there.uc_stack.ss_size = STACK;
    there.uc_link = &here;
    makecontext(&there, call, 0);
    swapcontext(&here, &there);
    while (at < STACK && stack[at] == KNOWN) {
        at++;
    }
    return STACK - at;
}

static void must(uint32_t got, const char *what)
{
    if (got != FLOW_DONE) {
        printf("%s: refused with %" PRIu32 "\n", what, got);
        exit(1);
    }
}

/* The table with its flows, and its file. */
static void fill(void)
{
    must(flow_table_clear(&table), "flow_clear");
    for (int i = 0; i < FLOWS; i++) {
        must(flow_table_add(&table, keys[i], (uint32_t)i), "flow_add");
    }
}

static void start(void)
{
    size_t bytes = flow_table_bytes(&right);
    void *memory = malloc(bytes);
    file_length = FLOW_FILE_HEAD_BYTES(KEY) + (size_t)FLOW_RECORD_BYTES(KEY) * FLOWS;
    file = malloc(file_length);
    if (memory == NULL || file == NULL) {
        exit(1);
    }
    for (int i = 0; i < FLOWS + BURST; i++) {
        for (int j = 0; j < KEY; j++) {
            keys[i][j] = (uint8_t)(flow_generator_next(&generator) >> 24);
        }
    }
    packet[0] = WIDTH == FLOW_IPV4_WIDTH ? 0x45 : 0x60;
    packet[WIDTH == FLOW_IPV4_WIDTH ? 9 : 6] = 17;
    must(flow_hash_table(WIDTH, hashes, HASHES), "flow_hash_table");
    must(flow_table_open(&table, &right, memory, bytes), "flow_table_open");
    fill();
    must(flow_table_save(&table, file, file_length), "flow_save");
}

/* The greater of a call that is accepted and one that is refused, less a call of nothing. */
static size_t needed_by(void (*call)(void), const char *name)
{
    settings = right;
    size_t accepted = used_by(call);
    must((uint32_t)answer, name);
    settings = wrong;
    size_t refused = used_by(call);
    answer = FLOW_DONE;
    return (accepted > refused ? accepted : refused) - used_by(nothing);
}

int main(void)
{
    int status = 0;
    start();
    for (size_t i = 0; i < sizeof calls / sizeof *calls; i++) {
        size_t needed = needed_by(calls[i].call, calls[i].name);
        printf("| %s | %zu | %zu |\n", calls[i].name, needed, calls[i].most);
        if (needed > calls[i].most) {
            fprintf(stderr, "%s: more than flow.h says\n", calls[i].name);
            status = 1;
        }
        if (calls[i].call == clear || calls[i].call == add || calls[i].call == take_out) {
            fill();
        }
    }
    return status;
}
