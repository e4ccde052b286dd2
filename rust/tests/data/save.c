/* The program that made the files beside it, compiled with header and library of commit a3cdc53, the last with six settings:
 *
 *     gcc -std=c11 -I/tmp/before/include rust/tests/data/save.c /tmp/before/target/staticlib/libcard.a -o save && cd rust/tests/data && ./save
 *
 * Of each table it writes NAME.file, what flow_save gave, and NAME.areas, the five areas that it was saved from in their order, the true counts with
 * the high byte first. rust/tests/earlier_files.rs loads the first and compares with the second. */
#include "flow.h"
#include <stdio.h>
#include <stdlib.h>

struct table {
    const char *name;
    uint64_t settings[6];
    int adds; /* calls that draw a flow to add; every fifth removes one in place of it */
};

static const struct table tables[] = {
    {"empty", {4, 1, 1, 2, 1, 0}, 0},
    {"one", {6, 3, 2, 4, 128, 8}, 1},
    {"flowrun", {6, 3, 2, 4, 128, 8}, 200},
    {"crowded", {4, 2, 1, 3, 24, 8}, 100},
    {"full", {5, 4, 4, 15, 100, 64}, 400},
    {"least", {4, 1, 1, 2, 3, 3}, 40},
};

#define SETTINGS s[0], s[1], s[2], s[3], s[4], s[5]
#define AREAS ledger, n[0], true_counts, n[1], clipped, n[2], buckets, n[3], side, n[4]

static FILE *create(const char *name, const char *kind)
{
    char path[64];
    snprintf(path, sizeof path, "%s.%s", name, kind);
    FILE *file = fopen(path, "wb");
    if (file == NULL) {
        exit(1);
    }
    return file;
}

int main(void)
{
    struct flow_generator generator = {.s = 7, .w = 7};
    for (size_t i = 0; i < sizeof tables / sizeof tables[0]; i++) {
        const uint64_t *s = tables[i].settings;
        uint64_t n[6];
        if (flow_area_lengths(SETTINGS, n, 6) != 0) {
            return 1;
        }
        uint8_t *ledger = malloc(n[0]), *clipped = malloc(n[2]), *buckets = malloc(n[3]), *side = malloc(n[4]);
        uint16_t *true_counts = malloc(2 * n[1]), *work = malloc(2 * n[5]);
        flow_clear(SETTINGS, AREAS);
        for (int call = 0; call < tables[i].adds; call++) {
            uint8_t key[FLOW_KEY_BYTES];
            uint64_t first = flow_generator_next(&generator), second = flow_generator_next(&generator);
            for (int a = 0; a < FLOW_KEY_BYTES; a++) {
                key[a] = (uint8_t)(a < 8 ? first >> 8 * a : second >> 8 * (a - 8));
            }
            if (call % 5 == 4 && ledger[1] > 0) {
                flow_remove(SETTINGS, AREAS, work, n[5], ledger + 2 + FLOW_RECORD_BYTES * (first % ledger[1]), FLOW_KEY_BYTES);
            } else {
                flow_add(SETTINGS, AREAS, work, n[5], key, FLOW_KEY_BYTES, (uint32_t)(second >> 32));
            }
        }
        size_t length = FLOW_FILE_HEAD_BYTES + FLOW_RECORD_BYTES * ledger[1];
        uint8_t *saved = malloc(length);
        if (flow_save(SETTINGS, ledger, n[0], work, n[5], saved, length) != 0) {
            return 1;
        }
        uint32_t totals[4];
        flow_tally(SETTINGS, ledger, n[0], clipped, n[2], buckets, n[3], side, n[4], totals, 4);
        printf("%s: %u in buckets, %u in the side store, %u marked 255\n", tables[i].name, totals[0], totals[1], totals[2]);
        FILE *file = create(tables[i].name, "file"), *areas = create(tables[i].name, "areas");
        fwrite(saved, 1, length, file);
        fwrite(ledger, 1, n[0], areas);
        for (uint64_t b = 0; b < n[1]; b++) {
            fputc(true_counts[b] >> 8, areas);
            fputc(true_counts[b] & 255, areas);
        }
        fwrite(clipped, 1, n[2], areas);
        fwrite(buckets, 1, n[3], areas);
        fwrite(side, 1, n[4], areas);
        if (fclose(file) != 0 || fclose(areas) != 0) {
            return 1;
        }
    }
    return 0;
}
