/* Checks mutate on the captures that are named: the same result from the same seed, nothing written beyond `most`, results that differ from seed to
 * seed, and some of each length. Its last line is 'no error'.
 *
 *     gcc -std=c11 -O1 -g -fsanitize=address,undefined -fno-sanitize-recover=all tools/classify/sample/mutate_check.c \
 *         tools/classify/sample/mutate.c -o mutate_check && ./mutate_check examples/captures/sample.pcap examples/captures/sample.pcapng
 */
#include "mutate.h"
#include <stdio.h>
#include <stdlib.h>
#include <string.h>

enum { MOST_BYTES = 1 << 16, SEEDS = 20000, GUARD = 64, MARK = 0xa5 };

static uint8_t first[MOST_BYTES + GUARD];

static void fail(const char *what, uint64_t seed, size_t most)
{
    printf("%s: seed %llu, most %zu\n", what, (unsigned long long)seed, most);
    exit(1);
}

static void guards_kept(const uint8_t *bytes, size_t most, uint8_t mark, uint64_t seed)
{
    for (size_t i = most; i < most + GUARD; i++) {
        if (bytes[i] != mark) {
            fail("a byte after the last was written", seed, most);
        }
    }
}

/* An area of just that length, so that the sanitizer sees a read or write beyond it. */
static uint8_t *exact_area(size_t length)
{
    uint8_t *area = malloc(length + (length == 0));
    if (area == NULL) {
        puts("no memory");
        exit(1);
    }
    return area;
}

/* One seed and one `most`, into areas that held different bytes before. Returns the length of the result, which is in `first`. */
static size_t one(uint64_t seed, const uint8_t *capture, size_t length, size_t most)
{
    uint8_t *from = exact_area(length), *second = exact_area(most);
    memcpy(from, capture, length);
    memset(first, MARK, most + GUARD);
    memset(second, MARK ^ 0xff, most);
    size_t n = mutate(seed, from, length, first, most);
    if (n > most) {
        fail("a length beyond most", seed, most);
    }
    if (mutate(seed, from, length, second, most) != n || memcmp(first, second, n) != 0) {
        fail("two results from one seed", seed, most);
    }
    guards_kept(first, most, MARK, seed);
    free(from);
    free(second);
    return n;
}

static void seeds(const char *name, const uint8_t *capture, size_t length)
{
    const size_t mosts[] = {0, 1, 3, 4, 12, 23, 24, 39, 40, length / 2, length, length + 1, length + 40, 2 * length, MOST_BYTES};
    size_t shorter = 0, longer = 0, same_length = 0, unaltered = 0;
    for (uint64_t seed = 0; seed < SEEDS; seed++) {
        for (size_t i = 0; seed % 16 == 0 && i < sizeof mosts / sizeof mosts[0]; i++) {
            one(seed, capture, length, mosts[i]);
            one(seed, capture, length / 3, mosts[i]);
        }
        size_t n = one(seed, capture, length, 2 * length);
        shorter += n < length;
        longer += n > length;
        same_length += n == length;
        unaltered += n == length && memcmp(first, capture, length) == 0;
    }
    printf("%s: of %d results %zu shorter, %zu longer, %zu of the same length, %zu of these unaltered\n", name, SEEDS, shorter, longer, same_length,
           unaltered);
    if (shorter < SEEDS / 10 || longer < SEEDS / 10 || same_length < SEEDS / 10 || unaltered > SEEDS / 10) {
        fail("the results are too much alike", SEEDS, 0);
    }
}

int main(int count, char **names)
{
    static uint8_t capture[MOST_BYTES / 2];
    for (int i = 1; i < count; i++) {
        FILE *file = fopen(names[i], "rb");
        if (file == NULL) {
            perror(names[i]);
            return 1;
        }
        size_t length = fread(capture, 1, sizeof capture, file);
        fclose(file);
        seeds(names[i], capture, length);
    }
    for (uint64_t seed = 0; seed < SEEDS; seed++) {
        one(seed, capture, 0, 100); /* a capture of no bytes */
    }
    if (mutate(1, NULL, 0, NULL, 0) != 0) {
        fail("a result of no bytes", 1, 0);
    }
    puts("no error");
    return 0;
}
