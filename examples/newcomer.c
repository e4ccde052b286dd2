/* A first program with the structs of flow.h. newcomer_doors.c is the same program with the bare doors.
 *
 *     gcc -std=c11 -Iinclude examples/newcomer.c target/staticlib/libcard.a -o newcomer && ./newcomer
 */
#include "flow.h"
#include <stdio.h>
#include <stdlib.h>

/* Ends the program where something is not so. */
#define CHECK(good) ((good) ? (void)0 : (fprintf(stderr, "line %d: not so: %s\n", __LINE__, #good), exit(1)))

int main(void)
{
    const struct flow_settings settings = {.p = 6, .k = 3, .room = 2, .top = 4, .capacity = 128, .side_places = 8, .width = FLOW_IPV4_WIDTH};
    /* 10.0.0.1 to 10.0.0.2, port 5060 at both ends, protocol 17; 10.0.0.3 to 10.0.0.4, port 443 at both ends, protocol 6 */
    const uint8_t call[] = {10, 0, 0, 1, 10, 0, 0, 2, 0x13, 0xc4, 0x13, 0xc4, 17}, line[] = {10, 0, 0, 3, 10, 0, 0, 4, 0x01, 0xbb, 0x01, 0xbb, 6};
    struct flow_table first, second;
    size_t bytes = flow_table_bytes(&settings);
    void *memory = malloc(bytes), *more = malloc(bytes);
    CHECK(memory != NULL && more != NULL);
    CHECK(flow_table_open(&first, &settings, memory, bytes) == FLOW_DONE && flow_table_open(&second, &settings, more, bytes) == FLOW_DONE);
    CHECK(flow_table_add(&first, call, 5) == FLOW_DONE && flow_table_add(&first, line, 1) == FLOW_DONE);
    uint64_t found = flow_table_search(&first, call);
    CHECK(flow_answer_of(found) == FLOW_HELD);
    printf("the call has class %u\n", (unsigned)flow_class_of(found));
    size_t file_bytes = flow_table_file_bytes(&first);
    uint8_t *file = malloc(file_bytes);
    CHECK(file != NULL && flow_table_save(&first, file, file_bytes) == FLOW_DONE);
    CHECK(flow_table_load(&second, file, file_bytes) == FLOW_DONE);
    CHECK(flow_table_search(&second, call) == found);
    printf("after a save and a load of %zu bytes it has the same\n", file_bytes);
    free(file);
    free(more);
    free(memory);
    return 0;
}
