/* bin/classify: the classes of the packets in a capture. */
#include "learn.h"
#include "report.h"
#include "summary.h"
#include "words.h"
#include <errno.h>
#include <stdlib.h>
#include <string.h>
#include <unistd.h>

/* Lines of packets on the same terminal would be mixed with the progress. */
static bool shows_progress(const struct words *words)
{
    return isatty(STDERR_FILENO) && (words->summary || words->learn || !isatty(STDOUT_FILENO));
}

static int summarize(const struct words *words, struct capture *capture)
{
    struct summary summary;
    if (!summary_open(&summary)) {
        snprintf(capture->fault, FAULT_BYTES, "no memory for the summary");
        return 1;
    }
    capture->take = summary_count;
    capture->to = &summary;
    int status = capture_read(capture);
    if (words->json) {
        summary_print_json(&summary, words->all, capture->fault);
    } else {
        summary_print(&summary, words->all);
    }
    summary_close(&summary);
    return status;
}

static int classify(const struct words *words, const struct tables *tables)
{
    struct capture capture = {.name = words->capture, .tables = tables, .shows_progress = shows_progress(words)};
    capture.take = words->json ? print_packet_json : print_packet;
    int status = words->summary ? summarize(words, &capture) : capture_read(&capture);
    if (status != 0) {
        fflush(stdout);
        fprintf(stderr, "%s\n", capture.fault);
    }
    return status;
}

static int save(struct tables *tables, const char *name)
{
    bool has_ipv4 = tables->of[IPV4].is_open, has_ipv6 = tables->of[IPV6].is_open;
    if (has_ipv4 == has_ipv6) {
        fprintf(stderr, "%s: it has %s, and a snapshot has flows of one version\n", name, has_ipv4 ? "flows of both versions" : "no flows");
        return 1;
    }
    struct flow_table *table = &tables->of[has_ipv4 ? IPV4 : IPV6].table;
    size_t bytes = flow_table_file_bytes(table);
    uint8_t *file = memory_of(bytes);
    bool saved = flow_table_save(table, file, bytes) == FLOW_DONE && fwrite(file, 1, bytes, stdout) == bytes;
    free(file);
    return !saved;
}

static int run(const struct words *words)
{
    struct tables tables;
    if (words->help) {
        words_help();
        return 0;
    }
    if (words->learn) {
        return learn(words->capture, words->sizes, shows_progress(words));
    }
    int status = tables_read(&tables, words->flows, words->has_settings ? &words->settings : NULL);
    if (status == 0) {
        status = words->snapshot ? save(&tables, words->flows) : classify(words, &tables);
    }
    tables_close(&tables);
    return status;
}

int main(int count, char **given)
{
    struct words words;
    if (!words_read(&words, count, given)) {
        return 2;
    }
    int status = run(&words);
    if (fflush(stdout) != 0 || ferror(stdout)) {
        fprintf(stderr, "standard output: %s\n", strerror(errno));
        return 1;
    }
    return status;
}
