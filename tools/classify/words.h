/* The words of the command line. */
#ifndef WORDS_H
#define WORDS_H

#include "flow.h"
#include <stdbool.h>

struct words {
    bool help, summary, all, json, learn, sizes, snapshot;
    bool has_settings;
    struct flow_settings settings;
    const char *flows, *capture;
};

/* False: a word is wrong, which was told on standard error. */
bool words_read(struct words *words, int count, char **given);

void words_help(void);

#endif
