/* Settings as words, one value each: `p=8 k=3 B=2 T=7 N=100 S=8`, as bin/trials takes them. */
#ifndef SETTINGS_H
#define SETTINGS_H

#include "flow.h"
#include <stdbool.h>
#include <stdio.h>

/* What the user of a text without settings is told to write. */
#define SETTINGS_FORM "p=8 k=3 B=2 T=15 N=100 S=8"

/* The settings, with the width of IPv4 flows. It returns NULL, or what is wrong, valid until the next call. `words` are taken apart. */
const char *settings_of_words(char *words, struct flow_settings *settings);

void settings_print(FILE *to, const struct flow_settings *settings);

/* A word as a message shows it: bytes that are no plain text as escapes, of a long one the beginning; valid until the next call. */
const char *shown(const char *word);

/* Digits alone, at most `most`. */
bool number_of_word(const char *word, uint64_t most, uint64_t *number);

#endif
