/* FLOWS as a text: a line of settings, then a line for each flow. */
#ifndef TEXT_H
#define TEXT_H

#include "lists.h"

struct text {
    const char *name; /* of the file, for messages */
    size_t line;
    unsigned faults;
    bool has_settings, has_begun; /* begun: a line that is not empty was read, after which no settings stand */
    struct flow_settings settings;
    struct flow_list *lists; /* VERSIONS of them */
};

/* Reads the lines into the lists. `text` has a name, its lists, and settings where they were given with --settings: these then stand. Bad lines are
 * told on standard error and counted in faults. */
void text_read(struct text *text, FILE *from);

/* Tells and counts a fault of a line. */
void text_fault(struct text *text, size_t line, const char *format, ...) __attribute__((format(printf, 3, 4)));

#endif
