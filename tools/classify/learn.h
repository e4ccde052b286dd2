/* From a capture to flows, and to settings that hold them. */
#ifndef LEARN_H
#define LEARN_H

#include <stdbool.h>

/* Writes the distinct flows of a capture as a text of flows, or with `sizes` the settings that hold them. It returns the program's exit status. */
int learn(const char *capture, bool sizes, bool shows_progress);

#endif
