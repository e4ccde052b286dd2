#include "settings.h"
#include <inttypes.h>
#include <string.h>

enum { NAMED = 6 };

static const struct {
    char name;
    uint64_t least, most;
} limits[NAMED] = {{'p', 4, 12}, {'k', 1, 4}, {'B', 1, 4}, {'T', 2, 15}, {'N', 1, 4096}, {'S', 0, 64}};

static char fault[400];

const char *shown(const char *word)
{
    enum { MOST_SHOWN = 60 };
    static char text[4 * MOST_SHOWN + 3];
    size_t at = 0, i = 0;
    for (; word[i] != '\0' && i < MOST_SHOWN; i++) {
        unsigned char byte = (unsigned char)word[i];
        if (byte >= 0x20 && byte < 0x7f) {
            text[at++] = word[i];
        } else {
            at += (size_t)snprintf(text + at, 5, "\\x%02x", byte);
        }
    }
    memcpy(text + at, word[i] == '\0' ? "" : "..", word[i] == '\0' ? 1 : 3);
    return text;
}

bool number_of_word(const char *word, uint64_t most, uint64_t *number)
{
    uint64_t read = 0;
    for (size_t i = 0; word[i] != '\0'; i++) {
        if (word[i] < '0' || word[i] > '9') {
            return false;
        }
        read = 10 * read + (uint64_t)(word[i] - '0');
        if (read > most) {
            return false;
        }
    }
    *number = read;
    return word[0] != '\0';
}

/* The place of a setting's name among the six; 6 for none. */
static size_t place_of(const char *word)
{
    size_t i = 0;
    while (i < NAMED && (word[0] != limits[i].name || word[1] != '=')) {
        i++;
    }
    return i;
}

static bool read_word(const char *word, uint64_t *values, bool *given)
{
    size_t i = place_of(word);
    if (i == NAMED) {
        snprintf(fault, sizeof fault, "'%s' is not a setting: write p, k, B, T, N and S as %s", shown(word), SETTINGS_FORM);
    } else if (given[i]) {
        snprintf(fault, sizeof fault, "%c is given twice", limits[i].name);
    } else if (!number_of_word(word + 2, limits[i].most, &values[i]) || values[i] < limits[i].least) {
        snprintf(fault, sizeof fault, "'%s': %c is %" PRIu64 " to %" PRIu64, shown(word), limits[i].name, limits[i].least, limits[i].most);
    } else {
        given[i] = true;
        return true;
    }
    return false;
}

const char *settings_of_words(char *words, struct flow_settings *settings)
{
    static const char spaces[] = " \t\r\n\v\f";
    uint64_t values[NAMED] = {0};
    bool given[NAMED] = {false};
    char *rest = NULL;
    for (char *word = strtok_r(words, spaces, &rest); word != NULL; word = strtok_r(NULL, spaces, &rest)) {
        if (!read_word(word, values, given)) {
            return fault;
        }
    }
    for (size_t i = 0; i < NAMED; i++) {
        if (!given[i]) {
            snprintf(fault, sizeof fault, "%c is missing: write p, k, B, T, N and S as %s", limits[i].name, SETTINGS_FORM);
            return fault;
        }
    }
    *settings = (struct flow_settings){values[0], values[1], values[2], values[3], values[4], values[5], FLOW_IPV4_WIDTH};
    return NULL;
}

void settings_print(FILE *to, const struct flow_settings *settings)
{
    fprintf(to, "p=%" PRIu64 " k=%" PRIu64 " B=%" PRIu64 " T=%" PRIu64 " N=%" PRIu64 " S=%" PRIu64, settings->p, settings->k, settings->room,
            settings->top, settings->capacity, settings->side_places);
}
