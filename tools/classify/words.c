#include "words.h"
#include "settings.h"
#include <stdio.h>
#include <string.h>

static const char help[] =
    "bin/classify [--settings SETTINGS] [--summary [--all]] [--json] FLOWS CAPTURE\n"
    "    The class of each packet of a capture: a line for each packet, or a table.\n"
    "bin/classify --learn [--sizes] CAPTURE\n"
    "    The distinct flows of a capture with class 0, to begin a text of flows with.\n"
    "bin/classify --snapshot [--settings SETTINGS] FLOWS\n"
    "    The flows of a text, of one version, as the snapshot that flow_load takes.\n"
    "\n"
    "FLOWS is a snapshot, or a text with a line for each flow: source address, destination address,\n"
    "source port, destination port, protocol, class. What follows a '#' is passed over.\n"
    "    " SETTINGS_FORM "\n"
    "    10.0.0.1 10.0.0.2 5060 5060 17 5\n"
    "    2001:db8::1 2001:db8::2 5060 5060 17 5\n"
    "The first line has the settings. Flows of both versions fill two tables with these settings.\n"
    "CAPTURE is a pcap or pcapng file, or - for standard input. Its link type is Ethernet, with up to two\n"
    "VLAN tags and PPPoE sessions, raw IP or Linux cooked.\n"
    "\n"
    "--settings SETTINGS  the settings of a text, as one word: '" SETTINGS_FORM "'; its own do not count then\n"
    "--summary            packets and bytes by class, absent flows by packets (the first 20), refusals by reason\n"
    "--all                with --summary: all absent flows\n"
    "--json               JSON: an object a line for each packet, or one for --summary\n"
    "--sizes              with --learn: settings that hold the flows, least bytes first, in place of the flows\n"
    "--help               this\n"
    "\n"
    "Exit status: 0; 1 for a file that cannot be read, or not to its end; 2 for wrong words.\n";

void words_help(void) { fputs(help, stdout); }

static bool wrong(const char *fault, const char *word)
{
    fprintf(stderr, "%s%s; bin/classify --help has all words\n", word, fault);
    return false;
}

static bool read_settings(struct words *words, const char *given)
{
    char copy[1024];
    if (given == NULL) {
        return wrong("--settings: the settings are missing", "");
    }
    if (strlen(given) >= sizeof copy) {
        return wrong("--settings: they are too long", "");
    }
    memcpy(copy, given, strlen(given) + 1);
    const char *fault = settings_of_words(copy, &words->settings);
    words->has_settings = true;
    return fault == NULL || wrong(fault, "--settings: ");
}

static bool *flag_of(struct words *words, const char *word)
{
    struct {
        const char *name;
        bool *flag;
    } flags[] = {{"--help", &words->help},   {"--summary", &words->summary}, {"--all", &words->all},          {"--json", &words->json},
                 {"--learn", &words->learn}, {"--sizes", &words->sizes},     {"--snapshot", &words->snapshot}};
    for (size_t i = 0; i < sizeof flags / sizeof flags[0]; i++) {
        if (strcmp(word, flags[i].name) == 0) {
            return flags[i].flag;
        }
    }
    return NULL;
}

/* Words that do not go together. */
static bool check_forms(const struct words *words)
{
    if (words->all && !words->summary) {
        return wrong("--all goes with --summary", "");
    }
    if (words->sizes && !words->learn) {
        return wrong("--sizes goes with --learn", "");
    }
    if ((words->learn || words->snapshot) && (words->summary || words->json)) {
        return wrong("--summary and --json go with the classes of packets alone", "");
    }
    if (words->learn && (words->snapshot || words->has_settings)) {
        return wrong("--learn takes neither --snapshot nor --settings", "");
    }
    return true;
}

static bool place_files(struct words *words, const char **files, int count)
{
    if (words->learn) {
        words->capture = files[0];
        return count == 1 || wrong("--learn takes one file, CAPTURE", "");
    }
    words->flows = files[0];
    if (words->snapshot) {
        return count == 1 || wrong("--snapshot takes one file, FLOWS", "");
    }
    words->capture = files[1];
    return count == 2 || wrong("two files are taken, FLOWS and CAPTURE", "");
}

bool words_read(struct words *words, int count, char **given)
{
    const char *files[2] = {NULL, NULL};
    int files_given = 0;
    bool files_only = false;
    memset(words, 0, sizeof *words);
    for (int i = 1; i < count; i++) {
        const char *word = given[i];
        bool *flag = files_only ? NULL : flag_of(words, word);
        if (flag != NULL) {
            *flag = true;
        } else if (!files_only && strcmp(word, "--") == 0) {
            files_only = true;
        } else if (!files_only && strcmp(word, "--settings") == 0) {
            if (!read_settings(words, given[++i])) {
                return false;
            }
        } else if (!files_only && word[0] == '-' && word[1] != '\0') {
            return wrong(" is no word of this program", shown(word));
        } else {
            files[files_given < 2 ? files_given : 1] = word;
            files_given++;
        }
    }
    return words->help || (check_forms(words) && place_files(words, files, files_given));
}
