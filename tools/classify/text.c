#include "text.h"
#include "settings.h"
#include <arpa/inet.h>
#include <stdarg.h>
#include <string.h>

enum { MOST_TOLD = 10, LINE_BYTES = 1024, FIELDS = 6 };

static const char spaces[] = " \t\r\v\f";

void text_fault(struct text *text, size_t line, const char *format, ...)
{
    va_list words;
    if (++text->faults > MOST_TOLD) {
        return;
    }
    fprintf(stderr, "%s, line %zu: ", text->name, line);
    va_start(words, format);
    vfprintf(stderr, format, words);
    va_end(words);
    fputc('\n', stderr);
}

/* The next line, without its end; -1 at the end of the file or where a read fails, 0 for a line that is too long, which is passed over. A byte of
 * zero becomes one of 1, which no field takes. */
static int next_line(FILE *from, char *line)
{
    size_t length = 0;
    int byte = getc(from);
    if (byte == EOF) {
        return -1;
    }
    for (; byte != EOF && byte != '\n'; byte = getc(from)) {
        if (length < LINE_BYTES) {
            line[length] = byte == 0 ? 1 : (char)byte;
        }
        length += length < LINE_BYTES;
    }
    line[length < LINE_BYTES ? length : 0] = '\0';
    return ferror(from) ? -1 : length < LINE_BYTES;
}

static void read_settings(struct text *text, char *line)
{
    struct flow_settings settings;
    const char *fault = settings_of_words(line, &settings);
    if (fault != NULL) {
        text_fault(text, text->line, "%s", fault);
    } else if (!text->has_settings) {
        text->settings = settings;
    }
    text->has_settings = true;
}

/* An address into a key; its length, or 0 for none. */
static size_t read_address(const char *word, uint8_t *key)
{
    if (inet_pton(AF_INET, word, key) == 1) {
        return 4;
    }
    return inet_pton(AF_INET6, word, key) == 1 ? 16 : 0;
}

/* The key of the first five fields; its width, or 0 where one is wrong, which is told. */
static size_t read_key(struct text *text, char **fields, uint8_t *key)
{
    size_t source = read_address(fields[0], key), destination = read_address(fields[1], key + source);
    uint64_t ports[2], protocol;
    if (source == 0 || destination == 0) {
        text_fault(text, text->line, "'%s' is not an address", shown(fields[source == 0 ? 0 : 1]));
    } else if (source != destination) {
        text_fault(text, text->line, "one address is IPv4, the other IPv6");
    } else if (!number_of_word(fields[2], UINT16_MAX, &ports[0]) || !number_of_word(fields[3], UINT16_MAX, &ports[1])) {
        text_fault(text, text->line, "'%s' is not a port, 0 to 65535", shown(fields[number_of_word(fields[2], UINT16_MAX, &ports[0]) ? 3 : 2]));
    } else if (!number_of_word(fields[4], UINT8_MAX, &protocol)) {
        text_fault(text, text->line, "'%s' is not a protocol, 0 to 255", shown(fields[4]));
    } else {
        const uint8_t rest[5] = {(uint8_t)(ports[0] >> 8), (uint8_t)ports[0], (uint8_t)(ports[1] >> 8), (uint8_t)ports[1], (uint8_t)protocol};
        memcpy(key + 2 * source, rest, sizeof rest);
        return 2 * source + sizeof rest;
    }
    return 0;
}

static void read_flow(struct text *text, char **fields, size_t count)
{
    uint8_t key[FLOW_IPV6_WIDTH];
    uint64_t class_number;
    if (count != FIELDS) {
        text_fault(text, text->line, "a flow has 6 fields, as 10.0.0.1 10.0.0.2 5060 5060 17 5, and this line has %s",
                   count > FIELDS ? "more" : "fewer");
        return;
    }
    size_t width = read_key(text, fields, key);
    if (width == 0) {
        return;
    }
    if (!number_of_word(fields[5], UINT32_MAX, &class_number)) {
        text_fault(text, text->line, "'%s' is not a class, 0 to 4294967295", shown(fields[5]));
    } else if (!list_add(&text->lists[width == FLOW_IPV6_WIDTH ? IPV6 : IPV4], key, (uint32_t)class_number, text->line)) {
        text_fault(text, text->line, "a table holds at most %d flows of a version", MOST_FLOWS);
    }
}

/* A line that is not empty once what follows a '#' is dropped. The first of them may have the settings. */
static void read_line(struct text *text, char *line)
{
    char *fields[FIELDS + 1], *rest = NULL;
    size_t count = 0;
    line[strcspn(line, "#")] = '\0';
    if (line[strspn(line, spaces)] == '\0') {
        return;
    }
    if (!text->has_begun && strchr(line, '=') != NULL) {
        read_settings(text, line);
    } else {
        for (char *word = strtok_r(line, spaces, &rest); word != NULL && count <= FIELDS; word = strtok_r(NULL, spaces, &rest)) {
            fields[count++] = word;
        }
        read_flow(text, fields, count);
    }
    text->has_begun = true;
}

void text_read(struct text *text, FILE *from)
{
    static const char byte_order_mark[] = "\xef\xbb\xbf"; /* what some editors put at the start */
    char line[LINE_BYTES + 1];
    int whole;
    while (text->faults <= MOST_TOLD && (whole = next_line(from, line)) >= 0) {
        text->line++;
        if (!whole) {
            text_fault(text, text->line, "it has over %d characters", LINE_BYTES - 1);
            continue;
        }
        bool marked = text->line == 1 && strncmp(line, byte_order_mark, strlen(byte_order_mark)) == 0;
        read_line(text, line + (marked ? strlen(byte_order_mark) : 0));
    }
    if (text->faults > MOST_TOLD) {
        fprintf(stderr, "%s: the lines after these are not looked at; FLOWS stands before CAPTURE\n", text->name);
    }
}
