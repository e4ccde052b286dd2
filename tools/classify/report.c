#include "report.h"
#include <inttypes.h>
#include <time.h>

const char *time_words(const struct timeval *time, char words[TIME_BYTES])
{
    enum { MICROS = 1000000 };
    /* a file may have a second's part that is out of range, or below zero */
    int64_t part = (int64_t)time->tv_usec % MICROS;
    time_t seconds = time->tv_sec + (time_t)(time->tv_usec / MICROS) - (part < 0);
    struct tm day;
    part += part < 0 ? MICROS : 0;
    if (gmtime_r(&seconds, &day) == NULL || day.tm_year > 9999 - 1900) {
        snprintf(words, TIME_BYTES, "%" PRId64 ".%06" PRId64, (int64_t)seconds, part);
    } else {
        size_t at = strftime(words, TIME_BYTES, "%Y-%m-%dT%H:%M:%S", &day);
        snprintf(words + at, TIME_BYTES - at, ".%06" PRId64 "Z", part);
    }
    return words;
}

void print_packet(void *to, const struct packet *packet)
{
    char words[TIME_BYTES];
    (void)to;
    printf("%" PRIu64 " %s ", packet->number, time_words(&packet->time, words));
    if (packet->verdict == REFUSED) {
        printf("- - - - - %s", reason_words(packet->reason));
        printf(reason_has_type(packet->reason) ? ", 0x%04x\n" : "\n", (unsigned)packet->type);
        return;
    }
    print_flow(stdout, packet->key, packet->width);
    if (packet->verdict == CLASSED) {
        printf(" class %" PRIu32, packet->class_number);
    } else {
        fputs(" absent", stdout);
    }
    puts(packet->is_later_fragment ? ", a later fragment" : "");
}

void print_json_string(const char *text)
{
    putchar('"');
    for (; *text != '\0'; text++) {
        unsigned char byte = (unsigned char)*text;
        if (byte == '"' || byte == '\\') {
            printf("\\%c", byte);
        } else if (byte < 0x20 || byte >= 0x7f) { /* a byte that may be no UTF-8 is written as the character of its number */
            printf("\\u%04x", byte);
        } else {
            putchar(byte);
        }
    }
    putchar('"');
}

void print_json_flow(const uint8_t *key, size_t width)
{
    struct fields fields = fields_of(key, width);
    printf("\"source\":\"%s\",\"destination\":\"%s\",\"source_port\":%u,\"destination_port\":%u,\"protocol\":%u", fields.source, fields.destination,
           fields.source_port, fields.destination_port, fields.protocol);
}

void print_packet_json(void *to, const struct packet *packet)
{
    char words[TIME_BYTES];
    (void)to;
    printf("{\"number\":%" PRIu64 ",\"time\":\"%s\",\"bytes\":%" PRIu64 ",", packet->number, time_words(&packet->time, words), packet->bytes);
    if (packet->verdict == REFUSED) {
        printf("\"verdict\":\"refused\",\"reason\":\"%s\"", reason_words(packet->reason));
        if (reason_has_type(packet->reason)) {
            printf(",\"type\":%u", (unsigned)packet->type);
        }
        if (reason_refusal(packet->reason) != 0) {
            printf(",\"refusal\":%u", reason_refusal(packet->reason));
        }
        puts("}");
        return;
    }
    print_json_flow(packet->key, packet->width);
    printf(",\"later_fragment\":%s", packet->is_later_fragment ? "true" : "false");
    if (packet->verdict == CLASSED) {
        printf(",\"verdict\":\"class\",\"class\":%" PRIu32 "}\n", packet->class_number);
    } else {
        puts(",\"verdict\":\"absent\"}");
    }
}
