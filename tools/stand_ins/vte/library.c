/* Stands before the C library, as ld's --wrap has it, with one difference, which the variable
 * DIFFERENCE names: a function, and when it answers otherwise. */
#include <stdlib.h>
#include <string.h>
#include <vte.h>

size_t __real_vte_feed(vte_parser *parser, const uint8_t *bytes, size_t length, uint32_t kinds,
                       uint32_t stops, vte_event *events, size_t event_room, uint8_t *data,
                       size_t data_room, vte_counts *counts);
size_t __real_vte_strip(vte_parser *parser, const uint8_t *bytes, size_t length, uint8_t *text,
                        size_t text_room, size_t *written);

enum { LITTLE = 64 };

static int has(const char *difference) {
    const char *named = getenv("DIFFERENCE");
    return named != NULL && strcmp(named, difference) == 0;
}

/* Changes a field of an event, or its data, which other groups or pieces divide otherwise. */
static void change(vte_event *event, uint8_t *data) {
    uint8_t *items = data + event->start;
    event->kind ^= has("vte_feed of another kind");
    event->flag ^= has("vte_feed with another flag");
    event->code ^= has("vte_feed with another final byte");
    event->intermediates[0] ^= has("vte_feed with another intermediate");
    if (has("vte_feed with another number")) items[1] ^= 1;
    if (has("vte_feed with other groups")) memcpy(items, "\1\1\0\2\2\0\3", 8);
    if (has("vte_feed with another byte")) items[4] ^= 1;
    if (has("vte_feed with other pieces")) memcpy(items, "\1\0\0\0a\2\0\0\0bc", 11);
}

size_t __wrap_vte_feed(vte_parser *parser, const uint8_t *bytes, size_t length, uint32_t kinds,
                       uint32_t stops, vte_event *events, size_t event_room, uint8_t *data,
                       size_t data_room, vte_counts *counts) {
    int is_other = memcmp(parser, "any", 3) == 0;
    if (has("vte_feed beyond its bytes")) length++;
    if (has("vte_feed beyond its events")) memset(events + event_room, 0, 1);
    if (has("vte_feed beyond its data")) data[data_room] = 0;
    size_t read = __real_vte_feed(parser, bytes, length, kinds, stops, events, event_room, data,
                                  data_room, counts);
    if ((has("vte_feed in chunks") && length == 1 && bytes[0] == '~')
        || (has("vte_feed in little room") && event_room < LITTLE && counts->events > 1)
        || (has("vte_feed with stops") && stops != 0)
        || (has("vte_feed of some kinds") && kinds != VTE_ALL_KINDS)
        || (has("vte_feed of any parser") && is_other && stops != 0))
        counts->events -= counts->events > 0;
    if (event_room < LITTLE && counts->events > 0) change(events, data);
    if (has("vte_feed that reads nothing")) return counts->events = 0;
    if (has("vte_feed of too many events")) counts->events = event_room + 1;
    if (has("vte_feed of too many data")) counts->data = data_room + 1;
    return read + (has("vte_feed that reads too much") && read == length);
}

size_t __wrap_vte_strip(vte_parser *parser, const uint8_t *bytes, size_t length, uint8_t *text,
                        size_t text_room, size_t *written) {
    if (has("vte_strip beyond its bytes")) length++;
    if (has("vte_strip beyond its text")) text[text_room] = 0;
    size_t read = __real_vte_strip(parser, bytes, length, text, text_room, written);
    if ((has("vte_strip in chunks") && length == 1 && bytes[0] == '~')
        || (has("vte_strip in little room") && text_room < LITTLE && *written > 1))
        *written -= *written > 0;
    if (has("vte_strip that reads nothing")) return *written = 0;
    return read + (has("vte_strip that reads too much") && read == length);
}
