/* Feeds bytes to parsers of random content, with buffers of exactly their size, so that a sanitizer
 * reports an access past one. */
#include "check.h"
#include "vte.h"
#include <stdlib.h>
#include <string.h>

static const uint8_t stream[] = "1;2:3m\033\\\007\030\302\205\033[\033]x;y\007";
enum { LENGTH = sizeof stream - 1 };

static uint32_t state = 1;

static uint8_t next_byte(void) {
    state = state * 1664525u + 1013904223u;
    return (uint8_t)(state >> 24);
}

static void fill(void *memory, size_t size, int small) {
    uint8_t *bytes = memory;
    for (size_t i = 0; i < size; i++) bytes[i] = small ? next_byte() % 33 : next_byte();
}

/* Whether a call has read no more than there is, or says that there is too little room, exactly if
 * that is so. */
static int has_answered(size_t read, size_t length, int has_room) {
    return has_room ? read <= length : read == VTE_NO_ROOM;
}

/* The bytes and items of an event are in the stream, or in the data. */
static void check_event(const vte_event *event, const uint8_t *data, size_t data_count) {
    vte_items items = vte_items_of(event, data);
    if (event->kind == VTE_TEXT || event->kind == VTE_DATA)
        CHECK((size_t)event->start + event->code <= (event->flag ? data_count : LENGTH));
    if (event->kind == VTE_OSC)
        while (vte_next_piece(&items)) CHECK(items.next <= data + data_count);
    if (event->kind == VTE_CSI || event->kind == VTE_HOOK)
        while (vte_next_group(&items)) CHECK(items.next <= data + data_count);
}

static void check_events(vte_parser parser) {
    size_t room = next_byte() % 16, data_room = 2000 + next_byte() % 200u;
    vte_event *events = malloc(room * sizeof *events + 1);
    uint8_t *data = malloc(data_room);
    vte_counts counts;
    size_t read = vte_feed(&parser, stream, LENGTH, VTE_ALL_KINDS, 0, events, room, data, data_room,
                           &counts);
    CHECK(has_answered(read, LENGTH, room >= VTE_MIN_EVENTS && data_room >= VTE_MIN_DATA));
    CHECK(counts.events <= room);
    CHECK(counts.data <= data_room);
    for (size_t i = 0; i < counts.events; i++) check_event(&events[i], data, counts.data);
    free(events);
    free(data);
}

static void check_text(vte_parser parser) {
    size_t room = next_byte() % 40, written;
    uint8_t *text = malloc(room + 1);
    size_t read = vte_strip(&parser, stream, LENGTH, text, room, &written);
    CHECK(has_answered(read, LENGTH, room >= VTE_MIN_TEXT));
    CHECK(written <= room);
    free(text);
}

int main(void) {
    for (int round = 0; round < 100000; round++) {
        vte_parser parser;
        fill(&parser, sizeof parser, round % 2);
        check_events(parser);
        check_text(parser);
    }
    return 0;
}
