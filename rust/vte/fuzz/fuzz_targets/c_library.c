/* However a stream is read by the C library, with any room, it has the same events and text. Any
 * content of a parser is safe.
 *
 * The first three bytes of the input say how long chunks are, how much room there is, and which
 * kinds of events are wanted or end a call. Every buffer has exactly its size. */
#include "../../../../c/tests/check.h"
#include <string.h>
#include <vte.h>

enum { FRONT = 3 };

/* A sum of what was reported, and the kinds of events that are in it. */
static uint64_t sum;
static uint32_t counted;

static void add(uint64_t number) {
    sum = (sum ^ number) * 0x100000001b3;
}

static void add_bytes(uint8_t kind, const uint8_t *bytes, size_t length) {
    for (size_t i = 0; i < length; i++) add(kind * 256u + bytes[i]);
}

/* Texts and data are added by the byte, because their events depend on the room. */
static void add_event(const vte_event *event, const uint8_t *bytes, const uint8_t *data) {
    if (!(counted & VTE_KIND(event->kind))) return;
    if (event->kind == VTE_TEXT || event->kind == VTE_DATA) {
        add_bytes(event->kind, vte_text_of(event, bytes, data), event->code);
        return;
    }
    add(event->kind * 65536u + event->flag * 256u + event->code);
    add_bytes(event->kind, event->intermediates, event->intermediate_count);
    vte_items items = vte_items_of(event, data);
    if (event->kind == VTE_OSC)
        while (vte_next_piece(&items)) {
            add(items.length);
            add_bytes(event->kind, items.at, items.length);
        }
    if (event->kind == VTE_CSI || event->kind == VTE_HOOK)
        while (vte_next_group(&items)) {
            add(items.length);
            for (size_t i = 0; i < items.length; i++) add(vte_number(&items, i));
        }
}

/* Copies bytes, so that none after them is readable. */
static uint8_t *copied(const uint8_t *bytes, size_t length) {
    uint8_t *copy = malloc(length ? length : 1);
    CHECK(copy != NULL);
    return length ? memcpy(copy, bytes, length) : copy;
}

/* A parser, what it reports, and room of exactly this size. */
typedef struct {
    vte_parser parser;
    uint32_t kinds, stops;
    size_t event_room, room;
    vte_event *events;
    uint8_t *written;
} reader;

static size_t read_events(reader *to, const uint8_t *bytes, size_t length) {
    vte_counts counts;
    size_t read = vte_feed(&to->parser, bytes, length, to->kinds, to->stops, to->events,
                           to->event_room, to->written, to->room, &counts);
    CHECK(read <= length && (read > 0 || counts.events > 0));
    CHECK(counts.events <= to->event_room && counts.data <= to->room);
    for (size_t i = 0; i < counts.events; i++) add_event(&to->events[i], bytes, to->written);
    return read;
}

static size_t read_text(reader *to, const uint8_t *bytes, size_t length) {
    size_t count, read = vte_strip(&to->parser, bytes, length, to->written, to->room, &count);
    CHECK(read <= length && (read > 0 || count > 0) && count <= to->room);
    add_bytes(0, to->written, count);
    return read;
}

/* Reads the stream in chunks, and returns the sum of what is reported. */
static uint64_t sum_of(size_t (*read)(reader *, const uint8_t *, size_t), reader to,
                       const uint8_t *stream, size_t length, size_t chunk) {
    to.events = malloc(to.event_room * sizeof *to.events);
    to.written = malloc(to.room);
    CHECK(to.events != NULL && to.written != NULL);
    sum = 0;
    for (size_t at = 0; at < length; at += chunk) {
        size_t left = length - at < chunk ? length - at : chunk;
        uint8_t *bytes = copied(stream + at, left);
        for (size_t begun = 0; begun < left;) begun += read(&to, bytes + begun, left - begun);
        free(bytes);
    }
    free(to.events);
    free(to.written);
    return sum;
}

/* The sum of the events that count. */
static uint64_t events(vte_parser parser, const uint8_t *stream, size_t length, size_t chunk,
                       size_t more, uint32_t kinds, uint32_t stops) {
    reader to = {parser, kinds, stops, VTE_MIN_EVENTS + more, VTE_MIN_DATA + more, NULL, NULL};
    return sum_of(read_events, to, stream, length, chunk);
}

/* The sum of the text. */
static uint64_t text(vte_parser parser, const uint8_t *stream, size_t length, size_t chunk,
                     size_t more) {
    reader to = {parser, 0, 0, 1, VTE_MIN_TEXT + more, NULL, NULL};
    return sum_of(read_text, to, stream, length, chunk);
}

int LLVMFuzzerTestOneInput(const uint8_t *input, size_t length) {
    if (length <= FRONT) return 0;
    size_t chunk = 1 + input[0], room = input[1];
    uint32_t all = VTE_ALL_KINDS, some = input[2];
    const uint8_t *stream = input + FRONT;
    vte_parser parser = {{0}};
    length -= FRONT;
    counted = all;
    uint64_t whole = events(parser, stream, length, length, 4096, all, 0);
    CHECK(events(parser, stream, length, chunk, room, all, 0) == whole);
    CHECK(events(parser, stream, length, chunk, room, all, some) == whole);
    counted = some;
    whole = events(parser, stream, length, length, 4096, all, 0);
    CHECK(events(parser, stream, length, chunk, room, some, input[1]) == whole);
    uint64_t whole_text = text(parser, stream, length, length, 4096);
    CHECK(text(parser, stream, length, chunk, room) == whole_text);
    /* the stream as a parser: whatever it means, its chunks mean the same again */
    memcpy(&parser, stream, length < sizeof parser ? length : sizeof parser);
    counted = all;
    whole = events(parser, stream, length, length, 4096, all, 0);
    CHECK(events(parser, stream, length, chunk, room, all, some) == whole);
    text(parser, stream, length, chunk, room);
    return 0;
}
