/* Writes the events of its standard input, one line each, as vtlog does.
 *
 * events [WORD..] [CHUNK [ROOM [DATA]]]: reads chunks of CHUNK bytes, with room for ROOM events and
 * DATA data bytes. With a CHUNK of 0, chunks and room have random sizes. Words: `kinds N` and
 * `stops N` are the masks of vte_feed, `losses` writes of each command only whether it lost data,
 * `strip` writes the text, with room for ROOM bytes, and `long` keeps commands of any length. If
 * this is compiled without WITH_LONG, `long` is an unknown word: the status is 2. */
#include "check.h"
#ifdef WITH_LONG
#include "vte_long.h"
#else
#include "vte.h"
#endif
#include <stdio.h>
#include <stdlib.h>
#include <string.h>

static const char *const names[] = {"text", "execute", "hook", "data",
                                    "unhook", "osc", "csi", "esc"};

static uint32_t kinds = VTE_ALL_KINDS, stops;
static int losses, strips;
/* what the arguments ask for: 0 for random sizes */
static size_t asked_chunk = 4096, asked_room, asked_data_room;
static vte_parser parser;
#ifdef WITH_LONG
static int is_long;
static vte_long_parser *long_parser;
#endif

static void show_hex(const uint8_t *bytes, size_t count) {
    putchar(' ');
    if (count == 0) putchar('-');
    for (size_t i = 0; i < count; i++) printf("%02x", bytes[i]);
}

static void show_groups(const vte_event *event, const uint8_t *data) {
    vte_items items = vte_items_of(event, data);
    const char *before = "";
    printf(" [");
    while (vte_next_group(&items)) {
        for (size_t i = 0; i < items.length; i++)
            printf("%s%u", i ? ":" : before, vte_number(&items, i));
        before = ";";
    }
    putchar(']');
}

/* Reads a character, which the library has found to be whole and well formed. */
static uint32_t next_character(const uint8_t **at) {
    uint32_t first = *(*at)++;
    int more = first < 0x80 ? 0 : first < 0xe0 ? 1 : first < 0xf0 ? 2 : 3;
    uint32_t number = more == 0 ? first : first & (0x3f >> more);
    for (; more > 0; more--) number = number << 6 | (*(*at)++ & 0x3f);
    return number;
}

/* A line for each character. */
static void show_text(const uint8_t *text, size_t length) {
    for (const uint8_t *end = text + length; text < end;)
        printf("print %04x\n", next_character(&text));
}

static void show(const vte_event *event, const uint8_t *bytes, const uint8_t *data) {
    if (losses) {
        if (event->kind == VTE_OSC) puts(event->flag & VTE_TRUNCATED ? "lost" : "kept");
        return;
    }
    if (event->kind == VTE_TEXT) {
        show_text(vte_text_of(event, bytes, data), event->code);
        return;
    }
    if (event->kind == VTE_DATA) {
        for (uint32_t i = 0; i < event->code; i++)
            printf("put %02x\n", vte_text_of(event, bytes, data)[i]);
        return;
    }
    vte_items items = vte_items_of(event, data);
    CHECK(event->kind < sizeof names / sizeof *names);
    fputs(names[event->kind], stdout);
    switch (event->kind) {
    case VTE_EXECUTE: printf(" %02x", event->code); break;
    case VTE_HOOK:
    case VTE_CSI: show_groups(event, data); /* fall through */
    case VTE_ESC:
        show_hex(event->intermediates, event->intermediate_count);
        printf(" %s %02x", event->flag ? "true" : "false", event->code);
        break;
    case VTE_OSC:
        printf(" %s %u", event->flag & VTE_BELL ? "true" : "false", event->count);
        while (vte_next_piece(&items)) show_hex(items.at, items.length);
    }
    putchar('\n');
}

/* Returns the size that was asked for, or a random one. */
static size_t size_of(size_t asked, size_t least, size_t most) {
    return asked ? asked : least + (size_t)rand() % (most - least + 1);
}

/* Allocates exactly this many bytes, so that a sanitizer sees an access past them. */
static void *room_for(size_t size) {
    void *memory = malloc(size ? size : 1);
    CHECK(memory != NULL);
    memset(memory, 0xa5, size);
    return memory;
}

static size_t feed(const uint8_t *bytes, size_t length, size_t event_room, size_t data_room) {
    vte_event *events = room_for(event_room * sizeof *events);
    uint8_t *data = room_for(data_room);
    vte_counts counts;
    size_t read = vte_feed(&parser, bytes, length, kinds, stops, events, event_room, data,
                           data_room, &counts);
    for (size_t i = 0; i < counts.events; i++) show(&events[i], bytes, data);
    free(events);
    free(data);
    return read;
}

#ifdef WITH_LONG
static size_t feed_long(const uint8_t *bytes, size_t length, size_t event_room) {
    vte_event *events = room_for(event_room * sizeof *events);
    const uint8_t *data;
    vte_counts counts;
    size_t read =
        vte_long_feed(long_parser, bytes, length, kinds, stops, events, event_room, &data, &counts);
    CHECK(read != VTE_REFUSED);
    for (size_t i = 0; i < counts.events; i++) show(&events[i], bytes, data);
    free(events);
    return read;
}
#endif

static size_t strip(const uint8_t *bytes, size_t length, size_t text_room) {
    uint8_t *text = room_for(text_room);
    size_t written;
    size_t read = vte_strip(&parser, bytes, length, text, text_room, &written);
    fwrite(text, 1, written, stdout);
    free(text);
    return read;
}

static uint32_t mask_of(const char *number) {
    return (uint32_t)strtoul(number, NULL, 10);
}

/* Reads the words before the sizes, and returns how many there are, or -1 if one isn't known. */
static int read_words(int count, char **words) {
    int at = 0;
    for (; at < count && (words[at][0] < '0' || words[at][0] > '9'); at++) {
        int has_next = at + 1 < count;
        if (has_next && strcmp(words[at], "kinds") == 0) kinds = mask_of(words[++at]);
        else if (has_next && strcmp(words[at], "stops") == 0) stops = mask_of(words[++at]);
        else if (strcmp(words[at], "losses") == 0) losses = 1;
        else if (strcmp(words[at], "strip") == 0) strips = 1;
#ifdef WITH_LONG
        else if (strcmp(words[at], "long") == 0) is_long = 1;
#endif
        else return -1;
    }
    return at;
}

static void read_sizes(int count, char **sizes) {
    if (count > 0) asked_chunk = strtoul(sizes[0], NULL, 10);
    if (count > 1) asked_room = strtoul(sizes[1], NULL, 10);
    if (count > 2) asked_data_room = strtoul(sizes[2], NULL, 10);
}

/* Whether the library is the one that vte.h describes. */
static int is_described(void) {
    return vte_version() == VTE_VERSION && vte_parser_size() == sizeof(vte_parser)
        && vte_event_size() == sizeof(vte_event) && vte_min_events() == VTE_MIN_EVENTS
        && vte_min_data() == VTE_MIN_DATA && vte_min_text() == VTE_MIN_TEXT;
}

/* Reads at most these bytes, in the way that the words ask for, and returns how many. */
static size_t read_some(const uint8_t *bytes, size_t length) {
#ifdef WITH_LONG
    if (is_long) return feed_long(bytes, length, size_of(asked_room, VTE_MIN_EVENTS, 100));
#endif
    if (strips) return strip(bytes, length, size_of(asked_room, VTE_MIN_TEXT, 200));
    return feed(bytes, length, size_of(asked_room, VTE_MIN_EVENTS, 100),
                size_of(asked_data_room, VTE_MIN_DATA, 5000));
}

static void read_input(void) {
    size_t length;
    do {
        size_t most = size_of(asked_chunk, 1, 300);
        uint8_t *bytes = room_for(most);
        length = fread(bytes, 1, most, stdin);
        for (size_t position = 0; position < length;)
            position += read_some(bytes + position, length - position);
        free(bytes);
    } while (length > 0);
}

int main(int argc, char **argv) {
    int words = read_words(argc - 1, argv + 1);
    if (words < 0) return 2;
    read_sizes(argc - 1 - words, argv + 1 + words);
    if (!is_described()) {
        fputs("events: the library is not the one that vte.h describes\n", stderr);
        return 1;
    }
#ifdef WITH_LONG
    long_parser = vte_long_parser_new();
    CHECK(long_parser != NULL);
#endif
    read_input();
#ifdef WITH_LONG
    vte_long_parser_free(long_parser);
#endif
    return ferror(stdin) != 0;
}
