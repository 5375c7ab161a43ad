/* Refuses memory at each allocation in turn, linked with --wrap for malloc, realloc and free: the
 * parser without a limit and the processor say so, and go on with standard input, some bytes at a
 * time. Writes how many were refused, if each run passes on the same, and gives all memory back. */
#include "check.h"
#include "vte_handler.h"
#include "vte_long.h"
#include <stdio.h>
#include <stdlib.h>
#include <string.h>

_Static_assert(VTE_KIND(1 ? VTE_OSC : VTE_CSI) == 1 << VTE_OSC, "a kind may be an expression");

void *__real_malloc(size_t size);
void *__real_realloc(void *pointer, size_t size);
void __real_free(void *pointer);

/* How many allocations come before the one that is refused, and whether one was. */
static long left = -1;
static int refused;
/* how many are in use */
static long used;

static int refuses(void) {
    if (left < 0 || left-- > 0) return 0;
    refused = 1;
    return 1;
}

void *__wrap_malloc(size_t size) {
    if (refuses()) return NULL;
    used++;
    return __real_malloc(size);
}

void *__wrap_realloc(void *pointer, size_t size) {
    if (refuses()) return NULL;
    used += pointer == NULL;
    return __real_realloc(pointer, size);
}

void __wrap_free(void *pointer) {
    used -= pointer != NULL;
    __real_free(pointer);
}

static uint8_t stream[400000], written[2 * sizeof stream], wanted[sizeof written];
static size_t stream_length, written_length;
/* the most bytes of a call */
static size_t most;
/* the events of the parser; without texts, many are read at once */
static uint32_t kinds;

static void put(const void *bytes, size_t length) {
    CHECK(written_length + length <= sizeof written);
    memcpy(written + written_length, bytes, length);
    written_length += length;
}

static void put_piece(const uint8_t *bytes, size_t length) {
    put("[", 1);
    put(bytes, length);
}

static void show(const vte_event *event, const uint8_t *bytes, const uint8_t *data) {
    vte_items pieces = vte_items_of(event, data);
    if (event->kind == VTE_TEXT) put(vte_text_of(event, bytes, data), event->code);
    else if (event->kind == VTE_OSC) {
        while (vte_next_piece(&pieces)) put_piece(pieces.at, pieces.length);
        CHECK(!vte_next_piece(&pieces));
    } else put("!", 1);
}

/* Returns 0 if memory was refused for the parser itself. */
static int read_long(void) {
    static vte_event events[4096];
    const uint8_t *data;
    vte_counts counts;
    vte_long_parser *parser = vte_long_parser_new();
    if (parser == NULL) return 0;
    for (size_t position = 0; position < stream_length;) {
        size_t length = stream_length - position < most ? stream_length - position : most;
        size_t read =
            vte_long_feed(parser, stream + position, length, kinds, 0, events, 4096, &data,
                          &counts);
        if (read == VTE_REFUSED) {
            CHECK(refused);
            CHECK(counts.events == 0);
            continue;
        }
        CHECK(read != 0);
        for (size_t i = 0; i < counts.events; i++) show(&events[i], stream + position, data);
        position += read;
    }
    size_t least = vte_long_feed(parser, stream, 1, kinds, 0, events, 3, &data, &counts);
    CHECK(least == VTE_NO_ROOM);
    vte_long_parser_free(parser);
    return 1;
}

static void input(void *user, const uint8_t *text, size_t length) {
    (void)user;
    put(text, length);
}

static void title(void *user, const uint8_t *text, size_t length) {
    (void)user;
    put_piece(text, length);
}

static void store(void *user, uint8_t clipboard, const uint8_t *text, size_t length) {
    (void)user;
    put_piece(text, length);
    put(&clipboard, 1);
}

static void unset(void *user, uint16_t mode) {
    (void)user;
    put(&mode, sizeof mode);
}

static int process(void) {
    vte_handler calls = {
        .input = input, .set_title = title, .clipboard_store = store, .unset_private_mode = unset};
    vte_processor *processor = vte_processor_new(&calls, sizeof calls, NULL);
    if (processor == NULL) return 0;
    /* a stop doesn't allocate, and makes a call */
    CHECK(vte_processor_stop_sync(processor) == VTE_OK);
    for (size_t position = 0; position < stream_length;) {
        size_t read, length = stream_length - position < most ? stream_length - position : most;
        int status = vte_processor_advance(processor, stream + position, length, &read);
        CHECK(status == VTE_OK || status == VTE_NO_MEMORY);
        CHECK(status == VTE_OK ? read == length : read < length);
        position += read;
    }
    vte_processor_free(processor);
    return 1;
}

/* Tries a way to read, and refuses the first allocation, the second and so on. Returns how many
 * were refused. */
static int try_all(int (*way)(void)) {
    int count = 0;
    left = -1;
    written_length = 0;
    CHECK(way());
    size_t wanted_length = written_length;
    memcpy(wanted, written, wanted_length);
    do {
        left = count++;
        refused = 0;
        written_length = 0;
        int done = way();
        CHECK(used == 0);
        if (done) {
            CHECK(written_length == wanted_length);
            CHECK(memcmp(written, wanted, wanted_length) == 0);
        } else CHECK(refused);
    } while (refused);
    return count - 1;
}

int main(int argc, char **argv) {
    if (argc != 3) return 2;
    most = strtoul(argv[1], NULL, 10);
    kinds = (uint32_t)strtoul(argv[2], NULL, 10);
    stream_length = fread(stream, 1, sizeof stream, stdin);
    printf("%d %d\n", try_all(read_long), try_all(process));
    return 0;
}
