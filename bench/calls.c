/* Times the C library, as bench/peer does the crates: calls KIND CHUNK PASSES < STREAM
 *
 * A call gets CHUNK bytes. Standard output gets a sum of what was reported, and standard error the
 * nanoseconds of the fastest pass. The kinds are vte_feed, vte_long_feed and vte_processor and, if
 * LIBVTERM is defined, libvterm: the parser of that library, whose user finds where a text ends,
 * and decodes it. */
#define _POSIX_C_SOURCE 199309L
#include "vte_handler.h"
#include "vte_long.h"
#include <stdio.h>
#include <stdlib.h>
#include <string.h>
#include <time.h>
#ifdef LIBVTERM
#include <vterm.h>
#endif

enum { EVENTS = 1024, DATA = 1 << 16, STREAM = 1 << 24 };

static uint64_t sum;
static vte_event events[EVENTS];
static uint8_t data[DATA], stream[STREAM];

static void fail(const char *what) {
    fprintf(stderr, "calls: %s\n", what);
    exit(1);
}

static void *require_memory(void *object) {
    if (object == NULL) fail("there is no memory");
    return object;
}

/* ---- vte_feed, vte_long_feed: texts by their bytes, and other events by their codes */

static void take(size_t count) {
    for (size_t i = 0; i < count; i++) sum += events[i].code + events[i].count;
}

static void *new_feed(void) { return require_memory(calloc(1, sizeof(vte_parser))); }

static void feed(void *parser, const uint8_t *bytes, size_t length) {
    vte_counts counts;
    while (length > 0) {
        size_t read = vte_feed(parser, bytes, length, VTE_ALL_KINDS, 0, events, EVENTS, data, DATA,
                               &counts);
        take(counts.events);
        bytes += read;
        length -= read;
    }
}

static void *new_long_feed(void) { return require_memory(vte_long_parser_new()); }

static void long_feed(void *parser, const uint8_t *bytes, size_t length) {
    const uint8_t *area;
    vte_counts counts;
    while (length > 0) {
        size_t read = vte_long_feed(parser, bytes, length, VTE_ALL_KINDS, 0, events, EVENTS, &area,
                                    &counts);
        if (read == VTE_REFUSED) fail("memory was refused");
        take(counts.events);
        bytes += read;
        length -= read;
    }
}

/* ---- the processor */

static void input(void *user, const uint8_t *text, size_t length) {
    (void)user, (void)text;
    sum += length;
}

static void control(void *user) {
    (void)user;
    sum++;
}

static void go_to(void *user, int32_t line, size_t column) {
    (void)user;
    sum += (size_t)line + column;
}

static void attribute(void *user, uint8_t which, vte_color color) {
    (void)user;
    sum += which + color.index;
}

static void *new_processor(void) {
    static const vte_handler calls = {.input = input, .linefeed = control,
                                      .carriage_return = control, .go_to = go_to,
                                      .terminal_attribute = attribute};
    return require_memory(vte_processor_new(&calls, sizeof calls, NULL));
}

static void process(void *processor, const uint8_t *bytes, size_t length) {
    size_t read;
    if (vte_processor_advance(processor, bytes, length, &read) != VTE_OK) fail("not processed");
}

/* ---- libvterm */

#ifdef LIBVTERM
/* Takes bytes up to a control, which the parser leaves to its user. */
static int their_text(const char *text, size_t length, void *user) {
    size_t taken = 0;
    (void)user;
    while (taken < length && (uint8_t)text[taken] >= 0x20 && text[taken] != 0x7f) taken++;
    sum += taken;
    return (int)taken;
}

static int their_control(unsigned char byte, void *user) {
    (void)user;
    sum += byte;
    return 1;
}

static int their_escape(const char *bytes, size_t length, void *user) {
    (void)user;
    sum += (uint8_t)bytes[length - 1];
    return 1;
}

static int their_csi(const char *leader, const long args[], int count, const char *intermediates,
                     char command, void *user) {
    (void)leader, (void)args, (void)intermediates, (void)user;
    sum += (uint8_t)command + (unsigned)count;
    return 1;
}

static int their_string(const char *text, size_t length, void *user) {
    (void)user, (void)text;
    sum += length;
    return 1;
}

static void *new_libvterm(void) {
    static const VTermParserCallbacks calls = {their_text,   their_control, their_escape, their_csi,
                                               their_string, their_string,  NULL};
    VTerm *terminal = require_memory(vterm_new(24, 80));
    vterm_set_utf8(terminal, 1);
    vterm_parser_set_callbacks(terminal, &calls, NULL);
    return terminal;
}

static void write_libvterm(void *terminal, const uint8_t *bytes, size_t length) {
    vterm_input_write(terminal, (const char *)bytes, length);
}
#endif

/* ---- passes over a stream */

static const struct {
    const char *name;
    void *(*new)(void);
    void (*feed)(void *, const uint8_t *, size_t);
} kinds[] = {
    {"vte_feed", new_feed, feed},
    {"vte_long_feed", new_long_feed, long_feed},
    {"vte_processor", new_processor, process},
#ifdef LIBVTERM
    {"libvterm", new_libvterm, write_libvterm},
#endif
};

static uint64_t now(void) {
    struct timespec time;
    clock_gettime(CLOCK_MONOTONIC, &time);
    return (uint64_t)time.tv_sec * 1000000000 + (uint64_t)time.tv_nsec;
}

/* The nanoseconds that a reader takes for the stream, in chunks. */
static uint64_t time_pass(size_t kind, void *reader, size_t length, size_t chunk) {
    uint64_t start = now();
    for (size_t position = 0; position < length; position += chunk)
        kinds[kind].feed(reader, stream + position,
                         length - position < chunk ? length - position : chunk);
    return now() - start;
}

int main(int argc, char **argv) {
    size_t kind = 0, length = fread(stream, 1, STREAM, stdin);
    if (argc != 4) fail("expected KIND, CHUNK and PASSES");
    if (length == STREAM) fail("the stream is too long");
    while (kind < sizeof kinds / sizeof *kinds && strcmp(kinds[kind].name, argv[1]) != 0) kind++;
    if (kind == sizeof kinds / sizeof *kinds) fail("no such kind");
    size_t chunk = strtoull(argv[2], NULL, 10);
    if (chunk == 0) fail("CHUNK is a number from 1 on");
    void *reader = kinds[kind].new();
    uint64_t best = UINT64_MAX;
    for (long passes = strtol(argv[3], NULL, 10); passes > 0; passes--) {
        uint64_t time = time_pass(kind, reader, length, chunk);
        if (time < best) best = time;
    }
    printf("%llu\n", (unsigned long long)sum);
    fprintf(stderr, "%llu\n", (unsigned long long)best);
    return 0;
}
