/* Writes the calls of a processor, one per line: the name, and what was passed: numbers, `tHEX` for
 * a text, `-` for none, and `c` and five numbers for a colour. It reads acts: `new`, `advance HEX`,
 * and `stop_sync`. After each it writes how many bytes are held.
 *
 * As C its handler is a table of vte_handler.h, and as C++ a class of vte.hpp. It is linked with
 * --wrap for clock_gettime, and writes `set_timeout 150` when the clock is asked: an update's end
 * is 150 ms after that. */
#ifdef __cplusplus
#include "vte.hpp"
#else
#include "vte_handler.h"
#endif
#include "check.h"
#include <stdio.h>
#include <stdlib.h>
#include <string.h>
#include <time.h>

static vte_processor *processor;

static void write_number(long long value) { printf(" %lld", value); }

static void write_bytes(const uint8_t *bytes, size_t length) {
    fputs(bytes ? " t" : " -", stdout);
    for (size_t i = 0; bytes && i < 2 * length; i++) /* faster than printf under sanitizers */
        putchar("0123456789abcdef"[bytes[i / 2] >> (i % 2 ? 0 : 4) & 15]);
}

static void write_color(vte_color of) {
    printf(" c%d,%d,%d,%d,%u", of.kind, of.red, of.green, of.blue, of.index);
}

/* A call may not use its processor, which says so, and goes on. */
static void must_be_busy(void) {
    size_t read = 7;
    vte_sync sync;
    CHECK(vte_processor_advance(processor, (const uint8_t *)"x", 1, &read) == VTE_BUSY);
    CHECK(read == 0);
    CHECK(vte_processor_stop_sync(processor) == VTE_BUSY);
    CHECK(vte_processor_sync(processor, &sync) == VTE_BUSY);
    CHECK(vte_processor_free(processor) == VTE_BUSY);
}

static void begin(const char *name, void *user) {
    CHECK(user == &processor);
    fputs(name, stdout);
}

/* calls.inc has functions that write what they get, and CALLS(EACH), which lists them:
 * test_calls.py writes it from vte_handler.h */
#ifdef __cplusplus
extern "C" int __wrap_clock_gettime(clockid_t, struct timespec *);
static void write_text(std::string_view of) {
    write_bytes(reinterpret_cast<const uint8_t *>(of.data()), of.size());
}
#define TEXT(name) std::string_view name
#define NONE(name) void name() override
#define SOME(name, ...) void name(__VA_ARGS__) override
#define BEGIN(name) begin(name, &processor)
static struct Calls : vte::Handler {
#include "calls.inc"
} calls;
static const vte_handler &table = vte::detail::table;
static void *const user = static_cast<vte::Handler *>(&calls);
#else
#define TEXT(name) const uint8_t *name, size_t name##_length
#define write_text(name) write_bytes(name, name##_length)
#define NONE(name) static void name(void *user)
#define SOME(name, ...) static void name(void *user, __VA_ARGS__)
#define BEGIN(name) begin(name, user)
#include "calls.inc"
#define IN(name) .name = name,
static const vte_handler table = { CALLS(IN) };
static void *const user = &processor;
#endif

/* Makes a processor of a part of the table, which it copies, as the address sanitizer sees. */
static vte_processor *processor_of(size_t size) {
    vte_handler *part = (vte_handler *)malloc(size);
    CHECK(part != NULL);
    memcpy((void *)part, &table, size);
    vte_processor *made = vte_processor_new(part, size, user);
    free(part);
    CHECK(made != NULL);
    return made;
}

static void renew(void) {
    CHECK(vte_processor_free(processor) == VTE_OK);
    processor = processor_of(sizeof table);
}

/* The clock is asked for the beginning of an update alone. */
static uint64_t now = 12345678901;

int __wrap_clock_gettime(clockid_t clock, struct timespec *time) {
    CHECK(clock == CLOCK_MONOTONIC);
    now += 777777777;
    time->tv_sec = (time_t)(now / 1000000000);
    time->tv_nsec = (long)(now % 1000000000);
    puts("set_timeout 150");
    return 0;
}

static int digit(char c) { return c <= '9' ? c - '0' : c - 'a' + 10; }

/* Reads bytes in hex, from memory of exactly their size. */
static void advance(const char *hex) {
    size_t length = strlen(hex) / 2, read = length + 1;
    uint8_t *bytes = (uint8_t *)malloc(length ? length : 1);
    for (size_t i = 0; i < length; i++)
        bytes[i] = (uint8_t)(digit(hex[2 * i]) << 4 | digit(hex[2 * i + 1]));
    CHECK(vte_processor_advance(processor, bytes, length, &read) == VTE_OK);
    CHECK(read == length);
    free(bytes);
}

int main(void) {
    char *line = NULL;
    size_t capacity = 0;
    vte_processor_free(processor_of(3 * sizeof table.bell));
    while (getline(&line, &capacity, stdin) > 0) {
        line[strcspn(line, "\n")] = 0;
        if (strcmp(line, "new") == 0) {
            renew();
            puts("new");
        } else if (strncmp(line, "advance ", 8) == 0) advance(line + 8);
        else if (strcmp(line, "stop_sync") == 0)
            CHECK(vte_processor_stop_sync(processor) == VTE_OK);
        else CHECK(!"an act");
        vte_sync sync;
        memset(&sync, 0x55, sizeof sync);
        CHECK(vte_processor_sync(processor, &sync) == VTE_OK);
        CHECK(sync.is_pending <= 1);
        CHECK(sync.deadline == (sync.is_pending ? now + 150000000 : 0));
        printf("held %zu %d\n", sync.bytes_count, sync.is_pending);
    }
    vte_processor_free(processor);
    free(line);
    return 0;
}
