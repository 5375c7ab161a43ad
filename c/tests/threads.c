/* Uses two parsers in two threads, and one processor in two: a call gets VTE_BUSY while another is
 * under way. Under the thread sanitizer, with the library compiled for it, it is seen that the
 * functions of the table never run at once. */
#include "check.h"
#include "vte_handler.h"
#include "vte_long.h"
#include <pthread.h>
#include <stdio.h>
#include <string.h>

#ifdef __SANITIZE_THREAD__
/* rustc's names of what gcc's sanitizer calls otherwise */
void *__tsan_memcpy(void *to, const void *from, size_t size) { return memcpy(to, from, size); }
void *__tsan_memmove(void *to, const void *from, size_t size) { return memmove(to, from, size); }
void *__tsan_memset(void *to, int byte, size_t size) { return memset(to, byte, size); }
#endif

enum { CALLS = 200000 };

static const uint8_t bytes[] = "a\033[1mb\033]2;t\a\303\274\r\n";
static vte_processor *processor;
static pthread_barrier_t start;
/* what the functions of the table change, which nothing else protects */
static size_t inputs, done[2], busy[2];

static void *parse(void *user) {
    static vte_parser parsers[2];
    vte_parser *parser = &parsers[*(int *)user], stripper = {{0}};
    vte_long_parser *long_parser = vte_long_parser_new();
    vte_event events[16];
    uint8_t data[VTE_MIN_DATA], text[64];
    const uint8_t *area;
    vte_counts counts, more;
    size_t written, all = sizeof bytes - 1;
    for (int i = 0; i < CALLS / 100; i++) {
        size_t read = vte_feed(parser, bytes, all, VTE_ALL_KINDS, 0, events, 16, data, sizeof data,
                               &counts);
        size_t long_read =
            vte_long_feed(long_parser, bytes, all, VTE_ALL_KINDS, 0, events, 16, &area, &more);
        size_t stripped = vte_strip(&stripper, bytes, all, text, sizeof text, &written);
        if (read != all || long_read != all || stripped != all) return user;
        if (more.events != counts.events || vte_is_open(parser)) return user;
    }
    vte_long_parser_free(long_parser);
    return NULL;
}

static void input(void *user, const uint8_t *text, size_t length) {
    (void)text, (void)length, ++*(size_t *)user;
}

static void *process(void *user) {
    int own = *(int *)user;
    pthread_barrier_wait(&start);
    for (int i = 0; i < CALLS; i++) {
        vte_sync sync;
        size_t read;
        int status;
        if (i % 5 == 0) status = vte_processor_sync(processor, &sync);
        else if (i % 7 == 0) status = vte_processor_stop_sync(processor);
        else status = vte_processor_advance(processor, (const uint8_t *)"a\r", 2, &read);
        if (status == VTE_BUSY) busy[own]++;
        else if (status != VTE_OK) return user;
        else done[own] += i % 5 != 0 && i % 7 != 0;
    }
    return NULL;
}

static void run_in_two_threads(void *(*what)(void *)) {
    static int numbers[] = {0, 1};
    pthread_t other;
    void *failed;
    CHECK(pthread_create(&other, NULL, what, &numbers[1]) == 0);
    CHECK(what(&numbers[0]) == NULL);
    CHECK(pthread_join(other, &failed) == 0);
    CHECK(failed == NULL);
}

int main(void) {
    const vte_handler calls = {.input = input};
    pthread_barrier_init(&start, NULL, 2);
    processor = vte_processor_new(&calls, sizeof calls, &inputs);
    CHECK(processor != NULL);
    run_in_two_threads(parse);
    /* on a busy machine one thread may have ended before the other begins */
    for (int i = 0; i < 100 && busy[0] + busy[1] == 0; i++) run_in_two_threads(process);
    CHECK(vte_processor_free(processor) == VTE_OK);
    CHECK(inputs == done[0] + done[1]);
    printf("%s\n", busy[0] + busy[1] > 0 ? "busy" : "never busy");
    return 0;
}
