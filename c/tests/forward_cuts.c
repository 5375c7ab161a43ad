/* Runs forward.c on streams, each of which ends with NUL: whole, byte by byte, and cut in two at
 * every position. Writes what it passes on of the whole, or where a cut changes that, and NUL. */
#include "check.h"
#include <stdio.h>
#include <stdlib.h>
#include <string.h>
#include <unistd.h>

static char *stream;
static size_t length, position, cut, step;

/* Reads up to the cut, or a step. */
static ssize_t next_chunk(int file, void *bytes, size_t capacity) {
    size_t end = step ? position + step : position < cut ? cut : length;
    size_t count = (end < length ? end : length) - position;
    CHECK(count <= capacity);
    CHECK(file == 0);
    memcpy(bytes, stream + position, count);
    position += count;
    return (ssize_t)count;
}

#define main forward
#define read next_chunk
#include "forward.c"
#undef main
#undef read

static char *run_forward(size_t *size) {
    char *passed;
    FILE *real = stdout;
    memset(&parser, 0, sizeof parser);
    held = NULL;
    position = held_length = held_room = escape = 0;
    stdout = open_memstream(&passed, size);
    CHECK(forward() == 0);
    fclose(stdout);
    stdout = real;
    return passed;
}

int main(void) {
    size_t capacity = 0, whole_size, size;
    for (ssize_t read; (read = getdelim(&stream, &capacity, 0, stdin)) > 0; putchar(0)) {
        length = (size_t)read - 1;
        cut = step = 0;
        char *whole = run_forward(&whole_size);
        for (step = 1; cut < length; cut++, step = 0) {
            char *passed = run_forward(&size);
            if (size != whole_size || memcmp(passed, whole, size) != 0)
                printf("cut at %zu:\n", cut);
            free(passed);
        }
        fwrite(whole, 1, whole_size, stdout);
        free(whole);
    }
    free(stream);
    return 0;
}
