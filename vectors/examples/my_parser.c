// A parser that knows only text and controls, for run.c.
#include <stdio.h>

void event(const char *line);

void reset(void) {}

void parse(const unsigned char *bytes, size_t length) {
    char line[32];
    for (size_t i = 0; i < length; i++) {
        snprintf(line, sizeof line, bytes[i] < 0x20 ? "execute %02x" : "print %04x", bytes[i]);
        event(line);
    }
}
