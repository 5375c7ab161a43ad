/* Passes its standard input on, byte for byte, without the commands that set clipboards (OSC 52).
 *
 * What is open began at the last ESC, or is at most three bytes of a character. So bytes are held
 * from an ESC on as long as they are a command or may become one, and then passed on or dropped. */
#include <stdio.h>
#include <stdlib.h>
#include <string.h>
#include <unistd.h>
#include <vte.h>

static vte_parser parser;
static uint8_t *held;
static size_t held_length, held_room;
static size_t escape; /* where the last ESC is in what is held */

static void hold(const uint8_t *bytes, size_t length) {
    while (held_room - held_length < length) {
        held = realloc(held, held_room = 2 * held_room + 4096);
        if (held == NULL) exit(1);
    }
    for (size_t i = 0; i < length; i++) {
        if (bytes[i] == '\033') escape = held_length;
        held[held_length++] = bytes[i];
    }
}

/* Whether the number of a command is 52, or may be, because digits of it were dropped. */
static int is_clipboard(const vte_event *event, const uint8_t *data) {
    vte_items pieces = vte_items_of(event, data);
    unsigned number = 0;
    vte_next_piece(&pieces);
    for (size_t i = 0; i < pieces.length; i++) {
        if (pieces.at[i] < '0' || pieces.at[i] > '9') return 0;
        if (number < 1000) number = 10 * number + pieces.at[i] - '0';
    }
    return number == 52 || (pieces.left == 0 && event->flag & VTE_TRUNCATED);
}

/* Drops the command that is held, and returns what follows instead of its end. Its ESC stays, since
 * it ended what was open before, with the controls between ESC and `]`, which are executed; BEL
 * becomes the backslash of ST. An end that would end the same needs no ESC before it. */
static uint8_t drop(uint8_t end) {
    size_t key = escape + 1;
    while (held[key] != ']') key++;
    held_length = key == escape + 1 && end != '\a' ? escape : key;
    return end == '\a' ? '\\' : end;
}

/* Reads bytes up to the end of a command. Returns how many. */
static size_t filter(const uint8_t *bytes, size_t length) {
    vte_event events[VTE_MIN_EVENTS];
    uint8_t data[VTE_MIN_DATA];
    vte_counts counts;
    size_t read = vte_feed(&parser, bytes, length, VTE_KIND(VTE_OSC), VTE_KIND(VTE_OSC), events,
                           VTE_MIN_EVENTS, data, sizeof data, &counts);
    /* The call stops after a command, so there is one or none: its last byte is its end. */
    size_t ends = counts.events;
    hold(bytes, read - ends);
    if (ends) {
        uint8_t end = bytes[read - 1];
        if (is_clipboard(events, data)) end = drop(end);
        hold(&end, 1);
    }
    return read;
}

/* Passes on what is no command, and can't become one. */
static void pass(void) {
    uint8_t open = vte_is_open(&parser);
    size_t count = open == VTE_OPEN_ESC || open == VTE_OPEN_OSC ? escape : held_length;
    fwrite(held, 1, count, stdout);
    memmove(held, held + count, held_length -= count);
    escape = 0;
}

int main(void) {
    uint8_t bytes[4096], end;
    ssize_t length;
    while ((length = read(0, bytes, sizeof bytes)) > 0) {
        for (size_t position = 0; position < (size_t)length; pass())
            position += filter(bytes + position, (size_t)length - position);
        fflush(stdout);
    }
    /* The next ESC would end a command that is open, whoever writes it. */
    if (vte_is_open(&parser) == VTE_OPEN_OSC) {
        end = drop('\a');
        hold(&end, 1);
    }
    if (held != NULL) fwrite(held, 1, held_length, stdout);
    free(held);
    return length < 0 || ferror(stdout) || fflush(stdout) != 0;
}
