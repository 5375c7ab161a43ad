/* Passes its standard input on, and writes each title that the stream sets to standard error. */
#include <stdio.h>
#include <unistd.h>
#include <vte.h>

/* Operating system commands 0 and 2 set the title, which may contain `;`. */
static void watch(const vte_event *event, const uint8_t *data) {
    vte_items pieces = vte_items_of(event, data);
    if (!vte_next_piece(&pieces) || pieces.length != 1
        || (pieces.at[0] != '0' && pieces.at[0] != '2'))
        return;
    fputs("title: ", stderr);
    for (int first = 1; vte_next_piece(&pieces); first = 0)
        fprintf(stderr, "%s%.*s", first ? "" : ";", (int)pieces.length, (const char *)pieces.at);
    fputc('\n', stderr);
}

int main(void) {
    vte_parser parser = {{0}};
    vte_event events[256];
    vte_counts counts;
    uint8_t bytes[4096], data[8192];
    ssize_t length;
    /* read returns what is there; fread would wait until the buffer is full. */
    while ((length = read(0, bytes, sizeof bytes)) > 0) {
        fwrite(bytes, 1, (size_t)length, stdout);
        fflush(stdout);
        for (size_t position = 0; position < (size_t)length;) {
            position += vte_feed(&parser, bytes + position, (size_t)length - position,
                                 VTE_KIND(VTE_OSC), 0, events, 256, data, sizeof data, &counts);
            for (size_t i = 0; i < counts.events; i++) watch(&events[i], data);
        }
    }
    return length < 0;
}
