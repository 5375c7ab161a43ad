/* Writes each text that its standard input stores in a clipboard (OSC 52) to a file of its own, as
 * base64: clipboards FOLDER */
#include <stdio.h>
#include <string.h>
#include <unistd.h>
#include <vte_long.h>

/* Writes the third piece of `52;c;TEXT`. A question, `?`, stores nothing. */
static int save(const vte_event *event, const uint8_t *data, const char *folder, int number) {
    vte_items pieces = vte_items_of(event, data);
    char path[4096];
    if (!vte_next_piece(&pieces) || pieces.length != 2 || memcmp(pieces.at, "52", 2) != 0) return 0;
    if (!vte_next_piece(&pieces) || !vte_next_piece(&pieces)
        || (pieces.length == 1 && *pieces.at == '?'))
        return 0;
    snprintf(path, sizeof path, "%s/%d", folder, number);
    FILE *file = fopen(path, "wb");
    if (file == NULL || fwrite(pieces.at, 1, pieces.length, file) < pieces.length
        || fclose(file) != 0)
        return -1;
    return 1;
}

int main(int argc, char **argv) {
    vte_long_parser *parser = vte_long_parser_new();
    vte_event events[64];
    const uint8_t *data;
    vte_counts counts;
    uint8_t bytes[65536];
    ssize_t length;
    int number = 0;
    if (argc != 2 || parser == NULL) return 2;
    while ((length = read(0, bytes, sizeof bytes)) > 0)
        for (size_t position = 0; position < (size_t)length;) {
            size_t count = vte_long_feed(parser, bytes + position, (size_t)length - position,
                                         VTE_KIND(VTE_OSC), 0, events, 64, &data, &counts);
            if (count == VTE_REFUSED) return 1;
            position += count;
            for (size_t i = 0; i < counts.events; i++) {
                int saved = save(&events[i], data, argv[1], number);
                if (saved < 0) return 1;
                number += saved;
            }
        }
    vte_long_parser_free(parser);
    printf("%d\n", number);
    return length < 0;
}
