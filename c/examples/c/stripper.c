/* Writes its standard input without the sequences. */
#include <stdio.h>
#include <unistd.h>
#include <vte.h>

int main(void) {
    vte_parser parser = {{0}};
    uint8_t bytes[4096], text[4096];
    size_t written;
    ssize_t length;
    /* read returns what is there; fread would wait until the buffer is full. */
    while ((length = read(0, bytes, sizeof bytes)) > 0) {
        for (size_t position = 0; position < (size_t)length;) {
            position += vte_strip(&parser, bytes + position, (size_t)length - position, text,
                                  sizeof text, &written);
            fwrite(text, 1, written, stdout);
        }
        if (fflush(stdout) != 0) return 1;
    }
    return length < 0;
}
