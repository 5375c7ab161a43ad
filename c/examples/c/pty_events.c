/* Runs a program in a pty and prints its events: pty_events PROGRAM ARGUMENT.. */
#include <pty.h>
#include <stdio.h>
#include <unistd.h>
#include <vte.h>

static const char *const names[] = {"text", "execute", "hook", "data",
                                    "unhook", "osc", "csi", "esc"};

int main(int argc, char **argv) {
    vte_parser parser = {{0}};
    vte_event events[256];
    vte_counts counts;
    uint8_t bytes[4096], data[8192];
    int terminal;
    ssize_t length;
    if (argc < 2) return 2;
    switch (forkpty(&terminal, NULL, NULL, NULL)) {
    case -1:
        perror("forkpty");
        return 1;
    case 0:
        execvp(argv[1], argv + 1);
        _exit(127);
    }
    /* Linux answers EIO once the last program has closed the pty. */
    while ((length = read(terminal, bytes, sizeof bytes)) > 0) {
        for (size_t position = 0; position < (size_t)length;) {
            const uint8_t *unread = bytes + position;
            position += vte_feed(&parser, unread, (size_t)length - position, VTE_ALL_KINDS, 0,
                                 events, 256, data, sizeof data, &counts);
            for (size_t i = 0; i < counts.events; i++)
                if (events[i].kind == VTE_TEXT)
                    printf("text %.*s\n", (int)events[i].code,
                           (const char *)vte_text_of(&events[i], unread, data));
                else
                    printf("%s %02x\n", names[events[i].kind], (unsigned)events[i].code);
        }
        fflush(stdout);
    }
    return 0;
}
