// Runs a program in a pty and prints its events: pty_events PROGRAM ARGUMENT..
#include <array>
#include <cstdio>
#include <pty.h>
#include <string>
#include <unistd.h>
#include <vte.h>

// Calls a function with each event of a stream, and with its text, if it is one.
class Parser {
    vte_parser parser{};
    std::array<vte_event, 256> events;
    std::array<uint8_t, 8192> data;

public:
    template <typename Function> void feed(const uint8_t *bytes, size_t length, Function report) {
        vte_counts counts;
        for (size_t position = 0; position < length;) {
            const uint8_t *unread = bytes + position;
            position += vte_feed(&parser, unread, length - position, VTE_ALL_KINDS, 0,
                                 events.data(), events.size(), data.data(), data.size(), &counts);
            for (size_t i = 0; i < counts.events; i++) {
                const vte_event &event = events[i];
                const uint8_t *text = vte_text_of(&event, unread, data.data());
                size_t size = event.kind == VTE_TEXT ? event.code : 0;
                report(event, std::string(text, text + size));
            }
        }
    }
};

int main(int argc, char **argv) {
    static const char *const names[] = {"text", "execute", "hook", "data",
                                        "unhook", "osc", "csi", "esc"};
    int terminal;
    if (argc < 2) return 2;
    switch (forkpty(&terminal, nullptr, nullptr, nullptr)) {
    case -1:
        std::perror("forkpty");
        return 1;
    case 0:
        execvp(argv[1], argv + 1);
        _exit(127);
    }
    Parser parser;
    std::array<uint8_t, 4096> bytes;
    const auto print = [](const vte_event &event, const std::string &text) {
        if (event.kind == VTE_TEXT) std::printf("text %s\n", text.c_str());
        else std::printf("%s %02x\n", names[event.kind], unsigned(event.code));
    };
    for (ssize_t length; (length = read(terminal, bytes.data(), bytes.size())) > 0;) {
        parser.feed(bytes.data(), static_cast<size_t>(length), print);
        std::fflush(stdout);
    }
}
