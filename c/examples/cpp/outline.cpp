// Writes the text of its standard input, and between brackets where it goes and what it sets.
#include <cstdio>
#include <unistd.h>
#include <vte.hpp>

struct Outline : vte::Handler {
    void input(std::string_view text) override { std::fwrite(text.data(), 1, text.size(), stdout); }
    void go_to(int32_t line, size_t column) override {
        std::printf("[go to %d, %zu]", line, column);
    }
    void set_title(std::string_view title) override {
        std::printf("[title %.*s]", int(title.size()), title.data());
    }
    void terminal_attribute(uint8_t attribute, vte_color) override {
        if (attribute == VTE_BOLD) std::fputs("[bold]", stdout);
    }
};

int main() {
    Outline outline;
    vte::Processor processor(outline);
    uint8_t bytes[4096];
    for (ssize_t length; (length = read(0, bytes, sizeof bytes)) > 0; std::fflush(stdout))
        processor.advance(bytes, static_cast<size_t>(length));
    processor.stop_sync();
}
