// What vte.hpp adds to vte_handler.h: exceptions, and processors that move. It is linked with
// --wrap for malloc and realloc, to refuse memory. The status is 0 if all is as it should be.
#include "check.h"
#include <climits>
#include <exception>
#include <string>
#include <sys/wait.h>
#include <unistd.h>
#include <type_traits>
#include <vte.hpp>
#include <vte_long.h>
// what is included may be included before
#include <vte.h>
#include <vte.hpp>
#include <vte_handler.h>
#include <vte_long.h>

static_assert(std::has_virtual_destructor_v<vte::Handler>);
static_assert(!std::is_convertible_v<vte::Handler &, vte::Processor>);
static_assert(!std::is_copy_constructible_v<vte::Processor>);
static_assert(std::is_nothrow_move_assignable_v<vte::Processor>);

extern "C" {
// how many allocations there are before those that are refused
static long allowed = LONG_MAX;
void *__real_malloc(size_t size);
void *__real_realloc(void *pointer, size_t size);
void *__wrap_malloc(size_t size) { return allowed-- > 0 ? __real_malloc(size) : nullptr; }
void *__wrap_realloc(void *pointer, size_t size) {
    return allowed-- > 0 ? __real_realloc(pointer, size) : nullptr;
}
}

static void send(vte::Processor &processor, std::string_view bytes) {
    processor.advance(reinterpret_cast<const uint8_t *>(bytes.data()), bytes.size());
}

template <typename Error, typename Act> static bool throws(Act act) {
    try {
        act();
    } catch (const Error &) {
        return true;
    }
    return false;
}

// Whatever function throws, the program ends: nothing passes through C.
struct Throwing : vte::Handler {
    void input(std::string_view) override { throw 1; }
    void bell() override { throw 1; }
    void move_up(size_t) override { throw 1; }
    void dynamic_color_sequence(std::string_view, size_t, std::string_view) override { throw 1; }
    void clipboard_store(uint8_t, std::string_view) override { throw 1; }
};

static bool ends_the_program(std::string_view bytes) {
    int status = 0;
    if (fork() == 0) {
        std::set_terminate([] { _exit(7); });
        Throwing throwing;
        vte::Processor processor(throwing);
        throws<int>([&] { send(processor, bytes); });
        _exit(8);
    }
    wait(&status);
    return WIFEXITED(status) && WEXITSTATUS(status) == 7;
}

// A call may not use the processor that makes it, which says so, and goes on.
struct Texts : vte::Handler {
    std::string all;
    vte::Processor *own = nullptr;
    void input(std::string_view text) override { all += text; }
    void set_title(std::string_view title) override { all.append("[").append(title).append("]"); }
    void bell() override {
        const vte::Processor *known = own;
        if (throws<std::logic_error>([&] { send(*own, "x"); })
            && throws<std::logic_error>([&] { own->stop_sync(); })
            && throws<std::logic_error>([&] { known->sync(); }))
            all += "busy";
    }
};

// Passes a stream, of which memory is refused after `allocations`, and then the rest.
static std::string passed(const std::string &stream, long allocations, bool &is_refused) {
    Texts texts;
    vte::Processor processor(texts);
    allowed = allocations, is_refused = false;
    try {
        send(processor, stream);
    } catch (const vte::Refused &refused) {
        allowed = LONG_MAX, is_refused = true;
        send(processor, std::string_view(stream).substr(refused.read));
    }
    allowed = LONG_MAX;
    return texts.all;
}

int main() {
    for (const char *bytes : {"a", "\a", "\033[A", "\033]10;?\a", "\033]52;c;YQ==\a"})
        CHECK(ends_the_program(bytes));
    // the functions of C have their names here too
    vte_long_parser_free(vte_long_parser_new());
    Texts texts;
    allowed = 0;
    bool is_refused = throws<std::bad_alloc>([&] { vte::Processor made(texts); });
    allowed = LONG_MAX;
    CHECK(is_refused);
    vte::Processor made(texts), processor(std::move(made));
    texts.own = &processor;
    send(processor, "\ab\033[?2026hcd");
    vte_sync sync = processor.sync();
    CHECK(texts.all == "busyb" && sync.bytes_count == 2 && sync.is_pending && sync.deadline > 0);
    processor.stop_sync();
    CHECK(texts.all == "busybcd" && !processor.sync().is_pending);
    std::string stream = "A";
    for (size_t size = 100; size < 1000000; size *= 10)
        stream += "\033]2;" + std::string(size, 't') + "\aB\033[1m\xc3\xbc";
    std::string all = passed(stream, LONG_MAX, is_refused);
    CHECK(!is_refused && all.size() > 111100);
    for (long allocations = 0; allocations < 4; allocations++)
        CHECK(passed(stream, allocations, is_refused) == all && is_refused);
    return 0;
}
