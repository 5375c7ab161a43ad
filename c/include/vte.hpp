// SPDX-License-Identifier: Apache-2.0 OR MIT
// vte.hpp: the processor of vte_handler.h for C++17. Derive from vte::Handler, and override what
// matters:
//
//     struct Screen : vte::Handler {
//         void input(std::string_view text) override { .. }
//         void go_to(int32_t line, size_t column) override { .. }
//     } screen;
//     vte::Processor processor(screen);
//     processor.advance(bytes, length);
//
// If memory is refused, `advance` throws vte::Refused, which says how many bytes were read:
//
//     } catch (const vte::Refused &refused) {
//         bytes += refused.read, length -= refused.read; // free some memory, and go on
//     }
//
// A function that throws ends the program. The rules are those of vte_handler.h.
#ifndef VTE_HPP
#define VTE_HPP

#if __cplusplus < 201703L && (!defined _MSVC_LANG || _MSVC_LANG < 201703L)
#error "vte.hpp needs C++17: compile with -std=c++17"
#endif

#include "vte_handler.h"
#include <memory>
#include <new>
#include <stdexcept>
#include <string_view>

namespace vte {

// Memory was refused to a call, which read `read` of its bytes. The rest can be passed again.
class Refused : public std::bad_alloc {
public:
    size_t read;
    explicit Refused(size_t read) noexcept : read(read) {}
    const char *what() const noexcept override { return "memory was refused to a vte::Processor"; }
};

// Receives the calls of a processor. vte_handler.h says what their numbers are.
class Handler {
public:
    virtual ~Handler() = default;
    virtual void input(std::string_view) {}
    virtual void bell() {}
    virtual void backspace() {}
    virtual void put_tab(uint16_t) {}
    virtual void linefeed() {}
    virtual void carriage_return() {}
    virtual void newline() {}
    virtual void substitute() {}
    virtual void go_to(int32_t, size_t) {}
    virtual void goto_line(int32_t) {}
    virtual void goto_col(size_t) {}
    virtual void move_up(size_t) {}
    virtual void move_down(size_t) {}
    virtual void move_forward(size_t) {}
    virtual void move_backward(size_t) {}
    virtual void move_down_and_cr(size_t) {}
    virtual void move_up_and_cr(size_t) {}
    virtual void save_cursor_position() {}
    virtual void restore_cursor_position() {}
    virtual void reverse_index() {}
    virtual void scroll_up(size_t) {}
    virtual void scroll_down(size_t) {}
    virtual void set_scrolling_region(size_t, size_t) {}
    virtual void set_horizontal_tabstop() {}
    virtual void clear_tabs(uint8_t) {}
    virtual void set_tabs(uint16_t) {}
    virtual void move_forward_tabs(uint16_t) {}
    virtual void move_backward_tabs(uint16_t) {}
    virtual void insert_blank(size_t) {}
    virtual void insert_blank_lines(size_t) {}
    virtual void delete_chars(size_t) {}
    virtual void delete_lines(size_t) {}
    virtual void erase_chars(size_t) {}
    virtual void clear_line(uint8_t) {}
    virtual void clear_screen(uint8_t) {}
    virtual void decaln() {}
    virtual void terminal_attribute(uint8_t, vte_color) {}
    virtual void set_color(size_t, vte_color) {}
    virtual void reset_color(size_t) {}
    virtual void dynamic_color_sequence(std::string_view, size_t, std::string_view) {}
    // Without a URI, the link ends.
    virtual void set_hyperlink(std::string_view, std::string_view) {}
    virtual void set_cursor_style(int32_t, uint8_t) {}
    virtual void set_cursor_shape(int32_t) {}
    virtual void set_mouse_cursor_icon(std::string_view) {}
    virtual void set_active_charset(uint8_t) {}
    virtual void configure_charset(uint8_t, uint8_t) {}
    virtual void set_scp(uint8_t, uint8_t) {}
    virtual void set_mode(uint16_t) {}
    virtual void unset_mode(uint16_t) {}
    virtual void report_mode(uint16_t) {}
    virtual void set_private_mode(uint16_t) {}
    virtual void unset_private_mode(uint16_t) {}
    virtual void report_private_mode(uint16_t) {}
    virtual void reset_state() {}
    virtual void set_keypad_application_mode() {}
    virtual void unset_keypad_application_mode() {}
    virtual void push_keyboard_mode(uint8_t) {}
    virtual void pop_keyboard_modes(uint16_t) {}
    virtual void set_keyboard_mode(uint8_t, uint8_t) {}
    virtual void report_keyboard_mode() {}
    virtual void set_modify_other_keys(uint8_t) {}
    virtual void report_modify_other_keys() {}
    virtual void set_title(std::string_view) {}
    virtual void push_title() {}
    virtual void pop_title() {}
    virtual void clipboard_store(uint8_t, std::string_view) {}
    virtual void clipboard_load(uint8_t, std::string_view) {}
    virtual void device_status(size_t) {}
    virtual void identify_terminal(uint8_t) {}
    virtual void text_area_size_pixels() {}
    virtual void text_area_size_chars() {}
};

namespace detail {

inline std::string_view view(const uint8_t *text, size_t length) {
    return text ? std::string_view(reinterpret_cast<const char *>(text), length)
                : std::string_view();
}

// Calls a method with what C passes. The pointer and the length of a text are one argument.
template <auto method, typename... Given> struct Call {
    static void pass(Handler *handler, Given... given) { (handler->*method)(given...); }

    template <typename... Rest>
    static void pass(Handler *handler, Given... given, const uint8_t *text, size_t length,
                     Rest... rest) {
        using Next = Call<method, Given..., std::string_view>;
        Next::pass(handler, given..., view(text, length), rest...);
    }

    template <typename Sent, typename... Rest>
    static void pass(Handler *handler, Given... given, Sent sent, Rest... rest) {
        Call<method, Given..., Sent>::pass(handler, given..., sent, rest...);
    }
};

template <auto method, typename... Sent> void call(void *user, Sent... sent) noexcept {
    Call<method>::pass(static_cast<Handler *>(user), sent...);
}

inline constexpr vte_handler table = {
    call<&Handler::input>, call<&Handler::bell>, call<&Handler::backspace>, call<&Handler::put_tab>,
    call<&Handler::linefeed>, call<&Handler::carriage_return>, call<&Handler::newline>,
    call<&Handler::substitute>, call<&Handler::go_to>, call<&Handler::goto_line>,
    call<&Handler::goto_col>, call<&Handler::move_up>, call<&Handler::move_down>,
    call<&Handler::move_forward>, call<&Handler::move_backward>, call<&Handler::move_down_and_cr>,
    call<&Handler::move_up_and_cr>, call<&Handler::save_cursor_position>,
    call<&Handler::restore_cursor_position>, call<&Handler::reverse_index>,
    call<&Handler::scroll_up>, call<&Handler::scroll_down>, call<&Handler::set_scrolling_region>,
    call<&Handler::set_horizontal_tabstop>, call<&Handler::clear_tabs>, call<&Handler::set_tabs>,
    call<&Handler::move_forward_tabs>, call<&Handler::move_backward_tabs>,
    call<&Handler::insert_blank>, call<&Handler::insert_blank_lines>, call<&Handler::delete_chars>,
    call<&Handler::delete_lines>, call<&Handler::erase_chars>, call<&Handler::clear_line>,
    call<&Handler::clear_screen>, call<&Handler::decaln>, call<&Handler::terminal_attribute>,
    call<&Handler::set_color>, call<&Handler::reset_color>, call<&Handler::dynamic_color_sequence>,
    call<&Handler::set_hyperlink>, call<&Handler::set_cursor_style>,
    call<&Handler::set_cursor_shape>, call<&Handler::set_mouse_cursor_icon>,
    call<&Handler::set_active_charset>, call<&Handler::configure_charset>, call<&Handler::set_scp>,
    call<&Handler::set_mode>, call<&Handler::unset_mode>, call<&Handler::report_mode>,
    call<&Handler::set_private_mode>, call<&Handler::unset_private_mode>,
    call<&Handler::report_private_mode>, call<&Handler::reset_state>,
    call<&Handler::set_keypad_application_mode>, call<&Handler::unset_keypad_application_mode>,
    call<&Handler::push_keyboard_mode>, call<&Handler::pop_keyboard_modes>,
    call<&Handler::set_keyboard_mode>, call<&Handler::report_keyboard_mode>,
    call<&Handler::set_modify_other_keys>, call<&Handler::report_modify_other_keys>,
    call<&Handler::set_title>, call<&Handler::push_title>, call<&Handler::pop_title>,
    call<&Handler::clipboard_store>, call<&Handler::clipboard_load>, call<&Handler::device_status>,
    call<&Handler::identify_terminal>, call<&Handler::text_area_size_pixels>,
    call<&Handler::text_area_size_chars>,
};

struct Free {
    void operator()(vte_processor *processor) const { vte_processor_free(processor); }
};

inline void check(int status, size_t read = 0) {
    if (status == VTE_NO_MEMORY) throw Refused(read);
    if (status == VTE_BUSY) throw std::logic_error("a call of this processor is under way");
}

} // namespace detail

// Reads a stream in chunks of any length, and calls a handler, which has to outlive it.
class Processor {
    std::unique_ptr<vte_processor, detail::Free> processor;

public:
    explicit Processor(Handler &handler)
        : processor(vte_processor_new(&detail::table, sizeof detail::table, &handler)) {
        if (!processor) throw Refused(0);
    }

    void advance(const uint8_t *bytes, size_t length) {
        size_t read = 0;
        int status = vte_processor_advance(processor.get(), bytes, length, &read);
        detail::check(status, read);
    }

    void stop_sync() { detail::check(vte_processor_stop_sync(processor.get())); }

    vte_sync sync() const {
        vte_sync sync;
        detail::check(vte_processor_sync(processor.get(), &sync));
        return sync;
    }
};

} // namespace vte

#endif
