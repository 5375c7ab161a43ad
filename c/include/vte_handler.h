/* SPDX-License-Identifier: Apache-2.0 OR MIT */
/* vte_handler.h: a processor, which calls functions for what a stream asks of a terminal.
 *
 * A processor reads the same bytes as a parser, and knows what they mean: move the cursor, set a
 * colour, begin an update. It calls the functions of a table, which may have NULL for what doesn't
 * matter:
 *
 *     static void input(void *user, const uint8_t *text, size_t length) { .. }
 *     static void go(void *user, int32_t line, size_t column) { .. }
 *
 *     vte_handler calls = {.input = input, .go_to = go};
 *     vte_processor *processor = vte_processor_new(&calls, sizeof calls, screen);
 *     vte_processor_advance(processor, bytes, length, &read);
 *     vte_processor_free(processor);
 *
 * The calls are those of the whole stream, in order, however you split it, apart from how often
 * unset_private_mode comes with 2026: each stop of an update adds one, and where you split the
 * stream, and time, decide how many stops there are (docs/CALLS.md). A text is passed in runs, of
 * which there may be several one after another, and which aren't terminated by 0; a text that a
 * call passes is valid until the call returns. A call must return, and not by an exception or
 * longjmp. The calls come in the thread that calls vte_processor_advance or
 * vte_processor_stop_sync.
 *
 * Threads may use different processors at once. Of one, the first call is made, and others get
 * VTE_BUSY until it returns: those of another thread, and those that a function of the table makes.
 * So do those of vte_processor_free, which then frees nothing. Free a processor once, when no other
 * call can come.
 *
 * A processor allocates by malloc: 2 MiB for updates, and as much as the longest command
 * has. It is in the library that cargo builds.
 */
#ifndef VTE_HANDLER_H
#define VTE_HANDLER_H

#include "vte.h"

#ifdef __cplusplus
extern "C" {
#endif

/* What calls return. */
enum {
    VTE_OK = 0,
    VTE_NO_MEMORY = 1, /* memory was refused */
    VTE_BUSY = 2       /* another call of the processor is under way: nothing was done */
};

/* Parts of the screen. */
enum { VTE_LINE_RIGHT, VTE_LINE_LEFT, VTE_LINE_ALL };
enum { VTE_SCREEN_BELOW, VTE_SCREEN_ABOVE, VTE_SCREEN_ALL, VTE_SCREEN_SAVED };
enum { VTE_TAB_CURRENT, VTE_TAB_ALL };

/* Shapes of the cursor, or VTE_SHAPE_OWN for the terminal's own. */
enum {
    VTE_SHAPE_OWN = -1, VTE_SHAPE_BLOCK, VTE_SHAPE_UNDERLINE, VTE_SHAPE_BEAM,
    VTE_SHAPE_HOLLOW_BLOCK, VTE_SHAPE_HIDDEN
};

/* Character sets: what one is. Their indices are 0 to 3. */
enum { VTE_CHARSET_ASCII, VTE_CHARSET_LINE_DRAWING };

/* The direction of text, and how what is shown follows it. */
enum { VTE_PATH_DEFAULT, VTE_PATH_LEFT_TO_RIGHT, VTE_PATH_RIGHT_TO_LEFT };
enum { VTE_UPDATE_DEFAULT, VTE_UPDATE_DATA_TO_PRESENTATION, VTE_UPDATE_PRESENTATION_TO_DATA };

/* Keyboards: what becomes of the modes, and what modified keys send. */
enum { VTE_KEYBOARD_REPLACE, VTE_KEYBOARD_ADD, VTE_KEYBOARD_REMOVE };
enum { VTE_OTHER_KEYS_RESET, VTE_OTHER_KEYS_EXCEPT_WELL_DEFINED, VTE_OTHER_KEYS_ALL };

/* Attributes. The last three have a colour. */
enum {
    VTE_RESET, VTE_BOLD, VTE_DIM, VTE_ITALIC, VTE_UNDERLINE, VTE_DOUBLE_UNDERLINE, VTE_UNDERCURL,
    VTE_DOTTED_UNDERLINE, VTE_DASHED_UNDERLINE, VTE_BLINK_SLOW, VTE_BLINK_FAST, VTE_REVERSE,
    VTE_HIDDEN, VTE_STRIKE, VTE_CANCEL_BOLD, VTE_CANCEL_BOLD_DIM, VTE_CANCEL_ITALIC,
    VTE_CANCEL_UNDERLINE, VTE_CANCEL_BLINK, VTE_CANCEL_REVERSE, VTE_CANCEL_HIDDEN,
    VTE_CANCEL_STRIKE, VTE_FOREGROUND, VTE_BACKGROUND, VTE_UNDERLINE_COLOR
};

/* A colour. */
typedef struct {
    uint8_t kind; /* VTE_COLOR_.. */
    uint8_t red, green, blue;
    uint32_t index; /* 0 to 15: the colours by name; 256: the foreground; 257: the background; or an
                       index of the palette */
} vte_color;

enum { VTE_COLOR_NONE, VTE_COLOR_NAMED, VTE_COLOR_RGB, VTE_COLOR_INDEXED };

/* A function for each call. `user` is what vte_processor_new was given. */
typedef struct {
    /* text, and format effectors */
    void (*input)(void *user, const uint8_t *text, size_t length);
    void (*bell)(void *user);
    void (*backspace)(void *user);
    void (*put_tab)(void *user, uint16_t count);
    void (*linefeed)(void *user);
    void (*carriage_return)(void *user);
    void (*newline)(void *user);
    void (*substitute)(void *user);
    /* the cursor: lines and columns are counted from 0 */
    void (*go_to)(void *user, int32_t line, size_t column);
    void (*goto_line)(void *user, int32_t line);
    void (*goto_col)(void *user, size_t column);
    void (*move_up)(void *user, size_t count);
    void (*move_down)(void *user, size_t count);
    void (*move_forward)(void *user, size_t count);
    void (*move_backward)(void *user, size_t count);
    void (*move_down_and_cr)(void *user, size_t count);
    void (*move_up_and_cr)(void *user, size_t count);
    void (*save_cursor_position)(void *user);
    void (*restore_cursor_position)(void *user);
    /* scrolling; lines are counted from 1, and a bottom of 0 is the last line */
    void (*reverse_index)(void *user);
    void (*scroll_up)(void *user, size_t count);
    void (*scroll_down)(void *user, size_t count);
    void (*set_scrolling_region)(void *user, size_t top, size_t bottom);
    /* tab stops */
    void (*set_horizontal_tabstop)(void *user);
    void (*clear_tabs)(void *user, uint8_t which);
    void (*set_tabs)(void *user, uint16_t interval);
    void (*move_forward_tabs)(void *user, uint16_t count);
    void (*move_backward_tabs)(void *user, uint16_t count);
    /* editing */
    void (*insert_blank)(void *user, size_t count);
    void (*insert_blank_lines)(void *user, size_t count);
    void (*delete_chars)(void *user, size_t count);
    void (*delete_lines)(void *user, size_t count);
    void (*erase_chars)(void *user, size_t count);
    void (*clear_line)(void *user, uint8_t part);
    void (*clear_screen)(void *user, uint8_t part);
    void (*decaln)(void *user);
    /* appearance; a link without an id has NULL for it, and NULL for the URI ends the link */
    void (*terminal_attribute)(void *user, uint8_t attribute, vte_color color);
    void (*set_color)(void *user, size_t index, vte_color color);
    void (*reset_color)(void *user, size_t index);
    void (*dynamic_color_sequence)(void *user, const uint8_t *prefix, size_t prefix_length,
                                   size_t index, const uint8_t *terminator,
                                   size_t terminator_length);
    void (*set_hyperlink)(void *user, const uint8_t *id, size_t id_length, const uint8_t *uri,
                          size_t uri_length);
    void (*set_cursor_style)(void *user, int32_t shape, uint8_t blinking);
    void (*set_cursor_shape)(void *user, int32_t shape);
    void (*set_mouse_cursor_icon)(void *user, const uint8_t *keyword, size_t length);
    /* character sets, and the direction of text */
    void (*set_active_charset)(void *user, uint8_t index);
    void (*configure_charset)(void *user, uint8_t index, uint8_t charset);
    void (*set_scp)(void *user, uint8_t path, uint8_t update);
    /* modes, by their numbers */
    void (*set_mode)(void *user, uint16_t mode);
    void (*unset_mode)(void *user, uint16_t mode);
    void (*report_mode)(void *user, uint16_t mode);
    void (*set_private_mode)(void *user, uint16_t mode);
    void (*unset_private_mode)(void *user, uint16_t mode);
    void (*report_private_mode)(void *user, uint16_t mode);
    void (*reset_state)(void *user);
    /* keyboards; modes are the bits of kitty's protocol */
    void (*set_keypad_application_mode)(void *user);
    void (*unset_keypad_application_mode)(void *user);
    void (*push_keyboard_mode)(void *user, uint8_t modes);
    void (*pop_keyboard_modes)(void *user, uint16_t count);
    void (*set_keyboard_mode)(void *user, uint8_t modes, uint8_t behavior);
    void (*report_keyboard_mode)(void *user);
    void (*set_modify_other_keys)(void *user, uint8_t keys);
    void (*report_modify_other_keys)(void *user);
    /* titles, clipboards and reports; a clipboard is a letter, its bytes are base64 as sent, and an
     * intermediate is 0 if there is none */
    void (*set_title)(void *user, const uint8_t *title, size_t length);
    void (*push_title)(void *user);
    void (*pop_title)(void *user);
    void (*clipboard_store)(void *user, uint8_t clipboard, const uint8_t *bytes, size_t length);
    void (*clipboard_load)(void *user, uint8_t clipboard, const uint8_t *terminator, size_t length);
    void (*device_status)(void *user, size_t kind);
    void (*identify_terminal)(void *user, uint8_t intermediate);
    void (*text_area_size_pixels)(void *user);
    void (*text_area_size_chars)(void *user);
} vte_handler;

typedef struct vte_processor vte_processor;

/* What is held of a synchronized update. */
typedef struct {
    size_t bytes_count; /* how many bytes are held */
    uint8_t is_pending; /* whether an update is pending .. */
    uint64_t deadline;  /* .. and until when: nanoseconds of CLOCK_MONOTONIC. Then call
                           vte_processor_stop_sync */
} vte_sync;

/* Returns a new processor, or NULL if memory is refused. It copies the table, which has `size`
 * bytes, and may be NULL if that is 0: pass `sizeof(vte_handler)`. Later versions may have more
 * calls, at the end, and a program that was compiled without them keeps working. A size that isn't
 * that of whole pointers is refused: it returns NULL, and reads nothing of the table. */
vte_processor *vte_processor_new(const vte_handler *calls, size_t size, void *user);

/* Frees a processor. NULL is no processor. */
int vte_processor_free(vte_processor *processor);

/* Reads the next bytes of the stream, makes the calls that they add, and says how many were read:
 * all with VTE_OK, none with VTE_BUSY. After VTE_NO_MEMORY the rest can be passed again once there
 * is memory. */
int vte_processor_advance(vte_processor *processor, const uint8_t *bytes, size_t length,
                          size_t *read);

/* Ends an update whose end doesn't come: makes the calls of what is held. */
int vte_processor_stop_sync(vte_processor *processor);

/* Says what is held. */
int vte_processor_sync(vte_processor *processor, vte_sync *sync);

#ifdef __cplusplus
}
#endif

#endif
