//! A handler that folds all calls into a checksum, as cheaply as crates/benchmark does: a number
//! for the name of each, and its arguments.

use std::hash::{Hash, Hasher};
use std::mem::discriminant;

use vte::ansi::cursor_icon::CursorIcon;
use vte::ansi::{
    Attr, CharsetIndex, ClearMode, Color, CursorShape, CursorStyle, Handler, Hyperlink,
    KeyboardModes, KeyboardModesApplyBehavior, LineClearMode, Mode, ModifyOtherKeys, PrivateMode,
    Rgb, ScpCharPath, ScpUpdateMode, StandardCharset, TabulationClearMode,
};

use crate::checksum::Checksum;

#[derive(Default)]
pub struct CallChecksum(pub Checksum);

/// The first and last four bytes of a name, and its length. It is straight-line code, which the
/// compiler computes.
#[inline]
fn number_of(name: &str) -> u64 {
    let bytes = name.as_bytes();
    let (Some(first), Some(last)) = (bytes.first_chunk(), bytes.last_chunk()) else {
        return 0;
    };
    let (first, last) = (u32::from_be_bytes(*first), u32::from_be_bytes(*last));
    (u64::from(first) << 32 | u64::from(last)).wrapping_add(bytes.len() as u64)
}

/// An argument of a call.
trait Argument {
    fn fold(self, checksum: &mut Checksum);
}

macro_rules! arguments {
    ($($kind:ty: |$value:ident, $checksum:ident| $fold:expr;)*) => {
        $(
            impl Argument for $kind {
                #[inline]
                fn fold(self, $checksum: &mut Checksum) {
                    let $value = self;
                    $fold
                }
            }
        )*
    };
}

macro_rules! numbers {
    ($($kind:ty: |$value:ident| $number:expr;)*) => {
        arguments! { $($kind: |$value, checksum| checksum.fold($number as u64);)* }
    };
}

macro_rules! casts {
    ($($kind:ty),*) => { numbers! { $($kind: |value| value;)* } };
}

casts! {
    u8, u16, usize, char, bool, LineClearMode, ClearMode, TabulationClearMode, CursorShape,
    CharsetIndex, StandardCharset, ModifyOtherKeys, ScpCharPath, ScpUpdateMode,
    KeyboardModesApplyBehavior
}

numbers! {
    i32: |line| line.unsigned_abs();
    KeyboardModes: |modes| modes.bits();
    Mode: |mode| mode.raw();
    PrivateMode: |mode| mode.raw();
    Rgb: |color| u32::from_be_bytes([0, color.r, color.g, color.b]);
}

arguments! {
    &[u8]: |bytes, checksum| checksum.fold_piece(bytes);
    &str: |text, checksum| checksum.fold_piece(text.as_bytes());
    String: |text, checksum| checksum.fold_piece(text.as_bytes());
    Hyperlink: |link, checksum| {
        link.id.fold(checksum);
        link.uri.fold(checksum);
    };
    CursorStyle: |style, checksum| {
        style.shape.fold(checksum);
        style.blinking.fold(checksum);
    };
    // the icon alone doesn't count: in Rattle its numbers are those of another crate
    CursorIcon: |_icon, _checksum| ();
    Color: |color, checksum| match color {
        Color::Named(name) => checksum.fold(name as u64),
        Color::Spec(color) => color.fold(checksum),
        Color::Indexed(index) => index.fold(checksum),
    };
    Attr: |attribute, checksum| {
        checksum.fold(variant_index(&attribute));
        match attribute {
            Attr::Foreground(color) | Attr::Background(color) => color.fold(checksum),
            Attr::UnderlineColor(color) => color.fold(checksum),
            _ => {}
        }
    };
}

impl<T: Argument> Argument for Option<T> {
    #[inline]
    fn fold(self, checksum: &mut Checksum) {
        checksum.fold(self.is_some() as u64);
        if let Some(value) = self {
            value.fold(checksum);
        }
    }
}

/// The index of an attribute's variant in its declaration, which is what its discriminant hashes.
#[inline]
fn variant_index(attribute: &Attr) -> u64 {
    struct Discriminant(u64);

    impl Hasher for Discriminant {
        fn finish(&self) -> u64 {
            self.0
        }

        fn write(&mut self, _bytes: &[u8]) {}

        fn write_isize(&mut self, index: isize) {
            self.0 = index as u64;
        }
    }

    let mut hashed = Discriminant(0);
    discriminant(attribute).hash(&mut hashed);
    hashed.finish()
}

macro_rules! calls {
    ($($call:ident($($name:ident: $kind:ty),*),)*) => {
        impl Handler for CallChecksum {
            $(
                #[inline]
                fn $call(&mut self $(, $name: $kind)*) {
                    self.0.fold(number_of(stringify!($call)));
                    $($name.fold(&mut self.0);)*
                }
            )*
        }
    };
}

calls! {
    backspace(), bell(), carriage_return(), decaln(), linefeed(), newline(), pop_title(),
    push_title(), report_keyboard_mode(), report_modify_other_keys(), reset_state(),
    restore_cursor_position(), reverse_index(), save_cursor_position(), set_horizontal_tabstop(),
    set_keypad_application_mode(), substitute(), text_area_size_chars(), text_area_size_pixels(),
    unset_keypad_application_mode(), clear_line(part: LineClearMode),
    clear_screen(part: ClearMode), clear_tabs(which: TabulationClearMode),
    clipboard_load(clipboard: u8, terminator: &str), clipboard_store(clipboard: u8, bytes: &[u8]),
    configure_charset(index: CharsetIndex, charset: StandardCharset), delete_chars(count: usize),
    delete_lines(count: usize), device_status(kind: usize),
    dynamic_color_sequence(prefix: String, index: usize, terminator: &str),
    erase_chars(count: usize), goto(line: i32, column: usize), goto_col(column: usize),
    goto_line(line: i32), identify_terminal(intermediate: Option<char>), input(c: char),
    insert_blank(count: usize), insert_blank_lines(count: usize), move_backward(count: usize),
    move_backward_tabs(count: u16), move_down(count: usize), move_down_and_cr(count: usize),
    move_forward(count: usize), move_forward_tabs(count: u16), move_up(count: usize),
    move_up_and_cr(count: usize), pop_keyboard_modes(count: u16),
    push_keyboard_mode(modes: KeyboardModes), put_tab(count: u16), report_mode(mode: Mode),
    report_private_mode(mode: PrivateMode), reset_color(index: usize), scroll_down(count: usize),
    scroll_up(count: usize), set_active_charset(index: CharsetIndex),
    set_color(index: usize, color: Rgb), set_cursor_shape(shape: CursorShape),
    set_cursor_style(style: Option<CursorStyle>), set_hyperlink(link: Option<Hyperlink>),
    set_keyboard_mode(modes: KeyboardModes, behavior: KeyboardModesApplyBehavior),
    set_mode(mode: Mode), set_modify_other_keys(keys: ModifyOtherKeys),
    set_mouse_cursor_icon(icon: CursorIcon), set_private_mode(mode: PrivateMode),
    set_scp(path: ScpCharPath, update: ScpUpdateMode),
    set_scrolling_region(top: usize, bottom: Option<usize>), set_tabs(interval: u16),
    set_title(title: Option<String>), terminal_attribute(attribute: Attr), unset_mode(mode: Mode),
    unset_private_mode(mode: PrivateMode),
}
