//! Prints the sequences of standard input that make no call of a handler: `vte` logs them, and this
//! crate logs nothing.
//!
//! `printf 'a\033[5i\033[1m' | cargo run --example unknown --features ansi`

use std::io::{self, Read, Write};
use std::time::Duration;

use vte::ansi::cursor_icon::CursorIcon;
use vte::ansi::lent::{Handler, Hyperlink};
use vte::ansi::{
    Attr, CharsetIndex, ClearMode, CursorShape, CursorStyle, KeyboardModes,
    KeyboardModesApplyBehavior, LineClearMode, Mode, ModifyOtherKeys, PrivateMode, Processor, Rgb,
    ScpCharPath, ScpUpdateMode, StandardCharset, TabulationClearMode, Timeout,
};
use vte::{Params, Parser, Perform};

/// Stops the parser after each event, and describes the sequences.
#[derive(Default)]
struct Seen {
    came: bool,
    sequence: Option<String>,
}

impl Perform for Seen {
    fn print(&mut self, _: char) {
        self.came = true;
    }

    fn execute(&mut self, _: u8) {
        self.came = true;
    }

    fn hook(&mut self, params: &Params, intermediates: &[u8], _: bool, action: char) {
        self.came = true;
        self.sequence = Some(format!("hook {params:?} {intermediates:02x?} {action:?}"));
    }

    fn osc_dispatch(&mut self, params: &[&[u8]], _: bool) {
        let pieces: Vec<_> = params
            .iter()
            .map(|it| String::from_utf8_lossy(it))
            .collect();
        self.came = true;
        self.sequence = Some(format!("osc_dispatch {pieces:?}"));
    }

    fn csi_dispatch(&mut self, params: &Params, intermediates: &[u8], _: bool, action: char) {
        self.came = true;
        self.sequence = Some(format!(
            "csi_dispatch {params:?} {intermediates:02x?} {action:?}"
        ));
    }

    fn esc_dispatch(&mut self, intermediates: &[u8], _: bool, byte: u8) {
        self.came = true;
        // ST, the end of a string, isn't unknown
        if (intermediates, byte) != (&[], b'\\') {
            self.sequence = Some(format!("esc_dispatch {intermediates:02x?} {byte:02x}"));
        }
    }

    fn terminated(&self) -> bool {
        self.came
    }
}

/// Whether a call came. `substitute` doesn't count: SUB makes it, and a sequence that SUB cancels
/// comes with it.
#[derive(Default)]
struct Called(bool);

macro_rules! calls {
    ($($call:ident($($argument:ty),*))*) => {
        impl Handler for Called {
            $(fn $call(&mut self $(, _: $argument)*) {
                self.0 = true;
            })*
        }
    };
}

calls! {
    input(char) bell() backspace() put_tab(u16) linefeed() carriage_return() newline()
    goto(i32, usize) goto_line(i32) goto_col(usize) move_up(usize) move_down(usize)
    move_forward(usize) move_backward(usize) move_down_and_cr(usize) move_up_and_cr(usize)
    save_cursor_position() restore_cursor_position() reverse_index() scroll_up(usize)
    scroll_down(usize) set_scrolling_region(usize, Option<usize>) set_horizontal_tabstop()
    clear_tabs(TabulationClearMode) set_tabs(u16) move_forward_tabs(u16) move_backward_tabs(u16)
    insert_blank(usize) insert_blank_lines(usize) delete_chars(usize) delete_lines(usize)
    erase_chars(usize) clear_line(LineClearMode) clear_screen(ClearMode) decaln()
    terminal_attribute(Attr) set_color(usize, Rgb) reset_color(usize)
    dynamic_color_sequence(&str, usize, &str) set_hyperlink(Option<Hyperlink<'_>>)
    set_cursor_style(Option<CursorStyle>) set_cursor_shape(CursorShape)
    set_mouse_cursor_icon(CursorIcon) set_active_charset(CharsetIndex)
    configure_charset(CharsetIndex, StandardCharset) set_scp(ScpCharPath, ScpUpdateMode)
    set_mode(Mode) unset_mode(Mode) report_mode(Mode) set_private_mode(PrivateMode)
    unset_private_mode(PrivateMode) report_private_mode(PrivateMode) reset_state()
    set_keypad_application_mode() unset_keypad_application_mode()
    push_keyboard_mode(KeyboardModes) pop_keyboard_modes(u16)
    set_keyboard_mode(KeyboardModes, KeyboardModesApplyBehavior) report_keyboard_mode()
    set_modify_other_keys(ModifyOtherKeys) report_modify_other_keys() set_title(Option<&str>)
    push_title() pop_title() clipboard_store(u8, &[u8]) clipboard_load(u8, &str)
    device_status(usize) identify_terminal(Option<char>) text_area_size_pixels()
    text_area_size_chars()
}

/// A timeout that is never pending, so that no bytes are held back.
#[derive(Default)]
struct Never;

impl Timeout for Never {
    fn set_timeout(&mut self, _: Duration) {}

    fn clear_timeout(&mut self) {}

    fn pending_timeout(&self) -> bool {
        false
    }
}

/// Writes a line for each sequence that makes no call.
pub fn write_unknown(mut input: impl Read, mut output: impl Write) -> io::Result<()> {
    let mut parser = Parser::new();
    let mut processor = Processor::new();
    let mut room = [0; 4096];
    loop {
        let count = input.read(&mut room)?;
        if count == 0 {
            return Ok(());
        }
        write_unknown_of(&mut parser, &mut processor, &room[..count], &mut output)?;
    }
}

/// Writes those of some bytes, which parser and processor get one event at a time.
fn write_unknown_of(
    parser: &mut Parser,
    processor: &mut Processor<Never>,
    mut bytes: &[u8],
    output: &mut impl Write,
) -> io::Result<()> {
    while !bytes.is_empty() {
        let (mut seen, mut called) = (Seen::default(), Called::default());
        let read = parser.advance_until_terminated(&mut seen, bytes);
        processor.advance(&mut called, &bytes[..read]);
        if let (Some(sequence), false) = (seen.sequence, called.0) {
            writeln!(output, "{sequence}")?;
        }
        bytes = &bytes[read..];
    }
    Ok(())
}

fn main() -> io::Result<()> {
    write_unknown(io::stdin().lock(), io::stdout().lock())
}
