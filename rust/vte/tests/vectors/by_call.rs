//! The same lines from calls as values, which the handler of one function receives.

use vte::ansi::lent::{Handler, HandlerCall, TakeCall, TakeText};
use vte::ansi::HandlerText;

use super::call_lines::{CallLines, Lent};

/// Writes a line for each call that it takes.
pub struct Values<'a>(pub &'a mut CallLines);

impl TakeCall for Values<'_> {
    fn take(&mut self, call: HandlerCall<'_>) {
        let mut lines = Lent(self.0);
        match call {
            HandlerCall::Input(c) => lines.input(c),
            HandlerCall::SetTitle(title) => lines.set_title(title),
            HandlerCall::DynamicColorSequence(prefix, index, terminator) => {
                lines.dynamic_color_sequence(prefix, index, terminator);
            }
            HandlerCall::ClipboardStore(clipboard, data) => lines.clipboard_store(clipboard, data),
            HandlerCall::ClipboardLoad(clipboard, end) => lines.clipboard_load(clipboard, end),
            HandlerCall::SetHyperlink(link) => lines.set_hyperlink(link),
            HandlerCall::PushKeyboardMode(modes) => lines.push_keyboard_mode(modes),
            HandlerCall::SetKeyboardMode(modes, act) => lines.set_keyboard_mode(modes, act),
            other => lines.push(format_args!("{}", line_of(&format!("{other:?}")))),
        }
    }
}

/// The line of a call with this debug text: `goto_col 1` of `GotoCol(1)`.
fn line_of(call: &str) -> String {
    let (mut line, mut depth) = (String::new(), 0);
    for c in call.chars() {
        depth += match c {
            '(' | '{' => 1,
            ')' | '}' => -1,
            _ => 0,
        };
        match (c, depth) {
            // the end, and commas between arguments, after which there are blanks
            (')', 0) | (',', 1) => {}
            ('(', 1) => line.push(' '),
            ('A'..='Z', 0) if line.is_empty() => line.push(c.to_ascii_lowercase()),
            ('A'..='Z', 0) => line.extend(['_', c.to_ascii_lowercase()]),
            _ => line.push(c),
        }
    }
    line
}

impl TakeText for Values<'_> {
    fn take_text(&mut self, text: &str) {
        Lent(self.0).input_text(text);
    }
}
