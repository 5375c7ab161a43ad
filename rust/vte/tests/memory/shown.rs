//! What is read, without memory for it.

use vte::ansi::lent::Handler;
use vte::ansi::{HandlerText, PrivateMode};
use vte::{Perform, PerformText};

/// A performer and handler that doesn't allocate: what it keeps is what there is room for.
#[derive(Default)]
pub struct Shown {
    /// The characters that were printed.
    pub printed: String,
    /// The titles and the pieces of commands, with `|` for the end of an update.
    pub texts: String,
    /// How many bytes the characters, titles and pieces had, and how many titles and commands there
    /// were.
    pub bytes: usize,
    pub commands: usize,
    /// Whether the next command terminates it, and whether it is terminated.
    pub stops: bool,
    pub is_terminated: bool,
}

impl Shown {
    pub fn with_room(count: usize) -> Self {
        let mut shown = Shown::default();
        shown.printed.reserve_exact(count);
        shown.texts.reserve_exact(count);
        shown
    }
}

fn keep(text: &mut String, more: &str) {
    if more.len() <= text.capacity() - text.len() {
        text.push_str(more);
    }
}

impl Perform for Shown {
    fn print(&mut self, c: char) {
        self.print_text(c.encode_utf8(&mut [0; 4]));
    }

    fn osc_dispatch(&mut self, params: &[&[u8]], _: bool) {
        for piece in params {
            self.bytes += piece.len();
            keep(&mut self.texts, std::str::from_utf8(piece).expect("a text"));
        }
        self.commands += 1;
        self.is_terminated |= self.stops;
    }

    fn terminated(&self) -> bool {
        self.is_terminated
    }
}

impl PerformText for Shown {
    fn print_text(&mut self, text: &str) {
        self.bytes += text.len();
        keep(&mut self.printed, text);
    }
}

impl Handler for Shown {
    fn input(&mut self, c: char) {
        self.print(c);
    }

    fn set_title(&mut self, title: Option<&str>) {
        self.osc_dispatch(&[title.unwrap_or_default().as_bytes()], false);
    }

    fn unset_private_mode(&mut self, _: PrivateMode) {
        keep(&mut self.texts, "|");
    }
}

impl HandlerText for Shown {
    fn input_text(&mut self, text: &str) {
        self.print_text(text);
    }
}
