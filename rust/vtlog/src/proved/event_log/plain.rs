// Written by tools/erase from crates/event_log/src/plain.rt: edit that one.
//! The performer that keeps only text.

use crate::proved::event_log::collector::{Collector, LogParser};
use crate::proved::event_log::lines::LogBuffer;
use vte::{Params, Perform, PerformText};

/// The most bytes of text that one byte of a stream adds: one byte adds at most two characters.
const MAX_TEXT_PER_BYTE: usize = 8;

/// Collects the text of a stream, without its sequences, in a buffer of 8,192 bytes.
///
/// Characters are kept as UTF-8, and HT, LF and CR as they are. A character that doesn't fit is
/// dropped. `Plain` is terminated when it holds more than 4,096 bytes.
pub struct Plain {
    texts: LogBuffer,
}

impl Plain {
    /// Creates an empty `Plain`.
    pub fn new() -> Self {
        Plain {
            texts: LogBuffer::new(),
        }
    }

    /// Returns the collected text.
    pub fn bytes(&self) -> &[u8] {
        self.texts.bytes()
    }

    /// Removes the text, and forgets that any was lost.
    pub fn clear(&mut self) {
        self.texts.clear();
    }
}

impl Perform for Plain {
    fn print(&mut self, c: char) {
        self.texts.append(c.encode_utf8(&mut [0; 4]).as_bytes());
    }

    fn execute(&mut self, byte: u8) {
        match byte {
            b'\t' | b'\n' | b'\r' => self.texts.append(&[byte]),
            _ => self.texts.append(b""),
        }
    }

    fn hook(&mut self, _params: &Params, _intermediates: &[u8], _ignore: bool, _action: char) {
        self.texts.append(b"");
    }

    fn put(&mut self, _byte: u8) {
        self.texts.append(b"");
    }

    fn unhook(&mut self) {
        self.texts.append(b"");
    }

    fn osc_dispatch(&mut self, _params: &[&[u8]], _bell_terminated: bool) {
        self.texts.append(b"");
    }

    fn csi_dispatch(
        &mut self,
        _params: &Params,
        _intermediates: &[u8],
        _ignore: bool,
        _action: char,
    ) {
        self.texts.append(b"");
    }

    fn esc_dispatch(&mut self, _intermediates: &[u8], _ignore: bool, _byte: u8) {
        self.texts.append(b"");
    }

    fn terminated(&self) -> bool {
        self.texts.is_to_be_written()
    }
}

impl PerformText for Plain {
    fn keeps_layout(&self) -> bool {
        true
    }

    fn print_text(&mut self, text: &str) {
        if text.len() <= self.texts.remaining_capacity() {
            self.texts.append(text.as_bytes());
            return;
        }
        for c in text.chars() {
            self.texts.append(c.encode_utf8(&mut [0; 4]).as_bytes());
        }
    }
}

impl Collector for Plain {
    // The text of a chunk fits whatever its bytes are, so no character needs a stop.
    fn collect<'a>(&mut self, parser: &mut LogParser, bytes: &'a [u8]) -> &'a [u8] {
        let mut unread = bytes;
        while !unread.is_empty() && !self.terminated() {
            let size = self.texts.remaining_capacity() / MAX_TEXT_PER_BYTE;
            let (chunk, rest) = unread.split_at(unread.len().min(size));
            parser.advance_text(self, chunk);
            unread = rest;
        }
        unread
    }

    fn collected_text(&self) -> &[u8] {
        self.bytes()
    }

    fn clear(&mut self) {
        self.clear();
    }
}
