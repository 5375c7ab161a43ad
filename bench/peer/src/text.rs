//! What strips a stream of sequences into memory, as a parser's performer and as a processor's
//! handler, and what does a part of that.

use std::hint::black_box;

use vte::Perform;
use vte::ansi::Handler;

use crate::checksum::Checksum;

#[derive(Default)]
pub struct Text(Vec<u8>);

impl Text {
    /// Folds the length of the text.
    pub fn checksum(self) -> Checksum {
        let mut checksum = Checksum::default();
        checksum.fold(self.0.len() as u64);
        checksum
    }

    pub fn clear(&mut self) {
        self.0.clear();
    }
}

/// Only checks text, without the rest of a character that an earlier chunk has begun.
pub struct Checker;

impl Checker {
    pub fn read(&mut self, _text: &mut Text, bytes: &[u8]) {
        let rest = bytes.iter().take_while(|byte| matches!(byte, 0x80..=0xbf));
        black_box(std::str::from_utf8(&bytes[rest.count()..]).is_ok());
    }
}

/// Only copies.
pub struct Copier;

impl Copier {
    pub fn read(&mut self, text: &mut Text, bytes: &[u8]) {
        text.0.extend_from_slice(bytes);
    }
}

impl Perform for Text {
    #[inline]
    fn print(&mut self, c: char) {
        self.0
            .extend_from_slice(c.encode_utf8(&mut [0; 4]).as_bytes());
    }

    #[inline]
    fn execute(&mut self, byte: u8) {
        if matches!(byte, b'\n' | b'\r' | b'\t') {
            self.0.push(byte);
        }
    }
}

#[cfg(runs)]
impl vte::PerformText for Text {
    fn keeps_layout(&self) -> bool {
        true
    }

    #[inline]
    fn print_text(&mut self, text: &str) {
        self.0.extend_from_slice(text.as_bytes());
    }
}

impl Handler for Text {
    #[inline]
    fn input(&mut self, c: char) {
        self.print(c);
    }

    #[inline]
    fn linefeed(&mut self) {
        self.0.push(b'\n');
    }

    #[inline]
    fn carriage_return(&mut self) {
        self.0.push(b'\r');
    }

    #[inline]
    fn put_tab(&mut self, _count: u16) {
        self.0.push(b'\t');
    }
}

#[cfg(runs)]
impl vte::ansi::HandlerText for Text {
    #[inline]
    fn input_text(&mut self, text: &str) {
        self.0.extend_from_slice(text.as_bytes());
    }
}
