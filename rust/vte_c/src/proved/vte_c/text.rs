// Written by tools/erase from crates/vte_c/src/text.rt: edit that one.
//! From bytes to the text that is left without the sequences.

use crate::proved::vte_c::feed::NO_ROOM;
use vte::{Params, Parser, Perform, PerformText, Saved};

/// The number of bytes of text for which there must be room: what two bytes of a stream add.
pub(crate) const MIN_TEXT: usize = 16;

/// The most bytes of text that one byte of a stream adds: one byte adds at most two characters.
const MAX_TEXT_PER_BYTE: usize = 8;

/// Writes text into the caller's buffer, as long as all of it fits.
struct TextWriter<'a> {
    bytes: &'a mut [u8],
    used: usize,
    /// Whether all of it has fitted. If not, nothing is kept.
    fits: bool,
}

impl TextWriter<'_> {
    /// Returns the number of bytes for which there is still room.
    fn remaining_room(&self) -> usize {
        self.bytes.len().saturating_sub(self.used)
    }

    /// Writes a text, if there is room for it.
    #[inline(always)]
    fn write_text(&mut self, text: &[u8]) {
        let (used, size) = (self.used, self.bytes.len());
        if self.fits && used <= size && text.len() <= size - used {
            self.bytes[used..used + text.len()].copy_from_slice(text);
            self.used = used + text.len();
        } else {
            self.used = 0;
            self.fits = false;
        }
    }
}

impl Perform for TextWriter<'_> {
    #[inline]
    fn print(&mut self, c: char) {
        self.write_text(c.encode_utf8(&mut [0; 4]).as_bytes());
    }

    fn execute(&mut self, byte: u8) {
        match byte {
            b'\t' | b'\n' | b'\r' => self.write_text(&[byte]),
            _ => self.write_text(b""),
        }
    }

    fn hook(&mut self, _params: &Params, _intermediates: &[u8], _ignore: bool, _action: char) {
        self.write_text(b"");
    }

    fn put(&mut self, _byte: u8) {
        self.write_text(b"");
    }

    fn unhook(&mut self) {
        self.write_text(b"");
    }

    fn osc_dispatch(&mut self, _params: &[&[u8]], _bell_terminated: bool) {
        self.write_text(b"");
    }

    fn csi_dispatch(
        &mut self,
        _params: &Params,
        _intermediates: &[u8],
        _ignore: bool,
        _action: char,
    ) {
        self.write_text(b"");
    }

    fn esc_dispatch(&mut self, _intermediates: &[u8], _ignore: bool, _byte: u8) {
        self.write_text(b"");
    }

    fn terminated(&self) -> bool {
        false
    }
}

impl PerformText for TextWriter<'_> {
    fn keeps_layout(&self) -> bool {
        true
    }

    #[inline]
    fn print_text(&mut self, text: &str) {
        self.write_text(text.as_bytes());
    }
}

/// Reads bytes until they end or the buffer is nearly full, and writes their text. Returns how many
/// were read.
pub(crate) fn strip(
    parser: &mut Saved,
    bytes: &[u8],
    text: &mut [u8],
    written: &mut usize,
) -> usize {
    *written = 0;
    if text.len() < MIN_TEXT {
        return NO_ROOM;
    }
    let size = text.len();
    let mut writer = TextWriter {
        bytes: text,
        used: 0,
        fits: true,
    };
    let read = read_into(parser, bytes, &mut writer);
    *written = writer.used.min(size);
    read
}

/// Reads bytes into an empty buffer, until they end or there may be no room for the text of one
/// more.
fn read_into(saved: &mut Saved, bytes: &[u8], writer: &mut TextWriter<'_>) -> usize {
    let mut parser = Parser::new();
    parser.restore(saved);
    let mut count = 0;
    // The text of a chunk fits whatever its bytes are, so no character needs a stop.
    while count < bytes.len() && writer.remaining_room() >= MAX_TEXT_PER_BYTE {
        let unread = &bytes[count..];
        let size = unread
            .len()
            .min(writer.remaining_room() / MAX_TEXT_PER_BYTE);
        let chunk = &unread[..size];
        parser.advance_text(writer, chunk);
        count += chunk.len();
    }
    parser.save(saved);
    count
}
