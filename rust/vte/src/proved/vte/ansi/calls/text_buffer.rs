// Written by tools/erase from crates/vte/src/ansi/calls/text_buffer.rt: edit that one.
//! The buffer for a text that is joined from pieces.

use crate::adapter::array_string::ArrayString;

/// Holds a text, up to its size.
pub(crate) trait TextBuffer {
    /// Returns how many bytes the text may have.
    fn capacity(&self) -> usize;

    /// Makes room for a text of `size` bytes. Returns whether it succeeded.
    fn reserve(&mut self, size: usize) -> bool;

    /// Empties the text. Its size stays.
    fn clear(&mut self);

    /// Appends a character of one byte.
    fn push(&mut self, c: char);

    /// Appends a text.
    fn push_str(&mut self, part: &str);

    /// Returns the text.
    fn as_str(&self) -> &str;
}

impl<const N: usize> TextBuffer for ArrayString<N> {
    fn capacity(&self) -> usize {
        self.capacity()
    }

    fn reserve(&mut self, size: usize) -> bool {
        size <= self.capacity()
    }

    fn clear(&mut self) {
        self.clear();
    }

    fn push(&mut self, c: char) {
        self.push(c);
    }

    fn push_str(&mut self, part: &str) {
        self.push_str(part);
    }

    fn as_str(&self) -> &str {
        self.as_str()
    }
}
