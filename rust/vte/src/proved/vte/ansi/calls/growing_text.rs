// Written by tools/erase from crates/vte/src/ansi/calls/growing_text.rt: edit that one.
//! A text whose buffer grows on request.

use crate::prelude::String;
use crate::proved::vte::ansi::calls::text_buffer::TextBuffer;

/// A joined text, in a buffer of the size that was asked for.
#[derive(Clone)]
pub(crate) struct GrowingText {
    text: String,
    /// The size that was asked for, in bytes.
    size: usize,
}

impl GrowingText {
    /// Creates an empty text. It doesn't allocate.
    #[inline]
    pub(crate) fn new() -> Self {
        GrowingText {
            text: String::new(),
            size: 0,
        }
    }

    /// Frees its memory.
    #[inline]
    pub(crate) fn free(&mut self) {
        self.text.clear();
        self.text.shrink_to_fit();
        self.size = 0;
    }
}

impl TextBuffer for GrowingText {
    #[inline]
    fn capacity(&self) -> usize {
        self.size
    }

    #[inline]
    fn reserve(&mut self, size: usize) -> bool {
        if size <= self.size {
            return true;
        }
        self.text.clear();
        if self.text.reserve(size).is_err() {
            return false;
        }
        self.size = size;
        true
    }

    #[inline]
    fn clear(&mut self) {
        self.text.clear();
    }

    #[inline]
    fn push(&mut self, c: char) {
        // The contract requires room for it.
        let _ = self.text.push(c);
    }

    #[inline]
    fn push_str(&mut self, part: &str) {
        // The contract requires room for it.
        let _ = self.text.push_str(part);
    }

    #[inline]
    fn as_str(&self) -> &str {
        self.text.as_str()
    }
}
