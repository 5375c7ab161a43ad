// Written by tools/erase from crates/event_log/src/lines.rt: edit that one.
//! A buffer of lines or text, each appended whole or not at all.

mod fields;
mod hex;

use crate::array_vec::ArrayVec;
pub(crate) use hex::{line_of_execute, line_of_put};

/// The size of a buffer.
const CAPACITY: usize = 8192;

/// A buffer of 8,192 bytes for lines or text, each appended whole or not at all.
///
/// What doesn't fit is dropped. The buffer never allocates.
pub struct LogBuffer {
    /// What was appended, and after it what has been pushed of the next line.
    bytes: ArrayVec<u8, CAPACITY>,
    /// The start of the line that is being written.
    start: usize,
    /// Whether all of it has fitted so far.
    fits: bool,
    /// Whether anything was dropped since the last `clear`.
    lost: bool,
}

impl LogBuffer {
    /// Creates an empty buffer.
    pub fn new() -> Self {
        LogBuffer {
            bytes: ArrayVec::new(),
            start: 0,
            fits: true,
            lost: false,
        }
    }

    /// Returns what was appended.
    pub fn bytes(&self) -> &[u8] {
        self.bytes.as_slice()
    }

    /// Returns the number of bytes that still fit.
    pub(crate) fn remaining_capacity(&self) -> usize {
        CAPACITY - self.bytes.len()
    }

    /// Returns whether more than half of the capacity is in use: then the bytes should be written.
    pub(crate) fn is_to_be_written(&self) -> bool {
        self.bytes.len() > CAPACITY / 2
    }

    /// Removes all bytes, and forgets that any was lost.
    pub fn clear(&mut self) {
        self.bytes.clear();
        self.lost = false;
    }

    /// Appends a text, or drops it if there isn't room for all of it.
    #[inline]
    pub fn append(&mut self, text: &[u8]) {
        if self.bytes.try_extend_from_slice(text).is_err() {
            self.lost = true;
        }
    }

    /// Begins a line. What is pushed until `end` belongs to it.
    pub(crate) fn begin(&mut self) {
        self.start = self.bytes.len();
        self.fits = true;
    }

    /// Adds a text to the line, if it fits and everything before it in the line did.
    pub(crate) fn push(&mut self, text: &[u8]) {
        if self.fits {
            self.fits = self.bytes.try_extend_from_slice(text).is_ok();
        }
    }

    /// Ends the line, and removes it if it didn't fit.
    pub(crate) fn end(&mut self) {
        if !self.fits {
            self.bytes.truncate(self.start);
            self.lost = true;
        }
    }
}
