// Written by tools/erase from crates/vte_core/src/stream_parts/iter.rt: edit that one.
//! The iterator over parts.

use crate::prelude::memchr;
use crate::proved::vte_core::class::ESCAPE;
use core::iter::FusedIterator;

/// An iterator over the parts of a stream, which `parts` returns.
#[derive(Clone, Debug)]
pub struct Parts<'a> {
    rest: &'a [u8],
    size: usize,
}

impl<'a> Parts<'a> {
    pub(crate) fn new(stream: &'a [u8], size: usize) -> Self {
        Parts { rest: stream, size }
    }
}

impl<'a> Iterator for Parts<'a> {
    type Item = &'a [u8];

    fn next(&mut self) -> Option<&'a [u8]> {
        if self.rest.is_empty() {
            return None;
        }
        let cut = find_next_escape(self.rest, self.size);
        // The ESC is in this part and in the next.
        let part = &self.rest[..self.rest.len().min(cut + 1)];
        self.rest = &self.rest[cut..];
        Some(part)
    }
}

impl<'a> FusedIterator for Parts<'a> {}

/// Returns the position of the first ESC from a position on, or the length if there is none.
fn find_next_escape(stream: &[u8], from: usize) -> usize {
    let from = from.min(stream.len());
    match memchr(ESCAPE, &stream[from..]) {
        Some(distance) => from + distance,
        None => stream.len(),
    }
}
