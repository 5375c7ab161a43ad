// Written by tools/erase from crates/vte_core/src/reader/search.rt: edit that one.
//! Searches for the byte that ends data, a text or a string.
//!
//! Ignored strings may hold megabytes, so they are searched by blocks. Their first bytes are read
//! one by one before any block is tried, so that no byte is read often. Bytes are read only by
//! `byte_at`, `get_block` and `find_escape`, which count them.

use crate::proved::vte_core::class::{cannot_end, ends_sequence, is_command_data, is_device_data};
use crate::proved::vte_core::reader::{take_prefix, Reader};

impl Reader {
    /// Returns the end of the data of an operating system command that starts at `from`: the
    /// position of the next `;` or control, or the length of the input.
    pub(crate) fn find_command_data_end(self, input: &[u8], from: usize) -> usize {
        for end in from..input.len() {
            if !is_command_data(self.byte_at(input, end)) {
                return end;
            }
        }
        input.len()
    }

    /// Returns the end of the data of a device control string that starts at `from`: the position
    /// of the next byte that isn't put, or the length of the input.
    pub(crate) fn find_device_data_end(self, input: &[u8], from: usize) -> usize {
        for end in from..input.len() {
            if !is_device_data(self.byte_at(input, end)) {
                return end;
            }
        }
        input.len()
    }

    /// Returns the end of the bytes of a text that are read next: the position after the next ESC,
    /// or the end of the search if it found none.
    // Inlined, it would make the loop over bytes longer.
    #[inline(never)]
    pub(crate) fn find_text_part_end<const MAY_STOP: bool>(
        self,
        input: &[u8],
        text_start: usize,
        from: usize,
    ) -> usize {
        let to = if MAY_STOP {
            // After a stop, searched bytes may be unread, so no more are searched than were read.
            from + (from - text_start).min(input.len() - from)
        } else {
            input.len()
        };
        let escape = self.find_escape(take_prefix(input, to), from);
        escape + usize::from(escape < to)
    }

    /// Returns the position of the CAN, SUB or ESC that ends an ignored string, or the length of
    /// the input if it has none from `from` on.
    pub(crate) fn find_ignored_string_end(self, input: &[u8], from: usize) -> usize {
        let near_end = input.len().min(from + 8);
        let mut end = self.find_ending_byte(input, from, near_end);
        if end - from < 8 {
            return end;
        }
        while let Some(block) = self.get_block::<16>(input, end) {
            if !is_ignored_block(&block) {
                break;
            }
            end += 16;
        }
        self.find_ending_byte(input, end, input.len())
    }

    /// Returns the position of the first CAN, SUB or ESC from `from` on, or `to` if there is none
    /// before it.
    #[inline(always)]
    fn find_ending_byte(self, input: &[u8], from: usize, to: usize) -> usize {
        for end in from..to {
            if ends_sequence(self.byte_at(input, end)) {
                return end;
            }
        }
        to
    }
}

/// Returns whether none of 16 bytes can end a string.
#[inline(always)]
fn is_ignored_block(block: &[u8; 16]) -> bool {
    let mut all = true;
    for byte in block {
        all &= cannot_end(*byte);
    }
    all
}
