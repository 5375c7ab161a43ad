// Written by tools/erase from crates/vte_core/src/reader.rt: edit that one.
//! Reads the bytes of a call, and reports events. Contracts count both as *looks*.
//!
//! Other modules read bytes only by functions of this one. A function of the parser that takes a
//! byte and its position doesn't read that byte again: its caller has read it.

mod advance;
#[cfg(any(feature = "std", feature = "ansi"))]
mod advance_long;
mod counted_perform;
mod granularity;
mod run;
mod run_blocks;
mod run_end;
mod search;

use crate::adapter::array_vec::{ArrayVec, CapacityError};
use crate::prelude::{first_chunk, memchr};
#[cfg(any(feature = "std", feature = "ansi"))]
use crate::prelude::{AllocError, Vec};
use crate::proved::vte_core::class::ESCAPE;
use core::str;
pub(crate) use counted_perform::CountedPerform;
pub(crate) use granularity::Granularity;
pub use granularity::{ByCharacter, InRuns};
pub use run::{Run, Taken};
pub(crate) use run::{RunKind, RunRange};

/// Reads the bytes of a call and reports events. It takes no space at run time: only Rattle's
/// contracts need its count.
#[derive(Clone, Copy)]
pub(crate) struct Reader {}

/// Sixteen bytes (`current`), and those one, two and three places before each of them.
pub(crate) struct Window {
    pub(crate) three_back: [u8; 16],
    pub(crate) two_back: [u8; 16],
    pub(crate) one_back: [u8; 16],
    pub(crate) current: [u8; 16],
}

/// Returns the bytes up to a position.
#[inline(always)]
pub(crate) fn take_prefix(input: &[u8], to: usize) -> &[u8] {
    &input[..to]
}

/// Returns the text from one position to another.
///
/// # Safety
///
/// The bytes between the positions must be whole characters. They are if a search for the end of a
/// run ended at `to`, and started at `from` or after whole characters that begin at `from`. Such a
/// search passes whole characters: a byte of ASCII, or a lead byte with all its continuation bytes,
/// the first of which `may_begin_three` and `may_begin_four` test. It also passes blocks whose
/// bytes all fit, as `may_follow` tests. If a block ends inside a character, the search goes back
/// to the start of that character.
#[inline(always)]
#[allow(unsafe_code)]
pub(crate) unsafe fn text_between(bytes: &[u8], from: usize, to: usize) -> &str {
    let bytes = &bytes[from..to];
    debug_assert!(str::from_utf8(bytes).is_ok());
    // SAFETY: this is what the caller promises.
    unsafe { str::from_utf8_unchecked(bytes) }
}

/// Returns the data from one position to another.
#[inline(always)]
fn data_between(bytes: &[u8], from: usize, to: usize) -> &[u8] {
    &bytes[from..to]
}

/// Returns the run in a range of the bytes.
///
/// # Safety
///
/// The bytes of a run of text must be whole characters, as [`text_between`] says.
#[allow(unsafe_code)]
unsafe fn take_run(bytes: &[u8], range: RunRange) -> Run<'_> {
    let taken = match range.kind {
        // SAFETY: this is what the caller promises.
        RunKind::Text => Taken::Text(unsafe { text_between(bytes, range.start, range.end) }),
        RunKind::Data => Taken::Data(data_between(bytes, range.start, range.end)),
        RunKind::Nothing => Taken::Nothing,
    };
    Run {
        start: range.start,
        end: range.end,
        taken,
    }
}

impl Reader {
    /// Adds to the count, which only contracts read.
    fn count_looks(self, count: usize) {
        let _ = count;
    }

    /// Returns the byte at an index.
    pub(crate) fn byte_at(self, input: &[u8], index: usize) -> u8 {
        self.count_looks(1);
        input[index]
    }

    /// Returns the byte at an index, or `None` past the end.
    #[inline(always)]
    pub(crate) fn get_byte(self, input: &[u8], index: usize) -> Option<u8> {
        let byte = *input.get(index)?;
        self.count_looks(1);
        Some(byte)
    }

    /// Returns a copy of the `N` bytes from a position on, or `None` if there are fewer.
    #[inline(always)]
    pub(crate) fn get_block<const N: usize>(self, input: &[u8], from: usize) -> Option<[u8; N]> {
        let block = *first_chunk::<N>(&input[from..])?;
        self.count_looks(N);
        Some(block)
    }

    /// Returns the 19 bytes from a position on, or `None` if there are fewer. Each array is loaded
    /// from the input, because loads from a copy would span two stores and wait for both.
    #[inline(always)]
    pub(crate) fn get_window(self, input: &[u8], from: usize) -> Option<Window> {
        let bytes = first_chunk::<19>(&input[from..])?;
        let window = Window {
            three_back: *first_chunk::<16>(bytes)?,
            two_back: *first_chunk::<16>(&bytes[1..])?,
            one_back: *first_chunk::<16>(&bytes[2..])?,
            current: *first_chunk::<16>(&bytes[3..])?,
        };
        self.count_looks(19);
        Some(window)
    }

    /// Returns the position of the first ESC from a position on, or the length if there is none.
    pub(crate) fn find_escape(self, input: &[u8], from: usize) -> usize {
        let rest = &input[from..];
        match memchr(ESCAPE, rest) {
            Some(distance) => {
                self.count_looks(distance + 1);
                from + distance
            }
            None => {
                self.count_looks(rest.len());
                input.len()
            }
        }
    }

    /// Reports a whole character.
    #[inline(always)]
    pub(crate) fn report_character<P: CountedPerform<G> + ?Sized, G: Granularity>(
        self,
        performer: &mut P,
        c: char,
    ) {
        match c {
            '\u{0}'..='\u{1f}' | '\u{80}'..='\u{9f}' => performer.execute_control(self, c as u8),
            _ => performer.print_char(self, c),
        }
    }

    /// Reports a byte that is neither printed nor a lead byte: it is a control, or malformed by
    /// itself.
    #[inline(always)]
    pub(crate) fn report_lone_byte<P: CountedPerform<G> + ?Sized, G: Granularity>(
        self,
        performer: &mut P,
        byte: u8,
    ) {
        match byte {
            0x00..=0x1f | 0x80..=0x9f => performer.execute_control(self, byte),
            _ => performer.print_char(self, char::REPLACEMENT_CHARACTER),
        }
    }

    /// Reports the data from one position to another.
    #[inline(always)]
    pub(crate) fn report_data<P: CountedPerform<G> + ?Sized, G: Granularity>(
        self,
        performer: &mut P,
        input: &[u8],
        from: usize,
        to: usize,
    ) {
        performer.put_slice(self, data_between(input, from, to));
    }

    /// Appends the bytes from one position to another to an array that has room for them.
    pub(crate) fn copy_to_array<const N: usize>(
        self,
        input: &[u8],
        from: usize,
        to: usize,
        array: &mut ArrayVec<u8, N>,
    ) -> Result<(), CapacityError> {
        self.count_looks(to - from);
        array.try_extend_from_slice(&input[from..to])
    }
}

#[cfg(any(feature = "std", feature = "ansi"))]
impl Reader {
    /// Appends the bytes from one position to another to a vector that has memory for them.
    pub(crate) fn copy_to_vec(
        self,
        input: &[u8],
        from: usize,
        to: usize,
        vec: &mut Vec<u8>,
    ) -> Result<(), AllocError> {
        self.count_looks(to - from);
        vec.extend_from_slice(&input[from..to])
    }
}
