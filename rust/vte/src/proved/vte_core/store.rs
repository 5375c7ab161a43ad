// Written by tools/erase from crates/vte_core/src/store.rt: edit that one.
//! The store of an operating system command.

use crate::adapter::array_vec::ArrayVec;
#[cfg(any(feature = "std", feature = "ansi"))]
use crate::prelude::Vec;
use crate::proved::vte_core::buffer::Buffer;
use crate::proved::vte_core::reader::{CountedPerform, Granularity, Reader};

/// How many pieces of a command are kept.
pub(crate) const MAX_PIECES: usize = 16;

/// The items of a command, as far as they are kept.
#[derive(Clone)]
pub(crate) struct CommandStore<B: Buffer> {
    /// The data bytes, without the `;` between the pieces.
    bytes: B,
    /// The ends of the first 16 pieces in them.
    ends: ArrayVec<usize, MAX_PIECES>,
    /// Whether data bytes were dropped.
    lost: bool,
}

impl<B: Buffer> CommandStore<B> {
    /// Creates a store without items, over a buffer.
    pub(crate) const fn new(bytes: B) -> Self {
        CommandStore {
            bytes,
            ends: ArrayVec::new(),
            lost: false,
        }
    }

    /// Removes all items, as before a command. Their memory stays.
    pub(crate) fn clear(&mut self) {
        self.remove_items();
        self.lost = false;
    }

    /// Removes all items, but keeps whether data bytes were dropped. Their memory stays.
    pub(crate) fn remove_items(&mut self) {
        self.ends.clear();
        self.bytes.clear();
    }

    /// Returns whether data bytes were dropped.
    pub(crate) fn has_lost_data(&self) -> bool {
        self.lost
    }

    /// Reserves memory for `more` data bytes. Returns whether it succeeded.
    pub(crate) fn reserve(&mut self, more: usize) -> bool {
        self.bytes.reserve(more)
    }

    /// Reserves memory for `more` data bytes, unless they are dropped because 16 pieces have ended.
    /// Returns `false` only if memory is refused.
    pub(crate) fn reserve_if_kept(&mut self, more: usize) -> bool {
        self.ends.is_full() || self.reserve(more)
    }

    /// Ends a piece at a `;`, if there is room.
    pub(crate) fn end_piece(&mut self) {
        if !self.ends.is_full() && !self.bytes.is_full() {
            self.ends.push(self.bytes.bytes().len());
        }
    }

    /// Adds the data bytes of an input from one position to another, as many as there is room for.
    /// Adds none after 16 pieces.
    pub(crate) fn push_data(&mut self, reader: Reader, input: &[u8], from: usize, to: usize) {
        let before = self.bytes.bytes().len();
        if !self.ends.is_full() {
            self.bytes.append(reader, input, from, to);
        }
        self.lost |= self.bytes.bytes().len() - before < to - from;
    }

    /// Dispatches the command with its pieces.
    pub(crate) fn dispatch<P: CountedPerform<G> + ?Sized, G: Granularity>(
        &self,
        reader: Reader,
        performer: &mut P,
        bell_terminated: bool,
    ) {
        let (bytes, ends) = (self.bytes.bytes(), self.ends.as_slice());
        // Most commands have one piece or two.
        match ends {
            [] => return performer.osc_dispatch(reader, &[bytes], bell_terminated),
            [end] => {
                let pieces = [&bytes[..*end], &bytes[*end..]];
                return performer.osc_dispatch(reader, &pieces, bell_terminated);
            }
            _ => {}
        }
        let mut pieces: [&[u8]; MAX_PIECES] = [&[]; MAX_PIECES];
        let mut start = 0;
        for (index, end) in ends.iter().enumerate() {
            pieces[index] = &bytes[start..*end];
            start = *end;
        }
        let mut count = ends.len();
        if count < MAX_PIECES {
            pieces[count] = &bytes[start..];
            count += 1;
        }
        performer.osc_dispatch(reader, &pieces[..count], bell_terminated);
    }
}

#[cfg(feature = "__own")]
impl<const N: usize> CommandStore<Option<ArrayVec<u8, N>>> {
    /// Returns the data bytes, the ends of the first 16 pieces in them, and whether data bytes were
    /// dropped.
    pub(crate) fn raw_parts(&self) -> (&[u8], &[usize], bool) {
        let bytes = match &self.bytes {
            Some(bytes) => bytes.as_slice(),
            None => &[],
        };
        (bytes, self.ends.as_slice(), self.lost)
    }

    /// Replaces what is stored. The ends are left out if they can't be ends of pieces.
    pub(crate) fn restore(&mut self, bytes: &[u8], ends: &[usize], lost: bool) {
        self.ends.clear();
        self.bytes = Some(ArrayVec::new());
        if let Some(array) = &mut self.bytes {
            // A saved parser has at most N bytes, so all fit.
            let _ = array.try_extend_from_slice(bytes);
        }
        if are_piece_ends(ends, bytes.len()) {
            let _ = self.ends.try_extend_from_slice(ends);
        }
        self.lost = lost;
    }
}

#[cfg(any(feature = "std", feature = "ansi"))]
impl CommandStore<Vec<u8>> {
    /// Returns how many data bytes it has.
    #[inline]
    #[cfg(any(feature = "__own", feature = "ansi"))]
    pub(crate) fn len(&self) -> usize {
        self.bytes.len()
    }

    /// Frees the memory that the data bytes don't need.
    #[inline]
    pub(crate) fn shrink_to_fit(&mut self) {
        self.bytes.shrink_to_fit();
    }
}

/// Returns whether pieces with this many bytes in all can end at these positions, which are at most
/// 16.
#[cfg(feature = "__own")]
fn are_piece_ends(ends: &[usize], count: usize) -> bool {
    ends.windows(2).all(|pair| pair[0] <= pair[1]) && ends.iter().all(|end| *end <= count)
}
