// Written by tools/erase from crates/vte_core/src/buffer.rt: edit that one.
//! The buffer for the data bytes of an operating system command.

use crate::adapter::array_vec::ArrayVec;
#[cfg(any(feature = "std", feature = "ansi"))]
use crate::prelude::Vec;
use crate::proved::vte_core::reader::Reader;

/// Holds bytes, up to a limit or as many as there is memory for.
pub(crate) trait Buffer {
    /// Returns the stored bytes.
    fn bytes(&self) -> &[u8];

    /// Drops the stored bytes. Their memory stays.
    fn clear(&mut self);

    /// Returns whether the limit is reached.
    fn is_full(&self) -> bool;

    /// Reserves memory for `more` bytes. Returns whether it succeeded. With a limit, it always
    /// does.
    fn reserve(&mut self, more: usize) -> bool;

    /// Adds the bytes of an input from one position to another, up to the limit.
    fn append(&mut self, reader: Reader, input: &[u8], from: usize, to: usize);
}

/// An array that is made when the first byte comes: clearing one takes time, and a parser that C
/// makes for one call seldom needs it.
impl<const N: usize> Buffer for Option<ArrayVec<u8, N>> {
    fn bytes(&self) -> &[u8] {
        match self {
            Some(bytes) => bytes.as_slice(),
            None => &[],
        }
    }

    fn clear(&mut self) {
        if let Some(bytes) = self {
            bytes.clear();
        }
    }

    fn is_full(&self) -> bool {
        self.bytes().len() >= N
    }

    fn reserve(&mut self, _more: usize) -> bool {
        true
    }

    fn append(&mut self, reader: Reader, input: &[u8], from: usize, to: usize) {
        if self.is_none() {
            *self = Some(ArrayVec::new());
        }
        if let Some(bytes) = self {
            let kept = (to - from).min(bytes.remaining_capacity());
            // No more bytes than there is room for are copied, so all fit.
            let _ = reader.copy_to_array(input, from, from + kept, bytes);
        }
    }
}

#[cfg(any(feature = "std", feature = "ansi"))]
impl Buffer for Vec<u8> {
    #[inline]
    fn bytes(&self) -> &[u8] {
        self.as_slice()
    }

    #[inline]
    fn clear(&mut self) {
        self.clear();
    }

    #[inline]
    fn is_full(&self) -> bool {
        false
    }

    #[inline]
    fn reserve(&mut self, more: usize) -> bool {
        self.reserve(more).is_ok()
    }

    #[inline]
    fn append(&mut self, reader: Reader, input: &[u8], from: usize, to: usize) {
        // The caller has reserved memory for these bytes, so all fit.
        let _ = reader.copy_to_vec(input, from, to, self);
    }
}
