//! What only other crates of this repository need.
use crate::prelude::memchr;
#[cfg(any(feature = "std", feature = "ansi"))]
use crate::proved::vte_core::{LongParser, Refused};
use crate::proved::vte_core::{Parser, PerformText};

/// Returns how many bytes at the beginning a parser needn't read if nothing is open and only
/// operating system commands are wanted: those before the first ESC that may begin one, or else
/// before the last ESC, or if there is none all but the last three.
///
/// A command begins with ESC, controls if any, and `]`, so none is lost. Nor is what is open at the
/// end: each ESC ends what was open before it, and an open character has at most three bytes.
pub fn skip_to_command(bytes: &[u8]) -> usize {
    let (mut from, mut last) = (0, bytes.len().saturating_sub(3));
    while let Some(found) = memchr(0x1b, &bytes[from..]) {
        last = from + found;
        from = last + 1;
        match bytes.get(from) {
            Some(b' '..=b'~') if bytes[from] != b']' => {}
            _ => break,
        }
    }
    last
}

/// Calls of parsers that only this repository makes, because they ask more of their callers than
/// public ones, or say what only a binding needs.
pub trait InternalCalls {
    /// What a call returns that reads bytes.
    type Read;

    /// Reads bytes as `advance_until_terminated` does, and passes text in runs. Only for performers
    /// that nothing in a run terminates: they aren't asked there.
    fn advance_text_until_terminated<P: PerformText>(
        &mut self,
        performer: &mut P,
        bytes: &[u8],
    ) -> Self::Read;

    /// How many data bytes of an operating system command are stored, or may be.
    fn stored(&self) -> usize;
}

impl<const N: usize> InternalCalls for Parser<N> {
    type Read = usize;

    fn advance_text_until_terminated<P: PerformText>(
        &mut self,
        performer: &mut P,
        bytes: &[u8],
    ) -> usize {
        self.advance_text_until_terminated(performer, bytes)
    }

    fn stored(&self) -> usize {
        N
    }
}

#[cfg(any(feature = "std", feature = "ansi"))]
impl InternalCalls for LongParser {
    type Read = Result<usize, Refused>;

    fn advance_text_until_terminated<P: PerformText>(
        &mut self,
        performer: &mut P,
        bytes: &[u8],
    ) -> Result<usize, Refused> {
        self.advance_text_until_terminated(performer, bytes)
    }

    fn stored(&self) -> usize {
        self.stored()
    }
}
