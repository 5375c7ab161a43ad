// Written by tools/erase from crates/vte/src/ansi/calls/input.rt: edit that one.
//! How handlers take characters.

use crate::proved::vte_core::{ByCharacter, InRuns};
use crate::proved::vte_handler::{Handler, HandlerText};

/// A handler that takes characters as `G` says: `ByCharacter` or `InRuns`.
pub(crate) trait InputAs<G>: Handler {
    /// Receives a character to show.
    fn input_char(&mut self, c: char);
}

impl<H: Handler + ?Sized> InputAs<ByCharacter> for H {
    #[inline(always)]
    fn input_char(&mut self, c: char) {
        self.input(c);
    }
}

impl<H: HandlerText + ?Sized> InputAs<InRuns> for H {
    fn input_char(&mut self, c: char) {
        match c {
            // Never: no control is printed.
            '\u{0}'..='\u{1f}' | '\u{80}'..='\u{9f}' => self.input(c),
            _ => self.input_text(c.encode_utf8(&mut [0; 4])),
        }
    }
}
