// Written by tools/erase from crates/vte/src/ansi/updates/long_parsing.rt: edit that one.
//! The parser of a processor without a limit. It allocates before it reads, so that no memory is
//! refused while it reads.

use crate::proved::vte::ansi::calls::joined_text::SEPARATORS;
use crate::proved::vte::ansi::calls::performer::Performer;
use crate::proved::vte::ansi::calls::text_buffer::TextBuffer;
use crate::proved::vte::ansi::updates::parsing::{EventParser, ParseAs};
use crate::proved::vte_core::{ByCharacter, InRuns, LongParser, Refused};
use crate::proved::vte_handler::{Handler, HandlerText, Timeout};

impl EventParser for LongParser {
    fn reserve<B: TextBuffer>(&mut self, text: &mut B, held: usize, more: usize) -> bool {
        let count = match held.checked_add(more) {
            Some(count) => count,
            _ => return false,
        };
        if !LongParser::reserve(self, count) {
            return false;
        }
        match joined_size(self.stored(), count) {
            Some(size) => text.reserve(size),
            None => false,
        }
    }
}

/// Returns the largest size of a text that is joined from `stored` bytes and `more` that come, or
/// `None` if that overflows.
fn joined_size(stored: usize, more: usize) -> Option<usize> {
    stored.checked_add(more)?.checked_add(SEPARATORS)
}

impl<H: Handler + ?Sized, T: Timeout> ParseAs<H, T, LongParser> for ByCharacter {
    #[inline(always)]
    fn advance<B: TextBuffer>(
        parser: &mut LongParser,
        performer: &mut Performer<'_, '_, H, T, B, Self>,
        bytes: &[u8],
    ) {
        // The engine has reserved memory for these bytes, so none is refused.
        let _ = parser.advance(performer, bytes);
    }

    #[inline(always)]
    fn advance_until_begin<B: TextBuffer>(
        parser: &mut LongParser,
        performer: &mut Performer<'_, '_, H, T, B, Self>,
        bytes: &[u8],
    ) -> usize {
        match parser.advance_until_terminated(performer, bytes) {
            // The engine has reserved memory for these bytes, so none is refused.
            Ok(read) | Err(Refused { read }) => read,
        }
    }
}

impl<H: HandlerText + ?Sized, T: Timeout> ParseAs<H, T, LongParser> for InRuns {
    #[inline(always)]
    fn advance<B: TextBuffer>(
        parser: &mut LongParser,
        performer: &mut Performer<'_, '_, H, T, B, Self>,
        bytes: &[u8],
    ) {
        // The engine has reserved memory for these bytes, so none is refused.
        let _ = parser.advance_text(performer, bytes);
    }

    #[inline(always)]
    fn advance_until_begin<B: TextBuffer>(
        parser: &mut LongParser,
        performer: &mut Performer<'_, '_, H, T, B, Self>,
        bytes: &[u8],
    ) -> usize {
        match parser.advance_text_until_terminated(performer, bytes) {
            // The engine has reserved memory for these bytes, so none is refused.
            Ok(read) | Err(Refused { read }) => read,
        }
    }
}
