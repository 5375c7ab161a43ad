// Written by tools/erase from crates/vte/src/ansi/updates/parsing.rt: edit that one.
//! The parser, together with what a processor lends it. The references are separate parameters, not
//! fields of one struct, so that the performer can borrow each.

use crate::proved::vte::ansi::calls::joined_text::SEPARATORS;
use crate::proved::vte::ansi::calls::performer::{Performer, ProcessorState};
use crate::proved::vte::ansi::calls::text_buffer::TextBuffer;
use crate::proved::vte_core::{ByCharacter, InRuns, Parser};
use crate::proved::vte_handler::{Handler, HandlerText, Timeout};
use core::marker::PhantomData;

/// A parser whose events a processor interprets.
pub(crate) trait EventParser {
    /// Reserves memory for `held` bytes and `more` others, and for the texts that are joined from
    /// them. Returns whether it succeeded.
    fn reserve<B: TextBuffer>(&mut self, text: &mut B, held: usize, more: usize) -> bool;
}

impl<const N: usize> EventParser for Parser<N> {
    fn reserve<B: TextBuffer>(&mut self, text: &mut B, _held: usize, _more: usize) -> bool {
        match N.checked_add(SEPARATORS) {
            Some(size) => text.reserve(size),
            None => false,
        }
    }
}

/// Parses for a handler that receives text `ByCharacter` or `InRuns`.
pub(crate) trait ParseAs<H: Handler + ?Sized, T: Timeout, P: EventParser>: Sized {
    /// Parses all bytes.
    fn advance<B: TextBuffer>(
        parser: &mut P,
        performer: &mut Performer<'_, '_, H, T, B, Self>,
        bytes: &[u8],
    );

    /// Parses bytes until an update begins, and returns how many it parsed.
    fn advance_until_begin<B: TextBuffer>(
        parser: &mut P,
        performer: &mut Performer<'_, '_, H, T, B, Self>,
        bytes: &[u8],
    ) -> usize;
}

impl<H: Handler + ?Sized, T: Timeout, const N: usize> ParseAs<H, T, Parser<N>> for ByCharacter {
    #[inline(always)]
    fn advance<B: TextBuffer>(
        parser: &mut Parser<N>,
        performer: &mut Performer<'_, '_, H, T, B, Self>,
        bytes: &[u8],
    ) {
        parser.advance(performer, bytes);
    }

    #[inline(always)]
    fn advance_until_begin<B: TextBuffer>(
        parser: &mut Parser<N>,
        performer: &mut Performer<'_, '_, H, T, B, Self>,
        bytes: &[u8],
    ) -> usize {
        parser.advance_until_terminated(performer, bytes)
    }
}

impl<H: HandlerText + ?Sized, T: Timeout, const N: usize> ParseAs<H, T, Parser<N>> for InRuns {
    #[inline(always)]
    fn advance<B: TextBuffer>(
        parser: &mut Parser<N>,
        performer: &mut Performer<'_, '_, H, T, B, Self>,
        bytes: &[u8],
    ) {
        parser.advance_text(performer, bytes);
    }

    #[inline(always)]
    fn advance_until_begin<B: TextBuffer>(
        parser: &mut Parser<N>,
        performer: &mut Performer<'_, '_, H, T, B, Self>,
        bytes: &[u8],
    ) -> usize {
        parser.advance_text_until_terminated(performer, bytes)
    }
}

/// Parses all bytes.
pub(crate) fn parse_all<
    H: Handler + ?Sized,
    B: TextBuffer,
    T: Timeout,
    P: EventParser,
    G: ParseAs<H, T, P>,
>(
    parser: &mut P,
    processor_state: &mut ProcessorState<T, B>,
    handler: &mut H,
    bytes: &[u8],
) {
    let mut performer = Performer {
        state: processor_state,
        handler,
        terminated: false,
        granularity: PhantomData::<G>,
    };
    G::advance(parser, &mut performer, bytes);
}

/// Parses the bytes up to the one that begins an update. Returns how many it parsed, and whether an
/// update begins.
pub(crate) fn parse_until_begin<
    H: Handler + ?Sized,
    B: TextBuffer,
    T: Timeout,
    P: EventParser,
    G: ParseAs<H, T, P>,
>(
    parser: &mut P,
    processor_state: &mut ProcessorState<T, B>,
    handler: &mut H,
    bytes: &[u8],
) -> (usize, bool) {
    let mut performer = Performer {
        state: processor_state,
        handler,
        terminated: false,
        granularity: PhantomData::<G>,
    };
    let read = G::advance_until_begin(parser, &mut performer, bytes);
    (read, performer.terminated)
}
