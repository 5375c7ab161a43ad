// Written by tools/erase from crates/vte/src/ansi/calls/joined_text.rt: edit that one.
//! Texts that are joined from pieces.

use crate::proved::vte::ansi::calls::text_buffer::TextBuffer;

/// How many bytes longer than its pieces a joined text may be: a `;` for each of 16 pieces. It has
/// at most 15, but `push_part` requires room for one per piece.
pub(crate) const SEPARATORS: usize = 16;

/// What becomes of a piece that isn't UTF-8.
#[derive(Clone, Copy)]
pub(crate) enum MalformedPiece {
    /// It is left out, as in a title.
    LeftOut,
    /// It counts as empty, as in a link.
    Empty,
}

/// Joins pieces with `;` between them.
pub(crate) fn join_texts<B: TextBuffer>(text: &mut B, pieces: &[&[u8]], malformed: MalformedPiece) {
    text.clear();
    let mut is_first = true;
    for piece in pieces {
        if let Some(part) = text_in(piece, malformed) {
            push_part(text, is_first, part);
            is_first = false;
        }
    }
}

/// Appends a text to those before it, after a `;` unless it is the first.
fn push_part<B: TextBuffer>(text: &mut B, is_first: bool, part: &str) {
    if !is_first {
        text.push(';');
    }
    text.push_str(part);
}

/// Returns the text of a piece, or `None` if it is left out.
pub(crate) fn text_in(piece: &[u8], malformed: MalformedPiece) -> Option<&str> {
    let text = core::str::from_utf8(piece).ok();
    match malformed {
        MalformedPiece::LeftOut => text,
        MalformedPiece::Empty => text.or(Some("")),
    }
}
