// Written by tools/erase from crates/vte_c/src/lib.rt: edit that one.
//! The parser as a library for C, and for whatever links C.
//!
//! A parser is plain data that the caller owns, and so are the buffers for what it reports. The
//! library never allocates, and keeps no pointer. `vte.h` declares these functions for C, and
//! docs/C.md says how to use them. A pointer may be null only if its length is 0, and what is
//! written may not overlap anything else that is passed.

pub(crate) mod event;
pub(crate) use event::VteEvent;
pub(crate) use event_writer::EventWriter;
pub(crate) use feed::{VteCounts, MIN_DATA, MIN_EVENTS, NO_ROOM};
mod event_writer;
mod feed;
mod text;

use core::mem::size_of;
use vte::{Parser, Saved};

const VERSION: u32 = 6;

const PARSER_SIZE: usize = size_of::<Saved>();

const EVENT_SIZE: usize = size_of::<VteEvent>();

/// Reads bytes, and writes the events of some kinds that they add to the stream. Returns how many
/// bytes were read.
///
/// Text is in runs, and so is the data of device control strings: a record says where a run is in
/// the bytes, or in the data area.
///
/// It stops early when the buffers are nearly full, and after an event of the kinds `stop_kinds`,
/// which at most one more event follows. Call it again with the rest. If there is room for fewer
/// than `vte_min_events` events or `vte_min_data` data bytes, it reads nothing and returns
/// `usize::MAX`.
pub fn vte_feed(
    parser: &mut Saved,
    bytes: &[u8],
    kinds: u32,
    stop_kinds: u32,
    events: &mut [VteEvent],
    data_area: &mut [u8],
    counts: &mut VteCounts,
) -> usize {
    feed::feed(parser, bytes, kinds, stop_kinds, events, data_area, counts)
}

/// Reads bytes, and writes the text that is left without the sequences. Returns how many bytes were
/// read.
///
/// It stops early when the buffer is nearly full. If it has room for fewer than `vte_min_text`
/// bytes, nothing is read, and `usize::MAX` is returned.
pub fn vte_strip(parser: &mut Saved, bytes: &[u8], text: &mut [u8], written: &mut usize) -> usize {
    text::strip(parser, bytes, text, written)
}

/// Returns what is unfinished, or 0.
pub fn vte_is_open(parser: &Saved) -> u8 {
    let mut restored = Parser::new();
    restored.restore(parser);
    restored.open() as u8
}

/// Returns the version of this interface, which increases with each incompatible change.
pub fn vte_version() -> u32 {
    VERSION
}

/// Returns the size of a parser in bytes.
pub fn vte_parser_size() -> usize {
    PARSER_SIZE
}

/// Returns the size of an event in bytes.
pub fn vte_event_size() -> usize {
    EVENT_SIZE
}

/// Returns the number of events for which there must be room.
pub fn vte_min_events() -> usize {
    feed::MIN_EVENTS
}

/// Returns the number of data bytes for which there must be room.
pub fn vte_min_data() -> usize {
    feed::MIN_DATA
}

/// Returns the number of bytes of text for which there must be room.
pub fn vte_min_text() -> usize {
    text::MIN_TEXT
}
