// Written by tools/erase from crates/event_log/src/collector.rt: edit that one.
//! Performers that collect text until it is written.

use vte::Parser;

/// The parser of a log, with the usual room for operating system commands.
pub(crate) type LogParser = Parser<1024>;

/// Collects a text for each event.
pub(crate) trait Collector {
    /// Parses bytes and collects their text until it is time to write it. Nothing is lost. Returns
    /// the unread bytes.
    fn collect<'a>(&mut self, parser: &mut LogParser, bytes: &'a [u8]) -> &'a [u8];

    /// Returns the collected text.
    fn collected_text(&self) -> &[u8];

    /// Clears the text, and forgets that any was lost.
    fn clear(&mut self);
}
