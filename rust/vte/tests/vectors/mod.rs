//! Vectors worked out by hand: streams with their events and their handler calls.

pub mod event_lines;
mod events;
mod json;
mod open;

#[cfg(all(feature = "ansi", feature = "__own"))]
mod by_call;
#[cfg(feature = "ansi")]
pub mod call_lines;
#[cfg(feature = "ansi")]
mod calls;
#[cfg(feature = "ansi")]
mod long_commands;
#[cfg(feature = "ansi")]
mod reader;

use event_lines::EventLines;

/// The events of a stream in chunks.
pub fn events_of(chunks: &[&[u8]]) -> EventLines {
    let (mut parser, mut lines) = (vte::Parser::new(), EventLines::default());
    chunks.iter().for_each(|it| parser.advance(&mut lines, it));
    lines
}
