// Written by tools/erase from crates/event_log/src/lib.rt: edit that one.
//! Writes the events of a stream: as one line per event, or as plain text without the sequences.
//!
//! [`run`] and [`run_text`] read a [`Source`] to its end and write to a [`Sink`]; [`Device`]
//! makes a source or a sink of any `Read` or `Write` of std.

mod collector;
mod device;
mod fault;
mod lines;
mod pipeline;
mod plain;
mod recorder;

pub use device::{Device, Sink, Source};
pub use fault::Fault;
pub use pipeline::{run, run_text};
