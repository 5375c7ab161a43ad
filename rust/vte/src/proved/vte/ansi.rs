// Written by tools/erase from crates/vte/src/ansi.rt: edit that one.
//! The processor, which interprets the events of a stream, and the handler whose methods it calls.

mod bounded_processor;
mod calls;
mod long_processor;
mod updates;

pub use bounded_processor::BoundedProcessor;
pub use long_processor::LongProcessor;
