// Written by tools/erase from crates/vte_core/src/lib.rt: edit that one.
//! The parser of the bytes that programs send to a terminal: text in UTF-8, controls, escape and
//! control sequences, device control strings and operating system commands (ECMA-48, ECMA-35, the
//! VT500 parser).
//!
//! [`Parser`] reads a stream in chunks of any length and calls a [`Perform`] for each of its
//! events. [`LongParser`] is a parser without a limit on the text of operating system commands.

mod buffer;
mod class;
mod head;
mod params;
mod parser;
mod perform;
mod reader;
mod store;
mod stream_parts;
mod utf8;

pub use params::{Params, ParamsIter};
pub use parser::{Open, Parser};
// For C alone.
#[cfg(feature = "__own")]
pub use parser::Saved;
// The parser that allocates.
#[cfg(any(feature = "std", feature = "ansi"))]
pub use parser::{LongParser, Refused};
pub use perform::{Perform, PerformText};
#[cfg(feature = "ansi")]
pub use reader::{ByCharacter, InRuns};
pub use reader::{Run, Taken};
pub use stream_parts::iter::Parts;
pub use stream_parts::parts;
