//! What the crate `vte` has in addition to the proved code, written by hand.

#[cfg(feature = "ansi")]
pub(crate) mod array_string;
pub(crate) mod array_vec;
mod debug;
#[cfg(feature = "std")]
pub(crate) mod end_program;
#[cfg(feature = "ansi")]
pub(crate) mod handlers;
#[cfg(feature = "ansi")]
pub(crate) mod hyperlink;
#[cfg(feature = "__own")]
pub(crate) mod internal_items;
#[cfg(feature = "ansi")]
pub(crate) mod keyboard;
#[cfg(any(feature = "std", feature = "ansi"))]
mod long_parser;
#[cfg(feature = "ansi")]
pub(crate) mod no_memory;
#[cfg(feature = "std")]
pub(crate) mod parser;
#[cfg(feature = "ansi")]
pub(crate) mod processor;
#[cfg(all(feature = "ansi", feature = "std"))]
mod rgb;
#[cfg(all(feature = "ansi", feature = "std"))]
pub(crate) mod std_sync_handler;
