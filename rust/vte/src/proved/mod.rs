// Written by tools/erase from crates/: edit those.
//! The proved text.
// The code has the form that is proved.
#![allow(
    clippy::explicit_counter_loop,
    clippy::manual_range_contains,
    clippy::needless_range_loop
)]

#[cfg(feature = "ansi")]
pub(crate) mod vte;
pub(crate) mod vte_core;
#[cfg(feature = "ansi")]
pub(crate) mod vte_handler;
#[cfg(feature = "ansi")]
pub(crate) mod vte_types;
