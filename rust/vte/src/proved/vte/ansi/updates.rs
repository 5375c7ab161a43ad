// Written by tools/erase from crates/vte/src/ansi/updates.rt: edit that one.
//! Turns of a processor: the bytes that it parses, and those of an update that it holds back.

pub(crate) mod engine;
pub(crate) mod hold;
pub(crate) mod long_parsing;
pub(crate) mod parsing;
pub(crate) mod release;

/// How long an update may take.
pub(crate) const UPDATE_TIMEOUT_MILLIS: u64 = 150;
