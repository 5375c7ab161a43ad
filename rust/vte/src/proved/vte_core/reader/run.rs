// Written by tools/erase from crates/vte_core/src/reader/run.rt: edit that one.
//! Runs of text and data, which a caller takes from its own input.

/// What a call of [`advance_to_run`](crate::Parser::advance_to_run) read: bytes whose events it
/// reported, and the run after them, if there is one.
#[derive(Clone, Copy, Debug, PartialEq, Eq)]
pub struct Run<'a> {
    /// How many bytes were read before the run: its position in the bytes of the call.
    pub start: usize,
    /// How many bytes the call read: those before the run, and its own.
    pub end: usize,
    /// The run itself.
    pub taken: Taken<'a>,
}

/// A run that a caller takes from its own input.
#[derive(Clone, Copy, Debug, PartialEq, Eq)]
pub enum Taken<'a> {
    /// Characters to print: at least one, and no control.
    Text(&'a str),
    /// Data of a device control string, at least one byte.
    Data(&'a [u8]),
    /// No run: all bytes were read, or the performer is terminated.
    Nothing,
}

/// What follows the bytes whose events a call reported.
#[derive(Clone, Copy)]
pub(crate) enum RunKind {
    /// Text to print.
    Text,
    /// Data of a device control string.
    Data,
    /// No run: the call ends there.
    Nothing,
}

/// The position of a run in the bytes of a call.
#[derive(Clone, Copy)]
pub(crate) struct RunRange {
    pub(crate) start: usize,
    pub(crate) end: usize,
    pub(crate) kind: RunKind,
}

impl RunRange {
    /// Creates the empty range of a call that found no run, at the end of what it read.
    pub(crate) fn empty(end: usize) -> Self {
        RunRange {
            start: end,
            end,
            kind: RunKind::Nothing,
        }
    }
}
