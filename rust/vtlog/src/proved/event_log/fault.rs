// Written by tools/erase from crates/event_log/src/fault.rt: edit that one.
//! Reasons why a log ends early.

/// The device that ended a log.
#[derive(Clone, Copy, Debug, PartialEq, Eq)]
pub enum Fault {
    /// The reader failed, or a log took more reads than can be counted.
    Read,
    /// The writer failed.
    Write,
}
