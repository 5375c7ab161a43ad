// Written by tools/erase from crates/vte_handler/src/timeout.rt: edit that one.
//! Timeouts of synchronized updates.

use core::time::Duration;

/// Decides how long the bytes of a synchronized update are held back.
#[doc = include_str!("../../docs/timeout.md")]
pub trait Timeout: Default {
    /// Starts or restarts the timeout, because an update has begun.
    fn set_timeout(&mut self, duration: Duration);

    /// Clears the timeout, because the update has ended.
    fn clear_timeout(&mut self);

    /// Returns whether an update is pending, so that new bytes are held back.
    fn pending_timeout(&self) -> bool;
}
