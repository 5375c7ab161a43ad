// Written by tools/erase from crates/vte/src/ansi/updates/hold.rt: edit that one.
//! The bytes of an update that are held back, in memory that is allocated once.

use crate::prelude::{AllocError, Vec};
use crate::proved::vte::ansi::updates::release::find_release;

/// The memory of a hold, in bytes.
const CAPACITY: usize = 2_097_152;

/// The most bytes that are held at once: two less, as in `vte`.
pub(crate) const MAX_HELD: usize = CAPACITY - 2;

/// The bytes that were released last, and after them the held bytes, in which no update ends.
#[derive(Clone)]
pub(crate) struct SyncState {
    bytes: Vec<u8>,
    released: usize,
}

impl SyncState {
    /// Allocates the memory.
    #[inline]
    pub(crate) fn new() -> Result<Self, AllocError> {
        let bytes = Vec::with_capacity(CAPACITY)?;
        Ok(SyncState { bytes, released: 0 })
    }

    /// Returns the number of held bytes.
    #[inline]
    pub(crate) fn len(&self) -> usize {
        self.bytes.len() - self.released
    }

    /// Returns the bytes that were released last.
    #[inline]
    pub(crate) fn released(&self) -> &[u8] {
        &self.bytes.as_slice()[..self.released]
    }

    /// Adds bytes. If an update ends among all bytes, releases those that no longer need to be
    /// held. Returns how many updates begin among the added bytes, after the last one that ends.
    #[inline]
    pub(crate) fn add(&mut self, more: &[u8]) -> usize {
        self.forget_released();
        let len = self.bytes.len();
        // The bytes fit, so nothing is allocated.
        let _ = self.bytes.extend_from_slice(more);
        // An end may begin in the last seven of the old bytes.
        let start = len.saturating_sub(7);
        let release = find_release(&self.bytes.as_slice()[start..], start);
        self.released = release.released;
        release.begin_count
    }

    /// Releases all held bytes, when an update is stopped.
    #[inline]
    pub(crate) fn release_all(&mut self) {
        self.forget_released();
        self.released = self.bytes.len();
    }

    /// Drops the released bytes, and moves the held ones to the start.
    #[inline]
    fn forget_released(&mut self) {
        if self.released > 0 {
            let len = self.bytes.len();
            self.bytes.copy_within(self.released..len, 0);
            self.bytes.truncate(len - self.released);
            self.released = 0;
        }
    }
}
