//! The timeout of the standard library's clock.
use core::time::Duration;
use std::time::Instant;

use crate::proved::vte_handler::Timeout;

/// A timeout that remembers when an update expires.
///
/// It is pending until it is cleared, and never expires by itself: wait for the moment that
/// [`sync_timeout`](Self::sync_timeout) returns, and then call `stop_sync` of the processor.
///
/// ```
/// use vte::ansi::{Handler, Processor};
///
/// struct Screen;
///
/// impl Handler for Screen {}
///
/// let mut processor: Processor = Processor::new();
/// processor.advance(&mut Screen, b"\x1b[?2026hab");
/// assert!(processor.sync_timeout().sync_timeout().is_some());
/// // When that moment has come:
/// processor.stop_sync(&mut Screen);
/// assert!(processor.sync_timeout().sync_timeout().is_none());
/// assert_eq!(processor.sync_bytes_count(), 0);
/// ```
#[derive(Clone, Debug, Default)]
pub struct StdSyncHandler {
    timeout: Option<Instant>,
}

impl StdSyncHandler {
    /// Returns when the update expires, or `None` if there is no update.
    #[inline]
    pub fn sync_timeout(&self) -> Option<Instant> {
        self.timeout
    }
}

impl Timeout for StdSyncHandler {
    #[inline]
    fn set_timeout(&mut self, duration: Duration) {
        self.timeout = Some(Instant::now() + duration);
    }

    #[inline]
    fn clear_timeout(&mut self) {
        self.timeout = None;
    }

    #[inline]
    fn pending_timeout(&self) -> bool {
        self.timeout.is_some()
    }
}
