//! What several tests share.

use std::time::Duration;

use vte::ansi::Timeout;

/// A timeout that is pending from when it is set until it is cleared.
#[derive(Clone, Debug, Default)]
pub struct Pending(pub bool);

impl Timeout for Pending {
    fn set_timeout(&mut self, duration: Duration) {
        assert_eq!(duration, Duration::from_millis(150));
        self.0 = true;
    }

    fn clear_timeout(&mut self) {
        self.0 = false;
    }

    fn pending_timeout(&self) -> bool {
        self.0
    }
}
