//! What the parser whose memory may be refused, and its error, have by traits.
use core::fmt;

use crate::proved::vte_core::{LongParser, Refused};

impl Default for LongParser {
    fn default() -> Self {
        LongParser::new()
    }
}

impl fmt::Display for Refused {
    fn fmt(&self, f: &mut fmt::Formatter<'_>) -> fmt::Result {
        write!(f, "memory was refused after {} bytes", self.read)
    }
}

#[cfg(feature = "std")]
impl std::error::Error for Refused {}
