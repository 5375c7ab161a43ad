//! `Debug` of parsers: their name.
use core::fmt;

use crate::BoundedParser;

impl<const OSC_RAW_BUF_SIZE: usize> fmt::Debug for BoundedParser<OSC_RAW_BUF_SIZE> {
    fn fmt(&self, f: &mut fmt::Formatter<'_>) -> fmt::Result {
        f.debug_struct("BoundedParser").finish_non_exhaustive()
    }
}

#[cfg(feature = "std")]
impl<const OSC_RAW_BUF_SIZE: usize> fmt::Debug for crate::Parser<OSC_RAW_BUF_SIZE> {
    fn fmt(&self, f: &mut fmt::Formatter<'_>) -> fmt::Result {
        f.debug_struct("Parser").finish_non_exhaustive()
    }
}

#[cfg(any(feature = "std", feature = "ansi"))]
impl fmt::Debug for crate::LongParser {
    fn fmt(&self, f: &mut fmt::Formatter<'_>) -> fmt::Result {
        f.debug_struct("LongParser").finish_non_exhaustive()
    }
}
