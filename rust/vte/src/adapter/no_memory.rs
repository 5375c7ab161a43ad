//! The error of new processors.
use core::fmt;

/// The error of a processor that wasn't created, because its memory was refused. It returns the
/// timeout.
#[derive(Clone, Copy, PartialEq, Eq)]
pub struct NoMemory<T> {
    /// The timeout that was passed in.
    pub timeout: T,
}

impl<T> fmt::Debug for NoMemory<T> {
    fn fmt(&self, f: &mut fmt::Formatter<'_>) -> fmt::Result {
        f.debug_struct("NoMemory").finish_non_exhaustive()
    }
}

impl<T> fmt::Display for NoMemory<T> {
    fn fmt(&self, f: &mut fmt::Formatter<'_>) -> fmt::Result {
        f.write_str("no memory for a processor, which takes 2 MiB")
    }
}

#[cfg(feature = "std")]
impl<T> std::error::Error for NoMemory<T> {}
