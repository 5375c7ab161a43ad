// Written by tools/erase from crates/event_log/src/device.rt: edit that one.
//! Readers and writers.

use std::io::{self, Read, Write};

/// A source of bytes.
///
/// A source that has failed stays failed.
pub trait Source {
    /// Reads the next bytes into the front of `buffer`, and returns how many. Reads 0 bytes only at
    /// the end or into an empty buffer.
    ///
    /// # Errors
    ///
    /// Fails if the source has failed. Then no byte is consumed.
    fn read(&mut self, buffer: &mut [u8]) -> Result<usize, ()>;
}

/// A destination for bytes.
///
/// A sink that has failed stays failed.
pub trait Sink {
    /// Takes all of the bytes.
    ///
    /// # Errors
    ///
    /// Fails if the sink has failed. Some of the bytes may have been written.
    fn write_all(&mut self, bytes: &[u8]) -> Result<(), ()>;

    /// Passes on everything it has taken.
    ///
    /// # Errors
    ///
    /// Fails if the sink has failed.
    fn flush(&mut self) -> Result<(), ()>;
}

/// A [`Read`] or [`Write`] of std as a [`Source`] or [`Sink`].
///
/// After the first error of the reader or writer inside, it has failed: every further call is an
/// error, and nothing is known of its bytes.
pub struct Device<D> {
    inner: D,
    error: Option<io::Error>,
}

impl<D> Device<D> {
    /// Wraps a reader or writer.
    pub fn new(inner: D) -> Self {
        Device { inner, error: None }
    }

    /// Returns the error by which it has failed.
    pub fn error(&self) -> Option<&io::Error> {
        self.error.as_ref()
    }

    /// Keeps the error of a call of the reader or writer inside, and returns what else it gave.
    fn keep_error<T>(&mut self, given: io::Result<T>) -> Result<T, ()> {
        match given {
            Ok(value) => Ok(value),
            Err(error) => {
                self.error = Some(error);
                Err(())
            }
        }
    }
}

impl<D: Read> Source for Device<D> {
    fn read(&mut self, buffer: &mut [u8]) -> Result<usize, ()> {
        if self.error.is_some() {
            return Err(());
        }
        let given = self.inner.read(buffer);
        self.keep_error(given)
    }
}

impl<D: Write> Sink for Device<D> {
    fn write_all(&mut self, bytes: &[u8]) -> Result<(), ()> {
        if self.error.is_some() {
            return Err(());
        }
        let given = self.inner.write_all(bytes);
        self.keep_error(given)
    }

    fn flush(&mut self) -> Result<(), ()> {
        if self.error.is_some() {
            return Err(());
        }
        let given = self.inner.flush();
        self.keep_error(given)
    }
}
