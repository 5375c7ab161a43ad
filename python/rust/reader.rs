//! How streams are read.

use crate::objects::{make_memory_error, run, MaybeObject, MIN_LENGTH_WITHOUT_LOCK};
use crate::refusal::Refusal;
use crate::tape::Tape;
use pyo3::prelude::*;
use vte::Refused;

/// How many bytes are read at most before the tape is asked whether it is full.
const SLICE_SIZE: usize = 1 << 12;
/// How many values are recorded before objects are made of them: few, because their memory is then
/// at hand.
const MAX_COUNT: usize = 1 << 11;
/// The same for an input that is read without the lock, which would be taken again each time.
const MAX_COUNT_WITHOUT_LOCK: usize = 1 << 15;

/// Records what a stream adds.
pub trait ReadStream: Send {
    fn tape(&mut self) -> &mut Tape;

    /// Reads some of the bytes, and returns how many.
    fn read(&mut self, bytes: &[u8]) -> Result<usize, Refused>;

    fn has_stopped(&self) -> bool {
        false
    }
}

/// The first bytes, which a call parses at once.
pub fn take_first_slice(bytes: &[u8]) -> &[u8] {
    &bytes[..bytes.len().min(SLICE_SIZE)]
}

/// Reads bytes up to a stop. The answer is made of a list of what they add, and of how many were
/// read.
pub fn read<F>(
    py: Python<'_>,
    reader: &mut impl ReadStream,
    source: &[u8],
    answer: F,
) -> PyResult<PyObject>
where
    F: FnOnce(PyObject, usize) -> MaybeObject,
{
    let (refusal, mut position) = (Refusal::new(py)?, 0);
    reader.tape().end_run();
    loop {
        let rest = &source[position..];
        let (read, is_refused) = run(py, rest.len(), || read_some(reader, rest));
        position += read;
        let ends = is_refused || position == source.len() || reader.has_stopped();
        let done = match reader.tape().make(py, ends) {
            Ok(()) if !ends => continue,
            Ok(()) if is_refused => Err(make_memory_error(py)),
            done => done,
        };
        return refusal.raise_or(py, reader.tape(), position, done, answer);
    }
}

/// Reads until objects are to be made. Returns how much was read, and whether memory was refused.
fn read_some(reader: &mut impl ReadStream, source: &[u8]) -> (usize, bool) {
    let mut position = 0;
    let max_count = if source.len() >= MIN_LENGTH_WITHOUT_LOCK {
        MAX_COUNT_WITHOUT_LOCK
    } else {
        MAX_COUNT
    };
    while position < source.len() && !reader.tape().is_full(max_count) && !reader.has_stopped() {
        match reader.read(&source[position..]) {
            Ok(read) => position += read,
            Err(Refused { read }) => return (position + read, true),
        }
    }
    (position, false)
}
