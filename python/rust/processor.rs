//! The processor of calls.

use crate::objects::{
    borrow, bytes_of, fetch_error_unless, make_float, make_integer, make_memory_error,
};
use crate::reader::{read, take_first_slice, ReadStream};
use crate::refusal::Refusal;
use crate::tape::Tape;
use pyo3::prelude::*;
use pyo3::sync::GILOnceCell;
use std::time::Instant;
use vte::ansi::lent::{ByCall, LongProcessor};
use vte::ansi::StdSyncHandler;
use vte::Refused;

/// The function `time.monotonic`.
pub fn look_up_monotonic(py: Python<'_>) -> PyResult<&'static PyObject> {
    static MONOTONIC: GILOnceCell<PyObject> = GILOnceCell::new();
    MONOTONIC.get_or_try_init(py, || {
        Ok(py.import_bound("time")?.getattr("monotonic")?.unbind())
    })
}

/// Reads a stream in chunks of any length and returns what it asks of a terminal, as calls of
/// `vte.calls`.
///
/// The bytes of a synchronized update are held back until it ends. If its end doesn't come until
/// `sync_timeout`, call `stop_sync`.
#[pyclass(module = "vte", subclass, weakref)]
pub struct Processor {
    processor: LongProcessor<StdSyncHandler>,
    calls: ByCall<Tape>,
    // how many bytes an open command has at most
    command: usize,
    // whether an update was stopped whose calls are to come, as memory was refused to them
    is_stopped: bool,
}

#[pymethods]
impl Processor {
    #[new]
    fn new(py: Python<'_>) -> PyResult<Self> {
        let processor =
            LongProcessor::new(StdSyncHandler::default()).map_err(|_| make_memory_error(py))?;
        Ok(Processor {
            processor,
            calls: ByCall(Tape::default()),
            command: 0,
            is_stopped: false,
        })
    }

    /// Reads the next bytes of the stream, and returns the calls that they add.
    ///
    /// If memory is refused, it raises `vte.Refused`, whose `lost` says whether calls were lost.
    fn feed(slf: &Bound<'_, Self>, data: &Bound<'_, PyAny>) -> PyResult<PyObject> {
        let source = bytes_of(data)?;
        let mut shared = borrow(slf)?;
        read(slf.py(), &mut *shared, source.as_bytes(), |calls, _| {
            Some(calls)
        })
    }

    /// Ends an update whose end doesn't come, and returns the calls of what was held.
    ///
    /// If memory is refused, it raises `vte.Refused`: call it again.
    fn stop_sync(slf: &Bound<'_, Self>) -> PyResult<PyObject> {
        let (py, mut shared) = (slf.py(), borrow(slf)?);
        let refusal = Refusal::new(py)?;
        let done = shared.stop().map_err(|_| make_memory_error(py));
        let tape = shared.tape();
        let done = done.and_then(|()| tape.make(py, true));
        let answer = refusal.raise_or(py, tape, 0, done, |calls, _| Some(calls));
        shared.is_stopped &= answer.is_err();
        answer
    }

    /// How many bytes are held.
    #[getter]
    fn sync_bytes_count(slf: &Bound<'_, Self>) -> PyResult<PyObject> {
        let count = borrow(slf)?.processor.sync_bytes_count();
        fetch_error_unless(slf.py(), make_integer(slf.py(), count as i64))
    }

    /// Until when an update is pending, by `time.monotonic()`, or None.
    #[getter]
    fn sync_timeout(slf: &Bound<'_, Self>) -> PyResult<PyObject> {
        let py = slf.py();
        let deadline = match borrow(slf)?.processor.sync_timeout().sync_timeout() {
            Some(deadline) => deadline,
            None => return Ok(py.None()),
        };
        let now = look_up_monotonic(py)?.call0(py)?.extract::<f64>(py)?;
        // one of these two is 0
        let left = deadline.saturating_duration_since(Instant::now());
        let over = deadline.elapsed();
        let deadline = make_float(py, now + left.as_secs_f64() - over.as_secs_f64());
        fetch_error_unless(py, deadline)
    }
}

impl Processor {
    /// Records the calls of what is held.
    fn stop(&mut self) -> Result<(), Refused> {
        let Processor {
            processor, calls, ..
        } = self;
        calls.0.end_run();
        if !self.is_stopped {
            calls.0.reserve(processor.sync_bytes_count(), 0)?;
            processor.stop_sync_text(calls);
            self.is_stopped = true;
        }
        Ok(())
    }
}

impl ReadStream for Processor {
    fn tape(&mut self) -> &mut Tape {
        &mut self.calls.0
    }

    fn read(&mut self, bytes: &[u8]) -> Result<usize, Refused> {
        let (bytes, before) = (take_first_slice(bytes), self.calls.0.size());
        let parsed = self.processor.sync_bytes_count() + bytes.len();
        self.calls.0.reserve(parsed, self.command)?;
        self.is_stopped = false;
        self.processor.advance_text(&mut self.calls, bytes)?;
        self.command = match self.calls.0.size() == before {
            true => self.command + bytes.len(),
            false => bytes.len(),
        };
        Ok(bytes.len())
    }
}
