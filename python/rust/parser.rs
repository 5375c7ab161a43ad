//! The parser of events.

use crate::calls::Kind;
use crate::events::{has_kind, kinds_of, Kinds, Recorder, ALL};
use crate::objects::{
    borrow, bytes_of, fetch_error_unless, make_bytes, make_error, make_integer, make_pair,
    make_text, MaybeObject,
};
use crate::reader::{read, take_first_slice, ReadStream};
use crate::tape::Tape;
use pyo3::exceptions::{PyTypeError, PyValueError};
use pyo3::prelude::*;
use pyo3::types::{PyBytes, PyString};
use std::mem::{align_of, size_of};
use vte::{skip_to_command, InternalCalls as _, LongParser, Open, Refused, Saved};

/// How many data bytes of a command a parser with a limit keeps.
const LIMIT: usize = 1024;

/// A parser that keeps 1,024 data bytes of a command.
pub type LimitedParser = vte::BoundedParser<LIMIT>;

/// The bytes of a saved parser. Any bytes are some parser.
#[repr(C, align(8))]
struct Content([u8; size_of::<Saved>()]);
const _: () = assert!(align_of::<Saved>() <= align_of::<Content>());

impl Content {
    #[allow(unsafe_code)]
    fn as_saved(&mut self) -> &mut Saved {
        // SAFETY: plain data of this size, aligned, for which any bytes do
        unsafe { &mut *self.0.as_mut_ptr().cast() }
    }
}

/// A parser and the version of this package, to be pickled.
pub fn state_of(py: Python<'_>, parser: &LimitedParser) -> MaybeObject {
    let mut content = Content([0; size_of::<Saved>()]);
    parser.save(content.as_saved());
    let version = make_text(py, env!("CARGO_PKG_VERSION").as_bytes());
    make_pair(py, version, |py| make_bytes(py, &content.0))
}

/// The parser of a state.
pub fn restore_parser(state: &Bound<'_, PyAny>) -> PyResult<LimitedParser> {
    if let Ok((version, content)) = state.extract::<(Bound<'_, PyString>, Bound<'_, PyBytes>)>() {
        let content = content.as_bytes().try_into().map(Content);
        if let (env!("CARGO_PKG_VERSION"), Ok(mut content)) = (version.to_str()?, content) {
            let mut parser = LimitedParser::new();
            parser.restore(content.as_saved());
            return Ok(parser);
        }
    }
    let wrong = "this was pickled with another version of the package\0";
    Err(make_error::<PyValueError>(state.py(), wrong))
}

enum Machine {
    Long(LongParser),
    Limited(LimitedParser),
}

/// Reads a stream in chunks of any length and reports its events.
///
/// The first 16 pieces of an operating system command are kept, whatever their length. With
/// `limit=1024` a parser keeps that many bytes of each command, and can be copied and pickled.
#[pyclass(module = "vte", subclass, weakref)]
pub struct Parser {
    machine: Machine,
    recorder: Recorder,
}

#[pymethods]
impl Parser {
    #[new]
    #[pyo3(signature = (limit=None, state=None), text_signature = "(limit=None)")]
    fn new(limit: Option<&Bound<'_, PyAny>>, state: Option<&Bound<'_, PyAny>>) -> PyResult<Self> {
        let machine = match limit {
            None => Machine::Long(LongParser::new()),
            Some(limit) if limit.eq(LIMIT)? => {
                Machine::Limited(state.map_or_else(|| Ok(LimitedParser::new()), restore_parser)?)
            }
            Some(limit) => {
                let wrong = format!("limit must be None or {LIMIT}, not {}", limit.repr()?);
                return Err(PyValueError::new_err(wrong));
            }
        };
        let recorder = Recorder::default();
        Ok(Parser { machine, recorder })
    }

    /// How many bytes of an operating system command are kept: 1,024, or None for all.
    #[getter]
    fn limit(slf: &Bound<'_, Self>) -> PyResult<PyObject> {
        match borrow(slf)?.machine {
            Machine::Long(_) => Ok(slf.py().None()),
            Machine::Limited(_) => {
                fetch_error_unless(slf.py(), make_integer(slf.py(), LIMIT as i64))
            }
        }
    }

    /// What is unfinished: None, "character", "esc" (also if only ESC was read), "csi", "dcs",
    /// "osc", or "ignored" for a string that means nothing. It began at the last ESC, or is at most
    /// three bytes of a character.
    #[getter]
    fn open(slf: &Bound<'_, Self>) -> PyResult<PyObject> {
        let open = match &borrow(slf)?.machine {
            Machine::Long(parser) => parser.open(),
            Machine::Limited(parser) => parser.open(),
        };
        let word = match open {
            Open::Nothing => return Ok(slf.py().None()),
            Open::Character => "character",
            Open::EscapeSequence => "esc",
            Open::ControlSequence => "csi",
            Open::DeviceControl => "dcs",
            Open::SystemCommand => "osc",
            Open::IgnoredString => "ignored",
        };
        fetch_error_unless(slf.py(), make_text(slf.py(), word.as_bytes()))
    }

    /// Reads the next bytes of the stream, and returns the events that they add to it.
    ///
    /// `kinds` is a set of types of events: then only these are returned, and the others cost
    /// little. With `vte.Data` among them, the data of device control strings come in runs, and
    /// not byte by byte as `Put`. An unfinished character or sequence at the end waits for more
    /// bytes. If memory is refused, it raises `vte.Refused`.
    #[pyo3(signature = (data, kinds=None))]
    fn feed(
        slf: &Bound<'_, Self>,
        data: &Bound<'_, PyAny>,
        kinds: Option<&Bound<'_, PyAny>>,
    ) -> PyResult<PyObject> {
        read_events(slf, data, kinds, 0, |events, _| Some(events))
    }

    /// Reads the next bytes up to the first event of the types `stops`, and that too. Returns a
    /// pair: the events, as `feed` returns them, and how many bytes were read. Without such an
    /// event all bytes are read.
    ///
    /// `stops` can't have `vte.Text`, nor `vte.Data`, which have no end of their own.
    #[pyo3(signature = (data, stops, kinds=None))]
    fn feed_until(
        slf: &Bound<'_, Self>,
        data: &Bound<'_, PyAny>,
        stops: &Bound<'_, PyAny>,
        kinds: Option<&Bound<'_, PyAny>>,
    ) -> PyResult<PyObject> {
        let (py, stops) = (slf.py(), kinds_of(stops)?);
        if has_kind(stops, Kind::Text) || has_kind(stops, Kind::Data) {
            let wrong = "stops can't have vte.Text or vte.Data\0";
            return Err(make_error::<PyValueError>(py, wrong));
        }
        read_events(slf, data, kinds, stops, |events, read| {
            make_pair(py, Some(events), |py| make_integer(py, read as i64))
        })
    }

    /// Of what `object` makes a copy and a pickle, to which it adds the attributes of a subclass.
    fn __getnewargs__(slf: &Bound<'_, Self>) -> PyResult<PyObject> {
        let py = slf.py();
        let wrong = "only parsers with a limit can be copied and pickled: vte.Parser(limit=1024)\0";
        match &borrow(slf)?.machine {
            Machine::Limited(parser) => {
                let limit = make_integer(py, LIMIT as i64);
                fetch_error_unless(py, make_pair(py, limit, |py| state_of(py, parser)))
            }
            Machine::Long(_) => Err(make_error::<PyTypeError>(py, wrong)),
        }
    }
}

/// Reads bytes up to a stop. The answer is made of the events, and of how many bytes were read.
fn read_events<F>(
    parser: &Bound<'_, Parser>,
    data: &Bound<'_, PyAny>,
    kinds: Option<&Bound<'_, PyAny>>,
    stops: Kinds,
    answer: F,
) -> PyResult<PyObject>
where
    F: FnOnce(PyObject, usize) -> MaybeObject,
{
    let (source, kinds) = (bytes_of(data)?, kinds.map_or(Ok(ALL), kinds_of)?);
    let mut reader = borrow(parser)?;
    reader.recorder.start(kinds, stops);
    let answer = read(parser.py(), &mut *reader, source.as_bytes(), answer);
    reader.recorder.is_refused = answer.is_err();
    answer
}

impl ReadStream for Parser {
    fn tape(&mut self) -> &mut Tape {
        &mut self.recorder.tape
    }

    fn has_stopped(&self) -> bool {
        self.recorder.has_stopped()
    }

    fn read(&mut self, bytes: &[u8]) -> Result<usize, Refused> {
        let Parser { machine, recorder } = self;
        let (is_open, command) = match machine {
            Machine::Long(parser) => (parser.is_open(), parser.stored()),
            Machine::Limited(parser) => (parser.is_open(), LIMIT),
        };
        if recorder.wants_only_commands() && !is_open {
            let skipped = skip_to_command(bytes);
            if skipped > 0 {
                return Ok(skipped);
            }
        }
        let bytes = take_first_slice(bytes);
        recorder.tape.reserve(bytes.len(), command)?;
        recorder.go_on();
        let (read, lost_data) = match machine {
            Machine::Long(parser) => {
                let read = parser.advance_text_until_terminated(recorder, bytes)?;
                (read, parser.command_lost_data())
            }
            Machine::Limited(parser) => {
                let read = parser.advance_text_until_terminated(recorder, bytes);
                (read, parser.command_lost_data())
            }
        };
        if lost_data {
            recorder.truncate_command();
        }
        Ok(read)
    }
}
