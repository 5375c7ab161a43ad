//! Texts without sequences, for Python.

mod shown;
mod state;

use crate::objects::{
    borrow, bytes_of, decode, encode, fetch_error_unless, make_bytes, make_memory_error, make_text,
    make_tuple, run,
};
use crate::parser::{restore_parser, state_of};
use pyo3::prelude::*;
use pyo3::types::{PyBytes, PyString};
use shown::strip_stream;
use state::{Errors, StripperState};
use std::borrow::Cow;
use vte::Refused;

/// The text of a `str` or bytes by a function of bytes. If it is all of them, it is their object.
fn strip_by<F>(data: &Bound<'_, PyAny>, errors: Errors, read: F) -> PyResult<PyObject>
where
    F: for<'a> FnOnce(&'a [u8]) -> Result<Cow<'a, [u8]>, Refused> + Send,
{
    let (py, errors) = (data.py(), errors.codec_errors());
    let text = data.downcast::<PyString>().ok();
    let utf8 = text.and_then(|text| text.to_str().ok());
    let made;
    let source = match utf8 {
        Some(utf8) => utf8.as_bytes(),
        None => {
            made = text.map_or_else(|| bytes_of(data), |text| encode(text, errors))?;
            made.as_bytes()
        }
    };
    let is_exact = data.is_exact_instance_of::<PyBytes>()
        || utf8.is_some() && data.is_exact_instance_of::<PyString>();
    match run(py, source.len(), || read(source)).map_err(|_| make_memory_error(py))? {
        Cow::Borrowed(shown) if is_exact && shown.len() == source.len() => {
            Ok(data.clone().unbind())
        }
        shown if text.is_some() => fetch_error_unless(py, decode(py, &shown, errors)),
        shown => fetch_error_unless(py, make_bytes(py, &shown)),
    }
}

/// Returns the text of a whole stream, a `str` or bytes, without its sequences.
///
/// For what isn't UTF-8, bytes or a lone surrogate of a `str`, U+FFFD stands in the text. With
/// `errors="surrogateescape"` these bytes stay, and the surrogates that stand for bytes. So it is
/// with an unfinished character at the end.
#[pyfunction]
#[pyo3(signature = (data, errors="replace"))]
pub fn strip(data: &Bound<'_, PyAny>, errors: &str) -> PyResult<PyObject> {
    let errors = Errors::from_name(errors)?;
    match errors {
        Errors::Replace => strip_by(data, errors, strip_stream),
        Errors::Escape => strip_by(data, errors, |source| {
            StripperState::new(errors).read(source, true)
        }),
    }
}

/// Reads a stream in chunks of any length and returns its text. It can be copied and pickled, for
/// the same version of the package.
///
/// What stands for malformed bytes is said by `errors`, as for `strip`.
#[pyclass(module = "vte", subclass, weakref)]
pub struct Stripper(StripperState);

#[pymethods]
impl Stripper {
    #[new]
    #[pyo3(
        signature = (errors="replace", state=None, held=None),
        text_signature = "(errors='replace')"
    )]
    fn new(
        errors: &str,
        state: Option<&Bound<'_, PyAny>>,
        held: Option<&Bound<'_, PyBytes>>,
    ) -> PyResult<Self> {
        let mut stripper = StripperState::new(Errors::from_name(errors)?);
        if let Some(state) = state {
            stripper.parser = restore_parser(state)?;
        }
        stripper.hold(held.map_or(&[], |held| held.as_bytes()));
        Ok(Stripper(stripper))
    }

    /// Reads more of the stream, and returns the text that this adds, without the sequences:
    /// characters, HT, LF and CR.
    ///
    /// Of a `str` the text is a `str`, and of bytes it is bytes. An unfinished character at the end
    /// waits for more. With `final=True` the stream ends there, where it is malformed, and the next
    /// call begins another. If memory is refused, call it again: nothing was read.
    #[pyo3(signature = (data, r#final=false), text_signature = "($self, data, final=False)")]
    fn strip(slf: &Bound<'_, Self>, data: &Bound<'_, PyAny>, r#final: bool) -> PyResult<PyObject> {
        let mut shared = borrow(slf)?;
        let before = shared.0.clone();
        let stripper = &mut shared.0;
        let stripped = strip_by(data, before.errors, |source| stripper.read(source, r#final));
        if stripped.is_err() {
            shared.0 = before;
        }
        stripped
    }

    /// Of what `object` makes a copy and a pickle, to which it adds the attributes of a subclass.
    fn __getnewargs__(slf: &Bound<'_, Self>) -> PyResult<PyObject> {
        let (py, shared) = (slf.py(), borrow(slf)?);
        let StripperState {
            errors,
            parser,
            held,
        } = &shared.0;
        let values = |index| match index {
            0 => make_text(py, errors.name().as_bytes()),
            1 => state_of(py, parser),
            _ => make_bytes(py, &held.0[..held.1]),
        };
        fetch_error_unless(py, make_tuple(py, 3, values))
    }
}
