//! Python's objects: what functions take, and what they return.
//!
//! PyO3's constructors panic if memory is refused, so those here call Python's C interface. A named
//! tuple is made in place, in a tenth of the time of a call of its class.

use pyo3::exceptions::PyRuntimeError;
use pyo3::pyclass::boolean_struct::False;
use pyo3::types::{PyBytes, PyMemoryView, PyString, PyTuple, PyType};
use pyo3::{ffi, prelude::*, PyClass, PyTypeInfo};
use std::os::raw::c_char;

/// A new object, or none if Python has an error, which `fetch_error_unless` takes.
pub type MaybeObject = Option<PyObject>;

/// Calls a function of Python that returns a new reference, or null with an error. It gets objects,
/// numbers, the bytes or characters of a slice, or texts that end in NUL.
macro_rules! new {
    ($py:expr, $function:ident($($argument:expr),+)) => {
        // SAFETY: the arguments are as said above, and the lock is held
        unsafe { PyObject::from_owned_ptr_or_opt($py, ffi::$function($($argument),+)) }
    };
}

pub fn fetch_error_unless(py: Python<'_>, made: MaybeObject) -> PyResult<PyObject> {
    made.ok_or_else(|| PyErr::fetch(py))
}

/// From how many bytes on other threads may run meanwhile. Below, a release costs more than it
/// gives: beside a busy thread it takes up to 5 ms to get the interpreter's lock again.
pub const MIN_LENGTH_WITHOUT_LOCK: usize = 1 << 17;

/// Runs what needs no object, without the interpreter's lock if there is much to read.
pub fn run<T: Send>(py: Python<'_>, length: usize, read: impl FnOnce() -> T + Send) -> T {
    match length < MIN_LENGTH_WITHOUT_LOCK {
        true => read(),
        false => py.allow_threads(read),
    }
}

/// A text that ends in NUL, as C takes it.
fn as_c_text(text: &'static str) -> *const c_char {
    assert!(text.ends_with('\0'));
    text.as_ptr().cast()
}

/// An error with a text that ends in NUL. PyO3's errors allocate in a construction that can't fail.
pub fn make_error<T: PyTypeInfo>(py: Python<'_>, text: &'static str) -> PyErr {
    // SAFETY: a class of exceptions, and a text that ends in NUL
    unsafe { ffi::PyErr_SetString(T::type_object_raw(py).cast(), as_c_text(text)) };
    PyErr::fetch(py)
}

/// Borrows what one thread at a time can use.
pub fn borrow<'py, T: PyClass<Frozen = False>>(
    shared: &Bound<'py, T>,
) -> PyResult<PyRefMut<'py, T>> {
    let wrong = |_| make_error::<PyRuntimeError>(shared.py(), "another thread uses this object\0");
    shared.try_borrow_mut().map_err(wrong)
}

/// The bytes of an object with a buffer. Those that can change meanwhile are copied.
pub fn bytes_of<'py>(data: &Bound<'py, PyAny>) -> PyResult<Bound<'py, PyBytes>> {
    if let Ok(bytes) = data.downcast::<PyBytes>() {
        return Ok(bytes.clone());
    }
    let view = PyMemoryView::from_bound(data)?;
    let copied = new!(data.py(), PyBytes_FromObject(view.as_ptr()));
    Ok(fetch_error_unless(data.py(), copied)?
        .into_bound(data.py())
        .downcast_into()?)
}

/// A `str` in UTF-8. What errors of codecs do is named by a text that ends in NUL.
pub fn encode<'py>(
    text: &Bound<'py, PyString>,
    errors: &'static str,
) -> PyResult<Bound<'py, PyBytes>> {
    let (py, text, errors) = (text.py(), text.as_ptr(), as_c_text(errors));
    let encoded = new!(
        py,
        PyUnicode_AsEncodedString(text, as_c_text("utf-8\0"), errors)
    );
    Ok(fetch_error_unless(py, encoded)?
        .into_bound(py)
        .downcast_into()?)
}

/// The error of memory that was refused, which needs none itself.
pub fn make_memory_error(py: Python<'_>) -> PyErr {
    // SAFETY: the lock is held
    unsafe { ffi::PyErr_NoMemory() };
    PyErr::fetch(py)
}

fn as_ssize(length: usize) -> ffi::Py_ssize_t {
    // no slice is longer than `isize::MAX`
    length as ffi::Py_ssize_t
}

/// Short content, aligned: Python copies by words what is.
#[repr(align(8))]
pub struct ShortText {
    content: [u8; ShortText::CAPACITY],
    length: usize,
}

impl ShortText {
    const CAPACITY: usize = 32;

    /// A copy of content, unless it has too many bytes.
    #[inline]
    pub fn from_bytes(bytes: &[u8]) -> Option<Self> {
        let mut content = [0; Self::CAPACITY];
        content.get_mut(..bytes.len())?.copy_from_slice(bytes);
        let length = bytes.len();
        Some(ShortText { content, length })
    }

    #[inline]
    fn as_bytes(&self) -> &[u8] {
        &self.content[..self.length]
    }
}

/// How many bytes a character has that begins with this one.
fn length_of(first: u32) -> usize {
    1 + [0xC0, 0xE0, 0xF0]
        .iter()
        .filter(|least| first >= **least)
        .count()
}

/// A `str` of text in UTF-8, which Python checks.
pub fn make_text(py: Python<'_>, utf8: &[u8]) -> MaybeObject {
    decode(py, utf8, "strict\0")
}

/// A `str` of much ASCII, of which Python takes parts faster than it decodes each.
pub fn make_ascii_text(py: Python<'_>, content: &[u8]) -> MaybeObject {
    if content.len() < 256 || !content.is_ascii() {
        return None;
    }
    let whole = make_text(py, content);
    if whole.is_none() {
        // texts are then made without it
        drop(PyErr::take(py));
    }
    whole
}

/// The part of a `str` from one character to another.
pub fn make_substring(py: Python<'_>, whole: &PyObject, start: usize, end: usize) -> MaybeObject {
    new!(
        py,
        PyUnicode_Substring(whole.as_ptr(), as_ssize(start), as_ssize(end))
    )
}

/// A `str` of a short text. Beyond ASCII Python gets its characters, because it decodes few slowly.
pub fn make_short_text(py: Python<'_>, short: &ShortText) -> MaybeObject {
    let utf8 = short.as_bytes();
    if cfg!(windows) || utf8.is_ascii() {
        return make_text(py, utf8);
    }
    let (mut characters, mut count) = ([0; ShortText::CAPACITY], 0);
    for byte in utf8 {
        let bits = u32::from(*byte);
        match bits {
            // six bits more of the last character
            0x80..=0xBF => characters[count - 1] = characters[count - 1] << 6 | bits & 0x3F,
            _ => {
                // without the bits that tell how long the character is
                characters[count] = bits & [0x7F, 0x1F, 0x0F, 0x07][length_of(bits) - 1];
                count += 1;
            }
        }
    }
    // `wchar_t` has 32 bits, but on Windows
    new!(
        py,
        PyUnicode_FromWideChar(characters.as_ptr().cast(), as_ssize(count))
    )
}

/// A `str` of bytes, as `encode` makes them.
pub fn decode(py: Python<'_>, utf8: &[u8], errors: &'static str) -> MaybeObject {
    let (start, length) = (utf8.as_ptr().cast(), as_ssize(utf8.len()));
    new!(py, PyUnicode_DecodeUTF8(start, length, as_c_text(errors)))
}

pub fn make_bytes(py: Python<'_>, content: &[u8]) -> MaybeObject {
    let (start, length) = (content.as_ptr().cast(), as_ssize(content.len()));
    new!(py, PyBytes_FromStringAndSize(start, length))
}

pub fn make_integer(py: Python<'_>, value: i64) -> MaybeObject {
    new!(py, PyLong_FromLongLong(value))
}

pub fn make_float(py: Python<'_>, value: f64) -> MaybeObject {
    new!(py, PyFloat_FromDouble(value))
}

/// A tuple of as many values, of which each is made for its index.
#[inline(always)]
pub fn make_tuple(
    py: Python<'_>,
    count: usize,
    mut value: impl FnMut(usize) -> MaybeObject,
) -> MaybeObject {
    let tuple = new!(py, PyTuple_New(as_ssize(count)))?;
    for index in 0..count {
        // SAFETY: a new tuple of this size. Values that can't be made stay null, which
        // nothing but the deallocator sees
        unsafe { ffi::PyTuple_SetItem(tuple.as_ptr(), as_ssize(index), value(index)?.into_ptr()) };
    }
    Some(tuple)
}

/// What a function returns of a tuple of arguments.
pub fn call(py: Python<'_>, function: &PyObject, words: &PyObject) -> MaybeObject {
    new!(py, PyObject_CallObject(function.as_ptr(), words.as_ptr()))
}

/// A pair. The second is made after the first.
pub fn make_pair(
    py: Python<'_>,
    mut first: MaybeObject,
    second: impl Fn(Python<'_>) -> MaybeObject,
) -> MaybeObject {
    make_tuple(
        py,
        2,
        |index| if index == 0 { first.take() } else { second(py) },
    )
}

/// A list of the first objects, which it takes. If memory is refused, they stay.
pub fn make_list(py: Python<'_>, objects: &mut Vec<PyObject>, count: usize) -> MaybeObject {
    let list = new!(py, PyList_New(as_ssize(count)))?;
    for (index, object) in objects.drain(..count).enumerate() {
        // SAFETY: a new list, which has this index
        unsafe { ffi::PyList_SetItem(list.as_ptr(), as_ssize(index), object.into_ptr()) };
    }
    Some(list)
}

/// A class of named tuples, or an enumeration.
pub struct Class {
    class: PyObject,
    // how many fields an object has: a member of an enumeration is made of its number
    fields: usize,
    construction: Construction,
}

/// How objects are made: without code in Python, which a signal can end.
enum Construction {
    /// A tuple as Python has it before 3.14, with its fields after its size.
    FieldByField,
    /// By `tuple.__new__`.
    Tuple(PyObject),
    /// From the members of an enumeration, by their numbers.
    Members(PyObject),
}

impl Class {
    pub fn new(class: Bound<'_, PyAny>) -> PyResult<Self> {
        let py = class.py();
        let is_tuple = class.downcast::<PyType>()?.is_subclass_of::<PyTuple>()?;
        let (fields, construction) = match (is_tuple, py.version_info() < (3, 14)) {
            (false, _) => (
                1,
                Construction::Members(class.getattr("_value2member_map_")?.unbind()),
            ),
            (true, true) => (class.getattr("_fields")?.len()?, Construction::FieldByField),
            (true, false) => {
                let new = py.get_type_bound::<PyTuple>().getattr("__new__")?;
                (
                    class.getattr("_fields")?.len()?,
                    Construction::Tuple(new.unbind()),
                )
            }
        };
        let class = class.unbind();
        Ok(Class {
            class,
            fields,
            construction,
        })
    }

    pub fn is_same(&self, other: &Bound<'_, PyAny>) -> bool {
        self.class.is(other)
    }

    /// Makes an object of its fields, of which each is made for its index.
    #[inline(always)]
    pub fn make(&self, py: Python<'_>, mut field: impl FnMut(usize) -> MaybeObject) -> MaybeObject {
        let (class, count) = (self.class.as_ptr(), self.fields);
        match &self.construction {
            Construction::FieldByField => {}
            Construction::Members(members) => {
                return new!(py, PyObject_GetItem(members.as_ptr(), field(0)?.as_ptr()));
            }
            Construction::Tuple(new) => {
                let mut words =
                    [make_tuple(py, count, field)?, self.class.clone_ref(py)].into_iter();
                return call(py, new, &make_tuple(py, 2, |_| words.next_back())?);
            }
        }
        // SAFETY: a tuple, whose fields are null or set before anything sees it. What they hold is
        // in no cycle, so the collector needn't look at it
        unsafe {
            let made = ffi::_PyObject_GC_NewVar(class.cast(), as_ssize(count));
            let made = PyObject::from_owned_ptr_or_opt(py, made.cast())?;
            let fields = made.as_ptr().cast::<ffi::PyVarObject>().add(1);
            let fields = fields.cast::<MaybeObject>();
            fields.write_bytes(0, count);
            for index in 0..count {
                fields.add(index).write(Some(field(index)?));
            }
            Some(made)
        }
    }
}
