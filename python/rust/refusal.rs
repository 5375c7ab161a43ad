//! What a call raises if memory is refused.

use crate::objects::{
    call, fetch_error_unless, make_integer, make_list, make_memory_error, make_tuple, MaybeObject,
};
use crate::tape::Tape;
use pyo3::exceptions::PyMemoryError;
use pyo3::prelude::*;
use pyo3::sync::{GILOnceCell, GILProtected};
use std::cell::Cell;

/// Memory that a call takes before it reads anything. It is given back for a `vte.Refused`, and for
/// what Python needs to pass this on: without, another error would stand in its place.
pub struct Refusal(Vec<u8>);

/// How much memory that is.
const ROOM: usize = 1 << 15;
/// That of the next call.
static KEPT: GILProtected<Cell<Vec<u8>>> = GILProtected::new(Cell::new(Vec::new()));

impl Refusal {
    pub fn new(py: Python<'_>) -> PyResult<Self> {
        let mut room = KEPT.get(py).take();
        match room.try_reserve_exact(ROOM) {
            Ok(()) => Ok(Refusal(room)),
            Err(_) => Err(make_memory_error(py)),
        }
    }

    /// The answer of a call, made of a list of what was made and of how many bytes were read. If
    /// memory is refused, to this or to what was `done`, it raises what was made.
    pub fn raise_or<F>(
        self,
        py: Python<'_>,
        tape: &mut Tape,
        read: usize,
        done: PyResult<()>,
        answer: F,
    ) -> PyResult<PyObject>
    where
        F: FnOnce(PyObject, usize) -> MaybeObject,
    {
        let mut made = None;
        let answered = done.and_then(|()| {
            let list = fetch_error_unless(py, tape.take_list(py))?;
            made = Some(list.clone_ref(py));
            fetch_error_unless(py, answer(list, read))
        });
        match answered {
            Err(error) if error.is_instance_of::<PyMemoryError>(py) => {
                // first, since what this has no memory for stays on the tape
                let made = made.or_else(|| tape.take_shorter_list(py));
                drop(self);
                Err(make_refused(py, read, made, tape.take_loss()))
            }
            answered => {
                KEPT.get(py).set(self.0);
                answered
            }
        }
    }
}

/// The class `vte.Refused`.
pub fn look_up_class(py: Python<'_>) -> PyResult<&'static PyObject> {
    static CLASS: GILOnceCell<PyObject> = GILOnceCell::new();
    CLASS.get_or_try_init(py, || {
        let class = py.import_bound("vte._events")?.getattr("Refused")?;
        Ok(class.unbind())
    })
}

fn make_refused(py: Python<'_>, read: usize, mut made: MaybeObject, has_lost: bool) -> PyErr {
    let words = |index| match index {
        0 => make_integer(py, read as i64),
        1 => made.take().or_else(|| make_list(py, &mut Vec::new(), 0)),
        _ => Some(has_lost.into_py(py)),
    };
    let error = look_up_class(py).and_then(|class| {
        let words = fetch_error_unless(py, make_tuple(py, 3, words))?;
        fetch_error_unless(py, call(py, class, &words))
    });
    match error {
        Ok(error) => PyErr::from_value_bound(error.into_bound(py)),
        Err(error) => error,
    }
}
