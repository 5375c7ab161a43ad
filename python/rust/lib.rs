//! The native half of the package: everything but the types of events and calls, which are written
//! in Python.
#![deny(unsafe_code)]
#![warn(clippy::undocumented_unsafe_blocks)]

mod calls;
mod events;
mod head;
mod maker;
#[cfg(feature = "python-memory")]
#[allow(unsafe_code)]
mod memory;
#[allow(unsafe_code)]
mod objects;
mod parser;
mod processor;
mod reader;
mod refusal;
mod strip;
mod tape;

use pyo3::prelude::*;

#[pymodule]
fn _vte(module: &Bound<'_, PyModule>) -> PyResult<()> {
    // what is looked up now needs no memory later
    maker::look_up_classes(module.py())?;
    processor::look_up_monotonic(module.py())?;
    refusal::look_up_class(module.py())?;
    module.add_class::<parser::Parser>()?;
    module.add_class::<processor::Processor>()?;
    module.add_class::<strip::Stripper>()?;
    module.add_function(wrap_pyfunction!(strip::strip, module)?)?;
    module.add("__version__", env!("CARGO_PKG_VERSION"))
}
