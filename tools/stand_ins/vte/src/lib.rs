//! Stands in for rust/vte with one difference, which the variable DIFFERENCE names: a type, and
//! when it reads otherwise. tools/lib/fuzzing/differences.py has an input for each, from which a
//! target of rust/vte/fuzz must find it.

mod parsers;
mod processors;

use std::borrow::Cow;

pub use parsers::{LongParser, Parser};
pub use real::*;

pub mod ansi {
    pub use crate::processors::Processor;
    pub use real::ansi::*;

    pub mod lent {
        pub use crate::processors::LongProcessor;
        pub use real::ansi::lent::*;
    }
}

/// Whether a type has this difference.
fn has(of: &str, difference: &str) -> bool {
    std::env::var("DIFFERENCE").is_ok_and(|named| named == format!("{of} {difference}"))
}

/// The bytes, some of which are lost if there is a difference.
fn read_by(is_different: bool, bytes: &[u8]) -> Cow<'_, [u8]> {
    match is_different {
        false => bytes.into(),
        true => bytes
            .iter()
            .copied()
            .filter(|byte| !b"~9".contains(byte))
            .collect(),
    }
}
