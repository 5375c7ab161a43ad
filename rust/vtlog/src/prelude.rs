//! The program's surroundings, which the proved code takes as a value, and lists that may be
//! refused memory.
use std::io;
use std::ops::Deref;

/// What the program is given: its arguments, the standard streams, and memory.
pub(crate) struct HostRuntime;

/// The global allocator.
pub(crate) struct Global;

/// Memory was refused.
#[derive(Debug)]
pub(crate) struct AllocError;

impl From<AllocError> for io::Error {
    fn from(_: AllocError) -> Self {
        io::ErrorKind::OutOfMemory.into()
    }
}

/// A list whose memory may be refused when it is collected.
pub(crate) struct Vec<T>(std::vec::Vec<T>);

impl<T> Deref for Vec<T> {
    type Target = [T];

    fn deref(&self) -> &[T] {
        &self.0
    }
}

impl<T> Vec<T> {
    pub(crate) fn iter(&self) -> Items<std::slice::Iter<'_, T>> {
        Items(self.0.iter())
    }
}

/// An iterator that is collected into a list with memory that is passed in.
pub(crate) struct Items<I>(pub(crate) I);

impl<I: Iterator> Items<I> {
    pub(crate) fn skip(self, count: usize) -> Items<std::iter::Skip<I>> {
        Items(self.0.skip(count))
    }

    pub(crate) fn map<T, F: FnMut(I::Item) -> T>(self, change: F) -> Items<std::iter::Map<I, F>> {
        Items(self.0.map(change))
    }

    pub(crate) fn collect(self, _alloc: Global) -> Result<Vec<I::Item>, AllocError> {
        let mut items = std::vec::Vec::new();
        for item in self.0 {
            items.try_reserve(1).map_err(|_| AllocError)?;
            items.push(item);
        }
        Ok(Vec(items))
    }
}

impl HostRuntime {
    pub(crate) fn alloc(&self) -> Global {
        Global
    }

    pub(crate) fn stdin(&self) -> io::Stdin {
        io::stdin()
    }

    pub(crate) fn stdout(&self) -> io::Stdout {
        io::stdout()
    }
}

/// Prints a line on standard error, and answers whether it could be written.
macro_rules! print_error {
    ($runtime:expr; $($text:tt)*) => {{
        let _ = $runtime;
        std::io::Write::write_fmt(
            &mut std::io::stderr(),
            format_args!("{}\n", format_args!($($text)*)),
        )
    }};
}

pub(crate) use print_error as eprintln;

/// The arguments of the program.
pub(crate) mod env {
    use super::{HostRuntime, Items};
    use std::io;

    /// Returns the program's name and its arguments, if they are all text.
    pub(crate) fn args(_: &HostRuntime) -> io::Result<Items<impl Iterator<Item = String>>> {
        let words: Result<std::vec::Vec<String>, _> =
            std::env::args_os().map(|word| word.into_string()).collect();
        match words {
            Ok(words) => Ok(Items(words.into_iter())),
            Err(_) => Err(io::ErrorKind::InvalidData.into()),
        }
    }
}
