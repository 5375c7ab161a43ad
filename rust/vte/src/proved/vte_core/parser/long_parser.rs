// Written by tools/erase from crates/vte_core/src/parser/long_parser.rt: edit that one.
//! The parser that keeps operating system commands of any length.

use crate::prelude::Vec;
use crate::proved::vte_core::parser::{Machine, Open, Refused, State};
use crate::proved::vte_core::reader::{ByCharacter, CountedPerform, Granularity, Reader, RunRange};

/// A parser whose calls return an error if they are refused memory.
///
/// It keeps operating system commands of any length.
/// So does [`Parser`](crate::Parser) with the feature `std`.
///
/// If memory for it is refused, the call stops before the byte that needs it, and the rest can be
/// passed in again:
///
/// ```
/// # use vte::{LongParser, Perform, Refused};
/// # struct Performer;
/// # impl Perform for Performer {}
/// # fn read(mut performer: Performer, bytes: &[u8]) -> Result<(), Refused> {
/// let mut parser = LongParser::new();
/// if let Err(refused) = parser.advance(&mut performer, bytes) {
///     // Free some memory, and go on.
///     parser.advance(&mut performer, &bytes[refused.read..])?;
/// }
/// # Ok(())
/// # }
/// # assert!(read(Performer, b"\x1b]52;c;aGVsbG8=\x07").is_ok());
/// ```
///
/// The limit of 16 pieces stays. What follows the sixteenth `;` needs no memory. The memory of
/// one command serves the next.
#[derive(Clone)]
pub struct LongParser {
    machine: Machine<Vec<u8>>,
}

impl LongParser {
    /// Creates a parser that has read nothing. It doesn't allocate.
    #[inline]
    pub const fn new() -> Self {
        LongParser {
            machine: Machine::new(Vec::new()),
        }
    }

    /// Returns how many data bytes of an operating system command it stores: 0 if none is open.
    #[inline]
    #[cfg(any(feature = "__own", feature = "ansi"))]
    pub(crate) fn stored(&self) -> usize {
        match self.machine.state {
            State::SystemCommand => self.machine.command.len(),
            _ => 0,
        }
    }

    /// Returns whether the open operating system command has lost data bytes, or the last one if
    /// none is open. It loses those after the 16th piece.
    #[inline]
    pub fn command_lost_data(&self) -> bool {
        self.machine.command_lost_data()
    }

    /// Removes the bytes of a command that has ended, but not whether it lost data.
    #[inline]
    fn forget_ended_command(&mut self) {
        if !matches!(self.machine.state, State::SystemCommand) {
            self.machine.command.remove_items();
        }
    }

    /// Reserves memory for `more` data bytes of an operating system command. Returns whether it
    /// succeeded. Calls with no more bytes than that are then never refused memory.
    #[inline]
    #[must_use = "the memory may be refused"]
    pub fn reserve(&mut self, more: usize) -> bool {
        self.forget_ended_command();
        self.machine.command.reserve(more)
    }

    /// Frees the memory that an open operating system command doesn't need.
    #[inline]
    pub fn shrink(&mut self) {
        self.forget_ended_command();
        self.machine.command.shrink_to_fit();
    }

    /// Returns what is open, if anything is.
    ///
    /// It began at the last ESC, or is at most three bytes of a character.
    #[inline]
    pub fn open(&self) -> Open {
        self.machine.open()
    }

    /// Returns whether a character or a sequence is open.
    #[inline]
    pub fn is_open(&self) -> bool {
        self.machine.is_open()
    }

    /// Reads the bytes of a call, as many as there is memory for, and returns how many: all of
    /// them, or up to a stop if `MAY_STOP`.
    pub(crate) fn drive<P: CountedPerform<G> + ?Sized, G: Granularity, const MAY_STOP: bool>(
        &mut self,
        performer: &mut P,
        input: &[u8],
    ) -> Result<usize, Refused> {
        let reader = Reader {};
        self.machine
            .drive::<P, G, MAY_STOP>(reader, performer, input)
    }

    /// Reads bytes up to a run, and finds the run.
    pub(crate) fn drive_to_run<P: CountedPerform<ByCharacter> + ?Sized>(
        &mut self,
        performer: &mut P,
        input: &[u8],
    ) -> Result<RunRange, Refused> {
        let reader = Reader {};
        self.machine.drive_to_run(reader, performer, input)
    }
}
