// Written by tools/erase from crates/vte_core/src/parser.rt: edit that one.
//! The parser with a limit, and what it is made of. The calls that read are in `reader/advance`,
//! because only `reader` may have their bytes.

mod character;
mod control_sequence;
mod device_control;
mod drive;
mod drive_single_byte;
mod drive_to_run;
mod ending;
mod escape;
mod ignored_string;
#[cfg(any(feature = "std", feature = "ansi"))]
mod long_parser;
mod machine;
mod open;
mod refused;
#[cfg(feature = "__own")]
mod saved;
mod system_command;
mod text;

use crate::adapter::array_vec::ArrayVec;
use crate::proved::vte_core::head::HeadProgress;
use crate::proved::vte_core::reader::{CountedPerform, Granularity, Reader};
use crate::proved::vte_core::utf8::OpenCharacter;
#[cfg(any(feature = "std", feature = "ansi"))]
pub use long_parser::LongParser;
use machine::Machine;
pub use open::Open;
pub use refused::Refused;
#[cfg(feature = "__own")]
pub use saved::Saved;

/// How many data bytes of an operating system command are kept, unless a parser is given another
/// number.
pub(crate) const MAX_OSC_RAW: usize = 1024;

/// Where in a text or a body the parser is. The VT500 parser's names are in parentheses; those
/// with a star end as `HeadProgress` says: `entry`, `param`, `intermediate` or `ignore`.
#[derive(Clone, Copy)]
pub(crate) enum State {
    /// In a text, after the bytes of an open character (`ground`).
    Text(OpenCharacter),
    /// After ESC (`escape`).
    Escape,
    /// After ESC and an intermediate (`escape intermediate`).
    EscapeIntermediate,
    /// In the head of a control sequence (`csi *`).
    ControlSequence(HeadProgress),
    /// In the head of a device control string (`dcs *`).
    DeviceControl(HeadProgress),
    /// In the data of a device control string (`dcs passthrough`).
    DeviceData,
    /// In an operating system command (`osc string`).
    SystemCommand,
    /// In a string that means nothing (`sos/pm/apc string`, or `dcs ignore` after its head).
    IgnoredString,
}

/// A parser of the bytes that programs send to a terminal, with a limit.
///
/// It reads a stream in chunks of any length, and calls a [`Perform`](crate::Perform) for each
/// event.
///
/// ```
/// # use vte::{Parser, Perform};
/// # struct Performer;
/// # impl Perform for Performer {}
/// # let mut performer = Performer;
/// let mut parser = Parser::new();
/// parser.advance(&mut performer, b"a\x1b[1");
/// parser.advance(&mut performer, b"m"); // one `csi_dispatch`, of the two chunks together
/// ```
///
/// It keeps up to `OSC_RAW_BUF_SIZE` data bytes of an operating system command, and drops the rest.
/// So it doesn't allocate, whatever the stream. [`command_lost_data`](Self::command_lost_data) says
/// whether something was dropped. Its size is about `OSC_RAW_BUF_SIZE` and 300 bytes.
///
/// `BoundedParser` is its name with and without the feature `std`. Without it,
/// [`Parser`](crate::Parser) is the same type.
#[derive(Clone)]
pub struct Parser<const OSC_RAW_BUF_SIZE: usize = MAX_OSC_RAW> {
    machine: Machine<Option<ArrayVec<u8, OSC_RAW_BUF_SIZE>>>,
}

impl Parser<MAX_OSC_RAW> {
    /// Creates a parser that has read nothing, with room for 1,024 data bytes of an operating
    /// system command.
    pub const fn new() -> Self {
        Parser::new_with_size()
    }
}

impl<const OSC_RAW_BUF_SIZE: usize> Default for Parser<OSC_RAW_BUF_SIZE> {
    fn default() -> Self {
        Self::new_with_size()
    }
}

impl<const OSC_RAW_BUF_SIZE: usize> Parser<OSC_RAW_BUF_SIZE> {
    /// Creates a parser that has read nothing, with room for `OSC_RAW_BUF_SIZE` data bytes of an
    /// operating system command, which may be 0.
    pub const fn new_with_size() -> Self {
        Parser {
            machine: Machine::new(None),
        }
    }

    /// Returns what is open, if anything is.
    ///
    /// It began at the last ESC, or is at most three bytes of a character.
    pub fn open(&self) -> Open {
        self.machine.open()
    }

    /// Returns whether a character or a sequence is open.
    pub fn is_open(&self) -> bool {
        self.machine.is_open()
    }

    /// Returns whether the open operating system command has lost data bytes, or the last one if
    /// none is open. It loses those that don't fit into the buffer, and those after the 16th piece.
    pub fn command_lost_data(&self) -> bool {
        self.machine.command_lost_data()
    }

    /// Reads the bytes of a call, all of them or, if it `MAY_STOP`, until the performer is
    /// terminated, and returns how many were read.
    pub(crate) fn drive<P: CountedPerform<G> + ?Sized, G: Granularity, const MAY_STOP: bool>(
        &mut self,
        performer: &mut P,
        input: &[u8],
    ) -> usize {
        let reader = Reader {};
        let result = self
            .machine
            .drive::<P, G, MAY_STOP>(reader, performer, input);
        match result {
            Ok(read) => read,
            // Never: with a limit no memory is refused.
            Err(refused) => refused.read,
        }
    }
}
