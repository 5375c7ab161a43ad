// Written by tools/erase from crates/vte_core/src/parser/machine.rt: edit that one.
//! The state of a parser, and what it has collected.

use crate::proved::vte_core::buffer::Buffer;
use crate::proved::vte_core::head::CollectedHead;
use crate::proved::vte_core::parser::{Open, OpenCharacter, State};
use crate::proved::vte_core::store::CommandStore;

/// A parser over any buffer for operating system commands. The state functions are its methods.
#[derive(Clone)]
pub(crate) struct Machine<B: Buffer> {
    pub(crate) state: State,
    pub(crate) collected: CollectedHead,
    pub(crate) command: CommandStore<B>,
}

impl<B: Buffer> Machine<B> {
    /// Creates a machine that has read nothing, over an empty buffer.
    pub(crate) const fn new(bytes: B) -> Self {
        Machine {
            state: State::Text(OpenCharacter::Empty),
            collected: CollectedHead::new(),
            command: CommandStore::new(bytes),
        }
    }

    /// Returns whether the open operating system command has lost data bytes, or the last one if
    /// none is open. It has lost those that are in no piece.
    pub(crate) fn command_lost_data(&self) -> bool {
        self.command.has_lost_data()
    }

    /// Returns what is open.
    pub(crate) fn open(&self) -> Open {
        self.state.open()
    }

    /// Returns whether anything is open.
    pub(crate) fn is_open(&self) -> bool {
        !matches!(self.open(), Open::Nothing)
    }
}
