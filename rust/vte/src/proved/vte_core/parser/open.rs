// Written by tools/erase from crates/vte_core/src/parser/open.rt: edit that one.
//! What a parser has left open.

use crate::proved::vte_core::parser::{OpenCharacter, State};

/// What is open at the end of the bytes that were read.
///
/// It began at the last ESC, or is at most three bytes of a character.
#[derive(Clone, Copy, Debug, PartialEq, Eq)]
pub enum Open {
    /// Nothing: more bytes give what they give on their own.
    Nothing,
    /// A character, of which one to three bytes were read.
    Character,
    /// An escape sequence; or only ESC, after which any of the others may follow.
    EscapeSequence,
    /// A control sequence (CSI).
    ControlSequence,
    /// A device control string (DCS): its head, or its data.
    DeviceControl,
    /// An operating system command (OSC).
    SystemCommand,
    /// A string that means nothing (SOS, PM, APC), or a device control string after an ill-shaped
    /// head.
    IgnoredString,
}

impl State {
    /// Returns what is open in this state.
    pub(crate) fn open(self) -> Open {
        match self {
            State::Text(OpenCharacter::Empty) => Open::Nothing,
            State::Text(_) => Open::Character,
            State::Escape | State::EscapeIntermediate => Open::EscapeSequence,
            State::ControlSequence(_) => Open::ControlSequence,
            State::DeviceControl(_) | State::DeviceData => Open::DeviceControl,
            State::SystemCommand => Open::SystemCommand,
            State::IgnoredString => Open::IgnoredString,
        }
    }
}
