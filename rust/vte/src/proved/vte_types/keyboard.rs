// Written by tools/erase from crates/vte_types/src/keyboard.rt: edit that one.
//! Modes of the keyboard (the kitty keyboard protocol; xterm's modifyOtherKeys).

pub use crate::adapter::keyboard::KeyboardModes;

/// How a set of modes is applied to the current one (the kitty keyboard protocol).
#[derive(Default, Clone, Copy, PartialEq, Eq, Debug)]
#[repr(u8)]
pub enum KeyboardModesApplyBehavior {
    /// Replace the current set.
    #[default]
    Replace,
    /// Add it to the current set.
    Union,
    /// Remove it from the current set.
    Difference,
}

/// Which keys are reported with their modifiers (xterm, modifyOtherKeys).
#[derive(Debug, Clone, Copy, PartialEq, Eq, Hash)]
#[repr(u8)]
pub enum ModifyOtherKeys {
    /// None.
    Reset,
    /// All except those with a well-known meaning.
    EnableExceptWellDefined,
    /// All.
    EnableAll,
}
