// Written by tools/erase from crates/vte/src/ansi/calls/values.rt: edit that one.
//! What the numbers of control sequences select.

use crate::proved::vte_types::{
    KeyboardModes, KeyboardModesApplyBehavior, ScpCharPath, ScpUpdateMode,
};

/// Returns the bottom of a scrolling region, if there is one.
pub(crate) fn read_scrolling_bottom(number: u16) -> Option<usize> {
    match number {
        0 => None,
        _ => Some(usize::from(number)),
    }
}

/// Returns how keyboard modes are applied.
pub(crate) fn read_keyboard_behavior(number: u16) -> KeyboardModesApplyBehavior {
    match number {
        3 => KeyboardModesApplyBehavior::Difference,
        2 => KeyboardModesApplyBehavior::Union,
        _ => KeyboardModesApplyBehavior::Replace,
    }
}

/// Returns the keyboard modes of a number's low five bits.
pub(crate) fn read_keyboard_modes(number: u16) -> KeyboardModes {
    KeyboardModes::from_bits_retain((number % 32) as u8)
}

/// Returns the character path, the first selection of SCP.
pub(crate) fn read_character_path(number: u16) -> Option<ScpCharPath> {
    match number {
        0 => Some(ScpCharPath::Default),
        1 => Some(ScpCharPath::LTR),
        2 => Some(ScpCharPath::RTL),
        _ => None,
    }
}

/// Returns how the display follows the character path, the second selection of SCP.
pub(crate) fn read_scp_update_mode(number: u16) -> Option<ScpUpdateMode> {
    match number {
        0 => Some(ScpUpdateMode::ImplementationDependant),
        1 => Some(ScpUpdateMode::DataToPresentation),
        2 => Some(ScpUpdateMode::PresentationToData),
        _ => None,
    }
}
