// Written by tools/erase from crates/vte_types/src/lib.rt: edit that one.
//! The types in a handler's calls, and their tables: colours, modes, character sets and cursors.

pub use ::cursor_icon;
#[allow(non_snake_case)]
pub mod C0;
mod charset;
mod color;
mod keyboard;
mod mode;
mod screen;

pub use charset::{CharsetIndex, StandardCharset};
pub use color::{Attr, Color, NamedColor, Rgb};
pub use keyboard::{KeyboardModes, KeyboardModesApplyBehavior, ModifyOtherKeys};
pub use mode::{Mode, NamedMode, NamedPrivateMode, PrivateMode};
pub use screen::{
    ClearMode, CursorShape, CursorStyle, LineClearMode, ScpCharPath, ScpUpdateMode,
    TabulationClearMode,
};
