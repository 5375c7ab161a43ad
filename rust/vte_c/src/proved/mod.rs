// Written by tools/erase from crates/: edit those.
//! The proved text.

pub(crate) mod vte_c;
