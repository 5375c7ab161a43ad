// Written by tools/erase from crates/: edit those.
//! The proved text.
// The code has the form that is proved.
#![allow(clippy::redundant_closure)]

pub(crate) mod event_log;
pub(crate) mod vtlog;
