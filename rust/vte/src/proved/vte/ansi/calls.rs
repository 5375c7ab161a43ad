// Written by tools/erase from crates/vte/src/ansi/calls.rt: edit that one.
//! The calls that events mean, and the values that they give to a handler.

pub(crate) mod color_reader;
pub(crate) mod color_text;
pub(crate) mod command;
pub(crate) mod control_sequence;
pub(crate) mod escape;
pub(crate) mod growing_text;
pub(crate) mod input;
pub(crate) mod joined_text;
pub(crate) mod numbers;
pub(crate) mod performer;
pub(crate) mod rendition;
pub(crate) mod split;
pub(crate) mod text_buffer;
pub(crate) mod values;
