// Written by tools/erase from crates/vte_core/src/reader/granularity.rt: edit that one.
//! How performers receive text.

use crate::proved::vte_core::class::is_layout;
use crate::proved::vte_core::perform::{Perform, PerformText};

/// How a performer receives what is printed.
pub(crate) trait Granularity {
    /// Whether text and data come in runs, and not by the character and the byte.
    const IN_RUNS: bool;
}

/// Marks a performer that receives each character and each data byte by itself.
pub enum ByCharacter {}

/// Marks a performer that receives text and data in runs.
pub enum InRuns {}

impl Granularity for ByCharacter {
    const IN_RUNS: bool = false;
}

impl Granularity for InRuns {
    const IN_RUNS: bool = true;
}

/// A performer that receives text and data one by one or in runs, as `G` says.
pub(crate) trait ReceiveAs<G: Granularity>: Perform {
    /// Returns whether HT, LF and CR come as text.
    fn keeps_layout(&self) -> bool;

    /// Receives a character to print.
    fn print_char(&mut self, c: char);

    /// Receives a control function of one byte.
    fn execute_control(&mut self, byte: u8);

    /// Receives a data byte of a device control string.
    fn put_byte(&mut self, byte: u8);

    /// Receives characters to print, at least one.
    fn print_text(&mut self, text: &str);

    /// Receives data of a device control string, at least one byte.
    fn put_slice(&mut self, bytes: &[u8]);
}

impl<P: Perform + ?Sized> ReceiveAs<ByCharacter> for P {
    #[inline(always)]
    fn keeps_layout(&self) -> bool {
        false
    }

    #[inline(always)]
    fn print_char(&mut self, c: char) {
        Perform::print(self, c);
    }

    #[inline(always)]
    fn execute_control(&mut self, byte: u8) {
        Perform::execute(self, byte);
    }

    #[inline(always)]
    fn put_byte(&mut self, byte: u8) {
        Perform::put(self, byte);
    }

    // Never called: texts are reported only to performers that receive runs (`IN_RUNS`). A premise
    // that says so is refused, since no call could meet it.
    fn print_text(&mut self, text: &str) {
        for c in text.chars() {
            Perform::print(self, c);
        }
    }

    // Never called, for the same reason.
    fn put_slice(&mut self, bytes: &[u8]) {
        for byte in bytes {
            Perform::put(self, *byte);
        }
    }
}

impl<P: PerformText + ?Sized> ReceiveAs<InRuns> for P {
    #[inline(always)]
    fn keeps_layout(&self) -> bool {
        PerformText::keeps_layout(self)
    }

    #[inline(always)]
    fn print_char(&mut self, c: char) {
        PerformText::print_text(self, c.encode_utf8(&mut [0; 4]));
    }

    #[inline(always)]
    fn execute_control(&mut self, byte: u8) {
        if is_layout(byte) && PerformText::keeps_layout(self) {
            PerformText::print_text(self, char::from(byte).encode_utf8(&mut [0; 4]));
        } else {
            Perform::execute(self, byte);
        }
    }

    #[inline(always)]
    fn put_byte(&mut self, byte: u8) {
        PerformText::put_slice(self, &[byte]);
    }

    #[inline(always)]
    fn print_text(&mut self, text: &str) {
        PerformText::print_text(self, text);
    }

    #[inline(always)]
    fn put_slice(&mut self, bytes: &[u8]) {
        PerformText::put_slice(self, bytes);
    }
}
