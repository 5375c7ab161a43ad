//! A performer that folds all events into a checksum, as cheaply as crates/benchmark does.

use std::fmt;

use vte::{Params, Perform};

// the kinds of events, in bits above anything that is folded with them
const PRINT: u64 = 1 << 32;
const EXECUTE: u64 = 2 << 32;
const HOOK: u64 = 3 << 32;
const PUT: u64 = 4 << 32;
const UNHOOK: u64 = 5 << 32;
const OSC_DISPATCH: u64 = 6 << 32;
const CSI_DISPATCH: u64 = 7 << 32;
const ESC_DISPATCH: u64 = 8 << 32;

/// The exclusive or of all numbers, and the sum of its values after each, which depends on the
/// order.
///
/// With a sum in the place of the exclusive or, LLVM would fold several events at once if it sees
/// them together.
#[derive(Default)]
pub struct Checksum {
    parity: u64,
    sum: u64,
}

impl Checksum {
    #[inline(always)]
    pub fn fold(&mut self, number: u64) {
        self.parity ^= number;
        self.sum = self.sum.wrapping_add(self.parity);
    }

    fn fold_params(&mut self, params: &Params) {
        for group in params {
            self.fold(group.len() as u64);
            for number in group {
                self.fold(*number as u64);
            }
        }
    }

    fn fold_intermediates(&mut self, intermediates: &[u8], ignore: bool) {
        for byte in intermediates {
            self.fold(*byte as u64);
        }
        self.fold(ignore as u64);
    }

    /// Folds a piece of an operating system command: its length and the sum of its bytes.
    pub fn fold_piece(&mut self, piece: &[u8]) {
        self.fold(piece.len() as u64);
        self.fold(
            piece
                .iter()
                .fold(0, |sum, byte| sum.wrapping_add(u64::from(*byte))),
        );
    }
}

impl fmt::Display for Checksum {
    fn fmt(&self, f: &mut fmt::Formatter<'_>) -> fmt::Result {
        write!(f, "{:016x} {:016x}", self.parity, self.sum)
    }
}

impl Perform for Checksum {
    #[inline]
    fn print(&mut self, c: char) {
        self.fold(PRINT + c as u64);
    }

    #[inline]
    fn execute(&mut self, byte: u8) {
        self.fold(EXECUTE + byte as u64);
    }

    fn hook(&mut self, params: &Params, intermediates: &[u8], ignore: bool, action: char) {
        self.fold(HOOK + action as u64);
        self.fold_params(params);
        self.fold_intermediates(intermediates, ignore);
    }

    #[inline]
    fn put(&mut self, byte: u8) {
        self.fold(PUT + byte as u64);
    }

    fn unhook(&mut self) {
        self.fold(UNHOOK);
    }

    fn osc_dispatch(&mut self, params: &[&[u8]], bell_terminated: bool) {
        self.fold(OSC_DISPATCH + bell_terminated as u64);
        for piece in params {
            self.fold_piece(piece);
        }
    }

    fn csi_dispatch(&mut self, params: &Params, intermediates: &[u8], ignore: bool, action: char) {
        self.fold(CSI_DISPATCH + action as u64);
        self.fold_params(params);
        self.fold_intermediates(intermediates, ignore);
    }

    fn esc_dispatch(&mut self, intermediates: &[u8], ignore: bool, byte: u8) {
        self.fold(ESC_DISPATCH + byte as u64);
        self.fold_intermediates(intermediates, ignore);
    }
}
