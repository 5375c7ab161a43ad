// Written by tools/erase from crates/vte/src/ansi/calls/numbers.rt: edit that one.
//! The numbers of a control sequence, and those in texts of commands.

use crate::proved::vte::ansi::calls::text_buffer::TextBuffer;
use crate::proved::vte_core::ParamsIter;

/// An iterator of numbers, with contracts that say which numbers are left.
pub(crate) trait NumberIterator {
    /// Returns the next number.
    fn next_number(&mut self) -> Option<u16>;

    /// Returns the next number, or `default` if that is 0 or there is none left.
    #[inline]
    fn next_or(&mut self, default: u16) -> u16 {
        match self.next_number() {
            Some(number) if number != 0 => number,
            _ => default,
        }
    }

    /// Returns the next number as a count, or 1 if it is 0 or there is none left.
    #[inline]
    fn next_count(&mut self) -> usize {
        usize::from(self.next_or(1))
    }
}

/// Takes the first number of each group.
impl NumberIterator for ParamsIter<'_> {
    #[inline]
    fn next_number(&mut self) -> Option<u16> {
        Some(first_number(self.next()?))
    }
}

impl NumberIterator for &[u16] {
    fn next_number(&mut self) -> Option<u16> {
        let (number, rest) = self.split_first()?;
        *self = rest;
        Some(*number)
    }
}

/// Returns the first number of a group. No group is empty.
#[inline]
pub(crate) fn first_number(group: &[u16]) -> u16 {
    match group {
        [number, ..] => *number,
        [] => 0,
    }
}

/// Reads a decimal number of at most 255.
pub(crate) fn parse_number(digits: &[u8]) -> Option<u8> {
    if digits.is_empty() {
        return None;
    }
    let mut number: u8 = 0;
    for byte in digits {
        let digit = char::from(*byte).to_digit(10)?;
        number = number.checked_mul(10)?.checked_add(digit as u8)?;
    }
    Some(number)
}

/// Appends a number to a text.
pub(crate) fn push_number<B: TextBuffer>(text: &mut B, number: u8) {
    if number < 10 {
        text.push(char::from(b'0' + number));
    } else {
        push_number(text, number / 10);
        text.push(char::from(b'0' + number % 10));
    }
}
