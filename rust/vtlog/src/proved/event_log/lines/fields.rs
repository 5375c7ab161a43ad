// Written by tools/erase from crates/event_log/src/lines/fields.rt: edit that one.
//! Fields of lines.

use super::hex::{hex_length, hex_pair, six_hex_digits};
use super::LogBuffer;
use vte::Params;

impl LogBuffer {
    /// Pushes the decimal digits of a number, three at a time.
    pub(crate) fn push_decimal(&mut self, number: usize) {
        match number {
            0..=9 => self.push(&[digit(number)]),
            10..=99 => self.push(&[digit(number / 10), digit(number)]),
            100..=999 => self.push(&[digit(number / 100), digit(number / 10), digit(number)]),
            _ => {
                self.push_decimal(number / 1000);
                self.push(&[digit(number / 100), digit(number / 10), digit(number)]);
            }
        }
    }

    /// Pushes a byte as two hex digits.
    pub(crate) fn push_hex_byte(&mut self, byte: u8) {
        self.push(&hex_pair(byte));
    }

    /// Pushes a blank, and bytes as hex digits, or `-` for none.
    pub(crate) fn push_hex_field(&mut self, bytes: &[u8]) {
        if bytes.is_empty() {
            self.push(b" -");
            return;
        }
        self.push(b" ");
        for byte in bytes {
            self.push_hex_byte(*byte);
        }
    }

    /// Pushes a blank, and `true` or `false`.
    pub(crate) fn push_flag_field(&mut self, flag: bool) {
        self.push(if flag { b" true" } else { b" false" });
    }

    /// Pushes the number of pieces, and each piece as a field.
    pub(crate) fn push_pieces_fields(&mut self, pieces: &[&[u8]]) {
        self.push(b" ");
        self.push_decimal(pieces.len());
        for piece in pieces {
            self.push_hex_field(piece);
        }
    }

    /// Pushes the fields of a control sequence or a device control string.
    pub(crate) fn push_sequence_fields(
        &mut self,
        params: &Params,
        intermediates: &[u8],
        ignore: bool,
        action: char,
    ) {
        self.push_groups(params);
        self.push_hex_field(intermediates);
        self.push_flag_field(ignore);
        self.push(b" ");
        self.push_character(2, action);
    }

    /// Pushes the groups, separated by `;`, and the numbers of each, separated by `:`.
    fn push_groups(&mut self, params: &Params) {
        self.push(b" [");
        let mut groups = params.iter();
        if let Some(first) = groups.next() {
            self.push_numbers(first);
            for group in groups {
                self.push(b";");
                self.push_numbers(group);
            }
        }
        self.push(b"]");
    }

    /// Pushes the numbers of a group.
    fn push_numbers(&mut self, group: &[u16]) {
        self.push_decimal(usize::from(group[0]));
        for number in &group[1..] {
            self.push(b":");
            self.push_decimal(usize::from(*number));
        }
    }

    /// Pushes the number of a character in hex, padded to at least `least` digits.
    pub(crate) fn push_character(&mut self, least: usize, c: char) {
        let number = c as u32;
        let digits = six_hex_digits(number);
        let start = 6 - least.max(hex_length(number));
        self.push(&digits[start..]);
    }
}

/// Returns the last decimal digit of a number.
fn digit(number: usize) -> u8 {
    b'0' + (number % 10) as u8
}
