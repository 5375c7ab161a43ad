// Written by tools/erase from crates/event_log/src/lines/hex.rt: edit that one.
//! Lines of characters and single bytes, and hex digits.

use super::LogBuffer;

/// The two hex digits of each byte, one after another: one load instead of two.
const HEX_PAIRS: &[u8; 512] = b"\
    000102030405060708090a0b0c0d0e0f101112131415161718191a1b1c1d1e1f\
    202122232425262728292a2b2c2d2e2f303132333435363738393a3b3c3d3e3f\
    404142434445464748494a4b4c4d4e4f505152535455565758595a5b5c5d5e5f\
    606162636465666768696a6b6c6d6e6f707172737475767778797a7b7c7d7e7f\
    808182838485868788898a8b8c8d8e8f909192939495969798999a9b9c9d9e9f\
    a0a1a2a3a4a5a6a7a8a9aaabacadaeafb0b1b2b3b4b5b6b7b8b9babbbcbdbebf\
    c0c1c2c3c4c5c6c7c8c9cacbcccdcecfd0d1d2d3d4d5d6d7d8d9dadbdcdddedf\
    e0e1e2e3e4e5e6e7e8e9eaebecedeeeff0f1f2f3f4f5f6f7f8f9fafbfcfdfeff";

impl LogBuffer {
    /// Appends the line of a character. Most lines of a log are these, so the length of each copy
    /// is a constant.
    #[inline(always)]
    pub(crate) fn append_print(&mut self, c: char) {
        let number = c as u32;
        match number {
            0..=0xff => self.append(&line_of_print(number as u8)),
            0x100..=0xffff => {
                let [third, fourth] = hex_pair((number / 0x100) as u8);
                let [fifth, sixth] = hex_pair((number % 0x100) as u8);
                self.append(&[
                    b'p', b'r', b'i', b'n', b't', b' ', third, fourth, fifth, sixth, b'\n',
                ]);
            }
            _ => self.append_long_print(number),
        }
    }

    /// Appends the line of a character of five or six digits.
    #[inline(never)]
    fn append_long_print(&mut self, number: u32) {
        let [first, second, third, fourth, fifth, sixth] = six_hex_digits(number);
        match number {
            0x10000..=0xfffff => self.append(&[
                b'p', b'r', b'i', b'n', b't', b' ', second, third, fourth, fifth, sixth, b'\n',
            ]),
            _ => self.append(&[
                b'p', b'r', b'i', b'n', b't', b' ', first, second, third, fourth, fifth, sixth,
                b'\n',
            ]),
        }
    }
}

/// Returns the line of a character below U+0100.
pub(super) fn line_of_print(byte: u8) -> [u8; 11] {
    let [high, low] = hex_pair(byte);
    [
        b'p', b'r', b'i', b'n', b't', b' ', b'0', b'0', high, low, b'\n',
    ]
}

/// Returns the line of an executed byte.
pub(crate) fn line_of_execute(byte: u8) -> [u8; 11] {
    let [high, low] = hex_pair(byte);
    [
        b'e', b'x', b'e', b'c', b'u', b't', b'e', b' ', high, low, b'\n',
    ]
}

/// Returns the line of a data byte.
pub(crate) fn line_of_put(byte: u8) -> [u8; 7] {
    let [high, low] = hex_pair(byte);
    [b'p', b'u', b't', b' ', high, low, b'\n']
}

/// Returns the two hex digits of a byte.
pub(super) fn hex_pair(byte: u8) -> [u8; 2] {
    let index = 2 * usize::from(byte);
    [HEX_PAIRS[index], HEX_PAIRS[index + 1]]
}

/// Returns how many hex digits a number has, at least one and at most six.
pub(super) fn hex_length(number: u32) -> usize {
    match number {
        0..=0xf => 1,
        0x10..=0xff => 2,
        0x100..=0xfff => 3,
        0x1000..=0xffff => 4,
        0x10000..=0xfffff => 5,
        _ => 6,
    }
}

/// Returns the last six hex digits of a number.
pub(super) fn six_hex_digits(number: u32) -> [u8; 6] {
    let [first, second] = hex_pair((number / 0x10000 % 0x100) as u8);
    let [third, fourth] = hex_pair((number / 0x100 % 0x100) as u8);
    let [fifth, sixth] = hex_pair((number % 0x100) as u8);
    [first, second, third, fourth, fifth, sixth]
}
