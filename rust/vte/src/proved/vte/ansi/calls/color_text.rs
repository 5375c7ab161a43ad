// Written by tools/erase from crates/vte/src/ansi/calls/color_text.rt: edit that one.
//! Colours as texts.

use crate::proved::vte::ansi::calls::split::{split_at_first, strip_word};
use crate::proved::vte_types::Rgb;

/// Returns the colour that a text names.
pub(crate) fn xparse_color(text: &[u8]) -> Option<Rgb> {
    if let Some(parts) = strip_word(text, b"rgb:") {
        return read_parts(parts);
    }
    read_thirds(strip_word(text, b"#")?)
}

/// Returns the colour of three numbers with `/` between them.
fn read_parts(text: &[u8]) -> Option<Rgb> {
    let (r, after_r) = split_at_first(text, b'/');
    let (g, after_g) = split_at_first(after_r?, b'/');
    let (b, after_b) = split_at_first(after_g?, b'/');
    if after_b.is_some() {
        return None;
    }
    Some(Rgb {
        r: scale_to_255(r)?,
        g: scale_to_255(g)?,
        b: scale_to_255(b)?,
    })
}

/// Returns the colour of hex digits, a third of them for each component.
fn read_thirds(digits: &[u8]) -> Option<Rgb> {
    let count = digits.len() / 3;
    if digits.len() != 3 * count {
        return None;
    }
    let r = take_top_eight_bits(&digits[..count])?;
    let g = take_top_eight_bits(&digits[count..][..count])?;
    let b = take_top_eight_bits(&digits[2 * count..])?;
    Some(Rgb { r, g, b })
}

/// Returns the number that hex digits stand for.
fn read_hex(digits: &[u8]) -> Option<u32> {
    let mut number: u32 = 0;
    for byte in digits {
        number = 16 * number + char::from(*byte).to_digit(16)?;
    }
    Some(number)
}

/// Scales the number of hex digits so that the greatest number with as many digits becomes 255.
fn scale_to_255(digits: &[u8]) -> Option<u8> {
    let greatest = match digits.len() {
        1 => 0xf,
        2 => 0xff,
        3 => 0xfff,
        4 => 0xffff,
        _ => return None,
    };
    Some((255 * read_hex(digits)? / greatest) as u8)
}

/// Returns the top eight bits of a number of this many digits.
fn take_top_eight_bits(digits: &[u8]) -> Option<u8> {
    let range = match digits.len() {
        1 => 0x10,
        2 => 0x100,
        3 => 0x1000,
        4 => 0x10000,
        _ => return None,
    };
    Some((256 * read_hex(digits)? / range) as u8)
}
