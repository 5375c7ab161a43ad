// Written by tools/erase from crates/vte/src/ansi/calls/color_reader.rt: edit that one.
//! Colours of numbers, read from any iterator of them.

use crate::proved::vte::ansi::calls::numbers::NumberIterator;
use crate::proved::vte_types::{Color, Rgb};

/// Takes the next number, and returns it if it can be a component of a colour.
fn next_component<I: NumberIterator>(numbers: &mut I) -> Option<u8> {
    u8::try_from(numbers.next_number()?).ok()
}

/// Reads a colour of this kind, and uses up what it read.
pub(crate) fn read_color<I: NumberIterator>(kind: u16, numbers: &mut I) -> Option<Color> {
    match kind {
        2 => {
            let r = next_component(numbers)?;
            let g = next_component(numbers)?;
            let b = next_component(numbers)?;
            Some(Color::Spec(Rgb { r, g, b }))
        }
        5 => Some(Color::Indexed(next_component(numbers)?)),
        _ => None,
    }
}

/// Reads a colour after 38, 48 or 58 in one group.
pub(crate) fn read_joined_color(numbers: &[u16]) -> Option<Color> {
    let (kind, mut left) = numbers.split_first()?;
    if left.len() > 3 {
        left = &left[1..];
    }
    read_color(*kind, &mut left)
}
