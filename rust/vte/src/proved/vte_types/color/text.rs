// Written by tools/erase from crates/vte_types/src/color/text.rt: edit that one.
//! Colours as hex digits.

use super::Rgb;
use core::fmt;
use core::str::FromStr;

/// Writes `#` and two lowercase hex digits per component.
impl fmt::Display for Rgb {
    fn fmt(&self, f: &mut fmt::Formatter<'_>) -> fmt::Result {
        let Rgb { r, g, b } = *self;
        write!(f, "#{r:02x}{g:02x}{b:02x}")
    }
}

/// Reads `0x` or `#` and exactly six hex digits of either case. Any other text is `Err(())`.
impl FromStr for Rgb {
    type Err = ();

    fn from_str(s: &str) -> Result<Rgb, ()> {
        let text = s.as_bytes();
        let digits = strip_word(text, b"0x")
            .or(strip_word(text, b"#"))
            .ok_or(())?;
        six_digits(digits).ok_or(())
    }
}

/// Returns what follows a word at the start of the text.
fn strip_word<'a>(text: &'a [u8], word: &[u8]) -> Option<&'a [u8]> {
    text.strip_prefix(word)
}

/// Returns the colour of six hex digits, two per component.
fn six_digits(digits: &[u8]) -> Option<Rgb> {
    match digits {
        [r, s, g, h, b, c] => Some(Rgb {
            r: two_digits(*r, *s)?,
            g: two_digits(*g, *h)?,
            b: two_digits(*b, *c)?,
        }),
        _ => None,
    }
}

/// Returns the number of two hex digits.
fn two_digits(high: u8, low: u8) -> Option<u8> {
    let high = char::from(high).to_digit(16)?;
    let low = char::from(low).to_digit(16)?;
    Some((16 * high + low) as u8)
}
