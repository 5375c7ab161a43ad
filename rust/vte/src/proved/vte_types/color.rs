// Written by tools/erase from crates/vte_types/src/color.rt: edit that one.
//! Colours and attributes of characters (ECMA-48, SGR; xterm).

mod text;

use core::ops::{Add, Sub};
#[cfg(feature = "serde")]
use serde::{Deserialize, Serialize};

/// A colour of red, green and blue. The default is black.
///
/// It is displayed as `#` and two lowercase hex digits per component, and parsed from `#` or `0x`
/// and six hex digits of either case.
///
/// ```
/// # use vte::ansi::Rgb;
/// let color: Rgb = "0x80FF00".parse().unwrap();
/// assert_eq!(color, Rgb { r: 128, g: 255, b: 0 });
/// assert_eq!(color.to_string(), "#80ff00");
/// ```
#[derive(Debug, Eq, PartialEq, Copy, Clone, Default)]
#[cfg_attr(feature = "serde", derive(Serialize, Deserialize))]
pub struct Rgb {
    /// Red.
    pub r: u8,
    /// Green.
    pub g: u8,
    /// Blue.
    pub b: u8,
}

/// Adds each component. A sum above 255 is 255.
impl Add<Rgb> for Rgb {
    type Output = Rgb;

    fn add(self, rhs: Rgb) -> Rgb {
        Rgb {
            r: self.r.saturating_add(rhs.r),
            g: self.g.saturating_add(rhs.g),
            b: self.b.saturating_add(rhs.b),
        }
    }
}

/// Subtracts each component. A difference below 0 is 0.
impl Sub<Rgb> for Rgb {
    type Output = Rgb;

    fn sub(self, rhs: Rgb) -> Rgb {
        Rgb {
            r: self.r.saturating_sub(rhs.r),
            g: self.g.saturating_sub(rhs.g),
            b: self.b.saturating_sub(rhs.b),
        }
    }
}

/// A named colour. `as usize` gives its number: its index in a palette, or 256 and up for a colour
/// that isn't in it.
///
/// SGR 30 to 37 and 40 to 47 select `Black` to `White` (ECMA-48), and SGR 90 to 97 and 100 to 107
/// select `BrightBlack` to `BrightWhite` (aixterm). A terminal may show faint text in `DimBlack` to
/// `DimWhite` (ECMA-48, SGR 2).
#[derive(Debug, Copy, Clone, PartialEq, Eq, PartialOrd, Ord)]
#[cfg_attr(feature = "serde", derive(Serialize, Deserialize))]
pub enum NamedColor {
    /// Black.
    Black = 0,
    /// Red.
    Red,
    /// Green.
    Green,
    /// Yellow.
    Yellow,
    /// Blue.
    Blue,
    /// Magenta.
    Magenta,
    /// Cyan.
    Cyan,
    /// White.
    White,
    /// Bright black.
    BrightBlack,
    /// Bright red.
    BrightRed,
    /// Bright green.
    BrightGreen,
    /// Bright yellow.
    BrightYellow,
    /// Bright blue.
    BrightBlue,
    /// Bright magenta.
    BrightMagenta,
    /// Bright cyan.
    BrightCyan,
    /// Bright white.
    BrightWhite,
    /// The default colour of text (xterm, OSC 10).
    Foreground = 256,
    /// The default background (xterm, OSC 11).
    Background,
    /// The cursor's colour (xterm, OSC 12).
    Cursor,
    /// Dim black.
    DimBlack,
    /// Dim red.
    DimRed,
    /// Dim green.
    DimGreen,
    /// Dim yellow.
    DimYellow,
    /// Dim blue.
    DimBlue,
    /// Dim magenta.
    DimMagenta,
    /// Dim cyan.
    DimCyan,
    /// Dim white.
    DimWhite,
    /// The default colour of text, bright.
    BrightForeground,
    /// The default colour of text, dim.
    DimForeground,
}

impl NamedColor {
    /// Returns the colour one shade brighter: a plain colour's bright form, a dim colour's plain
    /// form, any other itself.
    #[must_use]
    pub fn to_bright(self) -> Self {
        match self {
            NamedColor::Foreground => NamedColor::BrightForeground,
            NamedColor::Black => NamedColor::BrightBlack,
            NamedColor::Red => NamedColor::BrightRed,
            NamedColor::Green => NamedColor::BrightGreen,
            NamedColor::Yellow => NamedColor::BrightYellow,
            NamedColor::Blue => NamedColor::BrightBlue,
            NamedColor::Magenta => NamedColor::BrightMagenta,
            NamedColor::Cyan => NamedColor::BrightCyan,
            NamedColor::White => NamedColor::BrightWhite,
            NamedColor::DimForeground => NamedColor::Foreground,
            NamedColor::DimBlack => NamedColor::Black,
            NamedColor::DimRed => NamedColor::Red,
            NamedColor::DimGreen => NamedColor::Green,
            NamedColor::DimYellow => NamedColor::Yellow,
            NamedColor::DimBlue => NamedColor::Blue,
            NamedColor::DimMagenta => NamedColor::Magenta,
            NamedColor::DimCyan => NamedColor::Cyan,
            NamedColor::DimWhite => NamedColor::White,
            color => color,
        }
    }

    /// Returns the colour one shade dimmer: a plain colour's dim form, a bright colour's plain
    /// form, any other itself.
    #[must_use]
    pub fn to_dim(self) -> Self {
        match self {
            NamedColor::Black => NamedColor::DimBlack,
            NamedColor::Red => NamedColor::DimRed,
            NamedColor::Green => NamedColor::DimGreen,
            NamedColor::Yellow => NamedColor::DimYellow,
            NamedColor::Blue => NamedColor::DimBlue,
            NamedColor::Magenta => NamedColor::DimMagenta,
            NamedColor::Cyan => NamedColor::DimCyan,
            NamedColor::White => NamedColor::DimWhite,
            NamedColor::Foreground => NamedColor::DimForeground,
            NamedColor::BrightBlack => NamedColor::Black,
            NamedColor::BrightRed => NamedColor::Red,
            NamedColor::BrightGreen => NamedColor::Green,
            NamedColor::BrightYellow => NamedColor::Yellow,
            NamedColor::BrightBlue => NamedColor::Blue,
            NamedColor::BrightMagenta => NamedColor::Magenta,
            NamedColor::BrightCyan => NamedColor::Cyan,
            NamedColor::BrightWhite => NamedColor::White,
            NamedColor::BrightForeground => NamedColor::Foreground,
            color => color,
        }
    }
}

/// A colour in a control sequence.
#[derive(Debug, Copy, Clone, Eq, PartialEq)]
#[cfg_attr(feature = "serde", derive(Serialize, Deserialize))]
pub enum Color {
    /// By name.
    Named(NamedColor),
    /// By red, green and blue (ITU-T T.416, SGR 38 and 48 with 2).
    Spec(Rgb),
    /// By index in the palette of 256 colours (ITU-T T.416, SGR 38 and 48 with 5).
    Indexed(u8),
}

/// An attribute of the characters that follow (ECMA-48, SGR; kitty for the styles and colours of
/// underlines).
#[derive(Debug, Eq, PartialEq, Clone, Copy)]
pub enum Attr {
    /// SGR 0.
    Reset,
    /// SGR 1.
    Bold,
    /// SGR 2.
    Dim,
    /// SGR 3.
    Italic,
    /// SGR 4.
    Underline,
    /// SGR 4:2.
    DoubleUnderline,
    /// SGR 4:3.
    Undercurl,
    /// SGR 4:4.
    DottedUnderline,
    /// SGR 4:5.
    DashedUnderline,
    /// SGR 5.
    BlinkSlow,
    /// SGR 6.
    BlinkFast,
    /// SGR 7.
    Reverse,
    /// SGR 8.
    Hidden,
    /// SGR 9.
    Strike,
    /// SGR 21, which is a double underline in ECMA-48.
    CancelBold,
    /// SGR 22.
    CancelBoldDim,
    /// SGR 23.
    CancelItalic,
    /// SGR 24 and 4:0.
    CancelUnderline,
    /// SGR 25.
    CancelBlink,
    /// SGR 27.
    CancelReverse,
    /// SGR 28.
    CancelHidden,
    /// SGR 29.
    CancelStrike,
    /// The text's colour.
    Foreground(Color),
    /// The background colour.
    Background(Color),
    /// The underline's colour. `None` is the colour of the text.
    UnderlineColor(Option<Color>),
}
