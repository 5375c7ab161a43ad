//! What C gets of the arguments of calls: texts as pointers and lengths, and colours and attributes
//! as numbers.

use core::ptr;
use vte::ansi::{Attr, Color, Rgb};

pub fn place_of(text: Option<&str>) -> *const u8 {
    text.map_or(ptr::null(), str::as_ptr)
}

pub fn length_of(text: Option<&str>) -> usize {
    text.map_or(0, str::len)
}

/// What a colour is.
#[repr(u8)]
#[derive(Clone, Copy)]
enum ColorKind {
    None,
    Named,
    Rgb,
    Indexed,
}

/// A colour: what it is, and its number.
#[repr(C)]
#[derive(Clone, Copy)]
pub struct VteColor {
    kind: ColorKind,
    red: u8,
    green: u8,
    blue: u8,
    index: u32,
}

impl VteColor {
    const fn new(kind: ColorKind, index: u32, rgb: Rgb) -> Self {
        let (red, green, blue) = (rgb.r, rgb.g, rgb.b);
        VteColor {
            kind,
            red,
            green,
            blue,
            index,
        }
    }

    pub const fn of_rgb(rgb: Rgb) -> Self {
        VteColor::new(ColorKind::Rgb, 0, rgb)
    }

    fn of(color: Option<Color>) -> Self {
        let black = Rgb { r: 0, g: 0, b: 0 };
        match color {
            None => VteColor::new(ColorKind::None, 0, black),
            Some(Color::Named(named)) => VteColor::new(ColorKind::Named, named as u32, black),
            Some(Color::Spec(rgb)) => VteColor::of_rgb(rgb),
            Some(Color::Indexed(index)) => {
                VteColor::new(ColorKind::Indexed, u32::from(index), black)
            }
        }
    }
}

pub fn color_of(attribute: Attr) -> VteColor {
    VteColor::of(match attribute {
        Attr::Foreground(color) | Attr::Background(color) => Some(color),
        Attr::UnderlineColor(color) => color,
        _ => None,
    })
}

/// The index of an attribute in the list of vte.h.
pub fn attribute_number(attribute: Attr) -> u8 {
    match attribute {
        Attr::Reset => 0,
        Attr::Bold => 1,
        Attr::Dim => 2,
        Attr::Italic => 3,
        Attr::Underline => 4,
        Attr::DoubleUnderline => 5,
        Attr::Undercurl => 6,
        Attr::DottedUnderline => 7,
        Attr::DashedUnderline => 8,
        Attr::BlinkSlow => 9,
        Attr::BlinkFast => 10,
        Attr::Reverse => 11,
        Attr::Hidden => 12,
        Attr::Strike => 13,
        Attr::CancelBold => 14,
        Attr::CancelBoldDim => 15,
        Attr::CancelItalic => 16,
        Attr::CancelUnderline => 17,
        Attr::CancelBlink => 18,
        Attr::CancelReverse => 19,
        Attr::CancelHidden => 20,
        Attr::CancelStrike => 21,
        Attr::Foreground(_) => 22,
        Attr::Background(_) => 23,
        Attr::UnderlineColor(_) => 24,
    }
}
