//! Arithmetic of colours in floating point.
use core::ops::Mul;

use crate::proved::vte_types::Rgb;

/// Multiplies each part. A part that would be above 255 is 255, and one below 0 is 0.
impl Mul<f32> for Rgb {
    type Output = Rgb;

    fn mul(self, rhs: f32) -> Rgb {
        let scaled = |part: u8| (f32::from(part) * rhs).clamp(0.0, 255.0) as u8;
        Rgb {
            r: scaled(self.r),
            g: scaled(self.g),
            b: scaled(self.b),
        }
    }
}

impl Rgb {
    /// Returns the relative luminance (WCAG 2.0), from 0 for black to 1 for white.
    pub fn luminance(self) -> f64 {
        let linear = |part: u8| {
            let share = f64::from(part) / 255.0;
            if share <= 0.03928 {
                share / 12.92
            } else {
                ((share + 0.055) / 1.055).powf(2.4)
            }
        };
        0.2126 * linear(self.r) + 0.7152 * linear(self.g) + 0.0722 * linear(self.b)
    }

    /// Returns the contrast ratio of two colours (WCAG 2.0), from 1 to 21.
    pub fn contrast(self, other: Rgb) -> f64 {
        let (one, two) = (self.luminance(), other.luminance());
        (one.max(two) + 0.05) / (one.min(two) + 0.05)
    }
}
