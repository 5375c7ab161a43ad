//! A text with room for a fixed number of bytes. It has the name and methods of the crate
//! `arrayvec`, and no call of it panics.
use crate::adapter::array_vec::ArrayVec;

/// Room for N bytes of text. A part that doesn't fit is left out.
#[derive(Clone)]
pub(crate) struct ArrayString<const N: usize>(ArrayVec<u8, N>);

impl<const N: usize> ArrayString<N> {
    pub(crate) fn new() -> Self {
        ArrayString(ArrayVec::new())
    }

    pub(crate) fn capacity(&self) -> usize {
        N
    }

    pub(crate) fn clear(&mut self) {
        self.0.clear();
    }

    pub(crate) fn push(&mut self, c: char) {
        self.push_str(c.encode_utf8(&mut [0; 4]));
    }

    pub(crate) fn push_str(&mut self, text: &str) {
        let _ = self.0.try_extend_from_slice(text.as_bytes());
    }

    pub(crate) fn as_str(&self) -> &str {
        core::str::from_utf8(self.0.as_slice()).unwrap_or_default()
    }
}

#[cfg(test)]
mod tests {
    use super::ArrayString;

    #[test]
    fn what_does_not_fit_is_left_out() {
        let mut text = ArrayString::<4>::new();
        assert_eq!((text.as_str(), text.capacity()), ("", 4));
        text.push_str("ab");
        text.push('\u{20ac}');
        text.push_str("cde");
        assert_eq!(text.as_str(), "ab");
        text.push('\u{e9}');
        assert_eq!(text.as_str(), "ab\u{e9}");
        text.push_str("");
        text.push('c');
        assert_eq!(text.as_str(), "ab\u{e9}");
        text.clear();
        text.push('\u{1f600}');
        assert_eq!(text.as_str(), "\u{1f600}");
    }
}
