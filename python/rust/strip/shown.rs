//! The text that is shown of a stream.

use std::borrow::Cow;
use std::collections::TryReserveError;
use vte::{LongParser, Perform, PerformText, Refused};

/// The text that is shown. Nothing is copied as long as it is the front of the source.
#[derive(Default)]
pub struct ShownText<'a> {
    source: &'a [u8],
    same: usize,
    text: Vec<u8>,
    is_refused: bool,
}

impl<'a> ShownText<'a> {
    pub fn new(source: &'a [u8]) -> Self {
        ShownText {
            source,
            ..ShownText::default()
        }
    }

    #[inline]
    pub fn add(&mut self, more: &[u8]) {
        if self.text.is_empty() && self.source[self.same..].starts_with(more) {
            self.same += more.len();
        } else if !self.is_refused {
            self.is_refused = self.push(more).is_err();
        }
    }

    fn push(&mut self, more: &[u8]) -> Result<(), TryReserveError> {
        if self.text.is_empty() {
            self.text.try_reserve(self.source.len() + more.len())?;
            self.text.extend_from_slice(&self.source[..self.same]);
        }
        self.text.try_reserve(more.len())?;
        self.text.extend_from_slice(more);
        Ok(())
    }

    pub fn into_text(self) -> Result<Cow<'a, [u8]>, Refused> {
        match self.is_refused {
            true => Err(Refused { read: 0 }),
            false if self.text.is_empty() => Ok(Cow::Borrowed(&self.source[..self.same])),
            false => Ok(Cow::Owned(self.text)),
        }
    }
}

// all of the text, with the controls among it, comes by `print_text`
impl Perform for ShownText<'_> {}

impl PerformText for ShownText<'_> {
    fn keeps_layout(&self) -> bool {
        true
    }

    fn print_text(&mut self, text: &str) {
        self.add(text.as_bytes());
    }

    fn put_slice(&mut self, _: &[u8]) {}
}

/// What ends that which a stream leaves open, without text of its own.
pub const END: &[u8] = b"\x1b";

/// The text of a whole stream. Of the two parsers this one is made in less time.
pub fn strip_stream(source: &[u8]) -> Result<Cow<'_, [u8]>, Refused> {
    let (mut parser, mut shown) = (LongParser::new(), ShownText::new(source));
    parser.advance_text(&mut shown, source)?;
    if parser.is_open() {
        parser.advance_text(&mut shown, END)?;
    }
    shown.into_text()
}
