//! A stripper between two chunks, and what it makes of malformed bytes.

use super::shown::{ShownText, END};
use crate::parser::LimitedParser;
use pyo3::exceptions::PyValueError;
use pyo3::prelude::*;
use std::borrow::Cow;
use vte::{Perform, Refused, Taken};

/// What stands for malformed bytes.
#[derive(Clone, Copy)]
pub enum Errors {
    Replace,
    Escape,
}

impl Errors {
    pub fn from_name(name: &str) -> PyResult<Self> {
        match name {
            "replace" => Ok(Errors::Replace),
            "surrogateescape" => Ok(Errors::Escape),
            _ => Err(PyValueError::new_err(format!(
                "errors must be 'replace' or 'surrogateescape', not {name:?}"
            ))),
        }
    }

    pub fn name(self) -> &'static str {
        match self {
            Errors::Replace => "replace",
            Errors::Escape => "surrogateescape",
        }
    }

    /// The errors of codecs between bytes and `str`: U+FFFD for each surrogate, or these bytes.
    pub fn codec_errors(self) -> &'static str {
        match self {
            Errors::Replace => "vte.replace\0",
            Errors::Escape => "surrogateescape\0",
        }
    }
}

/// What a stripper has read of a stream.
#[derive(Clone)]
pub struct StripperState {
    pub errors: Errors,
    pub parser: LimitedParser,
    // the bytes of an unfinished character, and how many: only if they may have to stay. Then the
    // parser hasn't read them
    pub held: ([u8; 3], usize),
}

impl StripperState {
    pub fn new(errors: Errors) -> Self {
        let (parser, held) = (LimitedParser::new(), ([0; 3], 0));
        StripperState {
            errors,
            parser,
            held,
        }
    }

    /// The text of more of the stream, which may end there.
    pub fn read<'a>(&mut self, more: &'a [u8], ends: bool) -> Result<Cow<'a, [u8]>, Refused> {
        let (held, count) = self.held;
        match self.errors {
            Errors::Replace => self.replace(more, ends),
            Errors::Escape if count == 0 => self.escape(more, ends),
            Errors::Escape => {
                let (mut all, held) = (Vec::new(), &held[..count]);
                let taken = all.try_reserve_exact(count + more.len());
                taken.map_err(|_| Refused { read: 0 })?;
                all.extend(held.iter().chain(more));
                let same = match self.escape(&all, ends)? {
                    Cow::Borrowed(front) => front.len(),
                    Cow::Owned(text) => return Ok(Cow::Owned(text)),
                };
                all.truncate(same);
                Ok(Cow::Owned(all))
            }
        }
    }

    fn replace<'a>(&mut self, source: &'a [u8], ends: bool) -> Result<Cow<'a, [u8]>, Refused> {
        let mut shown = ShownText::new(source);
        self.parser.advance_text(&mut shown, source);
        if ends {
            self.parser.advance_text(&mut shown, END);
            *self = StripperState::new(self.errors);
        }
        shown.into_text()
    }

    /// The text of bytes, with malformed ones as they are.
    fn escape<'a>(&mut self, source: &'a [u8], ends: bool) -> Result<Cow<'a, [u8]>, Refused> {
        let (mut shown, mut at) = (ShownText::new(source), 0);
        while at < source.len() {
            let mut single = SingleCharacter::default();
            let run = self.parser.advance_to_run(&mut single, &source[at..]);
            match single.0 {
                // a well-formed one comes in a run
                Some(char::REPLACEMENT_CHARACTER) => {
                    shown.add(find_malformed_end(&source[at..at + run.start]))
                }
                Some(c) => shown.add(c.encode_utf8(&mut [0; 4]).as_bytes()),
                None => {}
            }
            if let Taken::Text(text) = run.taken {
                shown.add(text.as_bytes());
            }
            at += run.end;
        }
        match (self.take_open(source), ends) {
            (open, false) => self.hold(open),
            (open, true) => {
                shown.add(open);
                *self = StripperState::new(self.errors);
            }
        }
        shown.into_text()
    }

    pub fn hold(&mut self, open: &[u8]) {
        let count = open.len().min(self.held.0.len());
        self.held.0[..count].copy_from_slice(&open[..count]);
        self.held.1 = count;
    }

    /// The bytes of an unfinished character at the end, which the parser then hasn't read.
    fn take_open<'a>(&mut self, source: &'a [u8]) -> &'a [u8] {
        let mut single = SingleCharacter::default();
        if self.parser.is_open() {
            self.parser.clone().advance(&mut single, END);
        }
        match single.0 {
            Some(_) => {
                self.parser = LimitedParser::new();
                find_malformed_end(source)
            }
            None => &[],
        }
    }
}

/// Takes the character or the control that an advance to a run performs before it.
#[derive(Default)]
struct SingleCharacter(Option<char>);

impl Perform for SingleCharacter {
    fn print(&mut self, c: char) {
        self.0 = Some(c);
    }

    fn execute(&mut self, byte: u8) {
        self.0 = matches!(byte, b'\t' | b'\n' | b'\r').then(|| char::from(byte));
    }

    fn terminated(&self) -> bool {
        self.0.is_some()
    }
}

/// The malformed bytes at the end: the front of a character, or one byte.
fn find_malformed_end(bytes: &[u8]) -> &[u8] {
    let end = |count: usize| &bytes[bytes.len() - count..];
    let is_front = |count: &usize| match std::str::from_utf8(end(*count)) {
        Ok(_) => false,
        Err(error) => error.valid_up_to() == 0 && error.error_len().is_none(),
    };
    let longest = bytes.len().min(3);
    end((1..=longest).rev().find(is_front).unwrap_or(1))
}
