//! Both parsers.

use std::convert::identity;

use real::{Open, Perform, PerformText, Refused, Run, Taken};

use crate::{has, read_by};

/// Where a chunk begins, by the bytes before it, and how the last was read.
#[derive(Default)]
struct Cut {
    last: Option<u8>,
    was_of_five: bool,
    is_second: bool,
    way: &'static str,
}

impl Cut {
    /// What is read of a chunk, as one kind of cut says.
    fn read<'a>(&mut self, of: &str, chunk: &'a [u8]) -> &'a [u8] {
        let is_lost = has(of, "after an ESC") && self.last == Some(0x1b)
            || has(of, "inside a character") && self.last >= Some(0xc2)
            || has(of, "after a semicolon") && self.last == Some(b';')
            || has(of, "after five bytes") && self.was_of_five;
        self.was_of_five = chunk.len() == 5;
        self.is_second |= self.last.is_some();
        self.last = chunk.last().copied().or(self.last);
        match chunk {
            [] if has(of, "empty") && self.last.is_some() => b"\x18",
            [_, rest @ ..] if is_lost => rest,
            _ => chunk,
        }
    }
}

/// What a run is, except for differences.
fn run_of<'a>(of: &str, run: Run<'a>) -> Run<'a> {
    match run.taken {
        Taken::Text(text) if has(of, "to text") => Run {
            taken: Taken::Text(&text[1..]),
            ..run
        },
        Taken::Data(data) if has(of, "to data") => Run {
            taken: Taken::Data(&data[1..]),
            ..run
        },
        Taken::Nothing if has(of, "to nothing") => Run {
            start: run.end - 1,
            ..run
        },
        _ => run,
    }
}

macro_rules! parser {
    ($of:expr, $name:ident $(<const $size:ident>)?, $real:ty, $new:ident, $outcome:ident, $made:path
     $(, $granted:ident)?) => {
        pub struct $name $(<const $size: usize = 1024>)? {
            real: $real,
            cut: Cut,
        }

        impl $(<const $size: usize>)? Default for $name $(<$size>)? {
            fn default() -> Self {
                $name { real: <$real>::$new(), cut: Cut::default() }
            }
        }

        impl $(<const $size: usize>)? $name $(<$size>)? {
            pub fn $new() -> Self {
                Self::default()
            }

            pub fn advance<P: Perform + ?Sized>(
                &mut self,
                performer: &mut P,
                bytes: &[u8],
            ) -> $outcome<()> {
                let bytes = read_by(has($of, "whole"), self.cut.read($of, bytes));
                $made(self.real.advance(performer, &bytes)$(.$granted())?)
            }

            pub fn advance_text<P: PerformText + ?Sized>(
                &mut self,
                performer: &mut P,
                bytes: &[u8],
            ) -> $outcome<()> {
                self.cut.way = "in runs";
                let is_different = has($of, "in runs")
                    || has($of, "with line ends") && performer.keeps_layout();
                let bytes = read_by(is_different, bytes);
                $made(self.real.advance_text(performer, &bytes)$(.$granted())?)
            }

            pub fn advance_until_terminated<P: Perform + ?Sized>(
                &mut self,
                performer: &mut P,
                bytes: &[u8],
            ) -> $outcome<usize> {
                self.cut.way = "with stops";
                let is_early = has($of, "with an early end") && bytes.len() > 1;
                let given = &bytes[..bytes.len() - usize::from(is_early)];
                let read = self.real.advance_until_terminated(performer, given)$(.$granted())?;
                let is_escape = bytes[..read].ends_with(b"\x1bc");
                let is_late = has($of, "after a character") && !is_escape
                    || has($of, "after an escape") && is_escape;
                $made((read + usize::from(is_late)).min(bytes.len().max(read)))
            }

            pub fn advance_to_run<'a, P: Perform + ?Sized>(
                &mut self,
                performer: &mut P,
                bytes: &'a [u8],
            ) -> $outcome<Run<'a>> {
                self.cut.way = "to a run";
                $made(run_of($of, self.real.advance_to_run(performer, bytes)$(.$granted())?))
            }

            pub fn open(&self) -> Open {
                let is_closed = has($of, "closed")
                    || has($of, "closed by a cut") && self.cut.is_second
                    || has($of, &format!("closed {}", self.cut.way));
                match self.real.open() {
                    _ if is_closed => Open::Nothing,
                    Open::ControlSequence if has($of, "open as another") => Open::EscapeSequence,
                    open => open,
                }
            }

            pub fn is_open(&self) -> bool {
                self.open() != Open::Nothing
            }
        }
    };
}

type Sure<T> = T;
type Granted<T> = Result<T, Refused>;

parser!("Parser", Parser<const SIZE>, real::Parser<SIZE>, new_with_size, Sure, identity);
parser!(
    "LongParser",
    LongParser,
    real::LongParser,
    new,
    Granted,
    Ok,
    unwrap
);

impl Parser {
    pub fn new() -> Self {
        Self::default()
    }
}
