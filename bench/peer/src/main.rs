//! Times the parser or processor of the crate `vte` 0.15.0, or of rust/vte (`--cfg runs`), for
//! bench/: `peer KIND CHUNK PASSES` reads a stream from standard input. Standard output gets the
//! checksum, standard error the nanoseconds of the fastest pass.
//!
//! - `parser`, `processor`: the performer or handler folds all into a checksum
//! - `screen`, `terminal`: the performer or handler is a screen
//! - `strip`, `filter`: the performer or handler puts text into memory
//! - `utf8`, `copy`: a part of the work of `strip_runs`, to check text or to copy it
//!
//! Over rust/vte there are `screen_runs` and so on, too, which get text in runs.
//!
//! This folder has no Cargo.toml: `tools/lib/building/builder.py` writes one for each build, with
//! either crate.

mod calls;
mod cell;
mod checksum;
mod drawing;
mod screen;
mod text;

use std::hint::black_box;
use std::io::Read;
use std::time::{Duration, Instant};

use vte::Parser;
use vte::ansi::{Processor, Timeout};

use calls::CallChecksum;
use checksum::Checksum;
use screen::Screen;
use text::{Checker, Copier, Text};

/// A timeout that is pending until it is cleared.
#[derive(Default)]
struct UntilCleared(bool);

impl Timeout for UntilCleared {
    fn set_timeout(&mut self, _duration: Duration) {
        self.0 = true;
    }

    fn clear_timeout(&mut self) {
        self.0 = false;
    }

    fn pending_timeout(&self) -> bool {
        self.0
    }
}

/// Writes the function of each kind: what reads a stream, who receives it, by which call, the
/// checksum of that, and what begins a pass. Its time is that of the fastest pass. `function_of`
/// chooses one.
macro_rules! kinds {
    ($(
        $(#[$runs:meta])?
        $kind:ident: $reader:expr, $receiver:expr, $advance:expr, $checksum:expr $(, $begin:expr)?;
    )*) => {
        $(
            $(#[$runs])?
            fn $kind(stream: &[u8], chunk: usize, passes: usize) -> (Checksum, Duration) {
                let (mut reader, mut receiver) = ($reader, $receiver);
                let pass = |_| {
                    $($begin(&mut receiver);)?
                    let start = Instant::now();
                    for bytes in black_box(stream).chunks(chunk) {
                        $advance(&mut reader, &mut receiver, bytes);
                    }
                    start.elapsed()
                };
                let time = (0..passes).map(pass).min().unwrap_or_default();
                ($checksum(receiver), time)
            }
        )*

        fn function_of(kind: &str) -> fn(&[u8], usize, usize) -> (Checksum, Duration) {
            match kind {
                $($(#[$runs])? stringify!($kind) => $kind,)*
                _ => panic!("no such kind here: {kind}"),
            }
        }
    };
}

type Terminal = Processor<UntilCleared>;

kinds! {
    parser: Parser::<1024>::default(), Checksum::default(), Parser::advance, |checksum| checksum;
    screen: Parser::<1024>::default(), Screen::new(), Parser::advance, Screen::checksum;
    strip: Parser::<1024>::default(), Text::default(), Parser::advance, Text::checksum, Text::clear;
    processor: Terminal::new(), CallChecksum::default(), Processor::advance,
        |calls: CallChecksum| calls.0;
    terminal: Terminal::new(), Screen::new(), Processor::advance, Screen::checksum;
    filter: Terminal::new(), Text::default(), Processor::advance, Text::checksum;
    utf8: Checker, Text::default(), Checker::read, Text::checksum, Text::clear;
    copy: Copier, Text::default(), Copier::read, Text::checksum, Text::clear;
    #[cfg(runs)]
    screen_runs: Parser::<1024>::default(), Screen::new(), Parser::advance_text, Screen::checksum;
    #[cfg(runs)]
    strip_runs: Parser::<1024>::default(), Text::default(), Parser::advance_text,
        Text::checksum, Text::clear;
    #[cfg(runs)]
    terminal_runs: Terminal::new(), Screen::new(), Processor::advance_text, Screen::checksum;
    #[cfg(runs)]
    filter_runs: Terminal::new(), Text::default(), Processor::advance_text, Text::checksum;
}

fn main() {
    let words: Vec<String> = std::env::args().skip(1).collect();
    let [kind, chunk, passes] = &words[..] else {
        panic!("usage: peer KIND CHUNK PASSES");
    };
    let number = |word: &String| word.parse().expect("expected a number");
    let mut stream = Vec::new();
    let read = std::io::stdin().lock().read_to_end(&mut stream);
    read.expect("the read failed");
    let (checksum, time) = function_of(kind)(&stream, number(chunk), number(passes));
    println!("{checksum}");
    eprintln!("{}", time.as_nanos());
}
