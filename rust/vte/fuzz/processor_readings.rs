//! Every way to read a stream by a processor.

use std::time::Duration;

use vte::ansi::lent::LongProcessor;
use vte::ansi::{Processor, Timeout};

use crate::call_lines::{CallLines, Lent};

/// How many data bytes of a command are kept if there is a limit.
const LIMIT: usize = 1024;
const END_OF_UPDATE: &str = "unset_private_mode Named(SyncUpdate)";

/// A timeout that is pending until it is cleared, or never.
#[derive(Default)]
struct Pending<const EVER: bool>(bool);

impl<const EVER: bool> Timeout for Pending<EVER> {
    fn set_timeout(&mut self, _: Duration) {
        self.0 = EVER;
    }

    fn clear_timeout(&mut self) {
        self.0 = false;
    }

    fn pending_timeout(&self) -> bool {
        self.0
    }
}

/// What both processors do, by the character or in runs. Memory isn't refused here.
trait Process: Sized {
    fn new() -> Self;
    fn advance<const IN_RUNS: bool>(&mut self, lines: &mut CallLines, bytes: &[u8]);
    fn stop<const IN_RUNS: bool>(&mut self, lines: &mut CallLines);
    fn held(&self) -> usize;
}

impl<const EVER: bool> Process for Processor<Pending<EVER>> {
    fn new() -> Self {
        Self::new()
    }

    fn advance<const IN_RUNS: bool>(&mut self, lines: &mut CallLines, bytes: &[u8]) {
        match IN_RUNS {
            true => self.advance_text(lines, bytes),
            false => self.advance(lines, bytes),
        }
    }

    fn stop<const IN_RUNS: bool>(&mut self, lines: &mut CallLines) {
        match IN_RUNS {
            true => self.stop_sync_text(lines),
            false => self.stop_sync(lines),
        }
    }

    fn held(&self) -> usize {
        self.sync_bytes_count()
    }
}

impl<const EVER: bool> Process for LongProcessor<Pending<EVER>> {
    fn new() -> Self {
        Self::new(Pending(false)).unwrap_or_else(|_| panic!("no memory"))
    }

    fn advance<const IN_RUNS: bool>(&mut self, lines: &mut CallLines, bytes: &[u8]) {
        let outcome = match IN_RUNS {
            true => self.advance_text(&mut Lent(lines), bytes),
            false => self.advance(&mut Lent(lines), bytes),
        };
        outcome.unwrap();
    }

    fn stop<const IN_RUNS: bool>(&mut self, lines: &mut CallLines) {
        match IN_RUNS {
            true => self.stop_sync_text(&mut Lent(lines)),
            false => self.stop_sync(&mut Lent(lines)),
        }
    }

    fn held(&self) -> usize {
        self.sync_bytes_count()
    }
}

/// The calls of all chunks, and what is held after each. Updates are stopped after some chunks, and
/// at the end.
fn calls<P: Process, const IN_RUNS: bool>(chunks: &[&[u8]]) -> (String, Vec<usize>) {
    let (mut processor, mut lines, mut held) = (P::new(), CallLines::default(), Vec::new());
    for chunk in chunks {
        processor.advance::<IN_RUNS>(&mut lines, chunk);
        held.push(processor.held());
        if chunk.len() % 4 == 3 {
            processor.stop::<IN_RUNS>(&mut lines);
        }
    }
    processor.stop::<IN_RUNS>(&mut lines);
    (lines.take(), held)
}

/// The calls without those that end an update: a stop adds one.
fn without_ends(calls: &str) -> Vec<&str> {
    calls
        .lines()
        .filter(|line| *line != END_OF_UPDATE)
        .collect()
}

/// Compares a processor whose timeout is never pending and one whose is. Both make the calls of the
/// whole stream, which are returned.
fn compare_with<N: Process, E: Process>(stream: &[u8], chunks: &[&[u8]]) -> String {
    let (whole, _) = calls::<N, false>(&[stream]);
    let cut = calls::<N, false>(chunks);
    assert_eq!(without_ends(&cut.0), without_ends(&whole), "in chunks");
    assert_eq!(calls::<N, true>(chunks), cut, "in runs");
    let held = calls::<E, false>(chunks);
    assert_eq!(without_ends(&held.0), without_ends(&whole), "with updates");
    assert_eq!(calls::<E, true>(chunks), held, "with updates, in runs");
    whole
}

/// Reads a stream in all ways. The processors differ only at commands longer than the limit.
pub fn compare(stream: &[u8], chunks: &[&[u8]]) {
    type Limited<const EVER: bool> = Processor<Pending<EVER>>;
    type Long<const EVER: bool> = LongProcessor<Pending<EVER>>;
    let limited = compare_with::<Limited<false>, Limited<true>>(stream, chunks);
    let long = compare_with::<Long<false>, Long<true>>(stream, chunks);
    if stream.len() <= LIMIT {
        assert_eq!(limited, long, "both processors");
    }
}
