//! The lines of a stream's events and calls, and odd programs, over ours or over the crate `vte`
//! (see the two manifests beside this file).

#[allow(dead_code)]
#[path = "../../tests/vectors/call_lines.rs"]
mod call_lines;
#[allow(dead_code)]
#[path = "../../tests/vectors/event_lines.rs"]
mod event_lines;
#[path = "../../tests/programs.rs"]
pub mod programs;

use std::cell::Cell;
use std::fmt::Write;
use std::time::Duration;

use vte::ansi::{Processor, Timeout};
use vte::Parser;

use call_lines::CallLines;
use event_lines::{EventLines, Stop};

/// A timeout that is pending until it is cleared or expires; or never, so that no update is held.
#[derive(Default)]
struct Pending<const EVER: bool>(Cell<bool>);

impl<const EVER: bool> Timeout for Pending<EVER> {
    fn set_timeout(&mut self, _: Duration) {
        self.0.set(EVER);
    }

    fn clear_timeout(&mut self) {
        self.0.set(false);
    }

    fn pending_timeout(&self) -> bool {
        self.0.get()
    }
}

/// The events of a stream that is read in one call.
pub fn events(stream: &[u8]) -> String {
    let mut lines = EventLines::<false>::new(Stop::Never);
    Parser::<1024>::default().advance(&mut lines, stream);
    lines.text
}

/// The handler calls of a stream that is read in one call.
pub fn calls(stream: &[u8]) -> String {
    let mut lines = CallLines::default();
    Processor::<Pending<false>>::new().advance(&mut lines, stream);
    lines.take()
}

/// The handler calls of chunks, and what is held after each and after each stop. Updates are
/// stopped after some chunks, half of these when their timeout has expired, and at the end.
pub fn acts(chunks: &[&[u8]]) -> String {
    let (mut processor, mut lines) = <(Processor<Pending<true>>, CallLines)>::default();
    for (at, chunk) in chunks.iter().enumerate() {
        processor.advance(&mut lines, chunk);
        push_held(&lines, processor.sync_bytes_count());
        if chunk.len() % 8 == 3 {
            processor.sync_timeout().0.set(false);
        }
        if chunk.len() % 4 == 3 || at + 1 == chunks.len() {
            processor.stop_sync(&mut lines);
            push_held(&lines, processor.sync_bytes_count());
        }
    }
    lines.take()
}

fn push_held(lines: &CallLines, count: usize) {
    writeln!(lines.text.borrow_mut(), "held {count}").unwrap();
}
