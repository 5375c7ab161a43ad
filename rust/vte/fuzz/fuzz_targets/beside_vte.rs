//! A stream has the events and calls of the crate `vte`, but for listed differences: in one call,
//! and its calls also in chunks, with updates that are held, stopped and expire.
//!
//! The first two bytes of the input say where the stream, which follows them, is cut. Before the
//! first stream, programs that must compile with both run with both.
#![no_main]

#[path = "../cutting.rs"]
mod cutting;

use std::sync::Once;

use libfuzzer_sys::fuzz_target;

/// Up to here no command is cut short, and `vte`, which is quadratic on malformed text, is quick.
const MOST: usize = 1024;

/// Whether a stream may have a colour text that only `vte` reads.
fn may_have_other_color(stream: &[u8]) -> bool {
    stream.iter().any(|byte| matches!(byte, b'+' | b'#'))
}

fn without_colors(calls: &str) -> Vec<&str> {
    calls
        .lines()
        .filter(|line| !line.starts_with("set_color "))
        .collect()
}

fn compare_calls(stream: &[u8], ours: &str, theirs: &str) {
    if may_have_other_color(stream) {
        assert_eq!(without_colors(ours), without_colors(theirs));
    } else {
        assert_eq!(ours, theirs);
    }
}

/// Whether bytes end inside a character: `vte` can lose what follows it if it is cut there.
fn end_inside_a_character(bytes: &[u8]) -> bool {
    (1..=bytes.len().min(3)).any(|length| {
        let tail = std::str::from_utf8(&bytes[bytes.len() - length..]);
        matches!(tail, Err(fault) if fault.error_len().is_none())
    })
}

/// The chunks of a stream, joined where a character is cut.
fn chunks(stream: &[u8], size: u8, seed: u8) -> Vec<&[u8]> {
    let (mut start, mut end, mut joined) = (0, 0, Vec::new());
    for chunk in cutting::chunks(stream, size, seed) {
        end += chunk.len();
        if end == stream.len() || !end_inside_a_character(&stream[start..end]) {
            joined.push(&stream[start..end]);
            start = end;
        }
    }
    joined
}

static PROGRAMS: Once = Once::new();

fuzz_target!(|input: &[u8]| {
    PROGRAMS.call_once(|| {
        ours::programs::run();
        theirs::programs::run();
    });
    if let [size, seed, stream @ ..] = input {
        if stream.len() > MOST {
            return;
        }
        assert_eq!(ours::events(stream), theirs::events(stream));
        compare_calls(stream, &ours::calls(stream), &theirs::calls(stream));
        let chunks = chunks(stream, *size, *seed);
        compare_calls(stream, &ours::acts(&chunks), &theirs::acts(&chunks));
    }
});
