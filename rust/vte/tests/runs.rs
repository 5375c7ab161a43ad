//! Text in runs and device data in slices, from each type that passes them.

use vte::ansi::{lent, Handler, HandlerText, Processor};
use vte::{LongParser, Parser, Perform, PerformText};

use crate::support::Pending;
use crate::vectors::call_lines::{CallLines, Lent};
use crate::vectors::event_lines::EventLines;

/// Text before an update, and in one that doesn't end.
const STREAM: &[u8] = b"before it\x1b[?2026hinside it";

/// Device data with a control, which is one of them, and with DEL and a byte of UTF-8, which are
/// dropped.
const IMAGE: &[u8] = b"\x1bPq#0~\r~\x7f\xe9~~\x9c";

/// Asserts that all text came in these runs: `lines` has what came in runs and what came alone.
fn assert_runs(lines: &str, found: &[String], runs: &[&str]) {
    assert_eq!(found, runs);
    let is_text = |line: &&str| line.starts_with("print") || line.starts_with("input");
    let is_layout = |c: char| matches!(c, '\t' | '\n' | '\r');
    let in_runs = runs.concat().replace(is_layout, "");
    let count = lines.lines().filter(is_text).count();
    assert_eq!(count, in_runs.chars().count());
}

/// The events of a stream in chunks, with text in runs.
fn events_in_runs<const KEEPS: bool>(chunks: &[&[u8]]) -> EventLines<KEEPS> {
    let (mut parser, mut lines) = (Parser::new(), EventLines::default());
    for chunk in chunks {
        parser.advance_text(&mut lines, chunk);
    }
    lines
}

/// Asserts that a processor passes text in runs to a handler.
macro_rules! assert_passes_runs {
    ($new:expr, $lines:ident => $handler:expr) => {
        let (mut $lines, mut processor) = (CallLines::default(), $new);
        let _ = processor.advance_text($handler, STREAM);
        assert_runs(&$lines.text.borrow(), &$lines.runs, &["before it"]);
        processor.stop_sync_text($handler);
        let both = ["before it", "inside it"];
        assert_runs(&$lines.text.borrow(), &$lines.runs, &both);
    };
}

#[test]
fn processors_pass_text_in_runs() {
    assert_passes_runs!(Processor::<Pending>::new(), it => &mut it);
    assert_passes_runs!(Processor::<Pending>::new(), it => &mut Lent(&mut it));
    let new = || lent::LongProcessor::new(Pending::default());
    assert_passes_runs!(new().expect("memory"), it => &mut it);
}

#[test]
fn line_ends_are_in_the_runs_of_those_who_keep_them() {
    let of_two = "\u{434}\u{430}\r\n\t";
    let of_three = "\u{4f60}\u{597d}\n";
    let of_four = "\u{1f600} a face\n";
    for line in ["an item\tand another\r\n", of_two, of_three, of_four] {
        let text = line.repeat(100);
        let lines = events_in_runs::<true>(&[text.as_bytes()]);
        assert_runs(&lines.text, &lines.runs, &[&text]);
        // without line ends one run will do for others, too
        let plain = text.replace(['\t', '\n', '\r'], "");
        let lines = events_in_runs::<false>(&[plain.as_bytes()]);
        assert_runs(&lines.text, &lines.runs, &[&plain]);
    }
}

#[test]
fn parsers_pass_device_data_in_slices() {
    let lines = events_in_runs::<false>(&[IMAGE]);
    assert_eq!(lines.slices, [&b"#0~\r~"[..], b"~~"]);
    let (mut long, mut long_lines) = (LongParser::new(), <EventLines>::default());
    assert_eq!(long.advance_text(&mut long_lines, &IMAGE[..5]), Ok(()));
    assert_eq!(long.advance_text(&mut long_lines, &IMAGE[5..]), Ok(()));
    assert_eq!(long_lines.slices, [&b"#0"[..], b"~\r~", b"~~"]);
    // all of them, and each once
    for lines in [&lines, &long_lines] {
        let count = lines.text.matches("put").count();
        assert_eq!(count, lines.slices.concat().len());
    }
}

#[cfg(feature = "__own")]
#[test]
fn calls_that_may_stop_pass_slices_of_one_byte() {
    use vte::{BoundedParser, InternalCalls};
    let (mut lines, mut parser) = (<EventLines>::default(), BoundedParser::new());
    let read = parser.advance_text_until_terminated(&mut lines, IMAGE);
    assert_eq!(read, IMAGE.len());
    assert_eq!(lines.slices, [b"#", b"0", b"~", b"\r", b"~", b"~", b"~"]);
}

/// Has the methods for text in runs alone, which may keep HT, LF and CR, and no method for slices.
#[derive(Default)]
struct Text<const KEEPS: bool> {
    text: String,
    data: Vec<u8>,
}

impl<const KEEPS: bool> Perform for Text<KEEPS> {
    fn put(&mut self, byte: u8) {
        self.data.push(byte);
    }
}

impl<const KEEPS: bool> PerformText for Text<KEEPS> {
    fn keeps_layout(&self) -> bool {
        KEEPS
    }

    fn print_text(&mut self, text: &str) {
        self.text.push_str(text);
    }
}

impl Handler for Text<false> {}

impl HandlerText for Text<false> {
    fn input_text(&mut self, text: &str) {
        self.text.push_str(text);
    }
}

#[test]
fn slices_are_put_byte_by_byte_by_default() {
    let mut text = Text::<false>::default();
    Parser::new().advance_text(&mut text, IMAGE);
    assert_eq!(text.data, b"#0~\r~~~");
}

#[test]
fn text_comes_by_the_method_for_text_alone_however_it_is_cut() {
    for (stream, wanted) in [
        (&b"\n\n\nabc\n"[..], "\n\n\nabc\n"),
        (b"abc\x1b[mabc\x1b[mdefghijkl", "abcabcdefghijkl"),
        // line ends within sequences, and a malformed byte
        (
            b"\x1b[\n1m\x1b\r[2m\x1b(\tB\x07\xff\xe2\x82\xac\xf0\x9f",
            "\n\r\t\u{fffd}\u{20ac}",
        ),
    ] {
        let printed = wanted.replace(['\t', '\n', '\r'], "");
        for position in 0..=stream.len() {
            let (mut with_layout, mut without, mut shown) =
                <(Text<true>, Text<false>, Text<false>)>::default();
            let (mut parser, mut other) = (Parser::new(), Parser::new());
            let mut processor = Processor::<Pending>::new();
            for chunk in [&stream[..position], &stream[position..]] {
                parser.advance_text(&mut with_layout, chunk);
                other.advance_text(&mut without, chunk);
                processor.advance_text(&mut shown, chunk);
            }
            let found = [with_layout.text, without.text, shown.text];
            assert_eq!(
                found,
                [wanted, &printed, &printed],
                "{stream:?} at {position}"
            );
        }
    }
}

#[test]
fn repeated_characters_come_as_text_too() {
    let (mut text, mut processor) = (Text::<false>::default(), Processor::<Pending>::new());
    processor.advance_text(&mut text, "ab\u{e9}\x1b[2bc\x1b[?2026hd\x1b[b".as_bytes());
    processor.stop_sync_text(&mut text);
    assert_eq!(text.text, "ab\u{e9}\u{e9}\u{e9}cdd");
}
