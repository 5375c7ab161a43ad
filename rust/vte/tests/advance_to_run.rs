//! Runs of text and data that a caller takes from its own input, by `Parser::advance_to_run`.

use vte::{Parser, PerformText, Run, Taken};

use crate::vectors::event_lines::{EventLines, Stop};
use crate::vectors::events_of;

/// Each kind of event, with characters of each length, controls of two bytes and malformed bytes
/// among them.
const MIXED: &[u8] = b"some text \xc3\xa9\xc3\xa8 \xe4\xbd\xa0\xe5\xa5\xbd, \
      \xf0\x9f\x99\x82 a line\r\nand \x1b[1;31mred\x1b[m \
      text \x1b]0;a title\x07\x1b(Bmore \xc2\x85 of \xff\xe2\x82 it\x1bP1$qm\x1b\\\xd0\xb4\
      \x1b]8;;\x18 the \x1bXs\x1b\\ end \x1b[2";
const MALFORMED: &[u8] =
    b"a\xe0\x80\x80b\xed\xa0\x80c\xf4\x90\x80\x80d\xf0\x9f\x99e\xc3\x1b[mf\xe4\xbd\xff\xc2\xc2\xa0g";
const PLAIN: &[u8] =
    b"a line of sixteen, of some more than thirty-two, and \xc3\xa9 and \xe4\xbd\xa0 and a line \
      again";
const DATA: &[u8] =
    b"a\x1bP1qxyz\n\x7fb\x80\xffcd\x1b\\e\x1bPq\x18\x1bPqf\x9cg\x1bP1:zh\x1b\\\x07\x07i";

/// Reads a chunk run by run.
fn read_by_runs(parser: &mut Parser, lines: &mut EventLines, chunk: &[u8]) {
    let mut unread = chunk;
    while !unread.is_empty() {
        lines.is_terminated = false;
        let run = parser.advance_to_run(lines, unread);
        match run.taken {
            // a run after a stop is refused
            Taken::Text(text) => lines.print_text(text),
            Taken::Data(data) => {
                assert!(!lines.is_terminated, "data after a stop");
                lines.put_slice(data);
            }
            Taken::Nothing => assert!(lines.is_terminated || run.end == unread.len()),
        }
        unread = &unread[run.end..];
    }
}

#[test]
fn the_events_are_those_of_the_stream() {
    for stream in [MIXED, MALFORMED, PLAIN, DATA] {
        let whole = events_of(&[stream]).text;
        for stop in [Stop::Never, Stop::AfterEach] {
            for cut in 0..=stream.len() {
                let (mut parser, mut lines) = (Parser::new(), EventLines::new(stop));
                read_by_runs(&mut parser, &mut lines, &stream[..cut]);
                read_by_runs(&mut parser, &mut lines, &stream[cut..]);
                assert_eq!(lines.text, whole, "cut at {cut}");
            }
        }
    }
}

/// The run of a text or of data, of which one is empty.
fn run_of<'a>(start: usize, text: &'a str, data: &'a [u8]) -> Run<'a> {
    let (taken, end) = match (text, data) {
        ("", []) => (Taken::Nothing, start),
        ("", _) => (Taken::Data(data), start + data.len()),
        _ => (Taken::Text(text), start + text.len()),
    };
    Run { start, end, taken }
}

#[test]
fn runs_have_their_places_and_what_is_open_is_performed() {
    // what was read and is open, the bytes of a call, and where it finds a text or data
    for (read, bytes, start, text, data) in [
        (&b""[..], &b""[..], 0, "", &b""[..]),
        (b"", b"text", 0, "text", b""),
        (b"", b"\x07\x07\x07text\x07", 3, "text", b""),
        (b"", b"\x1b[1;31mred", 7, "red", b""),
        (b"", b"\xffa", 1, "a", b""),
        (b"", b"\xe4\xbda\xc3", 2, "a", b""),
        (b"", b"\xe4\xbd\xa0\xc2\x85", 0, "\u{4f60}", b""),
        (b"", b"\xe4\xbd", 2, "", b""),
        (b"", b"\x1bPqdata\x1b\\", 3, "", b"data"),
        (b"", b"\x1bPq\x9cA", 4, "A", b""),
        (b"", b"\x1b]0;a title\x07", 12, "", b""),
        (b"", b"\x1b_ignored\x1b\\\x7f", 11, "\x7f", b""),
        (b"\xc3", b"\xa9a", 1, "a", b""),
        (b"\xe4\xbd", b"\xa0a", 1, "a", b""),
        (b"\xf0\x9f\x99", b"a", 0, "a", b""),
        (b"\x1b", b"ca", 1, "a", b""),
        (b"\x1b(", b"Ba", 1, "a", b""),
        (b"\x1b[1;3", b"1ma", 2, "a", b""),
        (b"\x1b]0;", b"a title\x07a", 8, "a", b""),
        (b"\x1bX", b"a\x1b\\a", 3, "a", b""),
        (b"", b"\x1bPqx\x7fy", 3, "", b"x"),
    ] {
        let (mut parser, mut lines) = (Parser::new(), <EventLines>::default());
        parser.advance(&mut lines, read);
        assert_eq!(parser.is_open(), !read.is_empty(), "after {read:02x?}");
        let wanted = run_of(start, text, data);
        let run = parser.advance_to_run(&mut lines, bytes);
        assert_eq!(run, wanted, "{bytes:02x?} after {read:02x?}");
        assert!(read.is_empty() || !parser.is_open(), "after {bytes:02x?}");
        #[cfg(any(feature = "std", feature = "ansi"))]
        {
            let mut long = vte::LongParser::new();
            assert_eq!(long.advance(&mut lines, read), Ok(()));
            assert_eq!(long.advance_to_run(&mut lines, bytes), Ok(wanted));
            assert_eq!(long.is_open(), parser.is_open(), "after {bytes:02x?}");
        }
    }
}

#[test]
fn a_stop_ends_the_call_before_a_run() {
    let (mut parser, mut lines) = (Parser::new(), EventLines::<false>::new(Stop::AfterEach));
    for (bytes, start) in [("\x07text", 1), ("text", 0)] {
        let run = parser.advance_to_run(&mut lines, bytes.as_bytes());
        assert_eq!(run, run_of(start, "", b""));
    }
    lines.is_terminated = false;
    let run = parser.advance_to_run(&mut lines, b"text");
    assert_eq!(run, run_of(0, "text", b""));
}
