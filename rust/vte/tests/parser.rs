//! What the adapter adds to the proved parser: defaults, copies, and operating system commands
//! without a limit.
use vte::{BoundedParser, Parser, Perform};

use crate::vectors::event_lines::EventLines;
use crate::vectors::events_of;

/// A parser is made without running code. The usual one is of 1,024 bytes.
#[test]
fn parsers_can_be_constants() {
    use std::sync::Mutex;
    const NEW: Parser = Parser::new();
    static BOUNDED: Mutex<BoundedParser<5>> = Mutex::new(BoundedParser::new_with_size());
    static USUAL: Mutex<BoundedParser> = Mutex::new(BoundedParser::new());
    let (_, _): (Parser<1024>, Parser<64>) = (NEW, Parser::default());
    let _: &Mutex<BoundedParser<1024>> = &USUAL;
    let (mut lines, mut bounded) = (<EventLines>::default(), BOUNDED.lock().unwrap());
    NEW.clone().advance(&mut lines, b"\x1b]0;title\x07");
    bounded.advance(&mut lines, b"b\x1b]0;title");
    bounded.advance(&mut lines, b"\x07");
    USUAL.lock().unwrap().advance(&mut lines, b"c");
    let wanted = "osc true 2 30 7469746c65\nprint 0062\nosc true 2 30 7469746c\nprint 0063\n";
    assert_eq!(lines.text, wanted);
    #[cfg(any(feature = "std", feature = "ansi"))]
    {
        const LONG: vte::LongParser = vte::LongParser::new();
        assert_eq!(LONG.clone().advance(&mut lines, b"d"), Ok(()));
        assert_eq!(lines.text, format!("{wanted}print 0064\n"));
    }
}

/// Some 300 bytes, and if there is a limit as many more.
#[test]
fn parsers_are_small() {
    use std::mem::size_of;
    for size in [
        size_of::<BoundedParser<0>>(),
        size_of::<BoundedParser>() - 1024,
        size_of::<BoundedParser<5000>>() - 5000,
        size_of::<Parser>() - 1024 * usize::from(cfg!(not(feature = "std"))),
    ] {
        assert!((200..400).contains(&size), "{size}");
    }
}

#[test]
fn a_perform_of_no_methods_does_nothing() {
    struct Nothing;
    impl Perform for Nothing {}
    let stream = b"a\x07\x1b[m\x1b]0;t\x07\x1bP+q\x1b\\\x1b(B\xff";
    let read = Parser::new().advance_until_terminated(&mut Nothing, stream);
    assert_eq!(read, stream.len());
}

/// Asserts that copies of this parser go on from where it was, whatever it reads meanwhile.
macro_rules! assert_copies_read_on {
    ($new:expr) => {
        let stream = "é\x1b[1:2;3mü\x1b]0;ab;c\x07\x1bP1$qm\x1b\\x".as_bytes();
        for position in 0..=stream.len() {
            let (mut parser, mut lines) = ($new, <EventLines>::default());
            let _ = parser.advance(&mut lines, &stream[..position]);
            let mut copy = parser.clone();
            let _ = parser.advance(&mut <EventLines>::default(), b"\x18\x1b]9;y");
            let _ = copy.advance(&mut lines, &stream[position..]);
            assert_eq!(
                lines.text,
                events_of(&[stream]).text,
                "copied at {position}"
            );
        }
    };
}

#[test]
fn copies_read_on() {
    assert_copies_read_on!(Parser::new());
    assert_copies_read_on!(BoundedParser::<5>::default());
    #[cfg(any(feature = "std", feature = "ansi"))]
    assert_copies_read_on!(vte::LongParser::new());
}

/// Asserts that a parser knows whether the command that is open, or ended last, lost data: by more
/// than 16 pieces, or if it has this limit by more data bytes.
macro_rules! assert_knows_what_is_lost {
    ($new:expr, $limit:expr, $is_limited:expr) => {
        let (pieces, bytes) = (";".repeat(15), "a".repeat($limit));
        for (command, is_lost) in [
            (format!("{pieces}b"), false),
            (format!("{pieces}b;;;"), false),
            (format!("{pieces}b;c"), true),
            (format!("{pieces}b;;c"), true),
            (bytes.clone(), false),
            (format!("{bytes};;"), false),
            (format!("{bytes}a"), $is_limited),
        ] {
            for end in ["", "\x07", "\x1b", "\x18"] {
                let mut parser = $new;
                for byte in format!("\x1b]{command}{end}").bytes() {
                    let _ = parser.advance(&mut <EventLines>::default(), &[byte]);
                }
                assert_eq!(parser.command_lost_data(), is_lost, "{command} {end:?}");
                // the next command has lost nothing
                let _ = parser.advance(&mut <EventLines>::default(), b"\x1b\\\x1b]0;t\x07");
                assert!(!parser.command_lost_data());
            }
        }
    };
}

#[test]
fn a_parser_knows_of_a_command_that_lost_data() {
    assert_knows_what_is_lost!(Parser::new(), 1024, cfg!(not(feature = "std")));
    assert_knows_what_is_lost!(BoundedParser::<5>::default(), 5, true);
    #[cfg(any(feature = "std", feature = "ansi"))]
    assert_knows_what_is_lost!(vte::LongParser::new(), 1024, false);
}

#[cfg(feature = "std")]
#[test]
fn what_a_parser_knows_of_a_command_that_has_ended_outlives_its_memory() {
    let command = format!("\x1b]{}b", ";".repeat(16));
    let mut parser = Parser::new();
    for (bytes, is_lost) in [(&*command, true), ("\x07", true), ("\x1b]0;title", false)] {
        parser.advance(&mut <EventLines>::default(), bytes.as_bytes());
        assert_eq!(parser.command_lost_data(), is_lost);
        parser.shrink();
        assert_eq!(parser.command_lost_data(), is_lost);
    }
}
