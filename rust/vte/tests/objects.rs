//! What parsers report to performers and ask of them: each method, of a performer and of an object
//! of a trait.

use vte::{BoundedParser, Parser, Perform, PerformText};

use crate::vectors::event_lines::{EventLines, Stop};

const STREAM: &[u8] = b"ab\r\n\x1bP1$q~~\x07\x1b\\\x1b]0;t\x07\x1b[1m";
const EVENTS: &str = "print 0061\nprint 0062\nexecute 0d\nexecute 0a\nhook [1] 24 false 71\n\
    put 7e\nput 7e\nput 07\nunhook\nesc - false 5c\nosc true 2 30 74\ncsi [1] - false 6d\n";

/// What comes before a run.
const NO_RUN: &[u8] = b"\r\xff\x1b[1m\x1bP1q\x1b\\a";
const UP_TO_RUN: &str = "execute 0d\nprint fffd\ncsi [1] - false 6d\nhook [1] - false 71\n\
    unhook\nesc - false 5c\n";

/// The events up to the last of `stop` that aren't prints.
fn up_to(stop: usize, events: &str) -> String {
    let mut others = 0;
    let is_before = |line: &&str| {
        let is_before = others < stop;
        others += usize::from(!line.starts_with("print"));
        is_before
    };
    events.split_inclusive('\n').take_while(is_before).collect()
}

/// Asserts what a performer and an object of its trait receive from each way to read: the events,
/// the text of all runs and the data of all slices; and whether they are asked if they keep the
/// layout, and if they are terminated. In ways that ask the latter, a stop comes after each event.
macro_rules! assert_reports {
    ($($trait:ident, $keeps:literal: |$it:ident| $read:expr
        => $events:expr, $run:expr, $slice:expr, $asked:expr;)*) => {$({
        fn read<P: $trait + ?Sized>($it: &mut P) {
            let _ = $read;
        }
        for stop in 0..=$events.lines().count() {
            let when = if $asked.1 { Stop::AfterOthers(stop) } else { Stop::Never };
            let events = if $asked.1 { up_to(stop, $events) } else { $events.to_owned() };
            let new = || EventLines::<$keeps>::new(when);
            let (mut by_type, mut by_object) = (new(), new());
            read(&mut by_type);
            let object: &mut dyn $trait = &mut by_object;
            read(object);
            for lines in [by_type, by_object] {
                let case = concat!(stringify!($read), " of ", stringify!($trait));
                assert_eq!(lines.text, events, "{case}, stop {stop}");
                assert_eq!(lines.asked.get(), $asked, "{case}, stop {stop}");
                assert_eq!(lines.runs.concat(), $run, "{case}");
                assert_eq!(lines.slices.concat(), $slice, "{case}");
            }
        }
    })*};
}

#[test]
fn performers_and_objects_receive_and_are_asked_the_same() {
    assert_reports! {
        Perform, false: |it| Parser::new().advance(it, STREAM) => EVENTS, "", b"", (false, false);
        PerformText, true: |it| Parser::new().advance(it, STREAM)
            => EVENTS, "", b"", (false, false);
        PerformText, false: |it| Parser::new().advance_text(it, STREAM)
            => EVENTS, "ab", b"~~\x07", (true, false);
        PerformText, true: |it| BoundedParser::<9>::default().advance_text(it, STREAM)
            => EVENTS, "ab\r\n", b"~~\x07", (true, false);
        Perform, false: |it| Parser::new().advance_until_terminated(it, STREAM)
            => EVENTS, "", b"", (false, true);
        PerformText, true: |it| BoundedParser::<9>::default().advance_until_terminated(it, STREAM)
            => EVENTS, "", b"", (false, true);
        Perform, false: |it| Parser::new().advance_to_run(it, NO_RUN)
            => UP_TO_RUN, "", b"", (false, true);
        PerformText, true: |it| BoundedParser::<9>::default().advance_to_run(it, NO_RUN)
            => UP_TO_RUN, "", b"", (false, true);
    }
    #[cfg(any(feature = "std", feature = "ansi"))]
    assert_reports! {
        Perform, false: |it| vte::LongParser::new().advance(it, STREAM)
            => EVENTS, "", b"", (false, false);
        PerformText, true: |it| vte::LongParser::new().advance_text(it, STREAM)
            => EVENTS, "ab\r\n", b"~~\x07", (true, false);
        Perform, false: |it| vte::LongParser::new().advance_until_terminated(it, STREAM)
            => EVENTS, "", b"", (false, true);
        Perform, false: |it| vte::LongParser::new().advance_to_run(it, NO_RUN)
            => UP_TO_RUN, "", b"", (false, true);
    }
}

/// A stop between runs comes after the byte at which it comes without runs.
#[cfg(all(feature = "std", feature = "__own"))]
#[test]
fn stops_between_runs_are_those_without_runs() {
    use vte::{InternalCalls, LongParser};
    for stop in 0..=EVENTS.lines().count() {
        let new = || EventLines::<false>::new(Stop::AfterOthers(stop));
        let (mut singly, mut bounded, mut long) = (new(), new(), new());
        let read = Parser::new().advance_until_terminated(&mut singly, STREAM);
        let reads = [
            Ok(BoundedParser::new().advance_text_until_terminated(&mut bounded, STREAM)),
            LongParser::new().advance_text_until_terminated(&mut long, STREAM),
        ];
        assert_eq!(reads, [Ok(read); 2], "stop {stop}");
        for lines in [bounded, long] {
            assert_eq!(lines.text, singly.text, "stop {stop}");
            assert_eq!(lines.runs.is_empty(), stop == 0);
        }
    }
}
