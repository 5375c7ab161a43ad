//! Every way to read a stream by a parser.

use vte::{LongParser, Open, Parser, Perform, PerformText, Run, Taken};

use crate::event_lines::{EventLines, Stop};

/// How many data bytes of a command are kept if there is a limit.
const LIMIT: usize = 64;

/// What both parsers do. Memory isn't refused here.
trait Read: Sized {
    fn new() -> Self;
    fn advance<P: Perform>(&mut self, performer: &mut P, bytes: &[u8]);
    fn advance_text<P: PerformText>(&mut self, performer: &mut P, bytes: &[u8]);
    fn advance_until_terminated<P: Perform>(&mut self, performer: &mut P, bytes: &[u8]) -> usize;
    fn advance_to_run<'a, P: Perform>(&mut self, performer: &mut P, bytes: &'a [u8]) -> Run<'a>;
    fn open(&self) -> Open;
}

macro_rules! read {
    ($parser:ty, $new:ident $(, $granted:ident)?) => {
        impl Read for $parser {
            fn new() -> Self {
                Self::$new()
            }

            fn advance<P: Perform>(&mut self, performer: &mut P, bytes: &[u8]) {
                self.advance(performer, bytes)$(.$granted())?;
            }

            fn advance_text<P: PerformText>(&mut self, performer: &mut P, bytes: &[u8]) {
                self.advance_text(performer, bytes)$(.$granted())?;
            }

            fn advance_until_terminated<P: Perform>(
                &mut self,
                performer: &mut P,
                bytes: &[u8],
            ) -> usize {
                self.advance_until_terminated(performer, bytes)$(.$granted())?
            }

            fn advance_to_run<'a, P: Perform>(
                &mut self,
                performer: &mut P,
                bytes: &'a [u8],
            ) -> Run<'a> {
                self.advance_to_run(performer, bytes)$(.$granted())?
            }

            fn open(&self) -> Open {
                self.open()
            }
        }
    };
}

read!(Parser<LIMIT>, new_with_size);
read!(LongParser, new, unwrap);

/// The lines of a stream, and whether it ends in the middle of something.
type Outcome = (String, Open);

fn whole<R: Read>(stream: &[u8]) -> Outcome {
    in_chunks::<R>(&[stream])
}

fn in_chunks<R: Read>(chunks: &[&[u8]]) -> Outcome {
    let (mut parser, mut lines) = (R::new(), EventLines::<false>::new(Stop::Never));
    for chunk in chunks {
        parser.advance(&mut lines, chunk);
    }
    (lines.text, parser.open())
}

fn in_runs<R: Read, const KEEPS: bool>(chunks: &[&[u8]]) -> Outcome {
    let (mut parser, mut lines) = (R::new(), EventLines::<KEEPS>::new(Stop::Never));
    for chunk in chunks {
        parser.advance_text(&mut lines, chunk);
    }
    // in a run, HT, LF and CR are written as they are printed
    let text = ["09", "0a", "0d"].iter().fold(lines.text, |text, byte| {
        text.replace(&format!("print 00{byte}\n"), &format!("execute {byte}\n"))
    });
    (text, parser.open())
}

/// With a stop after each character, escape sequence or event.
fn with_stops<R: Read>(chunks: &[&[u8]], stop: Stop) -> Outcome {
    let (mut parser, mut text) = (R::new(), String::new());
    for chunk in chunks {
        let mut rest = *chunk;
        while !rest.is_empty() {
            let mut lines = EventLines::<false>::new(stop);
            let read = parser.advance_until_terminated(&mut lines, rest);
            assert!(read == rest.len() || lines.terminated(), "an early end");
            text += &lines.text;
            rest = &rest[read..];
        }
    }
    (text, parser.open())
}

/// With runs that are taken from the bytes.
fn to_runs<R: Read>(chunks: &[&[u8]]) -> Outcome {
    let (mut parser, mut lines) = (R::new(), EventLines::<false>::new(Stop::Never));
    for chunk in chunks {
        let mut rest = *chunk;
        while !rest.is_empty() {
            let run = parser.advance_to_run(&mut lines, rest);
            let (taken, after) = rest[run.start..].split_at(run.end - run.start);
            match run.taken {
                Taken::Text(text) => {
                    assert_eq!(text.as_bytes(), taken);
                    lines.print_text(text);
                }
                Taken::Data(data) => {
                    assert_eq!(data, taken);
                    lines.put_slice(data);
                }
                Taken::Nothing => assert_eq!((taken, after), (&b""[..], &b""[..]), "no run"),
            }
            rest = after;
        }
    }
    (lines.text, parser.open())
}

fn compare_with<R: Read>(stream: &[u8], chunks: &[&[u8]]) -> Outcome {
    let wanted = whole::<R>(stream);
    assert_eq!(in_chunks::<R>(chunks), wanted, "in chunks");
    assert_eq!(in_runs::<R, false>(chunks), wanted, "in runs");
    assert_eq!(in_runs::<R, true>(chunks), wanted, "in runs with line ends");
    let stops = [
        (Stop::AfterPrint, "after characters"),
        (Stop::AfterEscape, "after escapes"),
        (Stop::AfterEach, "after each event"),
    ];
    for (stop, case) in stops {
        assert_eq!(with_stops::<R>(chunks, stop), wanted, "with stops {case}");
    }
    assert_eq!(to_runs::<R>(chunks), wanted, "to runs");
    wanted
}

/// Reads a stream in all ways. The parsers differ only at commands longer than the limit.
pub fn compare(stream: &[u8], chunks: &[&[u8]]) {
    let limited = compare_with::<Parser<LIMIT>>(stream, chunks);
    let long = compare_with::<LongParser>(stream, chunks);
    if stream.len() <= LIMIT {
        assert_eq!(limited, long, "both parsers");
    }
}
