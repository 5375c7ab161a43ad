//! Vectors of events, and of stops, which are calls that stop early.

use vte::{parts, BoundedParser, Parser};

use super::event_lines::{EventLines, Stop};
use super::events_of;
use super::json::{cuttings, vectors, Value, MAX_CUT};

/// What follows each stream.
const NEXT: &[u8] = b"z\x1bc";

/// The events of `NEXT` after a vector: its `next`, or the usual ones if nothing is open.
fn events_of_next(vector: &Value) -> String {
    match vector.get("next") {
        Some(_) => vector.lines("next"),
        None => "print 007a\nesc - false 63\n".to_owned(),
    }
}

/// Checks that copies of a parser which advance so give the events of a stream, however it is cut,
/// and then those of `NEXT`.
fn check<P: Clone, const KEEPS: bool>(
    vector: &Value,
    parser: P,
    advance: impl Fn(&mut P, &mut EventLines<KEEPS>, &[u8]),
) {
    let (chunks, name) = (vector.chunks(), vector.text("name"));
    let chunks: Vec<&[u8]> = chunks.iter().map(Vec::as_slice).collect();
    let stream = chunks.concat();
    let (events, next) = (vector.lines("events"), events_of_next(vector));
    for cutting in [chunks].into_iter().chain(cuttings(&stream)) {
        let (mut parser, mut lines) = (parser.clone(), EventLines::default());
        for chunk in &cutting {
            advance(&mut parser, &mut lines, chunk);
        }
        let found = lines.text.split_off(0);
        advance(&mut parser, &mut lines, NEXT);
        let lengths: Vec<_> = cutting.iter().map(|chunk| chunk.len()).take(9).collect();
        assert!(found == events, "{name} in {lengths:?}");
        assert_eq!(lines.text, next, "`next` of {name} in {lengths:?}");
    }
}

/// Reads all bytes by the method that may stop: no performer here is terminated.
fn advance_all(parser: &mut Parser, lines: &mut EventLines, bytes: &[u8]) {
    let read = parser.advance_until_terminated(lines, bytes);
    assert_eq!(read, bytes.len());
}

#[cfg(any(feature = "std", feature = "ansi"))]
fn check_long(vector: &Value) {
    use vte::LongParser;
    let new = LongParser::new;
    check::<_, false>(vector, new(), |it, lines, chunk| {
        it.advance(lines, chunk).unwrap()
    });
    check::<_, false>(vector, new(), |it, lines, chunk| {
        it.advance_text(lines, chunk).unwrap()
    });
}

/// Whether a stream may have a command with more data bytes than are kept.
fn may_reach(stream: &[u8], size: Option<usize>) -> bool {
    let size = size.unwrap_or(usize::MAX);
    stream.len() > size && stream.windows(2).any(|bytes| bytes == b"\x1b]")
}

fn vectors_of(kind: &'static str) -> impl Iterator<Item = Value> {
    vectors().filter(move |vector| vector.text("kind") == kind)
}

/// The streams whose events don't depend on the parameter of the parser.
fn streams_for_all() -> Vec<Value> {
    let does_not_depend = |vector: &Value| {
        let size = vector.number("limit");
        !may_reach(&vector.chunks().concat(), size) && (cfg!(feature = "std") || size.is_some())
    };
    let vectors: Vec<_> = vectors_of("events").filter(does_not_depend).collect();
    assert!(vectors.len() > 190, "{} vectors", vectors.len());
    vectors
}

#[test]
fn streams_give_their_events() {
    for vector in streams_for_all() {
        check::<_, false>(&vector, Parser::new(), Parser::advance);
        check::<_, false>(&vector, Parser::new(), advance_all);
        #[cfg(any(feature = "std", feature = "ansi"))]
        check_long(&vector);
    }
}

#[test]
fn streams_give_their_events_in_runs() {
    for vector in streams_for_all() {
        check::<_, false>(&vector, Parser::new(), Parser::advance_text);
        // a performer that keeps HT, LF and CR in its runs
        check::<_, true>(&vector, Parser::new(), Parser::advance_text);
    }
}

fn check_both<const N: usize>(vector: &Value) {
    let new = BoundedParser::<N>::default;
    check::<_, false>(vector, new(), BoundedParser::advance);
    check::<_, false>(vector, new(), BoundedParser::advance_text);
}

/// Checks a vector by parsers of its limit, which must be one of these.
macro_rules! check_limit {
    ($vector:expr, $limit:expr, $($size:literal)*) => {
        match $limit {
            $($size => check_both::<$size>($vector),)*
            size => panic!("{size} is a new limit: write it into `check_limit!` of {}", file!()),
        }
    };
}

#[test]
fn commands_are_kept_up_to_a_limit() {
    let mut without_limit = 0;
    for vector in vectors_of("events") {
        if let Some(limit) = vector.number("limit") {
            check_limit!(&vector, limit, 0 1 2 5 30 32 1024);
        } else {
            without_limit += 1;
            #[cfg(any(feature = "std", feature = "ansi"))]
            check_long(&vector);
        }
    }
    assert!(without_limit > 0);
}

/// Reads bytes, and skips what is before commands. As in C and Python, the parser is asked after
/// some events. Returns how many bytes were skipped.
#[cfg(feature = "__own")]
fn skip_and_advance(parser: &mut Parser, lines: &mut EventLines, mut bytes: &[u8]) -> usize {
    let mut skipped = 0;
    while !bytes.is_empty() {
        if !parser.is_open() {
            let count = vte::skip_to_command(bytes);
            (skipped, bytes) = (skipped + count, &bytes[count..]);
        }
        let next = bytes[1..].iter().position(|byte| *byte == 0x1b);
        let (front, rest) = bytes.split_at(next.map_or(bytes.len(), |at| at + 1));
        parser.advance(lines, front);
        bytes = rest;
    }
    skipped
}

/// What is skipped has no command, and doesn't change what is open.
#[cfg(feature = "__own")]
#[test]
fn commands_are_found_by_skipping() {
    fn commands(lines: &EventLines) -> Vec<&str> {
        let all = lines.text.lines();
        all.filter(|line| line.starts_with("osc")).collect()
    }
    let by_hand = b"a\x1b[m\x1b\n]0;b\x07\x1b\x7f]0;c\x07d\xf0\x9f\x8e".to_vec();
    let of_vectors = streams_for_all().into_iter();
    let of_vectors = of_vectors.map(|vector| vector.chunks().concat());
    let mut skipped = 0;
    for stream in of_vectors.chain([by_hand]) {
        for chunks in cuttings(&stream) {
            let (mut all, mut found) = (EventLines::default(), EventLines::default());
            let (mut whole, mut parser) = (Parser::new(), Parser::new());
            for bytes in chunks {
                whole.advance(&mut all, bytes);
                skipped += skip_and_advance(&mut parser, &mut found, bytes);
                assert_eq!(parser.open(), whole.open(), "{stream:02x?}");
            }
            assert_eq!(commands(&found), commands(&all), "{stream:02x?}");
        }
    }
    assert!(skipped > 0);
}

/// Each part of a stream is read by a parser of its own.
#[test]
fn parts_give_the_events_of_their_stream() {
    let mut most = 0;
    for vector in streams_for_all() {
        let (stream, name) = (vector.chunks().concat(), vector.text("name"));
        // one with 100,000 bytes takes a while
        let sizes = if stream.len() > MAX_CUT { 3 } else { 40 };
        for size in 0..stream.len().min(sizes) {
            let lines = parts(&stream, size).map(|it| events_of(&[it]).text);
            let lines: String = lines.collect();
            assert_eq!(lines, vector.lines("events"), "{name}, {size}");
        }
        most = most.max(parts(&stream, 1).count());
    }
    assert!(most > 2);
}

#[test]
fn stops_are_early() {
    let mut count = 0;
    for vector in vectors_of("stops") {
        let name = vector.text("name");
        let mut lines: EventLines = EventLines::new(Stop::named(vector.text("terminated")));
        let (mut parser, mut events) = (Parser::new(), String::new());
        let before = vector.get("before").map_or(vec![], Value::bytes);
        parser.advance(&mut <EventLines>::default(), &before);
        for step in vector.items("steps") {
            let bytes = step.get("bytes").map_or(vec![], Value::bytes);
            if let Some(read) = step.number("read") {
                let found = parser.advance_until_terminated(&mut lines, &bytes);
                assert_eq!(found, read, "{name}");
            } else {
                parser.advance(&mut lines, &bytes);
            }
            events.push_str(&step.lines("events"));
            assert_eq!(lines.text, events, "{name}");
        }
        count += 1;
    }
    assert!(count > 0);
}
