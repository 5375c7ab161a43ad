//! What memory is allocated, and what happens if it is refused.

extern crate alloc;

#[path = "support/allocator.rs"]
mod allocator;
#[cfg(all(feature = "std", target_os = "linux"))]
#[path = "memory/measured.rs"]
mod measured;
#[allow(dead_code, unused_imports)]
#[path = "../src/prelude.rs"]
mod prelude;
#[allow(dead_code)]
#[path = "../examples/refused.rs"]
mod refused_command;
#[path = "memory/shown.rs"]
mod shown;
mod support;

use allocator::{counted, ends_without, refused};
use refused_command::CuttingParser;
use shown::Shown;
use support::Pending;
use vte::ansi::lent::LongProcessor;
use vte::ansi::{BoundedProcessor, NoMemory, Processor};
#[cfg(feature = "__own")]
use vte::InternalCalls;
use vte::{BoundedParser, LongParser, Refused};

const MAX_HELD: usize = 0x20_0000 - 2;

/// How much longer than its command a text that is joined may be: a `;` for each of 16 pieces.
const SEPARATORS: usize = 16;

/// For how many bytes memory is allocated at once.
const SLICE_SIZE: usize = 0x1_0000;

/// A title of two pieces, of which the second has `count` bytes, and what it shows.
fn title(count: usize) -> (Vec<u8>, String) {
    let text = format!("a;{}", "b".repeat(count));
    (format!("\x1b]2;{text}\x07").into_bytes(), text)
}

fn long_processor() -> LongProcessor<Pending> {
    LongProcessor::new(Pending::default()).ok().unwrap()
}

#[test]
fn vectors_and_texts_return_that_memory_was_refused() {
    let mut bytes = prelude::Vec::<u8>::new();
    assert!(refused(|| prelude::Vec::<u8>::with_capacity(1)).is_err());
    assert!(refused(|| bytes.reserve(1)).is_err());
    assert!(refused(|| bytes.extend_from_slice(b"a")).is_err());
    assert!(bytes.extend_from_slice(b"ab").is_ok() && bytes.reserve(1000).is_ok());
    assert!(refused(|| bytes.extend_from_slice(&[b'c'; 1000])).is_ok());
    assert!(refused(|| bytes.extend_from_slice(&[b'd'; 10_000])).is_err());
    assert_eq!(bytes.as_slice(), [&b"ab"[..], &[b'c'; 1000]].concat());

    let mut text = prelude::String::new();
    assert!(refused(|| text.reserve(1)).is_err());
    assert!(refused(|| text.push('\u{e9}')).is_err());
    assert!(refused(|| text.push_str("a")).is_err());
    assert!(text.push('\u{e9}').is_ok() && text.reserve(1000).is_ok());
    let (more, too_much) = ("t".repeat(1000), "u".repeat(100_000));
    assert!(refused(|| text.push_str(&more)).is_ok());
    assert!(refused(|| text.push_str(&too_much)).is_err());
    assert_eq!(text.as_str(), format!("\u{e9}{more}"));
}

#[test]
fn a_processor_takes_its_hold_and_memory_for_commands() {
    let has_std = cfg!(feature = "std");
    let (processor, taken) = counted(|| Processor::with_timeout(Pending::default()));
    // With a limit, some is for a text that is joined from a command of 1,024 bytes.
    let joined = if has_std { 0 } else { 1024 + SEPARATORS };
    assert_eq!(taken, 0x20_0000 + joined);
    let (mut processor, mut shown) = (processor.ok().unwrap(), Shown::default());
    let text = vec![b'a'; MAX_HELD];
    // two updates that fill the hold
    let begin = b"\x1b[1;38:5:9mb\x1b[?2026h";
    let taken = [(); 2].map(|()| {
        let update = || {
            processor.advance(&mut shown, begin);
            processor.advance(&mut shown, &text);
            assert_eq!(processor.sync_bytes_count(), MAX_HELD);
            processor.stop_sync(&mut shown);
        };
        counted(update).1
    });
    // With `std`, each of the first two calls takes memory for a command as long as what it may
    // parse, and for a text that is joined from it.
    let wanted = 2 * (begin.len() + MAX_HELD + SEPARATORS);
    assert_eq!(taken[0], if has_std { wanted } else { 0 });
    assert_eq!((shown.bytes, taken[1]), (2 * (MAX_HELD + 1), 0));
}

#[test]
fn with_a_limit_no_memory_is_taken_after_the_beginning() {
    let (title, mut shown) = (title(3000).0, Shown::default());
    let ((), taken) = counted(|| {
        let mut parser = BoundedParser::<1000>::default();
        parser.advance(&mut shown, &title[..500]);
        parser.clone().advance(&mut shown, &title[500..]);
    });
    assert_eq!((shown.bytes, taken), (1000, 0));

    let (processor, taken) = counted(|| BoundedProcessor::<100, _>::with_timeout(Pending(false)));
    assert_eq!(taken, 0x20_0000 + 100 + SEPARATORS);
    let (mut processor, mut shown) = (processor.unwrap(), Shown::default());
    let ((), taken) = counted(|| {
        processor.advance(&mut shown, &title);
        processor.advance_text(&mut shown, b"\x1b[?2026h");
        processor.advance(&mut shown, &title);
        processor.stop_sync(&mut shown);
    });
    // the code is one of the 100 bytes, and the first `;` none
    assert_eq!((shown.bytes, taken), (2 * 100, 0));
}

#[test]
fn copies_have_as_much_memory() {
    let (mut parser, mut shown) = (LongParser::new(), Shown::default());
    assert!(parser.reserve(9000));
    parser.advance(&mut shown, b"\x1b]2;").unwrap();
    let (mut copy, rest) = (parser.clone(), [&[b'a'; 8000][..], b"\x07"].concat());
    assert_eq!(refused(|| copy.advance(&mut shown, &rest)), Ok(()));
    assert_eq!(shown.bytes, 8001);

    let (mut processor, mut shown) = (long_processor(), Shown::with_room(8000));
    let (title, text) = title(3000);
    processor.advance(&mut shown, b"\x1b[?2026h").unwrap();
    processor.advance(&mut shown, &title).unwrap();
    let mut copy = processor.clone();
    refused(|| copy.stop_sync(&mut shown));
    assert_eq!(shown.texts, text + "|");
    assert_eq!(processor.sync_bytes_count(), title.len());
    let new = long_processor();
    ends_without(0x20_0000, || drop(new.clone()));
}

#[test]
fn a_processor_without_memory_returns_the_timeout() {
    let answer = refused(|| Processor::with_timeout(Pending(true)));
    let NoMemory { timeout, .. } = answer.err().unwrap();
    assert!(timeout.0);
    let answer = refused(|| BoundedProcessor::<9, _>::with_timeout(Pending(true)));
    assert!(answer.err().unwrap().timeout.0);
    let answer = refused(|| LongProcessor::new(Pending(true)));
    assert!(answer.err().unwrap().timeout.0);
}

#[cfg(feature = "std")]
#[test]
fn a_processor_without_memory_is_an_error() {
    fn create() -> Result<LongProcessor, Box<dyn std::error::Error>> {
        let refuse = || LongProcessor::new(Default::default());
        Ok(refused(refuse)?)
    }
    let said = create().unwrap_err().to_string();
    assert_eq!(said, "no memory for a processor, which takes 2 MiB");
}

type Advance = fn(&mut LongProcessor<Pending>, &mut Shown, &[u8]) -> Result<(), Refused>;
type Stop = fn(&mut LongProcessor<Pending>, &mut Shown);

/// The calls that read and the calls that stop, of handlers and in runs.
const WAYS: [(Advance, Stop); 2] = [
    (LongProcessor::advance, LongProcessor::stop_sync),
    (LongProcessor::advance_text, LongProcessor::stop_sync_text),
];

#[test]
fn a_long_processor_goes_on_after_a_refusal() {
    for (advance, _) in WAYS {
        let (mut processor, mut shown) = (long_processor(), Shown::with_room(4000));
        let mut advance = |bytes: &[u8]| advance(&mut processor, &mut shown, bytes);
        let (title, text) = title(3000);
        assert_eq!(refused(|| advance(&title)), Err(Refused { read: 0 }));
        assert_eq!(advance(&title[..10]), Ok(()));
        let rest = &title[10..];
        assert_eq!(refused(|| advance(rest)), Err(Refused { read: 0 }));
        assert_eq!(advance(rest), Ok(()));
        // the memory of one command serves the next
        assert_eq!(refused(|| advance(b"\x1b]2;c;d\x07")), Ok(()));
        assert_eq!((shown.texts, shown.commands), (text + "c;d", 2));
    }
}

#[test]
fn a_long_processor_goes_on_after_a_refusal_between_slices() {
    let (mut processor, mut shown) = (long_processor(), Shown::with_room(200_004));
    let (title, text) = title(200_000);
    // memory for a slice
    assert_eq!(processor.advance(&mut shown, &[b' '; SLICE_SIZE]), Ok(()));
    let answer = refused(|| processor.advance(&mut shown, &title));
    assert_eq!(answer, Err(Refused { read: SLICE_SIZE }));
    assert_eq!(processor.advance(&mut shown, &title[SLICE_SIZE..]), Ok(()));
    assert_eq!((shown.texts, shown.commands), (text, 1));
}

#[test]
fn a_long_processor_stops_with_the_memory_that_it_has() {
    for (advance, stop) in WAYS {
        let (mut processor, mut shown) = (long_processor(), Shown::with_room(4000));
        // if nothing is held, it needs none
        refused(|| stop(&mut processor, &mut shown));
        assert_eq!(shown.texts, "|");
        // a call that holds bytes back takes the memory that they need when they are parsed
        let (held, text) = title(3000);
        for bytes in [b"\x1b[?2026h", &held[..]] {
            assert_eq!(advance(&mut processor, &mut shown, bytes), Ok(()));
        }
        assert_eq!(processor.sync_bytes_count(), held.len());
        assert!(processor.sync_timeout().0);
        // a call that is refused memory, and one that gives memory back, leave it
        let answer = refused(|| advance(&mut processor, &mut shown, &[b'c'; 10_000]));
        assert_eq!(answer, Err(Refused { read: 0 }));
        processor.shrink();
        refused(|| stop(&mut processor, &mut shown));
        assert_eq!(processor.sync_bytes_count(), 0);
        assert!(!processor.sync_timeout().0);
        assert_eq!(shown.texts, format!("|{text}|"));
    }
}

/// Asserts that calls with reserved memory are refused none, also if a command is open.
macro_rules! assert_serves_calls {
    ($reader:expr, $start:expr) => {
        let (mut reader, mut shown, (title, _)) = ($reader, Shown::with_room(9000), title(3000));
        assert!(!refused(|| reader.reserve(title.len())));
        assert!(reader.reserve(title.len()));
        assert_eq!(refused(|| reader.advance(&mut shown, &title)), Ok(()));
        // the bytes of an open command count too
        assert_eq!(reader.advance(&mut shown, &title[..2000]), Ok(()));
        assert!(!refused(|| reader.reserve(title.len())));
        assert!(reader.reserve(title.len()));
        let rest = [&[b'b'; 3000][..], b"\x07"].concat();
        assert_eq!(refused(|| reader.advance(&mut shown, &rest)), Ok(()));
        let texts = [3000, 1994 + 3000].map(|count| $start.to_owned() + &"b".repeat(count));
        assert_eq!(shown.texts, texts.concat());
    };
}

#[test]
fn reserved_memory_serves_calls() {
    assert_serves_calls!(LongParser::new(), "2a");
    assert_serves_calls!(long_processor(), "a;");
    // the bytes that are held count too
    let (mut processor, mut shown, (title, _)) = (long_processor(), Shown::default(), title(3000));
    processor.advance(&mut shown, b"\x1b[?2026h").unwrap();
    processor.advance(&mut shown, &title).unwrap();
    assert_eq!(processor.sync_bytes_count(), title.len());
    assert!(!refused(|| processor.reserve(2 * title.len())));
}

#[test]
fn a_long_parser_gives_back_what_an_open_command_does_not_need() {
    let (mut parser, mut shown) = (LongParser::new(), Shown::default());
    let title = title(3000).0;
    parser.advance(&mut shown, &title[..2000]).unwrap();
    assert!(parser.reserve(9000));
    // what a copy takes is what there is
    let taken_by_copy = |parser: &LongParser| counted(|| drop(parser.clone())).1;
    assert!(taken_by_copy(&parser) >= 1996 + 9000);
    parser.shrink();
    assert!((1996..3000).contains(&taken_by_copy(&parser)));
    #[cfg(feature = "__own")]
    assert_eq!(InternalCalls::stored(&parser), 1996);
    parser.advance(&mut shown, &title[2000..]).unwrap();
    assert_eq!(shown.bytes, 3002);
    #[cfg(feature = "__own")]
    assert_eq!(InternalCalls::stored(&parser), 0);
    parser.shrink();
    assert_eq!(taken_by_copy(&parser), 0);
}

#[cfg(feature = "std")]
#[test]
fn a_parser_takes_no_memory_before_a_command() {
    use vte::Parser;
    let (mut parser, mut shown) = (Parser::new(), Shown::default());
    let text = b"a\x1b[1;2m\xe2\x82\xac\x1bP1$qm\x1b\\\x1bXs\x1b\\";
    let ((), taken) = counted(|| {
        for new in [Parser::new, Parser::default] {
            parser = new();
            parser.advance(&mut shown, text);
            parser.advance_text(&mut shown, text);
        }
        let _ = (Parser::<7>::default(), LongParser::default());
        let _ = LongParser::new();
    });
    assert_eq!(taken, 0);
}

/// The message has the number of unread bytes.
#[cfg(feature = "std")]
#[test]
fn calls_end_the_program_without_memory() {
    use vte::Parser;
    let (mut shown, mut processor) = (Shown::default(), Processor::<Pending>::new());
    // the data begin at the third byte
    let command = b"\x1b]2;abc\x07";
    ends_without(6, || Parser::new().advance(&mut shown, command));
    ends_without(6, || Parser::new().advance_text(&mut shown, command));
    ends_without(6, || {
        Parser::new().advance_until_terminated(&mut shown, command)
    });
    ends_without(6, || Parser::new().advance_to_run(&mut shown, command));
    ends_without(8, || processor.advance(&mut shown, command));
    ends_without(8, || processor.advance_text(&mut shown, command));
    // it has memory for a slice
    processor.advance(&mut shown, &[b' '; SLICE_SIZE]);
    let command = [&b"\x1b]2;"[..], &[b'b'; SLICE_SIZE]].concat();
    ends_without(4, || processor.advance(&mut shown, &command));
}

#[test]
fn a_new_processor_ends_the_program_without_memory() {
    ends_without(0x20_0000, || drop(Processor::<Pending>::new()));
    ends_without(0x20_0000, || drop(BoundedProcessor::<9, Pending>::new()));
}

#[test]
fn what_a_refused_command_has_left_is_no_text() {
    let stream = b"a\x1b]52;c;aGVsbG8=\x07b\x1b]0;t\x1b\\c\x1b]2;u\x18d";
    for position in 0..=stream.len() {
        let (mut parser, mut shown) = (CuttingParser::default(), Shown::with_room(10));
        refused(|| parser.advance(&mut shown, &stream[..position]));
        parser.advance(&mut shown, &stream[position..]);
        assert_eq!((&*shown.printed, shown.commands), ("abcd", 3), "{position}");
    }
}

/// Memory grows by factors: if each byte moved what there is, these calls would take 200 MB.
#[test]
fn a_command_in_many_calls_is_moved_a_few_times() {
    const CALLS: usize = 20_000;
    let (mut parser, mut processor) = (LongParser::new(), long_processor());
    let mut shown = Shown::default();
    parser.advance(&mut shown, b"\x1b]").unwrap();
    processor.advance(&mut shown, b"\x1b]").unwrap();
    let mut taken_by = |advance: &mut dyn FnMut(&mut Shown) -> Result<(), Refused>| {
        counted(|| (0..CALLS).try_for_each(|_| advance(&mut shown)).unwrap()).1
    };
    let of_parser = taken_by(&mut |shown| parser.advance(shown, b"2"));
    assert!((CALLS + 1..10 * CALLS).contains(&of_parser), "{of_parser}");
    // bytes, and a text that may be joined from them
    let of_processor = taken_by(&mut |shown| processor.advance(shown, b"2"));
    assert!((2 * CALLS + 1..10 * CALLS).contains(&of_processor));
}

#[test]
fn a_long_parser_stops_without_memory() {
    let (mut parser, mut shown) = (LongParser::new(), Shown::with_room(9));
    shown.stops = true;
    let stream = b"a\x1b]2\x07\x1b]34\x07";
    let answer = refused(|| parser.advance_until_terminated(&mut shown, stream));
    assert_eq!((answer, shown.commands), (Err(Refused { read: 3 }), 0));
    let answer = parser.advance_until_terminated(&mut shown, &stream[3..]);
    assert_eq!((answer, &*shown.texts), (Ok(2), "2"));
    // it is terminated still, so the next byte isn't read, and a command allocates nothing for
    // it
    let answer = refused(|| parser.advance_until_terminated(&mut shown, &stream[5..]));
    assert_eq!(answer, Ok(0));
    parser.advance(&mut shown, &stream[5..7]).unwrap();
    let more = b"longer than what there is";
    let answer = refused(|| parser.advance_until_terminated(&mut shown, more));
    assert_eq!(answer, Ok(0));
    // the rest
    shown.is_terminated = false;
    let answer = parser.advance_until_terminated(&mut shown, &stream[7..]);
    assert_eq!(answer, Ok(3));
    assert_eq!((&*shown.texts, shown.commands), ("234", 2));
}
