//! Vectors of handler calls, by handlers of owned and of lent texts, and by one that takes calls as
//! values.
//!
//! However the bytes of a stream are cut, they make its calls; also in chunks of every length, if
//! the vector has the calls of the timeout too. Vectors of updates have acts on one processor.

use super::call_lines::CallLines;
use super::json::{cuttings, vectors, Value};
#[cfg(feature = "__own")]
use super::reader::CallsInRuns;
use super::reader::{ByObject, LentTexts, LentTextsInRuns, OwnedTexts, OwnedTextsInRuns, Reader};

const LONGEST_CHUNK: usize = 32;
/// Updates that are stopped at each position.
const STOPPED: [&str; 3] = [
    "update ended and begun in one call",
    "begin and end of an update cut across calls",
    "begin with another mode beside it inside an update",
];

fn check_stream<R: Reader>(name: &str, stream: &[u8], calls: &str) {
    for chunks in cuttings(stream) {
        let lengths: Vec<_> = chunks.iter().map(|chunk| chunk.len()).take(9).collect();
        assert!(R::calls_of(&chunks) == calls, "{name} in {lengths:?}");
    }
}

/// Checks the prints and attributes of a stream that is stopped at each position.
fn check_stops<R: Reader>(name: &str, stream: &[u8], calls: &str) {
    let is_shown =
        |line: &&str| line.starts_with("input ") || line.starts_with("terminal_attribute ");
    let shown = |calls: &str| -> String { calls.split_inclusive('\n').filter(is_shown).collect() };
    for position in 0..=stream.len() {
        let (mut reader, mut lines) = (R::default(), CallLines::default());
        reader.read(&mut lines, &stream[..position]);
        reader.stop(&mut lines);
        assert_eq!(reader.held(), 0, "{name}");
        reader.read(&mut lines, &stream[position..]);
        assert_eq!(shown(&lines.take()), shown(calls), "{name} at {position}");
    }
}

/// Checks the calls of the handler and the timeout, in chunks of each length.
fn check_order<R: Reader>(name: &str, stream: &[u8], calls: &str) {
    for length in 1..LONGEST_CHUNK {
        let (mut reader, mut lines) = (R::default(), CallLines::default());
        reader.timeout().log.replace(lines.text.clone());
        for chunk in stream.chunks(length) {
            reader.read(&mut lines, chunk);
        }
        assert_eq!(lines.take(), calls, "{name} in chunks of {length}");
    }
}

/// Checks each act on a processor: its calls, how many bytes are held after it, how often the
/// timeout was set since it was cleared, and whether the act set or cleared it. Returns how many
/// numbers the vector has.
fn check_acts<R: Reader>(vector: &Value) -> usize {
    let (mut reader, mut lines, name) = (R::default(), CallLines::default(), vector.text("name"));
    let mut count = 0;
    let answers = vector.text("timeout").to_owned();
    reader.timeout().answers.replace(answers);
    for step in vector.items("steps") {
        match step.get("advance") {
            Some(bytes) => reader.read(&mut lines, &bytes.bytes()),
            None if step.text("act") == "expire" => reader.timeout().is_expired.set(true),
            None => {
                reader.stop(&mut lines);
                assert_eq!(reader.held(), 0, "{name}");
            }
        }
        assert_eq!(lines.take(), step.lines("calls"), "{name}");
        let timeout = reader.timeout();
        for (field, found) in [("held", reader.held()), ("count", timeout.count)] {
            if let Some(wanted) = step.number(field) {
                assert_eq!(wanted, found, "{field} of {name}");
                count += 1;
            }
        }
        let acts = timeout.log.borrow().take();
        if step.get("timeouts").is_some() {
            let wanted = step.lines("timeouts").replace("set", "set_timeout 150");
            assert_eq!(acts, wanted.replace("clear", "clear_timeout"), "{name}");
        }
    }
    count
}

/// The command that has a value's text, as that of the first colour of a palette or as the index of
/// a colour, and its calls.
fn command_of(vector: &Value) -> (String, String) {
    let (text, number) = (vector.text("text"), vector.number("value"));
    let (command, index) = match vector.text("kind") {
        "colour" => (format!("\x1b]4;1;{text}\x07"), 1),
        _ => (format!("\x1b]4;{text};#000\x07"), number.unwrap_or(0)),
    };
    let parts = vector.items("value");
    let [r, g, b] = [0, 1, 2].map(|at| parts.get(at).map_or("0".to_owned(), |it| it.written("")));
    let is_value = !parts.is_empty() || number.is_some();
    let call = format!("set_color {index} Rgb {{ r: {r}, g: {g}, b: {b} }}\n");
    (command, call.repeat(usize::from(is_value)))
}

fn check_vectors<R: Reader>() {
    let (mut count, mut stopped, mut numbers) = (0, 0, 0);
    for vector in vectors() {
        let (name, stream) = (vector.text("name"), vector.chunks().concat());
        let mut calls = vector.lines("calls");
        match vector.text("kind") {
            "calls" if vector.get("timeouts").is_some() => {
                check_order::<R>(name, &stream, &calls);
            }
            "calls" => check_stream::<R>(name, &stream, &calls),
            "colour" | "number" => {
                let (command, calls) = command_of(&vector);
                check_stream::<R>(name, command.as_bytes(), &calls);
            }
            "updates" => {
                numbers += check_acts::<R>(&vector);
                let steps = vector.items("steps").iter();
                calls = steps.map(|step| step.lines("calls")).collect();
                if vector.text("timeout") == "counting" && !calls.contains("SyncUpdate") {
                    check_stream::<R>(name, &stream, &calls);
                }
            }
            _ => continue,
        }
        if STOPPED.contains(&name) {
            check_stops::<R>(name, &stream, &calls);
            stopped += 1;
        }
        count += 1;
    }
    assert!(count > 600, "{count} vectors");
    assert!(numbers > 100, "{numbers} numbers");
    assert_eq!(stopped, STOPPED.len());
}

/// Tests that the vectors' calls are made by these readers.
macro_rules! test_readers {
    ($($name:ident: $reader:ident;)*) => {$(
        #[test]
        fn $name() {
            check_vectors::<$reader>();
        }
    )*};
}

test_readers! {
    owned_texts: OwnedTexts;
    calls_by_object: ByObject;
    lent_texts: LentTexts;
    owned_texts_in_runs: OwnedTextsInRuns;
    lent_texts_in_runs: LentTextsInRuns;
}

#[cfg(feature = "__own")]
test_readers!(calls_in_runs: CallsInRuns;);
