//! Operating system commands around the limit of a crate without `std`, and longer ones, which a
//! processor without a limit reads in two slices: titles, links and clipboards.
//!
//! Their calls are worked out from docs/EVENTS.md and docs/CALLS.md. The data bytes of a command
//! are all but its `;`. Each case says what follows ESC `]` and which calls it makes.

use vte::ansi::lent::{Handler, Hyperlink};
use vte::ansi::{NamedPrivateMode, PrivateMode};

use super::call_lines::{CallLines, Lent};
use super::reader::{LentTexts, LentTextsInRuns, OwnedTexts, OwnedTextsInRuns, Reader};

/// How many data bytes of a command are kept: with `std` more than there can be.
const LIMIT: usize = if cfg!(feature = "std") {
    isize::MAX as usize
} else {
    1024
};
const LONGEST: usize = 70_000;

/// The text of a command and the lines of its calls, or that of several with what is between them.
struct Case(Vec<u8>, String);

fn case<T>(command: impl Into<Vec<u8>>, make_calls: impl FnOnce(&mut Lent<'_>) -> T) -> Case {
    Case(command.into(), lines_of(make_calls))
}

fn lines_of<T>(make_calls: impl FnOnce(&mut Lent<'_>) -> T) -> String {
    let mut lines = CallLines::default();
    make_calls(&mut Lent(&mut lines));
    lines.take()
}

/// A text of this many bytes.
fn text(count: usize) -> String {
    "abcdefghijklmnopqrstuvw".repeat(count / 23 + 1)[..count].to_owned()
}

fn title(command: impl Into<Vec<u8>>, title: &str) -> Case {
    case(command, |it| it.set_title(Some(title)))
}

fn link(command: impl Into<Vec<u8>>, id: Option<&str>, uri: &str) -> Case {
    case(command, |it| it.set_hyperlink(Some(Hyperlink { id, uri })))
}

fn store(command: impl Into<Vec<u8>>, clipboard: u8, data: &[u8]) -> Case {
    case(command, |it| it.clipboard_store(clipboard, data))
}

/// Checks cases of commands with a number of data bytes: ended by BEL, ST and CAN, between two
/// characters and before a short command; outside an update, in one that holds it, and in one that
/// ends. The longest end by ST alone.
fn check_counts(cases: impl Fn(usize) -> Vec<Case>) {
    let update = PrivateMode::Named(NamedPrivateMode::SyncUpdate);
    let before = lines_of(|it| it.input('x'));
    let begin = lines_of(|it| it.set_private_mode(update));
    let after = lines_of(|it| (it.input('y'), it.set_title(Some("s;t"))));
    // the end's own call, and that of the stop
    let stop = lines_of(|it| it.unset_private_mode(update)).repeat(2);
    for Case(command, calls) in [1023, 1024, 1025, LONGEST].into_iter().flat_map(cases) {
        let is_longest = command.len() > LONGEST;
        let calls = [&*before, &calls, &after].concat();
        for end in &["\x1b\\", "\x07", "\x18"][..if is_longest { 1 } else { 3 }] {
            let stream = [b"x\x1b]", &command[..], end.as_bytes(), b"y\x1b]2;s;t\x07"].concat();
            check_stream(&stream, &calls);
            let held = [b"\x1b[?2026h", &stream[..]].concat();
            check_stream(&held, &begin);
            let whole = [&held, &b"\x1b[?2026l"[..]].concat();
            check_stream(&whole, &[&*begin, &calls, &stop].concat());
        }
    }
}

/// Checks the calls of a stream, whatever its chunks and the handler.
fn check_stream(stream: &[u8], wanted: &str) {
    type CallsOf = fn(&[&[u8]]) -> String;
    const READERS: [(&str, CallsOf); 4] = [
        ("owned", OwnedTexts::calls_of),
        ("owned, in runs", OwnedTextsInRuns::calls_of),
        ("lent", LentTexts::calls_of),
        ("lent, in runs", LentTextsInRuns::calls_of),
    ];
    for chunks in cuttings(stream) {
        for (name, calls_of) in READERS {
            // the beginning alone: they may be long
            let start = String::from_utf8_lossy(&stream[..40.min(stream.len())]);
            let (count, length, calls) = (chunks.len(), stream.len(), calls_of(&chunks));
            assert!(calls == wanted, "{start:?}, {length} in {count}, {name}");
        }
    }
}

/// The ways to cut a stream: nowhere; after each byte, or each 4,096; around 1,024 data bytes and
/// among the last bytes.
fn cuttings(stream: &[u8]) -> Vec<Vec<&[u8]>> {
    let is_short = stream.len() < 10_000;
    let data = (0..stream.len()).filter(|position| stream[*position] != b';');
    // up to 11 bytes come before the command
    let mut around: Vec<usize> = data.skip(1020).take(20).collect();
    around.extend(stream.len() - 20..stream.len());
    around.sort_unstable();
    around.dedup();
    let (mut all, mut among, mut from) = (vec![vec![stream]], vec![], 0);
    all.push(stream.chunks(if is_short { 1 } else { 4096 }).collect());
    for position in around {
        among.push(&stream[from..position]);
        from = position;
        if is_short {
            all.push(vec![&stream[..position], &stream[position..]]);
        }
    }
    among.push(&stream[from..]);
    all.push(among);
    all
}

#[test]
fn titles() {
    check_counts(|count| {
        let kept = count.min(LIMIT);
        let joined = |count| format!("{};{};{}", text(300), text(400), text(count - 701));
        let (front, rest) = (text(500).into_bytes(), text(count - 902).into_bytes());
        let malformed = [b"2;", &front[..], b";", &[0xff; 401], b";", &rest].concat();
        let well_formed = format!("{};{}", text(500), text(kept - 902));
        // after the last byte that is kept, `;` isn't
        let after = if count < LIMIT { ";;" } else { "" };
        // a piece that ends inside a character isn't UTF-8
        let whole = format!("ab;{}\u{e9}", text(count - 5));
        let ending = match count.saturating_sub(LIMIT) {
            0 => whole.clone(),
            1 => "ab".to_owned(),
            _ => format!("ab;{}", text(kept - 3)),
        };
        let (sent, shown, pieces) = (text(count - 1), text(kept - 1), ";".repeat(14));
        vec![
            title(format!("2;{sent}"), &shown),
            // they don't count
            title(format!("2;{pieces}{sent}"), &(pieces + &shown)),
            title(format!("0;{}", joined(count)), &joined(kept)),
            title(format!("2;{sent};;"), &(shown + after)),
            title(format!("2;{whole}"), &ending),
            title(malformed, &well_formed),
        ]
    });
}

#[test]
fn links() {
    check_counts(|count| {
        let kept = count.min(LIMIT);
        let uri = |count| format!("{};{}", text(500), text(count - 500));
        let (front, rest, id) = (text(500), text(count - 502), text(count - 5));
        let of_x = format!("8;id=x;{}", uri(count - 5));
        let malformed = [b"8;;", front.as_bytes(), b";\xff;", rest.as_bytes()].concat();
        // without its third piece it is no link
        let is_link = count <= LIMIT;
        let with_id = link(format!("8;id={id};u"), Some(&id), "u");
        vec![
            link(format!("8;;{}", uri(count - 1)), None, &uri(kept - 1)),
            link(of_x, Some("x"), &uri(kept - 5)),
            Case(with_id.0, if is_link { with_id.1 } else { String::new() }),
            link(malformed, None, &format!("{front};;{}", text(kept - 502))),
        ]
    });
}

#[test]
fn clipboards() {
    check_counts(|count| {
        let kept = count.min(LIMIT);
        let (front, rest, malformed) = (text(500), text(count - 503), vec![0xfe; count - 3]);
        let (with_name, without) = (text(kept - 3), text(kept - 2));
        let of_c = format!("52;c;{}", text(count - 3));
        let of_s = [b"52;s;", &malformed[..]].concat();
        vec![
            store(of_c, b'c', with_name.as_bytes()),
            store(format!("52;;{}", text(count - 2)), b'c', without.as_bytes()),
            store(format!("52;p;{front};{rest}"), b'p', front.as_bytes()),
            store(of_s, b's', &malformed[..kept - 3]),
        ]
    });
}
