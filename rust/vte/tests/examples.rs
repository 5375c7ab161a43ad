//! What the examples write.
#![allow(dead_code)]

#[path = "../examples/parallel_strip.rs"]
mod parallel_strip;
#[path = "../examples/parselog.rs"]
mod parselog;
#[path = "../examples/refused.rs"]
mod refused;
#[path = "../examples/strip.rs"]
mod strip;
#[path = "../examples/unknown.rs"]
mod unknown;
#[path = "../examples/updates.rs"]
mod updates;

use std::fs;
use std::io::{self, Read, Write};
use std::path::Path;

/// An example that reads chunks and writes to something.
type Example = fn(&mut dyn Read, &mut dyn Write) -> io::Result<()>;

/// Each kind of event, and two sequences with too much.
const EVENTS: &[u8] =
    b"a\x07\xe2\x82\xac\x1b[1;2:3 q\x1b[?5h\x1b[ !\"p\x1b(B\x1b( !C\x1bP1$qm\x1b\\\x1b]2;t\x07";
const LOG: &str = r#"print 'a'
execute 07
print '€'
csi [1;2:3] " " 'q' ignore: false
csi [5] "?" 'h' ignore: false
csi [0] " !" 'p' ignore: true
esc "(" 'B' ignore: false
esc "( " 'C' ignore: true
hook [1] "$" 'q' ignore: false
put 6d
unhook
esc "" '\\' ignore: false
osc ["2", "t"] bell: true
"#;

/// Two whole updates and an open one, with text around them.
const UPDATES: &[u8] = b"a\x1b[?2026hbc\x1b[?2026ld\x1b[?2026h\x1b[?2026le\x1b[?2026hfgh\x1b[?25l";
const COUNTS: &str = "update 1: 2 characters\nupdate 2: 0 characters\nupdate 3: 3 characters\n";

/// Sequences that make calls and others, a text, and ST.
const SEQUENCES: &[u8] =
    b"a\x1b[5i\x1b[1m\x1b]2;t\x1b\\\x1b]1;n\x07\x1b(\\\x1b(B\x1bP1q\x1b\\\x1b[>7i\x0e\
      \x1b]999;x\x1a\x1a\x1b]2;t\x1a\x1b]999;y\x18\x1b[5\x1a";
const UNKNOWN: &str = r#"csi_dispatch [5] [] 'i'
osc_dispatch ["1", "n"]
esc_dispatch [28] 5c
hook [1] [] 'q'
csi_dispatch [7] [3e] 'i'
osc_dispatch ["999", "x"]
osc_dispatch ["999", "y"]
"#;

/// Before the list of new items in docs/RUST.md.
const LIST: &str = "check_public_items -->\n\n";

/// Functions of examples, what they read, and what they write then.
macro_rules! examples {
    ($($function:path: $input:expr => $output:expr;)*) => {
        const EXAMPLES: &[(Example, &[u8], &str)] =
            &[$((|input, output| $function(input, output), $input, $output)),*];
    };
}

examples! {
    parselog::write_events: EVENTS => LOG;
    strip::strip: b"a\x1b[1mb\x1b[m\tc\r\n\x07\x08\x1b]0;t\x07\xff\x1bPd\x1b\\e"
        => "ab\tc\r\n\u{fffd}e";
    refused::write_commands: b"a\x1b]0;t\x07b\x1b]52;c;eA==\x1b\\c\x1b]open"
        => "0;t\n52;c;eA==\n";
    updates::write_updates: UPDATES => COUNTS;
    // nothing is held
    updates::write_updates: b"\x1b[?2026h" => "update 1: 0 characters\n";
    updates::write_updates: b"no update\x1b[?2026l" => "";
    unknown::write_unknown: SEQUENCES => UNKNOWN;
}

/// Reads byte by byte.
struct Singly<'a>(&'a [u8]);

impl Read for Singly<'_> {
    fn read(&mut self, room: &mut [u8]) -> io::Result<usize> {
        let count = room.len().min(1);
        self.0.read(&mut room[..count])
    }
}

/// Fails whenever it is read.
struct Broken;

impl Read for Broken {
    fn read(&mut self, _: &mut [u8]) -> io::Result<usize> {
        Err(io::ErrorKind::Other.into())
    }
}

#[test]
fn examples_write_what_they_say() {
    for &(example, stream, wanted) in EXAMPLES {
        let (mut whole, mut singly) = (Vec::new(), Vec::new());
        example(&mut &*stream, &mut whole).unwrap();
        example(&mut Singly(stream), &mut singly).unwrap();
        assert_eq!(String::from_utf8(whole).unwrap(), wanted);
        assert_eq!(String::from_utf8(singly).unwrap(), wanted);
    }
}

/// The page docs/RUST.md, or nothing of a package, which hasn't it.
fn read_page(folder: &Path) -> String {
    let docs = folder.join("../../docs");
    if !docs.is_dir() {
        return String::new();
    }
    let page = fs::read_to_string(docs.join("RUST.md")).unwrap();
    assert!(page.contains("```rust\n") && page.contains(LIST));
    page
}

/// Each program that the page shows is one of these, or a part of one that compiles by itself.
#[test]
fn the_page_shows_examples() {
    let folder = Path::new(env!("CARGO_MANIFEST_DIR"));
    let page = read_page(folder);
    let examples = fs::read_dir(folder.join("examples")).unwrap();
    let texts = examples.map(|it| fs::read_to_string(it.unwrap().path()).unwrap());
    let examples: Vec<_> = texts.collect();
    for shown in page.split("```rust\n").skip(1) {
        let shown = shown.split("```").next().unwrap();
        assert!(examples.iter().any(|it| it.contains(shown)), "{shown}");
    }
}

/// Each item that the page lists as new stands in the file that it names for it.
#[test]
fn the_page_names_uses_of_new_items() {
    let folder = Path::new(env!("CARGO_MANIFEST_DIR"));
    let page = read_page(folder);
    let list = page.split(LIST).nth(1).unwrap_or_default();
    let list = list.split("\n\n").next().unwrap();
    for row in list.split("- ").skip(1) {
        let mut spans: Vec<_> = row.split('`').skip(1).step_by(2).collect();
        let file = fs::read_to_string(folder.join(spans.pop().unwrap())).unwrap();
        for item in spans.iter().filter(|it| !it.contains(": ")) {
            let name = item.rsplit("::").next().unwrap();
            assert!(file.contains(name), "{item}");
        }
    }
}

#[test]
fn examples_return_errors() {
    for &(example, stream, wanted) in EXAMPLES {
        assert!(example(&mut Broken, &mut Vec::new()).is_err());
        // there is no room
        let answer = example(&mut &*stream, &mut &mut [][..]);
        assert_eq!(answer.is_ok(), wanted.is_empty());
    }
    // it reads no more than it must
    let mut input = io::repeat(b'a').take(100_000);
    assert!(parselog::write_events(&mut input, &mut [][..]).is_err());
    assert!(input.limit() > 0);
}

#[test]
fn any_number_of_threads_writes_the_same_text() {
    // an ESC ends text, a truncated character, a command, and another ESC
    let stream = b"a\x1b[1mb\xe2\x82\x1b]0;t\x1b\\c\n\x1b\x1bPd\x1b\\\xf0\x9f\x1b\xc3";
    for end in 0..=stream.len() {
        let mut wanted = Vec::new();
        strip::strip(&stream[..end], &mut wanted).unwrap();
        for threads in 1..=end + 2 {
            let mut found = Vec::new();
            parallel_strip::strip(&stream[..end], threads, &mut found).unwrap();
            assert_eq!(found, wanted, "{threads} threads, {end} bytes");
        }
    }
}
