//! What is unfinished, at each byte of streams. c/tests/test_open.py tries all vectors, by
//! a grammar.
use vte::Open::*;
use vte::{BoundedParser, Open, Parser, Perform};

/// Worked out by hand: streams, and what is open after each of their bytes, by its letter.
#[rustfmt::skip]
const BY_HAND: &[(&[u8], &str)] = &[
    (b"a\xc3\xa9\xe4\xbf\x99\xf0\x9f\x8e\x89", "NCNCCNCCCN"),
    // a byte that breaks a character begins another one, or none
    (b"\xe4\xe4a\xf0\x9f\x18\xc0\x80\xff\xc2\x85", "CCNCCNNNNCN"),
    // which kind it is isn't known before the key
    (b"\xe4\x1b\n\x7f\xe4(\n)B\x1b\x1bc\x1b\x18\x1b#\x1a", "CEEEEEEENEENENEEN"),
    // a head of any shape, up to its final byte
    (b"\x1b[1;\n2$m\x1b[1?\xe4m\x1b[\x18\x1b[\x1b", "EHHHHHHNEHHHHNEHNEHE"),
    (b"\x1bP1\n\x9cq\x07\x9c\x1bP?\x1a\x1bPq\x18\x1bPq\x1b\\", "EDDDDDDNEDDNEDDNEDDEN"),
    // after the final byte of an ill-shaped head the string means nothing
    (b"\x1bP1?\x9cq\x9c\x1b\\\x1bP??q\x18", "EDDDDIIENEDDDIN"),
    (b"\x1b]0;a\x9c\xe4\x07\x1b]\x1a\x1b]\x1b\\", "ESSSSSSNESNESEN"),
    (b"\x1bXa\x07\x9c\xe4\x18\x1b^\x1a\x1b_\x1b\\", "EIIIIINEINEIEN"),
];

fn letter(open: Open) -> char {
    match open {
        Nothing => 'N',
        Character => 'C',
        EscapeSequence => 'E',
        ControlSequence => 'H',
        DeviceControl => 'D',
        SystemCommand => 'S',
        IgnoredString => 'I',
    }
}

struct Silent;

impl Perform for Silent {}

/// Asserts what is open, of parsers that read byte by byte and of parsers that read all at once.
macro_rules! assert_opens {
    ($new:expr) => {
        assert_eq!(($new.open(), $new.is_open()), (Nothing, false));
        for &(stream, letters) in BY_HAND {
            let mut parser = $new;
            let found = (1..=stream.len()).map(|end| {
                let mut whole = $new;
                let _ = whole.advance(&mut Silent, &stream[..end]);
                let _ = parser.advance(&mut Silent, &stream[end - 1..end]);
                assert_eq!(whole.open(), parser.open(), "{stream:02x?} up to {end}");
                assert_eq!(whole.is_open(), whole.open() != Nothing);
                assert_eq!(parser.is_open(), whole.is_open());
                letter(parser.open())
            });
            assert_eq!(found.collect::<String>(), letters, "{stream:02x?}");
        }
    };
}

#[test]
fn each_byte() {
    assert_opens!(Parser::new());
    assert_opens!(BoundedParser::<2>::new_with_size());
    #[cfg(any(feature = "std", feature = "ansi"))]
    assert_opens!(vte::LongParser::new());
}
