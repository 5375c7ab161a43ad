//! Where a stream is divided. tests/vectors reads the parts.
use vte::parts;

#[test]
fn an_escape_is_in_both_parts() {
    let stream = "ab\x1bcd\x1b\x1bef";
    let in_four = &["ab\x1b", "\x1bcd\x1b", "\x1b\x1b", "\x1bef"][..];
    for (stream, sizes, wanted) in [
        (stream, &[0, 1][..], in_four),
        (stream, &[2], &["ab\x1b", "\x1bcd\x1b", "\x1b\x1bef"]),
        (stream, &[3], &["ab\x1bcd\x1b", "\x1b\x1bef"]),
        (stream, &[6], &["ab\x1bcd\x1b\x1b", "\x1bef"]),
        (stream, &[7, 9, 10, usize::MAX], &[stream]),
        ("a text", &[1], &["a text"]),
        ("", &[0], &[]),
        ("\x1b", &[0], &["\x1b"]),
        ("a\x1b", &[0], &["a\x1b", "\x1b"]),
    ] {
        for size in sizes {
            let found: Vec<&[u8]> = parts(stream.as_bytes(), *size).collect();
            let wanted: Vec<&[u8]> = wanted.iter().map(|part| part.as_bytes()).collect();
            assert_eq!(found, wanted, "{size}");
        }
    }
}

#[test]
fn an_iterator_can_be_copied_and_shown_and_stays_at_its_end() {
    let mut iterator = parts(b"a\x1bb", 1);
    assert_eq!(iterator.clone().count(), 2);
    assert_eq!(iterator.next(), Some(&b"a\x1b"[..]));
    assert_eq!(format!("{iterator:?}"), "Parts { rest: [27, 98], size: 1 }");
    assert_eq!(iterator.next(), Some(&b"\x1bb"[..]));
    assert_eq!((iterator.next(), iterator.next()), (None, None));
}
