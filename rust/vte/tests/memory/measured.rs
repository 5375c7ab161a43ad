//! What the system says that a program takes.

use super::allocator::{holds_alone, status};
use super::shown::Shown;
use super::support::Pending;
use vte::ansi::Processor;
use vte::Parser;

const MEBIBYTE: usize = 0x10_0000;

fn giant_title(size: usize) -> Vec<u8> {
    let mut title = vec![b'b'; size];
    title[..6].copy_from_slice(b"\x1b]2;a;");
    title[size - 1] = 7;
    title
}

/// Asserts that a call with these bytes, whose memory the processor keeps, adds little address
/// space.
fn assert_adds_less_than_a_mebibyte(bytes: &[u8]) {
    let mut processor = Processor::with_timeout(Pending::default()).ok().unwrap();
    let before = status("VmSize:");
    processor.advance_text(&mut Shown::default(), bytes);
    let added = status("VmSize:") - before;
    assert!(added < MEBIBYTE, "{added}");
}

#[test]
fn text_adds_less_than_a_mebibyte() {
    holds_alone(|| assert_adds_less_than_a_mebibyte(&vec![b'a'; 64 * MEBIBYTE]));
    let line = b"\x1b[1;38:5:9mcoloured\x1b[m text\r\n";
    let lines = line.repeat(16 * MEBIBYTE / line.len());
    holds_alone(|| assert_adds_less_than_a_mebibyte(&lines));
}

#[test]
fn a_long_title_takes_at_most_twice_its_size() {
    holds_alone(|| {
        let (title, mut shown) = (giant_title(100 * MEBIBYTE), Shown::default());
        let mut processor = Processor::with_timeout(Pending::default()).ok().unwrap();
        let before = status("VmRSS:");
        processor.advance(&mut shown, &title);
        let added = status("VmHWM:") - before;
        assert_eq!(shown.bytes, title.len() - 5);
        assert!(added <= 201 * MEBIBYTE, "{added}");
    });
}

#[test]
fn the_memory_of_a_giant_command_is_given_back() {
    holds_alone(|| {
        let (title, mut shown) = (giant_title(32 * MEBIBYTE), Shown::default());
        let mut processor = Processor::with_timeout(Pending::default()).ok().unwrap();
        let mut parser = Parser::new();
        let before = status("VmSize:");
        processor.advance(&mut shown, &title);
        parser.advance(&mut shown, &title);
        assert_eq!(shown.bytes, 2 * title.len() - 5 - 5);
        assert!(status("VmSize:") > before + 64 * MEBIBYTE);
        processor.shrink();
        parser.shrink();
        let kept = status("VmSize:") - before;
        assert!(kept < MEBIBYTE, "{kept}");
    });
}
