//! Ignored strings are read by blocks: what ends one ends it at each position of a block, and
//! nothing else does.

use crate::vectors::events_of;

#[test]
fn only_can_sub_and_esc_end_a_string() {
    let text = "print 0077\n".repeat(40);
    for byte in 0..=0xff {
        let ending = match byte {
            0x18 | 0x1a => format!("execute {byte:02x}\nprint 0079\n{text}"),
            // it begins a sequence
            0x1b => format!("esc - false 79\n{text}"),
            _ => String::new(),
        };
        let wanted = ending + "esc - false 63\nprint 007a\n";
        let rest = [&[byte, b'y'], &[b'w'; 40][..], b"\x1bcz"].concat();
        for before in 0..60 {
            for begin in [b"\x1bX", b"\x1b^", b"\x1b_"] {
                let stream = [begin, &vec![b'a'; before][..], &rest].concat();
                for cut in [0, 1 + before, 2 + before, 3 + before] {
                    let found = events_of(&[&stream[..cut], &stream[cut..]]).text;
                    assert_eq!(found, wanted, "{byte:02x} at {before}, cut at {cut}");
                }
            }
        }
    }
}
