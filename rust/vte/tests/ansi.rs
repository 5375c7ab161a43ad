//! What the adapter adds to the proved processor: owned texts, defaults, and what other crates
//! define.

use vte::ansi::cursor_icon::CursorIcon;
use vte::ansi::lent::{self, LongProcessor};
use vte::ansi::{
    Attr, BoundedProcessor, Color, Handler, HandlerText, KeyboardModes, Mode, NamedColor,
    NamedMode, NamedPrivateMode, Processor,
};

use crate::support::Pending;
use crate::vectors::call_lines::{CallLines, Lent};

/// A copy goes on from where the processor was, whatever that one reads meanwhile.
#[test]
fn copies_read_on() {
    let stream = "é\x1b[b\x1b[3;4H\x1b]2;ab\x07\x1b[?2026hu\x1b[?2026l".as_bytes();
    for position in 0..=stream.len() {
        let (mut processor, mut lines) = (Processor::<Pending>::new(), CallLines::default());
        processor.advance(&mut lines, &stream[..position]);
        let mut copy = processor.clone();
        processor.stop_sync(&mut CallLines::default());
        processor.advance(&mut CallLines::default(), b"\x18y\x1b]2;z");
        copy.advance(&mut lines, &stream[position..]);
        let wanted = "input 00e9\ninput 00e9\ngoto 2 3\nset_title Some(\"ab\")\n\
            set_private_mode Named(SyncUpdate)\ninput 0075\n\
            unset_private_mode Named(SyncUpdate)\nunset_private_mode Named(SyncUpdate)\n";
        assert_eq!(lines.take(), wanted, "copied at {position}");
    }
}

#[cfg(feature = "std")]
#[test]
fn the_default_timeout_is_pending_until_it_is_stopped() {
    use std::time::{Duration, Instant};
    let (mut processor, mut lines) = (<Processor>::new(), CallLines::default());
    processor.advance(&mut lines, b"a");
    assert_eq!(lines.take(), "input 0061\n");
    assert_eq!(processor.sync_bytes_count(), 0);
    assert_eq!(processor.sync_timeout().sync_timeout(), None);
    let before = Instant::now();
    processor.advance(&mut lines, b"\x1b[?2026hb");
    assert_eq!(lines.take(), "set_private_mode Named(SyncUpdate)\n");
    assert_eq!(processor.sync_bytes_count(), 1);
    let first = processor.sync_timeout().sync_timeout().unwrap();
    let pending = Duration::from_millis(150);
    assert!(before + pending <= first && first <= Instant::now() + pending);
    // past its expiry it still holds and says when that was, and another begin moves it
    std::thread::sleep(Duration::from_millis(151));
    assert_eq!(processor.sync_timeout().sync_timeout(), Some(first));
    processor.advance(&mut lines, b"c");
    assert_eq!((&*lines.take(), processor.sync_bytes_count()), ("", 2));
    assert_eq!(processor.sync_timeout().sync_timeout(), Some(first));
    processor.advance(&mut lines, b"\x1b[?2026h");
    let second = processor.sync_timeout().sync_timeout().unwrap();
    assert!(second - first >= Duration::from_millis(151));
    // once it is stopped, the next bytes are passed on at once
    processor.stop_sync(&mut lines);
    assert_eq!(processor.sync_timeout().sync_timeout(), None);
    processor.advance(&mut lines, b"d");
    assert_eq!(processor.sync_bytes_count(), 0);
    let calls = lines.take();
    let inputs = calls.replace("\nset_private_mode Named(SyncUpdate)", "");
    let wanted = "input 0062\ninput 0063\nunset_private_mode Named(SyncUpdate)\ninput 0064\n";
    assert_eq!(inputs, wanted);
}

#[cfg(feature = "std")]
#[test]
fn colours_have_arithmetic_of_floats() {
    use vte::ansi::Rgb;
    let rgb = |r, g, b| Rgb { r, g, b };
    let (black, white) = (rgb(0, 0, 0), rgb(255, 255, 255));
    assert_eq!(rgb(30, 150, 255) * 0.5, rgb(15, 75, 127));
    assert_eq!(rgb(200, 1, 0) * 2.0, rgb(255, 2, 0));
    assert_eq!(white * -1.0, black);
    assert_eq!(white * f32::NAN, black);
    assert_eq!(rgb(0, 1, 2) * f32::INFINITY, rgb(0, 255, 255));
    assert!((white.luminance() - 1.0).abs() < 1e-12);
    // the formula of WCAG 2.0: 10 is the last of its linear part, 11 the first of the other
    for (color, luminance) in [
        (rgb(255, 0, 0), 0.2126),
        (rgb(0, 255, 0), 0.7152),
        (rgb(0, 0, 255), 0.0722),
        (rgb(128, 128, 128), 0.215_860_500_113_899_26),
        (rgb(11, 11, 11), 0.003_346_535_763_899_161),
        (rgb(10, 10, 10), 0.003_035_269_835_488_375),
    ] {
        assert!((color.luminance() - luminance).abs() < 1e-12);
    }
    assert!((black.contrast(white) - 21.0).abs() < 1e-12);
    assert!((white.contrast(black) - 21.0).abs() < 1e-12);
    assert!((white.contrast(white) - 1.0).abs() < 1e-12);
}

#[test]
fn what_other_crates_define() {
    for (flag, bits) in [
        (KeyboardModes::from_bits_truncate(34), 2),
        (KeyboardModes::NO_MODE, 0),
        (KeyboardModes::DISAMBIGUATE_ESC_CODES, 1),
        (KeyboardModes::REPORT_EVENT_TYPES, 2),
        (KeyboardModes::REPORT_ALTERNATE_KEYS, 4),
        (KeyboardModes::REPORT_ALL_KEYS_AS_ESC, 8),
        (KeyboardModes::REPORT_ASSOCIATED_TEXT, 16),
        (KeyboardModes::all(), 31),
    ] {
        assert_eq!(flag.bits(), bits);
    }
    assert_eq!("zoom-in".parse(), Ok(CursorIcon::ZoomIn));
}

#[test]
fn names_can_be_patterns_and_have_numbers() {
    const RED: NamedColor = NamedColor::Red;
    const INSERT: Mode = Mode::Named(NamedMode::Insert);
    assert!(matches!(NamedColor::Red, RED));
    assert!(matches!(Mode::from(NamedMode::Insert), INSERT));
    assert!(NamedColor::Black < NamedColor::Foreground);
    assert_eq!(NamedColor::DimBlack as usize, 259);
    assert_eq!(NamedPrivateMode::SyncUpdate as u16, 2026);
    let [red, constant] = [NamedColor::Red, RED].map(|it| Attr::Foreground(Color::Named(it)));
    assert_eq!(red, constant);
}

/// Handlers of lent texts may be around anything, as those of owned texts.
struct Around<T>(T);

impl<T: lent::Handler> lent::Handler for Around<T> {
    fn set_title(&mut self, title: Option<&str>) {
        self.0.set_title(title);
    }
}

fn advance_any<H: Handler>(processor: &mut Processor<Pending>, handler: &mut H, bytes: &[u8]) {
    processor.advance(handler, bytes);
}

#[test]
fn one_processor_serves_both_kinds_of_handlers() {
    let (mut processor, mut lines) = (Processor::<Pending>::new(), CallLines::default());
    advance_any(&mut processor, &mut lines, b"\x1b]2;one");
    assert_eq!(lines.take(), "");
    processor.advance(&mut Around(Lent(&mut lines)), b" two\x07");
    assert_eq!(lines.take(), "set_title Some(\"one two\")\n");
}

/// All calls of a processor take objects: it knows only the trait of such a handler.
macro_rules! assert_takes_objects {
    ($new:expr) => {
        let (mut processor, mut lines) = ($new, CallLines::default());
        let stream = b"a\x1b]2;b\x07\x1b[?2026hc\x1b]2;d\x07";
        let object: &mut dyn Handler = &mut lines;
        let _ = processor.advance(object, stream);
        processor.stop_sync(object);
        let wanted = "input 0061\nset_title Some(\"b\")\nset_private_mode Named(SyncUpdate)\n\
            input 0063\nset_title Some(\"d\")\nunset_private_mode Named(SyncUpdate)\n";
        assert_eq!(lines.take(), wanted);
        let object: &mut dyn lent::Handler = &mut Lent(&mut lines);
        let _ = processor.advance(object, stream);
        processor.stop_sync(object);
        assert_eq!(lines.take(), wanted);
        assert!(lines.runs.is_empty());
        let object: &mut dyn HandlerText = &mut Lent(&mut lines);
        let _ = processor.advance_text(object, stream);
        processor.stop_sync_text(object);
        assert_eq!(lines.take(), wanted);
        assert_eq!(lines.runs, ["a", "c"]);
    };
}

#[test]
fn objects_are_handlers() {
    assert_takes_objects!(Processor::<Pending>::new());
    assert_takes_objects!(BoundedProcessor::<9, Pending>::new());
    assert_takes_objects!(LongProcessor::new(Pending::default()).unwrap());
}

/// Titles; whether they have one data byte more than this limit, and one piece more than are kept.
fn titles_around(limit: usize) -> [(String, bool, bool); 5] {
    let pieces = "2;".to_owned() + &";".repeat(14);
    [
        ("2;".to_owned() + &"a".repeat(limit - 1), false, false),
        ("2;".to_owned() + &"a".repeat(limit), true, false),
        (format!("{pieces}{}", "a".repeat(limit - 1)), false, false),
        (format!("{pieces}{}", "a".repeat(limit)), true, false),
        (format!("{pieces};a"), false, true),
    ]
}

/// Asserts that a processor keeps `$limit` data bytes, or if it isn't limited any number, and says
/// what it loses: also in a copy, and not before the bytes are parsed.
macro_rules! assert_keeps {
    ($limit:expr, $new:expr, $is_limited:expr) => {
        for (command, is_too_long, has_too_many_pieces) in titles_around($limit) {
            let lost = has_too_many_pieces || (is_too_long && $is_limited);
            let (mut processor, mut lines) = ($new, CallLines::default());
            let _ = processor.advance(&mut lines, format!("\x1b]{command}").as_bytes());
            assert_eq!(processor.command_lost_data(), lost, "{command}");
            assert_eq!(processor.clone().command_lost_data(), lost, "{command}");
            let _ = processor.advance(&mut lines, b"\x07");
            // a further call, which may allocate, doesn't forget it
            let _ = processor.advance(&mut lines, b"\x00");
            assert_eq!(processor.command_lost_data(), lost, "{command}");
            // a piece goes with its `;`
            let cut = usize::from(lost) + usize::from(has_too_many_pieces);
            let kept = &command["2;".len()..command.len() - cut];
            assert_eq!(lines.take(), format!("set_title Some({kept:?})\n"));
            let _ = processor.advance(&mut lines, b"\x1b]2;a\x07\x1b[?2026h");
            let _ = processor.advance(&mut lines, format!("\x1b]{command}").as_bytes());
            assert!(!processor.command_lost_data(), "{command}");
            processor.stop_sync(&mut lines);
            assert_eq!(processor.command_lost_data(), lost, "{command}");
        }
    };
}

#[test]
fn processors_keep_what_their_limit_says() {
    assert_keeps!(5, BoundedProcessor::<5, Pending>::new(), true);
    assert_keeps!(1024, BoundedProcessor::<1024, Pending>::new(), true);
    assert_keeps!(3000, BoundedProcessor::<3000, Pending>::new(), true);
    let has_limit = cfg!(not(feature = "std"));
    assert_keeps!(1024, Processor::<Pending>::new(), has_limit);
    let new = || LongProcessor::new(Pending::default()).unwrap();
    assert_keeps!(1024, new(), false);
}

/// With `std` the timeout has a default, and so has the limit.
#[cfg(feature = "std")]
#[test]
fn processors_have_defaults() {
    let (mut usual, mut lines) = (<BoundedProcessor>::new(), CallLines::default());
    let command = [b"\x1b]2;", &[b'a'; 2000][..], b"\x07"].concat();
    usual.advance(&mut lines, &command);
    let title = "a".repeat(1023);
    assert_eq!(lines.take(), format!("set_title Some({title:?})\n"));
    let long: LongProcessor = LongProcessor::new(Default::default()).unwrap();
    assert_eq!(long.sync_timeout().sync_timeout(), None);
}

#[cfg(feature = "serde")]
#[test]
fn colours_are_serialized() {
    let color = Color::Named(NamedColor::BrightRed);
    fn needs<T: serde::Serialize + for<'a> serde::Deserialize<'a>>(_: &T) {}
    needs(&color);
}
