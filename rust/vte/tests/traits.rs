//! Traits of public types that no `impl` names, so that a field could take them away, the error as
//! one of `std`, and panics.

use std::fmt::Debug;
use std::panic::{AssertUnwindSafe, RefUnwindSafe, UnwindSafe};

#[cfg(feature = "ansi")]
use vte::ansi::{
    lent::{self, LongProcessor},
    Processor,
};
use vte::{BoundedParser, Params, ParamsIter, Parser, Perform};

#[cfg(feature = "ansi")]
use crate::support::Pending;

/// Compiles if the types can be sent to other threads, and shared.
fn are_shared<T: Send + Sync + Unpin + RefUnwindSafe + UnwindSafe>() {}

/// Compiles if values of the types can be copied and shown.
fn are_kept<T: Clone + Debug>() {}

#[test]
fn public_types_have_traits_that_no_impl_names() {
    fn ends<T: std::iter::FusedIterator>() {}
    ends::<ParamsIter<'_>>();
    are_shared::<(Parser, BoundedParser, Params, ParamsIter<'_>)>();
    are_kept::<(Parser, BoundedParser, Params, ParamsIter<'_>)>();
    #[cfg(any(feature = "std", feature = "ansi"))]
    are_shared::<(vte::LongParser, vte::Refused)>();
    #[cfg(feature = "ansi")]
    {
        use vte::ansi::{Attr, CursorStyle, Hyperlink, Mode, PrivateMode};
        are_shared::<(Processor<Pending>, LongProcessor<Pending>)>();
        are_kept::<(Processor<Pending>, LongProcessor<Pending>)>();
        are_shared::<(Hyperlink, lent::Hyperlink<'_>, Attr)>();
        are_kept::<(Hyperlink, lent::Hyperlink<'_>, Attr)>();
        are_shared::<(Mode, PrivateMode, CursorStyle)>();
        #[cfg(feature = "std")]
        {
            are_shared::<(Processor, vte::ansi::StdSyncHandler)>();
            are_kept::<vte::ansi::StdSyncHandler>();
        }
    }
}

struct Nothing;

impl Perform for Nothing {}

#[cfg(feature = "ansi")]
impl vte::ansi::Handler for Nothing {}

/// Asserts how a parser or processor is shown that has read something.
macro_rules! assert_shown {
    ($new:expr, $shown:literal) => {
        let mut shown = $new;
        let _ = shown.advance(&mut Nothing, b"\x1b[?2026h\x1b]0;text");
        assert_eq!(format!("{shown:?}"), $shown);
    };
}

/// A name and what callers can query, but not the bytes that are kept.
#[test]
fn debug_shows_a_name() {
    assert_shown!(BoundedParser::new(), "BoundedParser { .. }");
    #[cfg(feature = "std")]
    assert_shown!(Parser::new(), "Parser { .. }");
    #[cfg(any(feature = "std", feature = "ansi"))]
    {
        assert_shown!(vte::LongParser::default(), "LongParser { .. }");
        let refused = vte::Refused { read: 3 };
        assert_eq!(format!("{refused:?}"), "Refused { read: 3 }");
    }
    #[cfg(feature = "ansi")]
    {
        let processor = Processor::<Pending>::new();
        assert_shown!(processor, "Processor { sync_bytes_count: 8, .. }");
        let long = LongProcessor::new(Pending::default()).unwrap();
        assert_shown!(long, "LongProcessor { sync_bytes_count: 8, .. }");
    }
}

/// Panics at the last of this many events.
struct Panics(usize);

impl Panics {
    fn count(&mut self) {
        self.0 = self.0.checked_sub(1).expect("no panic before");
        assert!(self.0 > 0, "a panic");
    }
}

macro_rules! panics {
    ($($method:ident($($kind:ty),*);)*) => {
        impl Perform for Panics {
            $(fn $method(&mut self $(, _: $kind)*) {
                self.count();
            })*
        }
    };
}

panics! {
    print(char);
    execute(u8);
    hook(&Params, &[u8], bool, char);
    put(u8);
    unhook();
    osc_dispatch(&[&[u8]], bool);
    csi_dispatch(&Params, &[u8], bool, char);
    esc_dispatch(&[u8], bool, u8);
}

impl vte::PerformText for Panics {
    fn print_text(&mut self, text: &str) {
        text.chars().for_each(|_| self.count());
    }
}

#[test]
fn a_parser_can_be_used_after_a_panic_of_its_performer() {
    let stream = b"text\r\xff\xe4\xbd\xa0\x1b[1;2m\x1b]2;a;b\x07\x1bP1qab\x1b\\\x1b(B";
    for advance in [Parser::advance, Parser::advance_text] {
        for last in 1..=15 {
            let mut parser = Parser::new();
            let call = AssertUnwindSafe(|| advance(&mut parser, &mut Panics(last), stream));
            assert!(std::panic::catch_unwind(call).is_err(), "{last}");
            advance(&mut parser, &mut Panics(1000), stream);
        }
    }
}

#[cfg(feature = "std")]
#[test]
fn a_refusal_is_an_error() {
    fn refuse() -> Result<(), Box<dyn std::error::Error + Send + Sync>> {
        Err(vte::Refused { read: 3 })?;
        Ok(())
    }
    let said = refuse().unwrap_err().to_string();
    assert_eq!(said, "memory was refused after 3 bytes");
}
